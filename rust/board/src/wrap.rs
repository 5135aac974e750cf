//! Words in lines.

/// The words parted by blanks, in lines of at most this width: the first one after `first`, the others after `indent`.
/// A word that is too long for a line has one of its own.
pub fn wrapped(words: &[String], first: &str, indent: &str, width: usize) -> Vec<String> {
    let mut lines = Vec::new();
    let mut line = first.to_owned();
    let mut empty = true;
    for word in words {
        let needed = line.chars().count() + usize::from(!empty) + word.chars().count();
        if needed > width && !empty {
            lines.push(std::mem::replace(&mut line, indent.to_owned()));
            empty = true;
        }
        if !empty {
            line.push(' ');
        }
        line.push_str(word);
        empty = false;
    }
    lines.push(line);
    lines
}

#[cfg(test)]
mod tests {
    use super::*;

    #[test]
    fn lines() {
        let words = ["aa", "bb", "cc", "dddddd", "e"].map(str::to_owned);
        assert_eq!(wrapped(&words, "x ", "  ", 7), ["x aa bb", "  cc", "  dddddd", "  e"]);
        assert_eq!(wrapped(&[], "x", "", 7), ["x"]);
        assert_eq!(wrapped(&words[..2], "", "", 5), ["aa bb"]);
    }
}
