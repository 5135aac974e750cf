//! Keys: the bytes that a terminal sends for them, and their names in a file.

use std::fmt;

/// A key that the board knows, or [`Key::Other`].
#[derive(Clone, Copy, Debug, PartialEq, Eq)]
pub enum Key {
    /// Up or Left: the lane before.
    Back,
    /// Down or Right: the lane after.
    Forth,
    /// A digit, 0 to 9.
    Digit(u32),
    /// F1 to F12.
    Function(u32),
    /// Enter.
    Enter,
    /// Escape.
    Escape,
    /// Backspace.
    Backspace,
    /// q.
    Quit,
    /// Ctrl-C or Ctrl-D, which are keys like any other while the terminal is raw.
    Interrupt,
    /// Any other key.
    Other,
}

impl Key {
    /// Whether it leaves the board, whatever stands open.
    pub fn quits(self) -> bool {
        matches!(self, Key::Quit | Key::Interrupt | Key::Function(10))
    }
}

const ESCAPE: u8 = 0x1b;

/// The first key in these bytes and how many of them it takes; None if more bytes have to come first.
pub fn decode(bytes: &[u8]) -> Option<(Key, usize)> {
    match *bytes {
        [] | [ESCAPE] | [ESCAPE, b'[' | b'O'] => None,
        [ESCAPE, b'O', last, ..] => Some((final_key(last), 3)),
        // the Linux console's F1 to F5
        [ESCAPE, b'[', b'[', ref rest @ ..] => rest.first().map(|&last| (console_key(last), 4)),
        [ESCAPE, b'[', ref rest @ ..] => sequence(rest).map(|(key, taken)| (key, taken + 2)),
        // an Escape and then another key
        [ESCAPE, ..] => Some((Key::Escape, 1)),
        [byte, ..] => Some((plain_key(byte), 1)),
    }
}

/// The key in bytes that nothing follows: a lone Escape, or a sequence that was cut.
pub fn decode_last(bytes: &[u8]) -> Key {
    match *bytes {
        [ESCAPE] => Key::Escape,
        _ => Key::Other,
    }
}

fn plain_key(byte: u8) -> Key {
    match byte {
        b'0'..=b'9' => Key::Digit(u32::from(byte - b'0')),
        b'\r' | b'\n' => Key::Enter,
        0x7f | 0x08 => Key::Backspace,
        b'q' => Key::Quit,
        0x03 | 0x04 => Key::Interrupt,
        _ => Key::Other,
    }
}

/// What follows `ESC [`: parameters and one final byte.
fn sequence(bytes: &[u8]) -> Option<(Key, usize)> {
    let end = bytes.iter().position(|byte| (0x40..=0x7e).contains(byte))?;
    let key = match bytes[end] {
        b'~' => numbered_key(&bytes[..end]),
        last => final_key(last),
    };
    Some((key, end + 1))
}

fn final_key(last: u8) -> Key {
    match last {
        b'A' | b'D' => Key::Back,
        b'B' | b'C' => Key::Forth,
        b'P'..=b'S' => Key::Function(u32::from(last - b'P') + 1),
        _ => Key::Other,
    }
}

fn console_key(last: u8) -> Key {
    match last {
        b'A'..=b'E' => Key::Function(u32::from(last - b'A') + 1),
        _ => Key::Other,
    }
}

/// The key of `ESC [ number ~`; the numbers leave gaps after F5 and F10.
fn numbered_key(parameters: &[u8]) -> Key {
    let digits: String = parameters
        .iter()
        .take_while(|byte| byte.is_ascii_digit())
        .map(|&byte| char::from(byte))
        .collect();
    match digits.parse() {
        Ok(number @ 11..=15) => Key::Function(number - 10),
        Ok(number @ 17..=21) => Key::Function(number - 11),
        Ok(number @ 23..=24) => Key::Function(number - 12),
        _ => Key::Other,
    }
}

/// A word in a file of keys that names none.
#[derive(Clone, Debug, PartialEq, Eq)]
pub struct NoKey {
    /// The word.
    pub word: String,
}

impl fmt::Display for NoKey {
    fn fmt(&self, to: &mut fmt::Formatter<'_>) -> fmt::Result {
        let word = &self.word;
        write!(
            to,
            "\"{word}\" names no key: F1 to F12, a number, Up, Down, Left, Right, Enter, Escape, Backspace, q, Ctrl-C"
        )
    }
}

/// The keys that a line names, parted by blanks; a number stands for its digits.
pub fn named(line: &str) -> Result<Vec<Key>, NoKey> {
    let mut keys = Vec::new();
    for word in line.split_whitespace() {
        keys.extend(named_by(word).ok_or_else(|| NoKey { word: word.to_owned() })?);
    }
    Ok(keys)
}

fn named_by(word: &str) -> Option<Vec<Key>> {
    let key = match word {
        "Up" | "Left" => Key::Back,
        "Down" | "Right" => Key::Forth,
        "Enter" => Key::Enter,
        "Escape" => Key::Escape,
        "Backspace" => Key::Backspace,
        "q" => Key::Quit,
        "Ctrl-C" => Key::Interrupt,
        _ => return function_key(word).or_else(|| digit_keys(word)),
    };
    Some(vec![key])
}

fn function_key(word: &str) -> Option<Vec<Key>> {
    let number = word.strip_prefix('F')?.parse().ok()?;
    (1..=12).contains(&number).then(|| vec![Key::Function(number)])
}

fn digit_keys(word: &str) -> Option<Vec<Key>> {
    word.chars().map(|mark| mark.to_digit(10).map(Key::Digit)).collect()
}

#[cfg(test)]
mod tests {
    use super::*;

    fn all(mut bytes: &[u8]) -> Vec<Key> {
        let mut keys = Vec::new();
        while let Some((key, taken)) = decode(bytes) {
            keys.push(key);
            bytes = &bytes[taken..];
        }
        if !bytes.is_empty() {
            keys.push(decode_last(bytes));
        }
        keys
    }

    /// What xterm, tmux, rxvt and the Linux console send for F2, F3, F4, F5, F8 and F10.
    #[test]
    fn function_keys() {
        let keys = [2, 3, 4, 5, 8, 10].map(Key::Function);
        assert_eq!(all(b"\x1bOQ\x1bOR\x1bOS\x1b[15~\x1b[19~\x1b[21~"), keys);
        assert_eq!(all(b"\x1b[12~\x1b[13~\x1b[14~\x1b[15~\x1b[19~\x1b[21~"), keys);
        assert_eq!(all(b"\x1b[[B\x1b[[C\x1b[[D\x1b[[E\x1b[19~\x1b[21~"), keys);
        // with Shift
        assert_eq!(all(b"\x1b[1;2S\x1b[15;2~"), [Key::Function(4), Key::Function(5)]);
    }

    #[test]
    fn arrows_and_plain_keys() {
        let arrows = [Key::Back, Key::Forth, Key::Forth, Key::Back];
        assert_eq!(all(b"\x1b[A\x1b[B\x1b[C\x1b[D"), arrows);
        assert_eq!(all(b"\x1bOA\x1bOB\x1bOC\x1bOD"), arrows);
        let plain = [
            Key::Digit(1),
            Key::Digit(2),
            Key::Enter,
            Key::Backspace,
            Key::Quit,
            Key::Interrupt,
        ];
        assert_eq!(all(b"12\r\x7fq\x03"), plain);
        assert_eq!(all(b"z\x1b[5~\x1b[Z"), [Key::Other; 3]);
    }

    /// An Escape is one only when nothing, or another key, follows.
    #[test]
    fn escapes() {
        assert_eq!(decode(b"\x1b"), None);
        assert_eq!(decode(b"\x1b["), None);
        assert_eq!(decode(b"\x1b[1"), None);
        assert_eq!(all(b"\x1b"), [Key::Escape]);
        assert_eq!(all(b"\x1b\x1bOS"), [Key::Escape, Key::Function(4)]);
        assert_eq!(all(b"\x1b[1"), [Key::Other]);
    }

    /// No bytes make it panic or stand still.
    #[test]
    fn any_bytes() {
        let mut bytes = Vec::new();
        for first in [ESCAPE, b'[', b'O', b'~', b'1', 0xff] {
            for second in 0..=u8::MAX {
                for third in [ESCAPE, b'[', b'~', b';', b'A', 0x80] {
                    bytes.extend([ESCAPE, first, second, third]);
                    assert!(!all(&[first, second, third]).is_empty());
                }
            }
        }
        assert!(!all(&bytes).is_empty());
    }

    #[test]
    fn names() {
        let keys = [Key::Function(4), Key::Digit(1), Key::Digit(2), Key::Enter, Key::Escape];
        assert_eq!(named("F4 12 Enter  Escape").as_deref(), Ok(keys.as_slice()));
        assert_eq!(named("").as_deref(), Ok([].as_slice()));
        for word in ["F0", "F13", "1x", "Esc"] {
            assert_eq!(named(word), Err(NoKey { word: word.to_owned() }));
        }
    }
}
