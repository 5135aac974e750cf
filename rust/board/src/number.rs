//! A lane's number while it is typed or chosen by arrows.

/// What no further digit is taken beyond; larger than any lane's number, so that a wrong one can be tried.
const MOST: u32 = 65_535;

/// A number that is typed. The first digit replaces one that was only proposed.
#[derive(Clone, Copy, Debug, PartialEq, Eq)]
pub struct Number {
    value: Option<u32>,
    proposed: bool,
}

impl Number {
    /// Nothing yet.
    pub const EMPTY: Number = Number {
        value: None,
        proposed: false,
    };

    /// A number that stands there before any key.
    pub const fn proposed(value: u32) -> Number {
        Number {
            value: Some(value),
            proposed: true,
        }
    }

    /// The number, if there is one.
    pub const fn value(self) -> Option<u32> {
        self.value
    }

    fn typed(value: Option<u32>) -> Number {
        Number { value, proposed: false }
    }

    /// With one more digit.
    pub fn digit(self, digit: u32) -> Number {
        let so_far = if self.proposed { 0 } else { self.value.unwrap_or(0) };
        let longer = so_far * 10 + digit;
        if longer > MOST {
            return self;
        }
        Number::typed(Some(longer))
    }

    /// Without its last digit.
    pub fn shorter(self) -> Number {
        Number::typed(self.value.filter(|&value| value > 9).map(|value| value / 10))
    }

    /// The lane before.
    pub fn back(self, lanes: u32) -> Number {
        Number::proposed(self.value.map_or(0, |lane| lane_before(lane, lanes)))
    }

    /// The lane after.
    pub fn forth(self, lanes: u32) -> Number {
        Number::proposed(self.value.map_or(0, |lane| lane_after(lane, lanes)))
    }
}

/// The lane before this one; before the first comes the last.
pub fn lane_before(lane: u32, lanes: u32) -> u32 {
    let last = lanes.saturating_sub(1);
    lane.checked_sub(1).map_or(last, |before| before.min(last))
}

/// The lane after this one; after the last comes the first.
pub fn lane_after(lane: u32, lanes: u32) -> u32 {
    lane.checked_add(1).filter(|&after| after < lanes).unwrap_or(0)
}

#[cfg(test)]
mod tests {
    use super::*;

    #[test]
    fn typing() {
        let twelve = Number::proposed(3).digit(1).digit(2);
        assert_eq!(twelve.value(), Some(12));
        assert_eq!(twelve.shorter().value(), Some(1));
        assert_eq!(twelve.shorter().shorter().value(), None);
        assert_eq!(twelve.shorter().shorter().digit(7).value(), Some(7));
        assert_eq!(Number::EMPTY.digit(0).digit(5).value(), Some(5));
        let large = Number::EMPTY.digit(6).digit(5).digit(5).digit(3);
        assert_eq!(large.digit(5).value(), Some(65_535));
        assert_eq!(large.digit(6).value(), Some(6_553));
    }

    #[test]
    fn arrows() {
        assert_eq!(Number::proposed(0).back(3).value(), Some(2));
        assert_eq!(Number::proposed(2).forth(3).value(), Some(0));
        assert_eq!(Number::EMPTY.forth(3).value(), Some(0));
        assert_eq!(Number::proposed(12).back(3).value(), Some(2));
        assert_eq!(Number::proposed(12).forth(3).value(), Some(0));
        assert_eq!(Number::proposed(1).forth(3).digit(1).value(), Some(1));
    }
}
