//! The two texts that the readers are measured on: 65,536 bytes and 1,024 tasks each.

use super::spell::{self, filled, largest};

const BYTES: usize = 65_536;

/// 7,840 edges, single spaces; every field has its zeros, or such a text would be a third shorter.
pub fn single() -> Vec<u8> {
    let line = |fields: Vec<u32>| {
        let spelled = fields.iter().map(|field| format!("{field:05}"));
        spelled.collect::<Vec<_>>().join(" ") + "\n"
    };
    let lines = spell::lines(&largest(24, 7_840)).into_iter().map(line);
    filled(lines.collect::<String>().into_bytes(), BYTES)
}

/// 2,780 edges, every field in 11 columns, as in the files of the Standard Task Graph Set.
pub fn columns() -> Vec<u8> {
    filled(spell::columns(&largest(25, 2_780)), BYTES)
}
