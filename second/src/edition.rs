//! The editions of the exchange's specification, as far as reading knows them (document 02, request 10): 1.3 of
//! 2020, source documents 000 and 001; and 1.3.a with 1.3.b, 002 to 004, which differ in nothing that is read.

/// "A recording's edition is chosen at start." Where none is named it is that of document 01, 1.3.b.
#[derive(Clone, Copy, Debug, Default, PartialEq, Eq)]
pub enum Edition {
    V1_3,
    /// 1.3.a too.
    #[default]
    V1_3b,
}

pub const EDITIONS: [Edition; 2] = [Edition::V1_3, Edition::V1_3b];

/// Where a Symbol Update, and so a symbol's entry, has the byte that the editions differ in.
pub const BYTE_20: usize = 20;

impl Edition {
    /// All that differs: "version 1.3, where byte 20 of a Symbol Update is Security Type, `E` or `F`; from 1.3.a it
    /// is reserved."
    pub fn has_security_type(self) -> bool {
        self == Edition::V1_3
    }

    /// The Security Type in a Symbol Update or an entry, good or not, where the edition has one.
    pub fn security_type(self, update: &[u8]) -> Option<u8> {
        self.has_security_type().then(|| update[BYTE_20])
    }

    /// Byte 20 of a Symbol Update where it is reserved.
    pub fn reserved20(self, update: &[u8]) -> Option<u8> {
        (!self.has_security_type()).then(|| update[BYTE_20])
    }

    /// An edition by its name in the exchange's documents.
    pub fn named(name: &str) -> Option<Edition> {
        match name {
            "1.3" => Some(Edition::V1_3),
            "1.3.a" | "1.3.b" => Some(Edition::V1_3b),
            _ => None,
        }
    }

    /// The other of the two.
    pub fn other(self) -> Edition {
        match self {
            Edition::V1_3 => Edition::V1_3b,
            Edition::V1_3b => Edition::V1_3,
        }
    }

    /// What a number at the C boundary means: "any other number means 1.3.a and 1.3.b".
    pub fn of_number(number: u64) -> Edition {
        match number {
            1 => Edition::V1_3,
            _ => Edition::V1_3b,
        }
    }

    /// The number that the C boundary writes.
    pub fn number(self) -> u64 {
        match self {
            Edition::V1_3 => 1,
            Edition::V1_3b => 0,
        }
    }
}
