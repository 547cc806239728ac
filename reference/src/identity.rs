//! The identity of a row: its first two columns.

use std::fmt;

#[derive(Clone, Copy, Debug, PartialEq, Eq)]
pub enum Identity {
    Hd,
    Bs,
    Bx,
    Lo,
    Li,
    Lt,
    Cr,
    Ti,
    Ta,
    Td,
    Aa,
    Zz,
}

impl Identity {
    pub const ALL: [Identity; 12] = [
        Identity::Hd,
        Identity::Bs,
        Identity::Bx,
        Identity::Lo,
        Identity::Li,
        Identity::Lt,
        Identity::Cr,
        Identity::Ti,
        Identity::Ta,
        Identity::Td,
        Identity::Aa,
        Identity::Zz,
    ];

    /// The identity's two letters.
    pub fn code(self) -> &'static str {
        match self {
            Identity::Hd => "HD",
            Identity::Bs => "BS",
            Identity::Bx => "BX",
            Identity::Lo => "LO",
            Identity::Li => "LI",
            Identity::Lt => "LT",
            Identity::Cr => "CR",
            Identity::Ti => "TI",
            Identity::Ta => "TA",
            Identity::Td => "TD",
            Identity::Aa => "AA",
            Identity::Zz => "ZZ",
        }
    }

    /// The identity that these bytes are, in upper case, if any.
    pub fn of(bytes: &[u8]) -> Option<Identity> {
        Identity::ALL
            .into_iter()
            .find(|identity| identity.code().as_bytes() == bytes)
    }
}

impl fmt::Display for Identity {
    fn fmt(&self, f: &mut fmt::Formatter<'_>) -> fmt::Result {
        f.write_str(self.code())
    }
}
