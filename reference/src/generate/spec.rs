//! Which forms stand at which columns, for the generator; the reader does not use it.

use crate::identity::Identity;

#[derive(Clone, Copy, Debug, PartialEq, Eq)]
pub enum Spec {
    Uid,
    Date,
    End,
    DaysRun,
    Tiploc,
    Suffix,
    Label(usize),
    Time,
    Reference,
    LastReference,
    /// One of the first bytes; the second are near misses.
    Letter(&'static [u8], &'static [u8]),
}

/// A field: its first column, and its form.
pub type Field = (usize, Spec);

const KIND: Spec = Spec::Letter(b"FU", b"fu EGTVN");
const CHANGE: Spec = Spec::Letter(b"NR", b"nrd MOQSCE");
const DELETE: Spec = Spec::Letter(b"D", b"nrd MOQSCE");
const STP: Spec = Spec::Letter(b"CNOP", b"cnop BDMQ");

const HEADER: &[Field] = &[(33, Spec::Reference), (40, Spec::LastReference), (47, KIND)];
const SCHEDULE: &[Field] = &[
    (3, CHANGE),
    (4, Spec::Uid),
    (10, Spec::Date),
    (16, Spec::End),
    (22, Spec::DaysRun),
    (33, Spec::Label(4)),
    (80, STP),
];
const DELETED: &[Field] = &[(3, DELETE), (4, Spec::Uid), (10, Spec::Date), (80, STP)];
const EXTRA: &[Field] = &[(12, Spec::Label(2))];
const END: &[Field] = &[
    (3, Spec::Tiploc),
    (10, Spec::Suffix),
    (16, Spec::Time),
    (20, Spec::Label(3)),
];
const CALL: &[Field] = &[
    (3, Spec::Tiploc),
    (10, Spec::Suffix),
    (26, Spec::Time),
    (30, Spec::Time),
    (34, Spec::Label(3)),
];

/// A sort of row: its identity, and whether it is a schedule deleted.
#[derive(Clone, Copy, Debug, PartialEq, Eq)]
pub struct Sort {
    pub identity: Identity,
    pub deleted: bool,
}

impl Sort {
    pub const DELETED: Sort = Sort {
        identity: Identity::Bs,
        deleted: true,
    };
    pub const CHANGED: Sort = Sort {
        identity: Identity::Bs,
        deleted: false,
    };

    /// The sort of row of this identity that is no deletion.
    pub fn plain(identity: Identity) -> Sort {
        Sort {
            identity,
            deleted: false,
        }
    }

    /// The fields that are read, from left to right.
    pub fn fields(self) -> &'static [Field] {
        match self.identity {
            Identity::Hd => HEADER,
            Identity::Bs if self.deleted => DELETED,
            Identity::Bs => SCHEDULE,
            Identity::Bx => EXTRA,
            Identity::Lo | Identity::Lt => END,
            Identity::Li => CALL,
            _ => &[],
        }
    }
}
