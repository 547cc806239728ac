//! The columns of a row, once they are known to be 80 printable bytes of a known identity.

use crate::forms::Form;
use crate::identity::Identity;
use crate::refusal::{Reason, Refusal};

/// How many bytes a row has.
pub const LENGTH: usize = 80;

pub struct Fields<'a> {
    pub identity: Identity,
    bytes: &'a [u8; LENGTH],
}

impl<'a> Fields<'a> {
    /// The row is 80 bytes, each of them is from 32 to 126, and the first two are an identity.
    pub fn of(row: &'a [u8]) -> Result<Fields<'a>, Refusal> {
        let bytes: &[u8; LENGTH] = row.try_into().map_err(|_| Refusal::LENGTH)?;
        if let Some(index) = bytes.iter().position(|byte| !(32..=126).contains(byte)) {
            return Err(Refusal::byte(index + 1));
        }
        let identity = Identity::of(&bytes[..2]).ok_or(Refusal::IDENTITY)?;
        Ok(Fields { identity, bytes })
    }

    /// The field from column `first` to column `last`, both counted from 1 and both within it.
    pub fn field<F: Form>(&self, first: usize, last: usize) -> Result<F, Refusal> {
        F::read(&self.bytes[first - 1..last]).ok_or(self.refused(Reason::Form, first))
    }

    /// The row meets this condition, which is told with this column.
    pub fn refused(&self, reason: Reason, column: usize) -> Refusal {
        Refusal::of_row(self.identity, reason, column)
    }

    /// The field that is the one column `column`.
    pub fn letter<F: Form>(&self, column: usize) -> Result<F, Refusal> {
        self.field(column, column)
    }
}
