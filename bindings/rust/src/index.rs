//! An index beside a table.

use crate::call;
use crate::refusal::Refusal;

/// The bytes of an index.
pub const INDEX: usize = 128;

/// Where a line's accessible is looked for before the table is walked. Whatever
/// it holds, also another table's, it alters nothing but the steps of a search.
#[derive(Clone, Copy, Debug, PartialEq, Eq)]
pub struct Index([u8; INDEX]);

impl Index {
    /// Fills one from a table.
    pub fn of(table: &[u8]) -> Result<Index, Refusal> {
        let mut bytes = [0; INDEX];
        Refusal::judge(call::index(table, &mut bytes))?;
        Ok(Index(bytes))
    }

    pub fn bytes(&self) -> &[u8; INDEX] {
        &self.0
    }
}

/// An index that was kept elsewhere.
impl From<[u8; INDEX]> for Index {
    fn from(bytes: [u8; INDEX]) -> Index {
        Index(bytes)
    }
}
