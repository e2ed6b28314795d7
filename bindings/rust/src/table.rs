//! A verdict table that was parsed once.

use crate::sys;
use std::{error::Error, fmt};

/// Why a text wasn't taken.
#[derive(Clone, Copy, Debug, PartialEq, Eq)]
pub enum TableError {
    BadTable,
    OutOfMemory,
}

impl fmt::Display for TableError {
    fn fmt(&self, out: &mut fmt::Formatter<'_>) -> fmt::Result {
        out.write_str(match self {
            TableError::BadTable => "the verdict table has a bad line",
            TableError::OutOfMemory => "out of memory",
        })
    }
}

impl Error for TableError {}

/// A verdict table for many calls, one at a time. Without a text, the file TABLE
/// isn't there.
pub struct Table(pub(crate) sys::Handle);

impl Table {
    /// No table.
    pub const fn new() -> Table {
        Table(sys::Handle::NONE)
    }

    /// Takes the table of a text; after an error it is as it was.
    pub fn parse(&mut self, text: &[u8]) -> Result<(), TableError> {
        match sys::table_parse(text, &mut self.0) {
            0 => Ok(()),
            3 => Err(TableError::BadTable),
            _ => Err(TableError::OutOfMemory),
        }
    }

    /// Frees the table.
    pub fn clear(&mut self) {
        sys::table_free(&mut self.0);
    }
}

impl Default for Table {
    fn default() -> Table {
        Table::new()
    }
}

impl Drop for Table {
    fn drop(&mut self) {
        self.clear();
    }
}
