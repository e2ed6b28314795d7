//! The declarations of picky.h, where it says what a caller must uphold; and the calls over slices, which
//! uphold it.

use std::{ffi::c_void, ptr};

/// `picky_table`.
#[repr(C)]
pub struct Handle {
    inside: *mut c_void,
}

impl Handle {
    /// `PICKY_NO_TABLE`.
    pub const NONE: Handle = Handle { inside: ptr::null_mut() };
}

// SAFETY: picky.h lets a handle go to another thread; each call borrows it alone.
unsafe impl Send for Handle {}

type CallWithTable = unsafe extern "C" fn(
    *const u8, usize, *const u8, usize, *mut Handle, *const u8, usize, *mut u8, usize, *mut usize,
) -> u8;

type Call = unsafe extern "C" fn(
    *const u8, usize, *const u8, usize, *const u8, usize, *const u8, usize, *mut u8, usize, *mut usize,
) -> u8;

extern "C" {
    pub fn picky_check_bytes(
        words: *const u8, words_length: usize, signature: *const u8, signature_length: usize, table: *const u8, table_length: usize,
        list: *const u8, list_length: usize, line: *mut u8, line_length: usize, written: *mut usize,
    ) -> u8;
    pub fn picky_pe_bytes(
        words: *const u8, words_length: usize, program: *const u8, program_length: usize, table: *const u8, table_length: usize,
        list: *const u8, list_length: usize, line: *mut u8, line_length: usize, written: *mut usize,
    ) -> u8;
    pub fn picky_chain_bytes(
        words: *const u8, words_length: usize, table: *const u8, table_length: usize, certificates: *const u8, certificates_length: usize,
        lengths: *const usize, count: usize, line: *mut u8, line_length: usize, written: *mut usize,
    ) -> u8;
    pub fn picky_ask_bytes(
        words: *const u8, words_length: usize, files: *const u8, files_length: usize, lengths: *const usize, count: usize,
        lines: *mut u8, lines_length: usize, written: *mut usize,
    ) -> u8;
    pub fn picky_table_parse(text: *const u8, text_length: usize, table: *mut Handle) -> u8;
    pub fn picky_table_free(table: *mut Handle);
    pub fn picky_check_with_table(
        words: *const u8, words_length: usize, signature: *const u8, signature_length: usize, table: *mut Handle,
        list: *const u8, list_length: usize, line: *mut u8, line_length: usize, written: *mut usize,
    ) -> u8;
    pub fn picky_pe_with_table(
        words: *const u8, words_length: usize, program: *const u8, program_length: usize, table: *mut Handle,
        list: *const u8, list_length: usize, line: *mut u8, line_length: usize, written: *mut usize,
    ) -> u8;
    pub fn picky_chain_with_table(
        words: *const u8, words_length: usize, table: *mut Handle, certificates: *const u8, certificates_length: usize,
        lengths: *const usize, count: usize, line: *mut u8, line_length: usize, written: *mut usize,
    ) -> u8;
}

/// Which call is made.
#[derive(Clone, Copy)]
pub enum Which {
    Check,
    Program,
}

/// The status of a call, and how many octets it wrote.
pub fn call(which: Which, words: &str, file: &[u8], table: &[u8], list: &[u8], line: &mut [u8]) -> (u8, usize) {
    let function: Call = match which {
        Which::Check => picky_check_bytes,
        Which::Program => picky_pe_bytes,
    };
    let mut written = 0;
    // SAFETY: a slice's pointer isn't null and has as many octets as its length says, and what is
    // written is borrowed alone.
    let status = unsafe {
        function(
            words.as_ptr(), words.len(), file.as_ptr(), file.len(), table.as_ptr(), table.len(),
            list.as_ptr(), list.len(), line.as_mut_ptr(), line.len(), &mut written,
        )
    };
    (status, written)
}

/// The status of the call of a chain, and how many octets it wrote.
pub fn chain(words: &str, table: &[u8], certificates: &[u8], lengths: &[usize], line: &mut [u8]) -> (u8, usize) {
    let mut written = 0;
    // SAFETY: as above.
    let status = unsafe {
        picky_chain_bytes(
            words.as_ptr(), words.len(), table.as_ptr(), table.len(), certificates.as_ptr(), certificates.len(),
            lengths.as_ptr(), lengths.len(), line.as_mut_ptr(), line.len(), &mut written,
        )
    };
    (status, written)
}

/// The status of the call for questions, and how many octets it wrote.
pub fn ask(words: &str, files: &[u8], lengths: &[usize], lines: &mut [u8]) -> (u8, usize) {
    let mut written = 0;
    // SAFETY: as above.
    let status = unsafe {
        picky_ask_bytes(
            words.as_ptr(), words.len(), files.as_ptr(), files.len(), lengths.as_ptr(), lengths.len(),
            lines.as_mut_ptr(), lines.len(), &mut written,
        )
    };
    (status, written)
}

/// The status of a call with the table of a handle, and how many octets it wrote.
pub fn call_with_table(which: Which, words: &str, file: &[u8], table: &mut Handle, list: &[u8], line: &mut [u8]) -> (u8, usize) {
    let function: CallWithTable = match which {
        Which::Check => picky_check_with_table,
        Which::Program => picky_pe_with_table,
    };
    let mut written = 0;
    // SAFETY: as above; the handle is borrowed alone, and is what a call left in it.
    let status = unsafe {
        function(
            words.as_ptr(), words.len(), file.as_ptr(), file.len(), table, list.as_ptr(), list.len(),
            line.as_mut_ptr(), line.len(), &mut written,
        )
    };
    (status, written)
}

/// The status of the call of a chain with the table of a handle, and how many octets it wrote.
pub fn chain_with_table(words: &str, table: &mut Handle, certificates: &[u8], lengths: &[usize], line: &mut [u8]) -> (u8, usize) {
    let mut written = 0;
    // SAFETY: as above.
    let status = unsafe {
        picky_chain_with_table(
            words.as_ptr(), words.len(), table, certificates.as_ptr(), certificates.len(),
            lengths.as_ptr(), lengths.len(), line.as_mut_ptr(), line.len(), &mut written,
        )
    };
    (status, written)
}

/// The status of a parse.
pub fn table_parse(text: &[u8], table: &mut Handle) -> u8 {
    // SAFETY: as above.
    unsafe { picky_table_parse(text.as_ptr(), text.len(), table) }
}

/// Leaves `Handle::NONE`.
pub fn table_free(table: &mut Handle) {
    // SAFETY: as above.
    unsafe { picky_table_free(table) }
}
