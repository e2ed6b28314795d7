//! Checks of Authenticode signatures over octets in memory. The proof is of the static library, not of
//! this crate.
//!
//! [`Answer::Accepted`] isn't enough to install a program. An accepted signature with an empty `path=`
//! is vouched for by nobody: anyone can make its certificate. A path is worth what its last certificate
//! is, since no root is checked. So compare the whole line with the one that you expect, and pin the
//! signer's key (a table without rows of other keys) or find a path to a root that you trust (as the
//! last certificate of [`chain`]): docs/MANUAL.md, "Who signed".

pub mod sys;
mod table;

pub use table::{Table, TableError};

/// What a check answers. A word with a newline has the status 2.
#[derive(Clone, Debug, PartialEq, Eq)]
#[must_use]
pub enum Answer {
    /// The line says which certificates vouch for the signer's: none where `path=` is empty.
    Accepted(String),
    /// The line names the cause.
    Refused(String),
    /// The status: there is no answer.
    Failed(u8),
}

/// The command that the words request, which name the files SIG, TABLE and LIST.
pub fn check(words: &[&str], signature: &[u8], table: &[u8], list: &[u8]) -> Answer {
    run(sys::Which::Check, words, signature, table, list)
}

/// The same with a table that was parsed before.
pub fn check_with_table(words: &[&str], signature: &[u8], table: &mut Table, list: &[u8]) -> Answer {
    run_with_table(sys::Which::Check, words, signature, table, list)
}

/// The check of a signed program, with words that name the files PROGRAM, TABLE and LIST.
pub fn check_program(words: &[&str], program: &[u8], table: &[u8], list: &[u8]) -> Answer {
    run(sys::Which::Program, words, program, table, list)
}

/// The same with a table that was parsed before.
pub fn check_program_with_table(words: &[&str], program: &[u8], table: &mut Table, list: &[u8]) -> Answer {
    run_with_table(sys::Which::Program, words, program, table, list)
}

/// The validation of a certificate with its parents, with words that name the file TABLE and the
/// certificates 0, 1 and so on.
pub fn chain(words: &[&str], table: &[u8], certificates: &[&[u8]]) -> Answer {
    let (lengths, pool) = (lengths_of(certificates), certificates.concat());
    with_room(text_of(words), |words, line| sys::chain(words, table, &pool, &lengths, line))
}

/// The same with a table that was parsed before.
pub fn chain_with_table(words: &[&str], table: &mut Table, certificates: &[&[u8]]) -> Answer {
    let (lengths, pool) = (lengths_of(certificates), certificates.concat());
    with_room(text_of(words), |words, line| sys::chain_with_table(words, &mut table.0, &pool, &lengths, line))
}

/// The questions about a signature file or a chain, with words that name the files 0, 1 and so on. The
/// line has a question a line.
pub fn questions(words: &[&str], files: &[&[u8]]) -> Answer {
    let (lengths, pool) = (lengths_of(files), files.concat());
    with_room(text_of(words), |words, lines| sys::ask(words, &pool, &lengths, lines))
}

const USAGE: u8 = 2;
const NO_ROOM: u8 = 5;

/// The words as one text; None where a word has a newline, which would make it two.
fn text_of(words: &[&str]) -> Option<String> {
    if words.iter().any(|word| word.contains('\n')) { None } else { Some(words.join("\n")) }
}

fn lengths_of(files: &[&[u8]]) -> Vec<usize> {
    files.iter().map(|file| file.len()).collect()
}

fn run(which: sys::Which, words: &[&str], file: &[u8], table: &[u8], list: &[u8]) -> Answer {
    with_room(text_of(words), |words, line| sys::call(which, words, file, table, list, line))
}

fn run_with_table(which: sys::Which, words: &[&str], file: &[u8], table: &mut Table, list: &[u8]) -> Answer {
    with_room(text_of(words), |words, line| sys::call_with_table(which, words, file, &mut table.0, list, line))
}

/// The answer of a call with a buffer that has room for its line.
fn with_room(words: Option<String>, mut call: impl FnMut(&str, &mut [u8]) -> (u8, usize)) -> Answer {
    let Some(words) = words else {
        return Answer::Failed(USAGE);
    };
    let mut line = vec![0; 512];
    loop {
        let (status, written) = call(&words, &mut line);
        let text = String::from_utf8_lossy(&line[..written]).trim_end_matches('\n').to_string();
        match status {
            0 => return Answer::Accepted(text),
            1 => return Answer::Refused(text),
            NO_ROOM => line.resize(2 * line.len(), 0),
            status => return Answer::Failed(status),
        }
    }
}
