//! As caller.c, by the calls of this crate.

use picky_door::{
    chain, chain_with_table, check, check_program, check_program_with_table, check_with_table, questions, Answer, Table, TableError,
};
use std::{env, fs};

fn octets_of(path: &str) -> Vec<u8> {
    if path == "-" { Vec::new() } else { fs::read(path).expect("a file is read") }
}

/// The files of a pool, by their lengths.
fn pieces_of<'a>(mut pool: &'a [u8], lengths: &[u8]) -> Vec<&'a [u8]> {
    let mut pieces = Vec::new();
    for length in String::from_utf8_lossy(lengths).split_whitespace() {
        let (piece, rest) = pool.split_at(length.parse().expect("a length is a number"));
        pieces.push(piece);
        pool = rest;
    }
    pieces
}

fn print(answer: Answer) {
    match answer {
        Answer::Accepted(line) => println!("0 {line}"),
        Answer::Refused(line) => println!("1 {line}"),
        Answer::Failed(status) => print!("{status} "),
    }
}

fn print_parse(step: char, table: &mut Table, text: &[u8]) {
    let status = match table.parse(text) {
        Ok(()) => 0,
        Err(TableError::BadTable) => 3,
        Err(TableError::OutOfMemory) => 7,
    };
    print!("{step}{status} ");
}

fn main() {
    let words: Vec<String> = env::args().collect();
    let (kind, rest) = (words[1].as_str(), words[5..].iter().map(String::as_str).collect::<Vec<&str>>());
    let (file, text, list) = (octets_of(&words[2]), octets_of(&words[3]), octets_of(&words[4]));
    let pieces = if kind == "chain" || kind == "ask" { pieces_of(&file, &list) } else { Vec::new() };
    let Ok(steps) = env::var("STEPS") else {
        return print(match kind {
            "pe" => check_program(&rest, &file, &text, &list),
            "chain" => chain(&rest, &text, &pieces),
            "ask" => questions(&rest, &pieces),
            _ => check(&rest, &file, &text, &list),
        });
    };
    let mut table = Table::new();
    for step in steps.chars() {
        match step {
            'c' => print(match kind {
                "pe" => check_program_with_table(&rest, &file, &mut table, &list),
                "chain" => chain_with_table(&rest, &mut table, &pieces),
                _ => check_with_table(&rest, &file, &mut table, &list),
            }),
            'p' => print_parse(step, &mut table, &text),
            'b' => print_parse(step, &mut table, b"x\n"),
            'e' => print_parse(step, &mut table, b""),
            'l' => print_parse(step, &mut table, &octets_of(&env::var("LONG").expect("LONG is a path"))),
            _ => table.clear(),
        }
    }
}
