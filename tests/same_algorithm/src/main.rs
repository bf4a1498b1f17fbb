//! The programs `tables` and `destination_tables` in Rust, by the same algorithm as the proved ones,
//! so that they can be measured against each other (docs/SPEED.md). It shows no agreement of two
//! minds: oracle/ does.
//!
//! `table` is what is measured. The record, its rows and the form of a case are the independent
//! program's own files.

#![allow(dead_code)]

mod table;

#[path = "../../../oracle/src"]
mod oracle {
    pub mod call;
    pub mod cases;
    pub mod destination;
    pub mod event_record;
    pub mod source;
    pub mod tables;
    pub mod vocabulary;
    pub mod words;
}

use std::io::{stdin, stdout, BufWriter, Result};
use std::process::exit;

use crate::oracle::{call, cases, destination, event_record, source, tables, vocabulary, words};
use crate::vocabulary::Node;

fn main() -> Result<()> {
    let words: Vec<String> = std::env::args().skip(1).collect();
    let node = match words.iter().map(String::as_str).collect::<Vec<&str>>()[..] {
        ["tables"] => Node::Source,
        ["destination_tables"] => Node::Destination,
        _ => {
            eprintln!("usage: same_algorithm tables, same_algorithm destination_tables");
            exit(2);
        }
    };
    tables::print(node, stdin().lock(), &mut BufWriter::new(stdout().lock()))
}
