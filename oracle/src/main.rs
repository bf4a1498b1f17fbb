//! An independent reference of the rerouting control of both ends of a call, the source node and
//! the destination node.
//!
//! | Module | What it holds |
//! |---|---|
//! | `vocabulary` | the two ends, causes, signals, answers, events |
//! | `call` | the record of a call, its states, what an event hands back |
//! | `source` | the rows of the source node |
//! | `destination` | the rows of the destination node |
//! | `words` | records, events and signals in words |
//! | `cells` | every cell of one call, printed |
//! | `table` | the table of records: fitness, openings, the event on a record |
//! | `event_record`, `event_fault` | an event in the 16 octets of the trace, and why one is bad |
//! | `record_input`, `trace_table` | these events read one by one, and their table of 64 |
//! | `noted_input` | an input that keeps in mind whether reading it failed |
//! | `number_line` | a line of decimal numbers |
//! | `trace`, `watch` | the lines of the trace, and the same with signals |
//! | `script`, `list` | readable lines into event records, and back |
//! | `cases` | cases of any form, read one by one |
//! | `tables` | cases over a whole table, read and printed |
//! | `draw`, `maker` | the numbers drawn from a seed, and cases of any form made from them |
//! | `made_event` | the octets of an event that is made |
//! | `make_tables` | cases over a whole table, made |
//! | `make_trace` | event records of one run, made |
//! | `make_damaged` | short runs that are damaged, made |
//! | `rows` | the list of rows, and how often runs meet each |
//! | `element` | the cause element sent on, a part of a string lent |
//! | `elements` | cases of the cause element, read and printed |
//! | `make_elements` | cases of the cause element, made |
//!
//! A call is treated by value: an event takes the old record and hands back the new one. The table
//! finds the record and puts it back. But for the rows, everything stands once for both ends and
//! takes the end where they differ: in the words, the octets and the makers.

#![forbid(unsafe_code)]

mod call;
mod cases;
mod cells;
mod destination;
mod draw;
mod element;
mod elements;
mod event_fault;
mod event_record;
mod list;
mod made_event;
mod make_damaged;
mod make_elements;
mod make_tables;
mod make_trace;
mod maker;
mod noted_input;
mod number_line;
mod record_input;
mod rows;
mod script;
mod source;
mod table;
mod tables;
mod trace;
mod trace_table;
mod vocabulary;
mod watch;
mod words;

#[cfg(test)]
mod appendix;
#[cfg(test)]
mod bench_run;
#[cfg(test)]
mod bench_text;
#[cfg(test)]
mod case_text;
#[cfg(test)]
mod destination_refusals;
#[cfg(test)]
mod destination_run;
#[cfg(test)]
mod element_promises;
#[cfg(test)]
mod element_text;
#[cfg(test)]
mod event_values;
#[cfg(test)]
mod list_text;
#[cfg(test)]
mod promises;
#[cfg(test)]
mod sample_tables;
#[cfg(test)]
mod setups_in_progress;
#[cfg(test)]
mod table_refusals;
#[cfg(test)]
mod table_run;
#[cfg(test)]
mod trace_text;
#[cfg(test)]
mod unchecked_tables;
#[cfg(test)]
mod unnamed_services;

use std::env;
use std::ffi::OsString;
use std::fs;
use std::io::{self, BufWriter, ErrorKind, Write};
use std::path::Path;
use std::process::ExitCode;

use crate::maker::Maker;
use crate::noted_input::NotedInput;
use crate::rows::{Made, Runs};
use crate::vocabulary::Node;
use crate::words::ProgramName;

const USAGE: &str =
    "usage: oracle cells < letters, oracle tables < cases, oracle elements < cases, \
    oracle trace < records, oracle watch < records, oracle script < lines, oracle list < records, \
    oracle rows LIST [all] < records, oracle rows LIST [all] SEED:COUNT .., \
    oracle make-trace SEED COUNT [bad], oracle make-damaged SEED COUNT FOLDER, \
    oracle make-tables SEED COUNT [bad], oracle make-elements SEED COUNT [bad]; \
    all but elements and make-elements also for the destination node: oracle destination_cells, \
    and so on to oracle destination_rows, oracle make-destination-trace, \
    oracle make-destination-damaged, oracle make-destination-tables";
const USAGE_STATUS: u8 = 2;

/// How much is written at once.
const OUTPUT_OCTETS: usize = 256 * 1_024;

fn main() -> ExitCode {
    let arguments: Vec<OsString> = env::args_os().skip(1).collect();
    // An argument that is no text names nothing.
    let words: Vec<&str> = arguments.iter().map(|word| word.to_str().unwrap_or("")).collect();
    let mut out = BufWriter::with_capacity(OUTPUT_OCTETS, io::stdout().lock());
    let Some((&first, asked)) = words.split_first() else {
        return usage();
    };
    let (node, program) = node_and_program(first);
    match (program.as_str(), asked) {
        ("cells", []) => status(cells::print(node, io::stdin().lock(), &mut out)),
        ("tables", []) => status(tables::print(node, io::stdin().lock(), &mut out)),
        ("trace", []) => status(trace::print(node, io::stdin().lock(), &mut out)),
        ("watch", []) => status(watch::print(node, io::stdin().lock(), &mut out)),
        ("script", []) => {
            let mut input = NotedInput::new(io::stdin().lock());
            let printed = script::print(node, &mut input, &mut out);
            told(failure_told(ProgramName(node, "script"), input.has_failed(), printed))
        }
        ("list", []) => {
            let mut input = NotedInput::new(io::stdin().lock());
            let printed = list::print(node, &mut input, &mut out);
            told(failure_told(ProgramName(node, "list"), input.has_failed(), printed))
        }
        ("rows", [file, "all", runs @ ..]) => rows_met(node, file, true, runs, &mut out),
        ("rows", [file, runs @ ..]) => rows_met(node, file, false, runs, &mut out),
        ("make-trace", asked) => made(of_trace(node), asked, &mut out),
        ("make-damaged", [seed, count, folder]) => damaged(node, seed, count, folder),
        ("make-tables", asked) => made(of_maker(make_tables::maker(node)), asked, &mut out),
        // The cause element knows no end.
        ("elements", []) if first == program => {
            status(elements::print(io::stdin().lock(), &mut out))
        }
        ("make-elements", asked) if first == program => {
            made(of_maker(make_elements::MAKER), asked, &mut out)
        }
        _ => usage(),
    }
}

/// The end that a command names, and the command without that: `destination_cells` is `cells` of
/// the destination, `make-destination-trace` its `make-trace`.
fn node_and_program(command: &str) -> (Node, String) {
    if let Some(program) = command.strip_prefix("destination_") {
        if !program.starts_with("make-") {
            return (Node::Destination, program.to_string());
        }
    }
    match command.strip_prefix("make-destination-") {
        Some(made) => (Node::Destination, format!("make-{made}")),
        None => (Node::Source, command.to_string()),
    }
}

/// The rows that a run met which is read, or the runs that the words ask for.
fn rows_met(node: Node, file: &str, all: bool, words: &[&str], out: &mut impl Write) -> ExitCode {
    let Some(made) = words.iter().map(|word| Made::of_word(word)).collect::<Option<Vec<Made>>>()
    else {
        return usage();
    };
    let list = match fs::read_to_string(file) {
        Ok(list) => list,
        Err(failure) => return status(Err(failure)),
    };
    let runs = match made.as_slice() {
        [] => Runs::Read(io::stdin().lock()),
        made => Runs::Made(made),
    };
    told(rows::print(node, &list, all, runs, out))
}

fn of_trace<Output: Write>(node: Node) -> impl Fn(u64, u64, bool, &mut Output) -> io::Result<()> {
    move |seed, count, last_is_bad, out| make_trace::write(node, seed, count, last_is_bad, out)
}

fn of_maker<Output: Write>(maker: Maker) -> impl Fn(u64, u64, bool, &mut Output) -> io::Result<()> {
    move |seed, count, last_is_bad, out| maker.write(seed, count, last_is_bad, out)
}

/// Writes what a seed and a count ask for, the last of it bad if that is asked.
fn made<Output: Write>(
    write: impl Fn(u64, u64, bool, &mut Output) -> io::Result<()>,
    asked: &[&str],
    out: &mut Output,
) -> ExitCode {
    let (seed, count, last_is_bad) = match asked {
        [seed, count] => (seed, count, false),
        [seed, count, "bad"] => (seed, count, true),
        _ => return usage(),
    };
    match (seed.parse(), count.parse()) {
        (Ok(seed), Ok(count)) => status(write(seed, count, last_is_bad, out)),
        _ => usage(),
    }
}

fn damaged(node: Node, seed: &str, count: &str, folder: &str) -> ExitCode {
    match (seed.parse(), count.parse()) {
        (Ok(seed), Ok(count)) => status(make_damaged::write(node, seed, count, Path::new(folder))),
        _ => usage(),
    }
}

fn usage() -> ExitCode {
    complain(USAGE);
    ExitCode::from(USAGE_STATUS)
}

/// A reader that went away has seen enough; any other failure is told.
fn status(printed: io::Result<()>) -> ExitCode {
    match printed {
        Ok(()) => ExitCode::SUCCESS,
        Err(failure) if failure.kind() == ErrorKind::BrokenPipe => ExitCode::SUCCESS,
        Err(failure) => {
            complain(&failure.to_string());
            ExitCode::FAILURE
        }
    }
}

/// A program that may hand back a complaint of its own, which then is its one line.
fn told(printed: io::Result<Option<String>>) -> ExitCode {
    match printed {
        Ok(Some(complaint)) => {
            let _ = writeln!(io::stderr(), "{complaint}");
            ExitCode::FAILURE
        }
        Ok(None) => ExitCode::SUCCESS,
        Err(failure) => status(Err(failure)),
    }
}

/// Where a read or a write fails, a program of the destination says so under its own name
/// (docs/BENCH.md); one of the source says what the system says.
fn failure_told(
    program: ProgramName,
    reading_failed: bool,
    printed: io::Result<Option<String>>,
) -> io::Result<Option<String>> {
    match (program, printed) {
        (ProgramName(Node::Source, _), printed) => printed,
        (_, Err(failure)) if failure.kind() != ErrorKind::BrokenPipe => {
            let what = if reading_failed { "reading" } else { "writing" };
            Ok(Some(format!("{program}: {what} fails")))
        }
        (_, printed) => printed,
    }
}

/// One line on standard error; if that is gone too, nobody is left to tell.
fn complain(line: &str) {
    let _ = writeln!(io::stderr(), "oracle: {line}");
}
