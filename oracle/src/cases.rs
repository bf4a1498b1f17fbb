//! Cases read from an input, whatever their form: each is printed before the next is read, and no
//! more than one is kept.

use std::io::{ErrorKind, Read, Result, Write};

/// Prints case after case; one that is bad prints `bad` and ends the run. `case_after` reads the
/// case that begins with the octet given, or hands back nothing where it is bad.
///
/// Input that ends before a case's first octet ends the run; anywhere later the case is cut short.
pub fn print_each<Input: Read, Output: Write, Case>(
    mut input: Input,
    out: &mut Output,
    case_after: impl Fn(u8, &mut Input) -> Result<Option<Case>>,
    mut print_case: impl FnMut(Case, &mut Output) -> Result<()>,
) -> Result<()> {
    while let Some([first]) = octets(&mut input)? {
        match case_after(first, &mut input)? {
            Some(case) => print_case(case, out)?,
            None => {
                writeln!(out, "bad")?;
                break;
            }
        }
    }
    out.flush()
}

/// So many octets, or nothing where the input ends before the last of them.
pub fn octets<const COUNT: usize>(input: &mut impl Read) -> Result<Option<[u8; COUNT]>> {
    let mut octets = [0; COUNT];
    Ok(filled(&mut octets, input)?.then_some(octets))
}

/// A string behind its length of two octets, big-endian, or nothing where the input ends before the
/// last of its octets.
pub fn string(input: &mut impl Read) -> Result<Option<Vec<u8>>> {
    let Some(length) = octets(input)? else { return Ok(None) };
    let mut string = vec![0; usize::from(u16::from_be_bytes(length))];
    Ok(filled(&mut string, input)?.then_some(string))
}

/// Whether the input had octets enough.
fn filled(octets: &mut [u8], input: &mut impl Read) -> Result<bool> {
    match input.read_exact(octets) {
        Ok(()) => Ok(true),
        Err(failure) if failure.kind() == ErrorKind::UnexpectedEof => Ok(false),
        Err(failure) => Err(failure),
    }
}
