//! Event records read from an input, one after the other, through one buffer of fixed size.
//!
//! As many octets are taken at once as have come, and what was printed of them is sent out before
//! more are waited for: so a record that came whole is answered while the input stays open.

use std::io::{ErrorKind, Read, Result, Write};

use crate::event_record::EVENT_OCTETS;

pub const BUFFER_OCTETS: usize = 256 * 1_024;

/// How the records ended.
#[derive(Clone, Copy, Debug, PartialEq, Eq)]
pub enum End {
    /// The input ended behind a whole record, or is empty.
    Whole,
    /// The input ended within a record, of which so many octets came.
    CutShort(usize),
    /// A record was refused, and nothing behind it was read.
    Refused,
}

/// Hands over record after record, until one is refused or the input ends.
pub fn for_each<Output: Write>(
    input: &mut impl Read,
    out: &mut Output,
    mut accepted: impl FnMut(&[u8; EVENT_OCTETS], &mut Output) -> Result<bool>,
) -> Result<End> {
    let mut buffer = vec![0; BUFFER_OCTETS];
    let mut kept = 0;
    loop {
        out.flush()?;
        let filled = kept + read_some(input, &mut buffer[kept..])?;
        if filled == kept {
            return Ok(if kept == 0 { End::Whole } else { End::CutShort(kept) });
        }
        let mut rest = &buffer[..filled];
        while let Some((record, behind)) = rest.split_first_chunk() {
            if !accepted(record, out)? {
                return Ok(End::Refused);
            }
            rest = behind;
        }
        kept = rest.len();
        buffer.copy_within(filled - kept..filled, 0);
    }
}

/// As many octets as the input has at once; 0 at its end.
pub fn read_some(input: &mut impl Read, buffer: &mut [u8]) -> Result<usize> {
    loop {
        match input.read(buffer) {
            Err(failure) if failure.kind() == ErrorKind::Interrupted => {}
            outcome => return outcome,
        }
    }
}
