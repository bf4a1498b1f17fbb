//! An input that keeps in mind whether reading it failed, so that a failure can be told from one of
//! writing.

use std::io::{ErrorKind, Read, Result};

pub struct NotedInput<Input> {
    input: Input,
    failed: bool,
}

impl<Input> NotedInput<Input> {
    pub fn new(input: Input) -> Self {
        Self { input, failed: false }
    }

    pub fn has_failed(&self) -> bool {
        self.failed
    }
}

impl<Input: Read> Read for NotedInput<Input> {
    /// A read that was interrupted is made again, and has not failed.
    fn read(&mut self, buffer: &mut [u8]) -> Result<usize> {
        let outcome = self.input.read(buffer);
        if let Err(failure) = &outcome {
            self.failed |= failure.kind() != ErrorKind::Interrupted;
        }
        outcome
    }
}
