//! Memory that may be missing. Where the system has none left, that is an
//! error of the stream at hand, and no end of the program.

use std::io::{self, ErrorKind, Write};

/// So many bytes, each 0.
pub fn zeros(length: usize) -> io::Result<Vec<u8>> {
    let mut zeros = Vec::new();
    zeros.try_reserve_exact(length).map_err(missing)?;
    zeros.resize(length, 0);
    Ok(zeros)
}

/// So many bytes more behind those that are there, each 0.
pub fn more(bytes: &mut Vec<u8>, length: usize) -> io::Result<()> {
    bytes.try_reserve_exact(length).map_err(missing)?;
    bytes.resize(bytes.len().saturating_add(length), 0);
    Ok(())
}

fn missing(_: std::collections::TryReserveError) -> io::Error {
    ErrorKind::OutOfMemory.into()
}

/// What is gathered to be written at once.
#[derive(Default)]
pub struct Gathered(pub Vec<u8>);

impl Write for Gathered {
    fn write(&mut self, bytes: &[u8]) -> io::Result<usize> {
        self.0.try_reserve(bytes.len()).map_err(missing)?;
        self.0.extend_from_slice(bytes);
        Ok(bytes.len())
    }

    fn flush(&mut self) -> io::Result<()> {
        Ok(())
    }
}
