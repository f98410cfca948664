//! Runs the scenario on standard input and prints its report: plain Rust, without the toolchain.

use std::io::{self, Read, Write};
use std::process::ExitCode;

unsafe extern "C" {
    fn cellar_run(
        scenario: *const u8,
        length: usize,
        buffer: *mut u8,
        capacity: usize,
        told: *mut usize,
    ) -> u8;
}

const DONE: u8 = 0;
const TOO_SMALL: u8 = 1;

/// The report of a scenario, or the status of why there is none.
fn report(scenario: &[u8]) -> Result<Vec<u8>, u8> {
    let mut buffer = vec![0; 64];
    loop {
        let mut told = 0;
        // The slices and the number are live, initialized and apart for as long as the call lasts.
        let status = unsafe {
            cellar_run(
                scenario.as_ptr(),
                scenario.len(),
                buffer.as_mut_ptr(),
                buffer.len(),
                &mut told,
            )
        };
        match status {
            DONE => {
                buffer.truncate(told);
                return Ok(buffer);
            }
            TOO_SMALL if told > buffer.len() => buffer.resize(told, 0),
            _ => return Err(status),
        }
    }
}

fn main() -> io::Result<ExitCode> {
    let mut scenario = Vec::new();
    io::stdin().read_to_end(&mut scenario)?;
    match report(&scenario) {
        Ok(text) => {
            io::stdout().write_all(&text)?;
            Ok(ExitCode::SUCCESS)
        }
        Err(status) => Ok(ExitCode::from(status)),
    }
}
