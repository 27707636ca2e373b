// reader [--hours] FILE ..: prints what `settle --tab [--hours] FILE ..` has to print; without a file, for standard
// input.

use std::io::{Read, Write};
use std::process::ExitCode;

mod reader;

fn standard_input() -> Option<Vec<u8>> {
    let mut text = Vec::new();
    std::io::stdin().lock().read_to_end(&mut text).ok()?;
    Some(text)
}

fn main() -> ExitCode {
    let mut hours = false;
    let mut files = Vec::new();
    for argument in std::env::args_os().skip(1) {
        if argument == "--hours" {
            hours = true;
        } else {
            files.push(std::fs::read(argument).ok());
        }
    }
    if files.is_empty() {
        files.push(standard_input());
    }
    match std::io::stdout().lock().write_all(&reader::answers(&files, hours)) {
        Ok(()) => ExitCode::SUCCESS,
        Err(_) => ExitCode::FAILURE,
    }
}
