// Running the program that is compared, within a time limit.

use std::io::{Read, Write};
use std::path::{Path, PathBuf};
use std::process::{Child, Command, ExitStatus, Stdio};
use std::sync::mpsc;
use std::time::{Duration, Instant};

/// What the program is given.
pub enum Given<'a> {
    Files(&'a [PathBuf]),
    /// A text on standard input.
    Input(&'a [u8]),
}

pub struct Program {
    pub path: PathBuf,
    /// Whether the status counts. It does not where a file cannot be opened.
    pub status_counts: bool,
    pub limit: Duration,
}

impl Program {
    pub fn new(path: &Path) -> Program {
        Program { path: path.to_path_buf(), status_counts: true, limit: Duration::from_secs(60) }
    }

    /// What it prints, or in a word how it failed. It may print at most `most` bytes.
    pub fn run(&self, given: Given, hours: bool, most: usize) -> Result<Vec<u8>, String> {
        let start = Instant::now();
        let mut child = self.spawn(&given, hours)?;
        let printed = std::thread::scope(|scope| {
            if let (Given::Input(text), Some(mut input)) = (&given, child.stdin.take()) {
                // A program that stops reading early is found by what it prints.
                scope.spawn(move || drop(input.write_all(text)));
            }
            let output = child.stdout.take().ok_or("no output")?;
            let (sender, receiver) = mpsc::channel();
            scope.spawn(move || {
                let mut printed = Vec::new();
                let read = output.take(most as u64 + 1).read_to_end(&mut printed);
                drop(sender.send(read.map(|_| printed)));
            });
            let printed = receiver.recv_timeout(self.limit);
            if !matches!(&printed, Ok(Ok(printed)) if printed.len() <= most) {
                drop(child.kill());
            }
            match printed {
                Err(_) => Err("it hangs".to_string()),
                Ok(Err(error)) => Err(format!("its output cannot be read: {error}")),
                Ok(Ok(printed)) => Ok(printed),
            }
        });
        let status = self.ending(&mut child, start)?;
        let printed = printed?;
        let failed = if self.status_counts { !status.success() } else { status.code().is_none() };
        if failed && printed.len() <= most {
            return Err(format!("it ended with {status}"));
        }
        Ok(printed)
    }

    fn spawn(&self, given: &Given, hours: bool) -> Result<Child, String> {
        let mut command = Command::new(&self.path);
        command.arg("--tab").stdout(Stdio::piped()).stderr(Stdio::null());
        if hours {
            command.arg("--hours");
        }
        match given {
            Given::Files(files) => command.args(*files).stdin(Stdio::null()),
            Given::Input(_) => command.stdin(Stdio::piped()),
        };
        command.spawn().map_err(|error| format!("{} does not start: {error}", self.path.display()))
    }

    /// Waits for the end of a program whose output is read or which was told to end.
    fn ending(&self, child: &mut Child, start: Instant) -> Result<ExitStatus, String> {
        loop {
            if let Some(status) = child.try_wait().map_err(|error| error.to_string())? {
                return Ok(status);
            }
            if start.elapsed() > self.limit + Duration::from_secs(1) {
                drop(child.kill());
                drop(child.wait());
                return Err("it hangs".to_string());
            }
            std::thread::sleep(Duration::from_micros(100));
        }
    }
}
