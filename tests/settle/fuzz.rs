// Compares what a program prints for history files with what `reader` says it has to print.
//
//     fuzz PROGRAM --inputs N --seed S [--batch B] [--keep DIR]    N files of seed S, B at a time
//     fuzz --input K --seed S                                      prints input K of seed S
//
// The first file on which the two differ, or on which the program fails, is shrunk and printed; the status is then 1.

use program::{Given, Program};
use std::io::Write;
use std::path::{Path, PathBuf};
use std::process::ExitCode;
use std::time::Duration;

mod inputs;
mod met;
mod program;
mod reader;

/// From so many inputs on, all errors, grounds and refusals have to be met.
const ALL_ARE_MET: u64 = 20_000;
/// How often a shrinking runs the program at most.
const SHRINK_RUNS: u64 = 4_000;
/// How long a single file may take.
const ALONE_LIMIT: Duration = Duration::from_secs(3);
/// Longer lines of a report, and further lines of it, are cut.
const REPORT_WIDTH: usize = 200;
const REPORT_LINES: usize = 100;

struct Options {
    program: Option<PathBuf>,
    inputs: u64,
    input: Option<u64>,
    seed: u64,
    batch: u64,
    keep: Option<PathBuf>,
}

fn options() -> Result<Options, String> {
    let mut options = Options { program: None, inputs: 20_000, input: None, seed: 1, batch: 500, keep: None };
    let mut arguments = std::env::args().skip(1);
    while let Some(argument) = arguments.next() {
        if !argument.starts_with("--") {
            options.program = Some(argument.into());
            continue;
        }
        let value = arguments.next().ok_or(format!("{argument} needs a value"))?;
        let number = value.parse::<u64>().map_err(|_| format!("{argument} needs a number"));
        match argument.as_str() {
            "--inputs" => options.inputs = number?,
            "--input" => options.input = Some(number?),
            "--seed" => options.seed = number?,
            "--batch" => options.batch = number?.max(1),
            "--keep" => options.keep = Some(value.into()),
            _ => return Err(format!("{argument} is not known")),
        }
    }
    Ok(options)
}

/// A folder for the files of a batch, which goes away with this value.
struct Folder(PathBuf);

impl Folder {
    fn new() -> std::io::Result<Folder> {
        let memory = Path::new("/dev/shm");
        let place = if memory.is_dir() { memory.to_path_buf() } else { std::env::temp_dir() };
        let folder = Folder(place.join(format!("settle-fuzz-{}", std::process::id())));
        std::fs::create_dir_all(&folder.0)?;
        Ok(folder)
    }

    fn path(&self, number: usize) -> PathBuf {
        self.0.join(format!("{number}.txt"))
    }

    /// Writes the file; one that cannot be opened is not there.
    fn write(&self, number: usize, file: &Option<Vec<u8>>) -> Result<PathBuf, String> {
        let path = self.path(number);
        let done = match file {
            Some(text) => std::fs::write(&path, text),
            None if path.exists() => std::fs::remove_file(&path),
            None => Ok(()),
        };
        done.map(|()| path).map_err(|error| error.to_string())
    }
}

impl Drop for Folder {
    fn drop(&mut self) {
        drop(std::fs::remove_dir_all(&self.0));
    }
}

/// How a file is given to the program.
#[derive(Clone, Copy, PartialEq)]
enum Way {
    File,
    StandardInput,
}

/// A file on which the program fails or differs.
struct Difference {
    text: Vec<u8>,
    way: Way,
    hours: bool,
    expected: Vec<u8>,
    /// What the program printed, or how it failed.
    found: Result<Vec<u8>, String>,
}

struct Fuzzer {
    program: Program,
    folder: Folder,
    met: met::Met,
}

fn most(expected: &[u8]) -> usize {
    2 * expected.len() + (1 << 20)
}

/// The answers of each file, with their record `file`.
fn by_file(printed: &[u8]) -> Vec<&[u8]> {
    let mut starts: Vec<usize> = (0..printed.len())
        .filter(|at| (*at == 0 || printed[at - 1] == b'\n') && printed[*at..].starts_with(b"file\t"))
        .collect();
    starts.push(printed.len());
    starts.windows(2).map(|pair| &printed[pair[0]..pair[1]]).collect()
}

impl Fuzzer {
    /// Gives the program this text alone.
    fn alone(&self, text: &[u8], way: Way, hours: bool) -> Option<Difference> {
        let files = [Some(text.to_vec())];
        let expected = reader::answers(&files, hours);
        let found = match way {
            Way::StandardInput => self.program.run(Given::Input(text), hours, most(&expected)),
            Way::File => self
                .folder
                .write(0, &files[0])
                .and_then(|path| self.program.run(Given::Files(&[path]), hours, most(&expected))),
        };
        let differs = found.as_ref() != Ok(&expected);
        differs.then(|| Difference { text: text.to_vec(), way, hours, expected, found })
    }

    /// Gives the program these files at once. Where something is wrong, gives the place of the first file that is
    /// wrong, and the difference: of the file alone if it is wrong alone, too.
    fn together(&mut self, files: &[Option<Vec<u8>>], hours: bool) -> Result<(), (usize, Difference)> {
        let expected = reader::answers(files, hours);
        let paths: Result<Vec<PathBuf>, String> = (0..).zip(files).map(|(k, f)| self.folder.write(k, f)).collect();
        self.program.status_counts = files.iter().all(Option::is_some);
        let found = paths.and_then(|paths| self.program.run(Given::Files(&paths), hours, most(&expected)));
        self.program.status_counts = true;
        if found.as_ref() == Ok(&expected) {
            self.met.answers(&expected);
            return Ok(());
        }
        self.program.limit = ALONE_LIMIT;
        Err(self.first_wrong(files, hours, &expected, found))
    }

    /// The first file of a batch that is wrong. Where the program printed no answers, each file is tried alone.
    fn first_wrong(
        &self,
        files: &[Option<Vec<u8>>],
        hours: bool,
        expected: &[u8],
        found: Result<Vec<u8>, String>,
    ) -> (usize, Difference) {
        let ours = by_file(expected);
        let first = found.as_ref().map_or(0, |found| {
            let same = ours.iter().zip(by_file(found)).take_while(|(our, their)| **our == *their).count();
            same.min(files.len() - 1)
        });
        let last = if found.is_ok() { first } else { files.len() - 1 };
        for (place, file) in files.iter().enumerate().take(last + 1).skip(first) {
            let difference = file.as_deref().and_then(|text| self.alone(text, Way::File, hours));
            if let Some(difference) = difference {
                return (place, difference);
            }
        }
        let found = found.map(|found| by_file(&found).get(first).copied().unwrap_or_default().to_vec());
        let text = files[first].clone().unwrap_or_default();
        (first, Difference { text, way: Way::File, hours, expected: ours[first].to_vec(), found })
    }

    /// A smaller text on which the program still is wrong: drops lines, then bytes.
    fn shrink(&mut self, difference: Difference) -> Difference {
        self.program.limit = ALONE_LIMIT;
        let mut runs = SHRINK_RUNS;
        let mut best = difference;
        loop {
            let length = best.text.len();
            best = self.drop_parts(best, &mut runs, |text| text.split_inclusive(|b| *b == b'\n').collect());
            best = self.drop_parts(best, &mut runs, |text| text.chunks(1).collect());
            if best.text.len() == length || runs == 0 {
                return best;
            }
        }
    }

    /// Drops parts of the text, many at once first, then fewer.
    fn drop_parts(&self, mut best: Difference, runs: &mut u64, parts: fn(&[u8]) -> Vec<&[u8]>) -> Difference {
        let mut size = parts(&best.text).len().max(1);
        loop {
            let mut first = 0;
            while first < parts(&best.text).len() && *runs > 0 {
                let all = parts(&best.text);
                let rest = [&all[..first], &all[(first + size).min(all.len())..]].concat().concat();
                *runs -= 1;
                match self.alone(&rest, best.way, best.hours) {
                    Some(smaller) => best = smaller,
                    None => first += size,
                }
            }
            if size == 1 || *runs == 0 {
                return best;
            }
            size = size.div_ceil(2);
        }
    }
}

// ---- Reports ----

fn print_lines(title: &str, text: &[u8]) {
    println!("{title}:");
    let text = text.strip_suffix(b"\n").unwrap_or(text);
    for (number, line) in text.split(|byte| *byte == b'\n').enumerate() {
        if number == REPORT_LINES {
            return println!("    ..");
        }
        let cut = if line.len() > REPORT_WIDTH { " .." } else { "" };
        println!("    {}{cut}", line[..line.len().min(REPORT_WIDTH)].escape_ascii());
    }
}

/// Both answers from shortly before the byte where they part.
fn print_parting(expected: &[u8], found: &[u8]) {
    let same = expected.iter().zip(found).take_while(|(our, their)| our == their).count();
    println!("they part at line {}:", 1 + expected[..same].iter().filter(|byte| **byte == b'\n').count());
    for (name, answers) in [("expected", expected), ("found", found)] {
        let part = &answers[same.saturating_sub(20)..answers.len().min(same + 20)];
        println!("    {name} .. {} ..", part.escape_ascii());
    }
}

fn print_difference(difference: &Difference) {
    let hours = if difference.hours { ", with --hours" } else { "" };
    let way = if difference.way == Way::File { "file" } else { "standard input" };
    print_lines(&format!("text ({} bytes, {way}{hours})", difference.text.len()), &difference.text);
    print_lines("expected", &difference.expected);
    match &difference.found {
        Ok(found) => {
            print_lines("found", found);
            print_parting(&difference.expected, found);
        }
        Err(failure) => println!("found: {failure}"),
    }
}

fn report(fuzzer: &mut Fuzzer, options: &Options, input: &str, difference: Difference) {
    println!("DIFFERENCE at seed {}, {input}", options.seed);
    print_difference(&difference);
    if fuzzer.alone(&difference.text, difference.way, difference.hours).is_none() {
        println!("the file alone makes no difference: the batch does");
        return;
    }
    let shrunk = fuzzer.shrink(difference);
    println!("SHRUNK");
    print_difference(&shrunk);
    let Some(folder) = &options.keep else { return };
    let name = format!("seed-{}-{}.txt", options.seed, input.replace(' ', "-"));
    let kept = std::fs::create_dir_all(folder).and_then(|()| std::fs::write(folder.join(&name), &shrunk.text));
    match kept {
        Ok(()) => println!("kept as {}", folder.join(name).display()),
        Err(error) => println!("not kept: {error}"),
    }
}

// ---- Batches ----

/// Compares one batch, which starts with this input. Gives what is to be reported.
fn batch(fuzzer: &mut Fuzzer, options: &Options, first: u64) -> Result<(), (String, Difference)> {
    let last = (first + options.batch - 1).min(options.inputs);
    let number = (first - 1) / options.batch;
    let hours = number % 2 == 0;
    let mut files: Vec<Option<Vec<u8>>> = (first..=last).map(|k| Some(inputs::input(options.seed, k))).collect();
    for text in files.iter().flatten() {
        fuzzer.met.input(text);
    }
    let joined = matches!(number % 8, 1 | 4).then(|| files.iter().flatten().flatten().copied().collect::<Vec<u8>>());
    if number % 16 == 2 {
        files.push(None);
        files.push(Some(b"denial\n".to_vec()));
    }
    let name = |place: usize| match files[place] {
        None => format!("behind input {last} a file that cannot be opened"),
        Some(_) => format!("input {}", first + place as u64),
    };
    fuzzer.together(&files, hours).map_err(|(place, difference)| (name(place), difference))?;
    let Some(joined) = joined else { return Ok(()) };
    match fuzzer.alone(&joined, Way::StandardInput, hours) {
        Some(difference) => Err((format!("inputs {first} to {last} joined"), difference)),
        None => Ok(()),
    }
}

fn fuzz(options: &Options, program: &Path) -> Result<bool, String> {
    if !program.is_file() {
        return Err(format!("there is no {}", program.display()));
    }
    let folder = Folder::new().map_err(|error| error.to_string())?;
    let mut fuzzer = Fuzzer { program: Program::new(program), folder, met: met::Met::default() };
    let mut first = 1;
    while first <= options.inputs {
        if let Err((input, difference)) = batch(&mut fuzzer, options, first) {
            report(&mut fuzzer, options, &input, difference);
            return Ok(false);
        }
        first += options.batch;
    }
    fuzzer.met.print();
    let missing = fuzzer.met.missing();
    if options.inputs >= ALL_ARE_MET && !missing.is_empty() {
        println!("NOT MET: {}", missing.join(", "));
        return Ok(false);
    }
    Ok(true)
}

fn print_input(seed: u64, number: u64) -> Result<bool, String> {
    std::io::stdout().lock().write_all(&inputs::input(seed, number)).map_err(|error| error.to_string())?;
    Ok(true)
}

fn main() -> ExitCode {
    let done = options().and_then(|options| match (&options.program, options.input) {
        (_, Some(input)) => print_input(options.seed, input),
        (Some(program), None) => fuzz(&options, program),
        (None, None) => Err("usage: fuzz PROGRAM --inputs N --seed S [--batch B] [--keep DIR]".to_string()),
    });
    match done {
        Ok(true) => ExitCode::SUCCESS,
        Ok(false) => ExitCode::FAILURE,
        Err(error) => {
            eprintln!("{error}");
            ExitCode::from(2)
        }
    }
}
