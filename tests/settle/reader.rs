// What `settle --tab` has to print, read from docs/HISTORY-FILE.md, document 01 and requests E2, E3 and E8 of
// document 02 alone. The point itself is the reference's, with the day that a refused closing names; tokens, grammar,
// weekdays and the figures of a sheet are worked out here.

#[allow(dead_code)]
#[path = "../reference/reference.rs"]
mod reference;

use reference::calls::{Call, Opening};
use reference::point::{self, Closed, Record, Refusal};
use std::sync::OnceLock;

const LINE_LIMIT: usize = 16_384;
const LIST_LIMIT: usize = 4_096;
const DIGIT_LIMIT: usize = 18;
const U32_LIMIT: u64 = 4_294_967_295;
const MARK_LIMIT: u64 = 255;
/// Behind `volume` and behind a source only the digits limit a number.
const NO_LIMIT: u64 = u64::MAX;

// ---- Calendar ----

fn days_in(year: u32, month: u32) -> u32 {
    let leap = year % 400 == 0 || (year % 4 == 0 && year % 100 != 0);
    match month {
        4 | 6 | 9 | 11 => 30,
        2 if leap => 29,
        2 => 28,
        _ => 31,
    }
}

/// The weekday (0 Monday to 6 Sunday) of the first day of each month from January 2014 to January 3000, found by
/// counting days on from 1 January 2014, a Wednesday.
fn first_weekdays() -> &'static [u32] {
    static FIRST: OnceLock<Vec<u32>> = OnceLock::new();
    FIRST.get_or_init(|| {
        let mut firsts = Vec::new();
        let mut weekday = 2;
        for year in 2014..=3000 {
            for month in 1..=12 {
                firsts.push(weekday);
                for _ in 0..days_in(year, month) {
                    weekday = if weekday == 6 { 0 } else { weekday + 1 };
                }
            }
        }
        firsts
    })
}

/// For each day of the month, whether it is a Monday to Friday.
fn week_days(year: u32, month: u32) -> Vec<bool> {
    let first = first_weekdays()[((year - 2014) * 12 + month - 1) as usize];
    (0..days_in(year, month)).map(|day| (first + day) % 7 < 5).collect()
}

// ---- Words of a line ----

#[derive(Clone, Copy, Debug, PartialEq)]
enum Token<'a> {
    Word(&'a [u8]),
    Number(u64),
    Count(u64),
    Mark(u8),
    End,
    Other,
}

/// An error of a line: its column and its number.
#[derive(Clone, Copy, Debug, PartialEq)]
struct Fault {
    column: usize,
    error: u64,
}

/// A line, and the token that is to be looked at next.
struct Tokens<'a> {
    line: &'a [u8],
    /// Where the token starts; the column is one more.
    start: usize,
    /// Where the next search starts; equal to `start` as long as the token was not looked at.
    behind: usize,
    token: Option<Token<'a>>,
}

fn is_blank(byte: u8) -> bool {
    matches!(byte, b' ' | b'\t' | b'\r')
}

/// How many bytes at the front are of the kind.
fn span(bytes: &[u8], kind: fn(&u8) -> bool) -> usize {
    bytes.iter().take_while(|b| kind(b)).count()
}

impl<'a> Tokens<'a> {
    fn new(line: &'a [u8]) -> Tokens<'a> {
        Tokens { line, start: 0, behind: 0, token: None }
    }

    /// The error with this number at the token looked at.
    fn fault<T>(&self, error: u64) -> Result<T, Fault> {
        Err(Fault { column: self.start + 1, error })
    }

    /// The next token, which stays the next one.
    fn look(&mut self) -> Result<Token<'a>, Fault> {
        if let Some(token) = self.token {
            return Ok(token);
        }
        let line = self.line;
        self.start = self.behind + span(&line[self.behind..], |b| is_blank(*b));
        let rest = &line[self.start..];
        let (length, token) = match rest.first() {
            None | Some(b'#') => (0, Token::End),
            Some(b'(' | b')' | b'-') => (1, Token::Mark(rest[0])),
            Some(b'0'..=b'9') => self.digits(rest)?,
            Some(b) if b.is_ascii_alphabetic() => {
                let length = span(rest, u8::is_ascii_alphabetic);
                (length, Token::Word(&rest[..length]))
            }
            Some(33..=126) => (1, Token::Other),
            Some(_) => return self.fault(2),
        };
        self.behind = self.start + length;
        self.token = Some(token);
        Ok(token)
    }

    /// A number, or a count where `*` stands directly behind the digits.
    fn digits(&self, rest: &'a [u8]) -> Result<(usize, Token<'a>), Fault> {
        let length = span(rest, u8::is_ascii_digit);
        if length > DIGIT_LIMIT {
            return self.fault(13);
        }
        let value = rest[..length].iter().fold(0, |value, digit| value * 10 + u64::from(digit - b'0'));
        match rest.get(length) {
            Some(b'*') => Ok((length + 1, Token::Count(value))),
            _ => Ok((length, Token::Number(value))),
        }
    }

    /// Goes behind the token that was looked at.
    fn pass(&mut self) {
        self.token = None;
    }

    /// The place of the next word among these; none where something else stands, which is not passed.
    fn one_of(&mut self, words: &[&str]) -> Result<Option<usize>, Fault> {
        let Token::Word(word) = self.look()? else { return Ok(None) };
        let place = words.iter().position(|known| word.eq_ignore_ascii_case(known.as_bytes()));
        if place.is_some() {
            self.pass();
        }
        Ok(place)
    }

    /// A number up to the limit; anything that is no number is the error.
    fn number(&mut self, limit: u64, error: u64) -> Result<u64, Fault> {
        match self.look()? {
            Token::Number(value) if value > limit => self.fault(13),
            Token::Number(value) => {
                self.pass();
                Ok(value)
            }
            _ => self.fault(error),
        }
    }

    /// One of these words, by its number, or a number itself.
    fn named(&mut self, words: &[(&str, u32)], error: u64) -> Result<u32, Fault> {
        let names: Vec<&str> = words.iter().map(|(name, _)| *name).collect();
        match self.one_of(&names)? {
            Some(place) => Ok(words[place].1),
            None => Ok(self.number(U32_LIMIT, error)? as u32),
        }
    }

    fn mark(&mut self, mark: u8, error: u64) -> Result<(), Fault> {
        if self.look()? != Token::Mark(mark) {
            return self.fault(error);
        }
        self.pass();
        Ok(())
    }

    fn end(&mut self) -> Result<(), Fault> {
        match self.look()? {
            Token::End => Ok(()),
            _ => self.fault(20),
        }
    }
}

// ---- Lists ----

/// A list while it is read. Numbers between parentheses stand in it once until their `)` is read.
struct List {
    numbers: Vec<u32>,
    /// The largest number it takes.
    limit: u64,
    /// For each day that `week` stands for, whether it is a Monday to Friday.
    week: Vec<bool>,
}

impl List {
    /// Takes the number that comes next, `count` times.
    fn number(&mut self, tokens: &mut Tokens, count: u64, error: u64) -> Result<(), Fault> {
        let Token::Number(value) = tokens.look()? else { return tokens.fault(error) };
        if value > self.limit {
            return tokens.fault(13);
        }
        let length = self.numbers.len() + count as usize;
        if length > LIST_LIMIT {
            return tokens.fault(18);
        }
        self.numbers.resize(length, value as u32);
        tokens.pass();
        Ok(())
    }

    /// Passes a count, if it is not above its limit.
    fn count(&mut self, tokens: &mut Tokens, count: u64) -> Result<(), Fault> {
        if count > LIST_LIMIT as u64 {
            return tokens.fault(18);
        }
        tokens.pass();
        Ok(())
    }

    /// The items behind `(`, up to the `)`, which is looked at and not yet passed.
    fn items(&mut self, tokens: &mut Tokens) -> Result<(), Fault> {
        let mut first = true;
        loop {
            match tokens.look()? {
                Token::Number(_) => self.number(tokens, 1, 16)?,
                Token::Count(count) => {
                    self.count(tokens, count)?;
                    self.number(tokens, count, 19)?;
                }
                Token::Mark(b')') if !first => return Ok(()),
                _ => return tokens.fault(16),
            }
            first = false;
        }
    }

    /// What stands behind a count outside parentheses.
    fn repeated(&mut self, tokens: &mut Tokens, count: u64) -> Result<(), Fault> {
        if tokens.look()? != Token::Mark(b'(') {
            return self.number(tokens, count, 19);
        }
        tokens.pass();
        let start = self.numbers.len();
        self.items(tokens)?;
        let group = self.numbers.split_off(start);
        if start + count as usize * group.len() > LIST_LIMIT {
            return tokens.fault(18);
        }
        tokens.pass();
        (0..count).for_each(|_| self.numbers.extend_from_slice(&group));
        Ok(())
    }

    /// A day of `week`, up to its `)`, which is looked at and not yet passed.
    fn day(&mut self, tokens: &mut Tokens) -> Result<(), Fault> {
        tokens.mark(b'(', 15)?;
        let start = self.numbers.len();
        self.items(tokens)?;
        if self.numbers.len() - start != 24 {
            return tokens.fault(17);
        }
        Ok(())
    }

    /// What stands behind `week`: the days' patterns give way to the days of the month.
    fn days(&mut self, tokens: &mut Tokens) -> Result<(), Fault> {
        let start = self.numbers.len();
        self.day(tokens)?;
        tokens.pass();
        self.day(tokens)?;
        let patterns = self.numbers.split_off(start);
        if start + 24 * self.week.len() > LIST_LIMIT {
            return tokens.fault(18);
        }
        tokens.pass();
        for working in &self.week {
            let pattern = if *working { &patterns[..24] } else { &patterns[24..] };
            self.numbers.extend_from_slice(pattern);
        }
        Ok(())
    }

    /// One part that starts with a number or a count; false where neither stands.
    fn plain_part(&mut self, tokens: &mut Tokens) -> Result<bool, Fault> {
        match tokens.look()? {
            Token::Number(_) => self.number(tokens, 1, 14)?,
            Token::Count(count) => {
                self.count(tokens, count)?;
                self.repeated(tokens, count)?;
            }
            _ => return Ok(false),
        }
        Ok(true)
    }

    /// One part; anything else is error 14.
    fn part(&mut self, tokens: &mut Tokens) -> Result<(), Fault> {
        if self.plain_part(tokens)? {
            return Ok(());
        }
        match tokens.one_of(&["week"])? {
            Some(_) => self.days(tokens),
            None => tokens.fault(14),
        }
    }
}

/// The list of hours or marks, which goes to the end of the line.
fn list(tokens: &mut Tokens, limit: u64, week: Vec<bool>) -> Result<Vec<u32>, Fault> {
    let mut list = List { numbers: Vec::new(), limit, week };
    if tokens.one_of(&["none"])?.is_some() {
        tokens.end()?;
        return Ok(list.numbers);
    }
    list.part(tokens)?;
    while tokens.look()? != Token::End {
        list.part(tokens)?;
    }
    Ok(list.numbers)
}

/// The list of currents, which has at least one part and goes to the next word or the end of the line.
fn currents(tokens: &mut Tokens) -> Result<Vec<u32>, Fault> {
    let mut list = List { numbers: Vec::new(), limit: U32_LIMIT, week: Vec::new() };
    if !list.plain_part(tokens)? {
        return tokens.fault(14);
    }
    while list.plain_part(tokens)? {}
    match tokens.look()? {
        Token::Word(_) | Token::End => Ok(list.numbers),
        _ => tokens.fault(14),
    }
}

// ---- Calls ----

/// A line that is a call.
#[derive(Clone, Debug, PartialEq)]
enum Request {
    Open(Opening),
    Other(Call),
}

impl Request {
    /// "Calls by number".
    fn number(&self) -> u64 {
        match self {
            Request::Open(_) => 1,
            Request::Other(Call::BillingHours(_)) => 2,
            Request::Other(Call::BillingVolume(_)) => 3,
            Request::Other(Call::ControlHours(_)) => 4,
            Request::Other(Call::ControlVolume(_)) => 5,
            Request::Other(Call::Neighbour { .. }) => 6,
            Request::Other(Call::Failure { .. }) => 7,
            Request::Other(Call::Admission) => 8,
            Request::Other(Call::Denial) => 9,
            Request::Other(Call::Permission) => 10,
            Request::Other(Call::Close { .. }) => 11,
        }
    }
}

const CALLS: [&str; 9] =
    ["open", "billing", "control", "neighbour", "failure", "admission", "denial", "permission", "close"];
const ARGUMENTS: [&str; 10] =
    ["billing", "control", "basis", "power", "place", "currents", "amperes", "volts", "cosine", "phases"];
const METERS: [(&str, u32); 3] = [("none", 0), ("interval", 1), ("integral", 2)];
const BASES: [(&str, u32); 3] = [("agreed", 1), ("shared", 2), ("cable", 3)];
const SOURCES: [(&str, u32); 2] = [("billing", 1), ("control", 2)];
const REASONS: [(&str, u32); 4] = [("fault", 1), ("loss", 2), ("verification", 3), ("removal", 4)];

/// What stands behind `open`.
fn opening(tokens: &mut Tokens) -> Result<Request, Fault> {
    let year = tokens.number(U32_LIMIT, 4)? as u32;
    tokens.mark(b'-', 5)?;
    let month = tokens.number(U32_LIMIT, 4)? as u32;
    let mut opening = Opening { year, month, ..Opening::default() };
    let mut given = [false; ARGUMENTS.len()];
    while tokens.look()? != Token::End {
        let Token::Word(word) = tokens.look()? else { return tokens.fault(6) };
        let known = ARGUMENTS.iter().position(|name| word.eq_ignore_ascii_case(name.as_bytes()));
        let Some(place) = known else { return tokens.fault(6) };
        if given[place] {
            return tokens.fault(7);
        }
        given[place] = true;
        tokens.pass();
        argument(tokens, ARGUMENTS[place], &mut opening)?;
    }
    Ok(Request::Open(opening))
}

/// The value behind an argument's word.
fn argument(tokens: &mut Tokens, name: &str, opening: &mut Opening) -> Result<(), Fault> {
    let field = match name {
        "billing" | "control" => {
            let meter = tokens.named(&METERS, 8)?;
            *(if name == "billing" { &mut opening.billing } else { &mut opening.control }) = meter;
            return Ok(());
        }
        "basis" => {
            opening.basis = tokens.named(&BASES, 9)?;
            return Ok(());
        }
        "currents" => {
            opening.currents = currents(tokens)?;
            return Ok(());
        }
        "power" => &mut opening.power,
        "place" => &mut opening.place,
        "amperes" => &mut opening.amperes,
        "volts" => &mut opening.volts,
        "cosine" => &mut opening.cosine,
        _ => &mut opening.phases,
    };
    *field = tokens.number(U32_LIMIT, 4)? as u32;
    Ok(())
}

/// What stands behind `billing` or `control` as a call.
fn reading(tokens: &mut Tokens, billing: bool, week: Vec<bool>) -> Result<Call, Fault> {
    let in_hours = match tokens.one_of(&["hours", "volume"])? {
        Some(place) => place == 0,
        None => return tokens.fault(10),
    };
    if in_hours {
        let hours = list(tokens, U32_LIMIT, week)?;
        return Ok(if billing { Call::BillingHours(hours) } else { Call::ControlHours(hours) });
    }
    let volume = tokens.number(NO_LIMIT, 4)?;
    Ok(if billing { Call::BillingVolume(volume) } else { Call::ControlVolume(volume) })
}

/// Reads a line. None is a line without a call. `week` has the days of the month that is open.
fn request(line: &[u8], week: impl Fn() -> Vec<bool>) -> Result<Option<Request>, Fault> {
    if line.len() > LINE_LIMIT {
        return Err(Fault { column: LINE_LIMIT + 1, error: 1 });
    }
    let tokens = &mut Tokens::new(line);
    if tokens.look()? == Token::End {
        return Ok(None);
    }
    let Some(place) = tokens.one_of(&CALLS)? else { return tokens.fault(3) };
    let call = match CALLS[place] {
        "open" => return Ok(Some(opening(tokens)?)),
        "billing" => reading(tokens, true, week())?,
        "control" => reading(tokens, false, week())?,
        "neighbour" => {
            let source = tokens.named(&SOURCES, 11)?;
            Call::Neighbour { source, volume: tokens.number(NO_LIMIT, 4)? }
        }
        "failure" => Call::Failure { reason: tokens.named(&REASONS, 12)? },
        "admission" => Call::Admission,
        "denial" => Call::Denial,
        "permission" => Call::Permission,
        _ => {
            let marks = list(tokens, MARK_LIMIT, week())?;
            Call::Close { marks: marks.iter().map(|mark| *mark as u8).collect() }
        }
    };
    tokens.end()?;
    Ok(Some(Request::Other(call)))
}

// ---- The sheet ----

/// A closing that was accepted: the record before it, the rows and the record's total after it. Where a sheet asks for
/// a row, the closing had no billing reading and left rows 0 to 11 as they were.
struct Closing<'a> {
    before: &'a Record,
    marks: &'a [u8],
    closed: &'a Closed,
    rows: &'a [u32],
    total: u64,
}

impl Closing<'_> {
    fn has(&self, reading: usize) -> bool {
        self.before.given[reading] == 1
    }

    /// n, the hours with mark 1 or 3.
    fn peaks(&self) -> u64 {
        self.marks.iter().filter(|mark| *mark % 2 == 1).count() as u64
    }

    /// d, the days with a mark 2 or 3.
    fn working_days(&self) -> u64 {
        self.marks.chunks(24).filter(|day| day.iter().any(|mark| *mark >= 2)).count() as u64
    }

    fn clause(&self) -> u64 {
        if self.has(point::BILLING) {
            0
        } else if self.before.denials == 2 {
            178
        } else if self.before.serving == 0 {
            179
        } else {
            166
        }
    }

    /// B or K.
    fn reading_used(&self) -> u64 {
        match self.closed.ground {
            2 => self.before.volumes[point::BILLING],
            4..=6 => self.before.volumes[point::CONTROL],
            _ => 0,
        }
    }

    /// N: the neighbour's billing meter if given, else its control meter, else 0.
    fn neighbour(&self) -> u64 {
        if self.has(point::NEIGHBOUR_1) {
            self.before.volumes[point::NEIGHBOUR_1]
        } else if self.has(point::NEIGHBOUR_2) {
            self.before.volumes[point::NEIGHBOUR_2]
        } else {
            0
        }
    }

    /// P in kW. On basis 3: I × U × c / 1,500,000 with one phase, / 500,000 with three, rounded half up.
    fn power(&self) -> u64 {
        let contract = &self.before.contract;
        if contract.basis != 3 {
            return u64::from(contract.power);
        }
        let cosine = if contract.cosine == 0 { 900 } else { u64::from(contract.cosine) };
        let divisor = if contract.phases == 1 { 1_500_000 } else { 500_000 };
        let product = u64::from(contract.amperes) * u64::from(contract.volts) * cosine;
        half_up(u128::from(product), divisor)
    }

    /// R: the run plus 1, and 3 if that is less while denials are 2.
    fn r(&self) -> u64 {
        let next = u64::from(self.before.run) + 1;
        if self.before.denials == 2 && next < 3 {
            3
        } else {
            next
        }
    }

    /// Year and month of the past, used or not.
    fn past(&self) -> Option<(u32, u32)> {
        let (year, month) = (self.before.year, self.before.month);
        if self.before.years[month as usize - 1] == year - 1 {
            return Some((year - 1, month));
        }
        match self.before.latest {
            0 => None,
            latest if latest % 12 == 0 => Some((latest / 12 - 1, 12)),
            latest => Some((latest / 12, latest % 12)),
        }
    }

    /// C' where grounds 6 and 5 are compared, else 0.
    fn compared_capacity(&self) -> u64 {
        let control = self.has(point::CONTROL) && self.before.contract.control == 2;
        let compared = control && !self.has(point::BILLING) && self.r() >= 3 && self.peaks() > 0;
        let Some((year, month)) = self.past().filter(|_| compared) else { return 0 };
        let row = &self.rows[744 * (month as usize - 1)..];
        let length = 24 * days_in(year, month) as usize;
        let hour = |h: usize| u64::from(if h < length { row[h] } else { row[h - 168] });
        let weights: Vec<u64> = (0..self.marks.len()).map(hour).collect();
        let volume = self.before.volumes[point::CONTROL].saturating_sub(self.neighbour());
        let shares = share(volume, weights);
        shares.iter().zip(self.marks).filter(|(_, mark)| **mark >= 2).map(|(hour, _)| hour).sum()
    }

    /// The numbers of the sheet, in order.
    fn sheet(&self, line: u64) -> [u64; 22] {
        let (n, power, volume) = (self.peaks(), self.power(), self.closed.volume);
        let (past_year, past_month) = self.past().unwrap_or((0, 0));
        [
            line,
            u64::from(self.before.year),
            u64::from(self.before.month),
            self.marks.len() as u64,
            u64::from(self.closed.ground),
            self.clause(),
            volume,
            self.reading_used(),
            self.neighbour(),
            power,
            n,
            volume.min(n * power),
            self.working_days(),
            self.closed.capacity_sum,
            self.compared_capacity(),
            u64::from(self.before.run),
            u64::from(self.before.denials),
            self.r(),
            u64::from(past_year),
            u64::from(past_month),
            self.closed.capacity,
            self.total,
        ]
    }
}

/// The quotient rounded to the nearest whole number, and to the greater of two that are equally near.
fn half_up(dividend: u128, divisor: u128) -> u64 {
    ((dividend + divisor / 2) / divisor) as u64
}

/// Hour h gets V × s(h)/S rounded half up less the same at h − 1; if S = 0, all weights are taken as 1.
fn share(volume: u64, mut weights: Vec<u64>) -> Vec<u64> {
    if weights.iter().all(|weight| *weight == 0) {
        weights.fill(1);
    }
    let sum = u128::from(weights.iter().sum::<u64>());
    let (mut so_far, mut before) = (0, 0);
    let mut hour = |weight: &u64| {
        so_far += u128::from(*weight);
        let rounded = half_up(u128::from(volume) * so_far, sum);
        rounded - std::mem::replace(&mut before, rounded)
    };
    weights.iter().map(&mut hour).collect()
}

// ---- Answers ----

/// The answers so far, and what the record `end` counts.
struct Answers {
    printed: Vec<u8>,
    hours: bool,
    accepted: u64,
    refused: u64,
    errors: u64,
}

fn print_number(printed: &mut Vec<u8>, mut number: u64) {
    let mut digits = [0; 20];
    let mut first = digits.len();
    while first == digits.len() || number > 0 {
        first -= 1;
        digits[first] = b'0' + (number % 10) as u8;
        number /= 10;
    }
    printed.extend_from_slice(&digits[first..]);
}

impl Answers {
    fn record(&mut self, word: &str, numbers: impl IntoIterator<Item = u64>) {
        self.printed.extend_from_slice(word.as_bytes());
        for number in numbers {
            self.printed.push(b'\t');
            print_number(&mut self.printed, number);
        }
        self.printed.push(b'\n');
    }

    fn error(&mut self, line: u64, column: u64, error: u64) {
        self.errors += 1;
        self.record("error", [line, column, error]);
    }

    /// Answers a call with its refusal and the refusal's day, 0 and 0 for an accepted one.
    fn call(&mut self, line: u64, call: u64, refusal: Option<Refusal>) {
        *(if refusal.is_none() { &mut self.accepted } else { &mut self.refused }) += 1;
        let (number, day) = refusal.map_or((0, 0), |refusal| (refusal.number, refusal.wrong_day));
        self.record("call", [line, call, u64::from(number), day]);
    }
}

/// A history as it is played.
struct History {
    record: Record,
    store: Vec<u32>,
}

impl History {
    /// The days that `week` stands for now: none where no point is open.
    fn week(&self) -> Vec<bool> {
        if self.record.is_open() {
            week_days(self.record.year, self.record.month)
        } else {
            Vec::new()
        }
    }

    fn line(&mut self, number: u64, line: &[u8], answers: &mut Answers) {
        match request(line, || self.week()) {
            Ok(None) => {}
            Ok(Some(request)) => self.call(number, &request, answers),
            Err(fault) => answers.error(number, fault.column as u64, fault.error),
        }
    }

    fn call(&mut self, line: u64, request: &Request, answers: &mut Answers) {
        let before = self.record.clone();
        let mut buffer = [0; 744];
        let answer = match request {
            Request::Open(opening) => {
                point::open(&mut self.record, &mut self.store, opening).map(|()| None).map_err(Refusal::from)
            }
            Request::Other(call) => point::apply(&mut self.record, &mut self.store, &mut buffer, call),
        };
        answers.call(line, request.number(), answer.err());
        let (Ok(Some(closed)), Request::Other(Call::Close { marks })) = (&answer, request) else { return };
        let closing =
            Closing { before: &before, marks, closed, rows: &self.store[..744 * 12], total: self.record.total };
        answers.record("sheet", closing.sheet(line));
        if answers.hours {
            let hours = buffer[..marks.len()].iter().map(|hour| u64::from(*hour));
            answers.record("hours", std::iter::once(line).chain(hours));
        }
    }
}

/// What `settle --tab`, with `hours` also `--hours`, has to print for files of these contents; None is a file that
/// cannot be opened.
pub fn answers(files: &[Option<Vec<u8>>], hours: bool) -> Vec<u8> {
    let mut answers = Answers { printed: Vec::new(), hours, accepted: 0, refused: 0, errors: 0 };
    for (file, number) in files.iter().zip(1..) {
        answers.record("file", [number]);
        let Some(text) = file else {
            answers.error(0, 0, 0);
            continue;
        };
        let mut history = History { record: Record::default(), store: vec![0; point::STORE] };
        for (line, number) in text.split(|byte| *byte == b'\n').zip(1..) {
            history.line(number, line, &mut answers);
        }
    }
    let calls = answers.accepted + answers.refused;
    answers.record("end", [calls, answers.accepted, answers.refused, answers.errors]);
    answers.printed
}

#[cfg(test)]
mod tests {
    use super::*;

    const OPEN: &str = "open 2023-01 billing interval control integral basis agreed power 1";
    const WORKING: &str = "8*0 3 11*1 4*0";

    fn records(text: &[u8], hours: bool) -> Vec<String> {
        let printed = answers(&[Some(text.to_vec())], hours);
        let records: Vec<String> = String::from_utf8(printed).unwrap().lines().map(str::to_string).collect();
        assert_eq!(records[0], "file\t1");
        records[1..records.len() - 1].to_vec()
    }

    /// Column and error of a line, (0, 0) where it is a call, none where it is no call.
    fn said(line: &[u8]) -> Option<(usize, u64)> {
        match request(line, Vec::new) {
            Ok(None) => None,
            Ok(Some(_)) => Some((0, 0)),
            Err(fault) => Some((fault.column, fault.error)),
        }
    }

    fn says(line: &str, column: usize, error: u64) {
        assert_eq!(said(line.as_bytes()), Some((column, error)), "{line}");
    }

    fn is_call(line: &str) {
        says(line, 0, 0);
    }

    fn numbers_of(list: &str, week: Vec<bool>) -> Vec<u32> {
        let mut tokens = Tokens::new(list.as_bytes());
        super::list(&mut tokens, U32_LIMIT, week).unwrap()
    }

    fn tokens_of(line: &str) -> Vec<(usize, Token<'_>)> {
        let mut tokens = Tokens::new(line.as_bytes());
        let mut found = Vec::new();
        while found.last().is_none_or(|(_, token)| *token != Token::End) {
            let token = tokens.look().unwrap();
            found.push((tokens.start + 1, token));
            tokens.pass();
        }
        found
    }

    // ---- Lines and tokens ----

    #[test]
    fn tokens_and_their_columns() {
        let found = tokens_of(" Week8*(0 12)\t-\r007!*z9#x");
        let expected = vec![
            (2, Token::Word(b"Week")),
            (6, Token::Count(8)),
            (8, Token::Mark(b'(')),
            (9, Token::Number(0)),
            (11, Token::Number(12)),
            (13, Token::Mark(b')')),
            (15, Token::Mark(b'-')),
            (17, Token::Number(7)),
            (20, Token::Other),
            (21, Token::Other),
            (22, Token::Word(b"z")),
            (23, Token::Number(9)),
            (24, Token::End),
        ];
        assert_eq!(found, expected);
    }

    #[test]
    fn lines_without_a_call() {
        for line in ["", " \t\r", "#", "  # \u{0} \u{e9} 9999999999999999999"] {
            assert_eq!(said(line.as_bytes()), None);
        }
        assert_eq!(records(b"\n \n#\n\ndenial", false), ["call\t5\t9\t2\t0"]);
        assert_eq!(records(b"denial\ndenial\n", false), ["call\t1\t9\t2\t0", "call\t2\t9\t2\t0"]);
    }

    #[test]
    fn blanks_only_where_needed() {
        is_call("open2023-1billing1control0basis1power5");
        is_call("  OPEN 2023 - 01\tBILLING Interval\r");
        is_call("close week(24*0)(24*0)#");
        is_call("failure1");
        is_call("billing hours 24*1 2 3*4");
        says("billinghours 1", 1, 3);
        says("billing hours 3*45*6", 17, 19);
        says("billing hours 3 *4", 17, 14);
    }

    #[test]
    fn the_length_of_a_line() {
        let mut line = b"denial ".to_vec();
        line.resize(LINE_LIMIT, b' ');
        assert_eq!(said(&line), Some((0, 0)));
        line[0] = b'#';
        line.push(b'\r');
        assert_eq!(said(&line), Some((16_385, 1)));
        line = b"close ".to_vec();
        line.resize(LINE_LIMIT, b' ');
        assert_eq!(said(&line), Some((16_385, 14)));
    }

    // ---- Each error with its column ----

    #[test]
    fn error_1_a_long_line() {
        let text = [vec![b'#'; 16_385], b"\ndenial".to_vec()].concat();
        assert_eq!(records(&text, false), ["error\t1\t16385\t1", "call\t2\t9\t2\t0"]);
    }

    #[test]
    fn error_2_a_byte_that_is_no_text() {
        for byte in [0, 8, 11, 27, 127, 128, 255] {
            assert_eq!(said(&[b' ', byte]), Some((2, 2)));
            assert_eq!(said(&[b'o', b'p', b'e', b'n', byte]), Some((5, 2)));
            assert_eq!(said(&[b"denial ".as_slice(), &[byte]].concat()), Some((8, 2)));
            assert_eq!(said(&[b"close 2*".as_slice(), &[byte]].concat()), Some((9, 2)));
        }
    }

    #[test]
    fn error_3_a_call() {
        for line in ["x", "hours 1", "5", "(", "!", "-", "3*", "openn 2023-01", "week"] {
            says(line, 1, 3);
        }
        says(" admissionsss", 2, 3);
    }

    #[test]
    fn error_4_a_number() {
        says("open", 5, 4);
        says("open # x", 6, 4);
        says("open x", 6, 4);
        says("open 2023*1", 6, 4);
        says("open 2023-", 11, 4);
        says("open 2023-power", 11, 4);
        for name in ["power", "place", "amperes", "volts", "cosine", "phases"] {
            says(&format!("open 1-1 {name} -"), 11 + name.len(), 4);
        }
        says("billing volume hours", 16, 4);
        says("control volume", 15, 4);
        says("neighbour billing ", 19, 4);
        says("neighbour 1(", 12, 4);
    }

    #[test]
    fn error_5_between_year_and_month() {
        says("open 2023 01", 11, 5);
        says("open 2023", 10, 5);
        says("open 2023/01", 10, 5);
    }

    #[test]
    fn error_6_an_argument() {
        says("open 2023-01 5", 14, 6);
        says("open 2023-01 meter", 14, 6);
        says("open 2023-01 power 5 6", 22, 6);
        says("open 2023-01-", 13, 6);
        says("open 2023-01 currents 5 none", 25, 6);
        says("open 2023-01 currents 5 week (1) (1)", 25, 6);
    }

    #[test]
    fn error_7_given_already() {
        for name in ["power", "place", "currents", "amperes", "volts", "cosine", "phases", "billing", "control"] {
            says(&format!("open 1-1 {name} 1 {name}"), 10 + name.len() + 3, 7);
        }
        says("open 1-1 basis 1 power 1 BASIS", 26, 7);
    }

    #[test]
    fn errors_8_to_12_words_or_numbers() {
        says("open 1-1 billing agreed", 18, 8);
        says("open 1-1 control", 17, 8);
        says("open 1-1 basis none", 16, 9);
        says("open 1-1 basis 1*", 16, 9);
        says("billing", 8, 10);
        says("billing 5", 9, 10);
        says("control week", 9, 10);
        says("neighbour none 5", 11, 11);
        says("neighbour", 10, 11);
        says("failure", 8, 12);
        says("failure losses", 9, 12);
        is_call("failure verification");
        is_call("neighbour control 5");
    }

    #[test]
    fn error_13_too_large() {
        is_call("open 4294967295-4294967295 billing 4294967295 basis 4294967295 currents 4294967295");
        says("open 4294967296-1", 6, 13);
        says("open 1-4294967296", 8, 13);
        says("open 1-1 volts 4294967296", 16, 13);
        says("open 1-1 billing 4294967296", 18, 13);
        says("open 1-1 basis 4294967296", 16, 13);
        says("open 1-1 currents 2*4294967296", 21, 13);
        says("neighbour 4294967296 1", 11, 13);
        says("failure 4294967296", 9, 13);
        says("billing hours 1 4294967296", 17, 13);
        is_call("close 255");
        says("close 0*256", 9, 13);
        is_call("billing volume 999999999999999999");
        is_call("neighbour 1 000000000000000001");
        says("billing volume 0000000000000000001", 16, 13);
        for line in ["", "close ", "denial ", "open 1-", "close 5 ", "close 2*", "failure ", "open 1-1 "] {
            says(&format!("{line}1000000000000000000"), line.len() + 1, 13);
            says(&format!("{line}1000000000000000000*"), line.len() + 1, 13);
        }
        says("close 4097*256", 7, 18);
        says("close 4096*0 256", 14, 13);
    }

    #[test]
    fn error_14_a_part() {
        says("close", 6, 14);
        says("close #", 7, 14);
        says("close )", 7, 14);
        says("close (24*0)", 7, 14);
        says("close 1 weak", 9, 14);
        says("close 1 none", 9, 14);
        says("close 2*(1))", 12, 14);
        says("billing hours 1-", 16, 14);
        says("open 1-1 currents", 18, 14);
        says("open 1-1 currents power 5", 19, 14);
        says("open 1-1 currents 5 (", 21, 14);
        says("open 1-1 currents 5 -", 21, 14);
    }

    #[test]
    fn errors_15_to_17_week() {
        says("close week", 11, 15);
        says("close week 24*0", 12, 15);
        says("close week (24*0) 24*0", 19, 15);
        says("close week (24*0)#", 18, 15);
        says("close week ()", 13, 16);
        says("close week (24*0", 17, 16);
        says("close week (24*0 x)", 18, 16);
        says("close week (24*0 -)", 18, 16);
        says("close 2*(", 10, 16);
        says("close 2*()", 10, 16);
        says("close 2*((", 10, 16);
        says("close week (23*0)", 17, 17);
        says("close week (24*0) (25*0)", 24, 17);
        is_call("close week (0*5 24*0) (12*0 0 11*0)");
    }

    #[test]
    fn error_18_too_many() {
        is_call("close 4094*0 0*5 0*(1 2) 1 2");
        says("close 4097*0", 7, 18);
        says("close 4096*0 1", 14, 18);
        says("close 4000*0 97*1", 17, 18);
        says("close 2*(2048*0 1)", 18, 18);
        says("close 0*(4096*0 1)", 17, 18);
        says("close 4096*0 0*(1 2)", 17, 18);
        says("close 0*(4097*0)", 10, 18);
        is_call("close 4048*0 week (24*0) (24*0)");
        says("close 4049*0 week (24*0) (24*0)", 30, 18);
        says("close 4073*0 week (24*0) (24*0)", 23, 18);
        says("open 1-1 currents 4096*1 1", 26, 18);
    }

    #[test]
    fn errors_19_and_20() {
        says("close 5*", 9, 19);
        says("close 5*6*7", 9, 19);
        says("close 5*week", 9, 19);
        says("close 5*)", 9, 19);
        says("close 5*(5*(1", 12, 19);
        says("close 5*(5*)", 12, 19);
        says("close 5*(5*", 12, 19);
        says("close none 5", 12, 20);
        says("billing volume 5 6", 18, 20);
        says("neighbour 1 5 -", 15, 20);
        says("failure 1 2", 11, 20);
        for name in ["admission", "denial", "permission"] {
            says(&format!("{name} ."), name.len() + 2, 20);
        }
    }

    // ---- Lists and week ----

    #[test]
    fn lists() {
        assert_eq!(numbers_of("none", vec![]), []);
        assert_eq!(numbers_of("7 2*5 0*9 2*(1 2*3) 0*(8)", vec![]), [7, 5, 5, 1, 3, 3, 1, 3, 3]);
        assert_eq!(numbers_of("4096*1", vec![]).len(), 4_096);
        assert_eq!(numbers_of("week (24*1) (24*2) 3", vec![]), [3]);
        let two = numbers_of("9 week (24*1) (23*2 4)", vec![false, true]);
        assert_eq!((two.len(), two[0], two[1], two[24], two[25]), (49, 9, 2, 4, 1));
    }

    #[test]
    fn weeks_of_several_months() {
        let first_and_length =
            |year, month| (first_weekdays()[((year - 2014) * 12 + month - 1) as usize], days_in(year, month));
        assert_eq!(first_and_length(2014, 1), (2, 31));
        assert_eq!(first_and_length(2014, 2), (5, 28));
        assert_eq!(first_and_length(2016, 2), (0, 29));
        assert_eq!(first_and_length(2023, 1), (6, 31));
        assert_eq!(first_and_length(2024, 2), (3, 29));
        assert_eq!(first_and_length(2024, 3), (4, 31));
        assert_eq!(first_and_length(2100, 2), (0, 28));
        assert_eq!(first_and_length(2400, 2), (1, 29));
        // 400 years are whole weeks: 2600 begins as 2200 does, and January 3000 as January 2600.
        assert_eq!(first_and_length(2200, 1), (2, 31));
        assert_eq!(first_and_length(3000, 1), first_and_length(2600, 1));
        let working = |year, month| week_days(year, month).iter().filter(|day| **day).count();
        assert_eq!((working(2023, 1), working(2023, 2), working(2024, 2)), (22, 20, 21));
    }

    #[test]
    fn week_of_the_open_month() {
        let text = "open 2024-2 billing 1 basis 1 power 1\nbilling hours week (24*1) (24*0)\nclose week (24*0) (24*0)";
        let records = records(text.as_bytes(), true);
        let hours: Vec<&str> = records[4].split('\t').collect();
        assert_eq!((hours[0], hours.len()), ("hours", 2 + 29 * 24));
        // 1 February 2024 was a Thursday.
        let days: Vec<&str> = hours[2..].iter().step_by(24).take(8).copied().collect();
        assert_eq!(days, ["1", "1", "0", "0", "1", "1", "1", "1"]);
    }

    #[test]
    fn week_where_no_point_is_open() {
        let text = b"close week (24*0) (24*0)\nopen 2023-13\nclose 4090*0 0*week\nclose 4048*0 week (24*0) (24*0)";
        let expected = ["call\t1\t11\t2\t0", "call\t2\t1\t10\t0", "error\t3\t16\t19", "call\t4\t11\t2\t0"];
        assert_eq!(records(text, false), expected);
    }

    #[test]
    fn january_3000() {
        let text = "open 2999-12 billing 1 basis 1 power 1\nclose 744*0\nclose 3352*0 week (24*0) (24*0)\n\
                    close 3353*0 week (24*0) (24*0)\ndenial";
        let records = records(text.as_bytes(), false);
        let sheet = "sheet\t2\t2999\t12\t744\t8\t166\t744\t0\t0\t1\t0\t0\t0\t0\t0\t0\t0\t1\t0\t0\t0\t744";
        let [opened, closed] = ["call\t1\t1\t0\t0", "call\t2\t11\t0\t0"];
        let over = ["call\t3\t11\t3\t0", "error\t4\t31\t18", "call\t5\t9\t3\t0"];
        assert_eq!(records, [&[opened, closed, sheet], over.as_slice()].concat());
    }

    // ---- Days of refused closings ----

    /// Refusal and day of the calls behind an opening of February 2024, which has 29 days, the first a Thursday.
    fn refusals(calls: &[&str]) -> Vec<(u64, u64)> {
        let text = format!("open 2024-02 billing interval basis agreed power 1\n{}", calls.join("\n"));
        let records = records(text.as_bytes(), false);
        let numbers = |call: &str| call.split('\t').map(|number| number.parse().unwrap()).collect::<Vec<u64>>();
        let called: Vec<Vec<u64>> = records.iter().filter_map(|r| r.strip_prefix("call\t")).map(numbers).collect();
        assert!(called.iter().all(|call| call.len() == 4), "{called:?}");
        called[1..].iter().map(|call| (call[2], call[3])).collect()
    }

    #[test]
    fn the_first_wrong_day() {
        let peaks = ["close 17*1 2 678*0", "close 336*0 3 17*1 342*0", "close 28*(24*0) 3 23*1"];
        assert_eq!(refusals(&peaks), [(42, 1), (42, 15), (42, 29)]);
        let capacity = ["close 2*2 694*0", "close 14*(24*0) 22*0 2*3 336*0", "close 28*(24*0) 2 22*0 2"];
        assert_eq!(refusals(&capacity), [(43, 1), (43, 15), (43, 29)]);
        let alone = ["close 1 695*0", "close 240*0 1 239*0 1 215*0", "close 695*0 1"];
        assert_eq!(refusals(&alone), [(46, 1), (46, 11), (46, 29)]);
        let weeks = ["close week (1 23*0) (24*0)", "close week (24*0) (1 23*0)", "close week (24*0) (24*3)"];
        assert_eq!(refusals(&weeks), [(46, 1), (46, 3), (42, 3)]);
    }

    #[test]
    fn the_day_of_the_number_returned() {
        let earlier = ["close 1 23*0 2*2 670*0", "close 2*2 22*0 1 647*0 24*1", "close 24*1 24*3 648*0"];
        assert_eq!(refusals(&earlier), [(43, 2), (42, 29), (42, 1)]);
        let without = ["close 1 694*0", "close 1 694*0 4", "control volume 1", "close none", "close 696*0", "close 1"];
        assert_eq!(refusals(&without), [(40, 0), (41, 0), (20, 0), (40, 0), (0, 0), (40, 0)]);
    }

    // ---- Sheets ----

    /// The numbers of the last sheet of the history, behind its line.
    fn sheet(text: &str) -> Vec<u64> {
        let records = records(text.as_bytes(), false);
        let last = records.iter().rfind(|record| record.starts_with("sheet")).unwrap();
        last.split('\t').skip(2).map(|number| number.parse().unwrap()).collect()
    }

    #[test]
    fn sheet_of_hours_read() {
        let text = format!(
            "open 2023-01 billing interval control integral basis agreed power 100\n\
             billing hours 31*(8*20 12*60 4*20)\nclose week ({WORKING}) (24*0)"
        );
        // January 2023 has 22 working days; V = 31 × 24 × 40, n = 22 × 12, A = 264 × 100, C = 22 × 60.
        let expected = [2023, 1, 744, 1, 0, 29_760, 0, 0, 100, 264, 26_400, 22, 1_320, 0, 0, 0, 1, 0, 0, 60, 29_760];
        assert_eq!(sheet(&text), expected);
        // 21,000 by the past: 25/32 of each hour, so that a day has 750 and its hour 8 is 171.875 rounded to 172, less
        // 125: 47.
        let next = format!("{text}\nfailure fault\ncontrol volume 21000\nclose week ({WORKING}) (24*0)");
        let expected =
            [2023, 2, 672, 4, 179, 21_000, 21_000, 0, 100, 240, 21_000, 20, 940, 0, 0, 0, 1, 2023, 1, 47, 50_760];
        assert_eq!(sheet(&next), expected);
    }

    #[test]
    fn sheet_of_a_volume_read() {
        let text = "open 2023-01 billing integral basis shared power 10 place 2 currents 3*1\nneighbour control 100\n\
                    billing volume 1000\nclose 8*0 3 735*0";
        // 10 kW by 1, 1, 1 is 3, 4, 3, so place 2 has 3; n = 1, A = 3, which is all in the one peak hour; V = 900.
        let expected = [2023, 1, 744, 2, 0, 900, 1_000, 100, 3, 1, 3, 1, 3, 0, 0, 0, 1, 0, 0, 3, 900];
        assert_eq!(sheet(text), expected);
        let both = text.replace("neighbour control 100", "neighbour control 100\nneighbour billing 2000");
        let expected = [2023, 1, 744, 2, 0, 0, 1_000, 2_000, 3, 1, 0, 1, 0, 0, 0, 0, 1, 0, 0, 0, 0];
        assert_eq!(sheet(&both), expected);
    }

    #[test]
    fn sheets_of_grounds_5_and_6() {
        let months = |hours: &str| {
            format!(
                "{OPEN}00\nbilling hours {hours}\nclose 744*0\ndenial\ndenial\ncontrol volume 672\n\
                 close 28*({WORKING})"
            )
        };
        // All of the past is in the capacity hours, 24 each: C' = 28 × 24; A = min(672, 336 × 100).
        let expected =
            [2023, 2, 672, 6, 178, 672, 672, 0, 100, 336, 672, 28, 672, 672, 0, 2, 3, 2023, 1, 24, 744 + 672];
        assert_eq!(sheet(&months("31*(8*0 24 15*0)")), expected);
        // The past is even: C' = 28; the peak rule gives each of 336 peak hours 2.
        let expected = [2023, 2, 672, 5, 178, 672, 672, 0, 100, 336, 672, 28, 56, 28, 0, 2, 3, 2023, 1, 2, 744 + 672];
        assert_eq!(sheet(&months("744*1")), expected);
        // One kWh by an even past: 336/672 at hour 335 is a half, which counts up there: C' = 1, as A × d / n.
        let half = months("744*1").replace("672", "1").replace(&format!("28*({WORKING})"), "335*0 3 336*0");
        let expected = [2023, 2, 672, 5, 178, 1, 1, 0, 100, 1, 1, 1, 1, 1, 0, 2, 3, 2023, 1, 1, 744 + 1];
        assert_eq!(sheet(&half), expected);
    }

    #[test]
    fn shares_and_halves() {
        assert_eq!(share(10, vec![1, 1, 1]), [3, 4, 3]);
        assert_eq!(share(5, vec![0, 0]), [3, 2]);
        assert_eq!(share(7, vec![3, 0, 1]), [5, 0, 2]);
        assert_eq!(share(9, vec![4]), [9]);
        let quotients = [(0, 2), (1, 2), (7, 2), (1, 3), (2, 3), (7, 5), (8, 5), (2_250_000, 1_500_000)];
        assert_eq!(quotients.map(|(dividend, divisor)| half_up(dividend, divisor)), [0, 1, 4, 0, 1, 1, 2, 2]);
    }

    #[test]
    fn sheet_of_the_past() {
        let text = "open 2023-02 billing interval basis agreed power 1\nbilling hours 504*1 168*2\nclose 672*0\n\
                    denial\nclose 744*0";
        // March lacks nothing of February but its last 72 hours, which are those of 168 hours before, 2 each.
        let expected = [2023, 3, 744, 7, 166, 984, 0, 0, 1, 0, 0, 0, 0, 0, 0, 1, 1, 2023, 2, 0, 840 + 984];
        assert_eq!(sheet(text), expected);
    }

    #[test]
    fn sheets_without_reading_or_past() {
        let text = format!("{OPEN}\nclose 744*0\nclose 672*0\nclose 744*0");
        let expected = [2023, 3, 744, 8, 166, 744, 0, 0, 1, 0, 0, 0, 0, 0, 2, 0, 3, 0, 0, 0, 2_160];
        assert_eq!(sheet(&text), expected);
        let cable =
            "open 2023-04 billing 1 basis cable amperes 100 volts 230 phases 3\nfailure loss\nclose 30*(3 23*0)";
        // 41.4 kW: 29,808 in 720 hours, P 41. Hour 0 of day k is 41.4 (24k + 1) less 41.4 × 24k, both rounded half up:
        // 993.6k, which ends as 0.6k does, and 41.4 more, so 42 where 0.6k ends in .2 or .4, 41 else.
        let expected =
            [2023, 4, 720, 9, 179, 29_808, 0, 0, 41, 30, 1_230, 30, 41 * 30 + 12, 0, 0, 0, 1, 0, 0, 41, 29_808];
        assert_eq!(sheet(cable), expected);
    }

    #[test]
    fn files_and_counts() {
        let files = [Some(b"denial\nx\nopen 2023-01 billing 1 basis 1 power 1".to_vec()), None, Some(Vec::new())];
        let printed = String::from_utf8(answers(&files, false)).unwrap();
        let expected =
            "file\t1\ncall\t1\t9\t2\t0\nerror\t2\t1\t3\ncall\t3\t1\t0\t0\nfile\t2\nerror\t0\t0\t0\nfile\t3\n\
                        end\t2\t1\t1\t2\n";
        assert_eq!(printed, expected);
        assert_eq!(answers(&[], false), b"end\t0\t0\t0\t0\n");
    }
}
