// The history files of the fuzzer, each made from a seed and its own number alone.

/// Splitmix64.
pub struct Dice(u64);

impl Dice {
    pub fn new(seed: u64, number: u64) -> Dice {
        let mut dice = Dice(seed);
        dice.0 = dice.next() ^ number.wrapping_mul(0x9e37_79b9_7f4a_7c15);
        dice.0 = dice.next();
        dice
    }

    fn next(&mut self) -> u64 {
        self.0 = self.0.wrapping_add(0x9e37_79b9_7f4a_7c15);
        let mut z = self.0;
        z = (z ^ (z >> 30)).wrapping_mul(0xbf58_476d_1ce4_e5b9);
        z = (z ^ (z >> 27)).wrapping_mul(0x94d0_49bb_1331_11eb);
        z ^ (z >> 31)
    }

    fn below(&mut self, limit: u64) -> u64 {
        self.next() % limit
    }

    /// From the first to the last, both included.
    fn from(&mut self, first: u64, last: u64) -> u64 {
        first + self.below(last - first + 1)
    }

    fn place(&mut self, length: usize) -> usize {
        self.below(length as u64) as usize
    }

    fn one_in(&mut self, chances: u64) -> bool {
        self.below(chances) == 0
    }

    fn pick<'a, T: ?Sized>(&mut self, choices: &[&'a T]) -> &'a T {
        choices[self.place(choices.len())]
    }

    fn number_of(&mut self, choices: &[u64]) -> u64 {
        choices[self.place(choices.len())]
    }

    /// Mostly small, now and then near a limit of document 01 or of the file.
    fn value(&mut self) -> u64 {
        match self.below(40) {
            0..=13 => self.below(10),
            14..=29 => self.below(200),
            30..=36 => self.below(5_000),
            37 => self.below(1_000_001),
            38 => 0,
            _ => self.number_of(&[999_999, 1_000_000, 1_000_000, 1_000_001, 4_294_967_295]),
        }
    }
}

const WORDS: [&str; 38] = [
    "open",
    "billing",
    "control",
    "neighbour",
    "failure",
    "admission",
    "denial",
    "permission",
    "close",
    "hours",
    "volume",
    "none",
    "interval",
    "integral",
    "basis",
    "agreed",
    "shared",
    "cable",
    "power",
    "place",
    "currents",
    "amperes",
    "volts",
    "cosine",
    "phases",
    "fault",
    "loss",
    "verification",
    "removal",
    "week",
    "CLOSE",
    "Week",
    "x",
    "weeks",
    "hour",
    "verifications",
    "abcdefghijkl",
    "openopenopenopen",
];

/// Numbers at the limits of the file, as they are written.
const LIMITS: [&str; 26] = [
    "0",
    "3",
    "4",
    "24",
    "255",
    "256",
    "0255",
    "744",
    "4095",
    "4096",
    "4097",
    "8192",
    "65536",
    "1000000",
    "1000001",
    "4294967295",
    "4294967296",
    "00000000004294967295",
    "000000004294967295",
    "99999999999999999",
    "999999999999999999",
    "1000000000000000000",
    "9999999999999999999",
    "18446744073709551615",
    "18446744073709551616",
    "0000000000000000000",
];

const MARKS: [&str; 12] = ["(", ")", "-", "*", "#", "!", "(", ")", "/", "~", "\u{7f}", "\u{e9}"];

fn any_number(dice: &mut Dice) -> String {
    if dice.one_in(3) {
        dice.pick(&LIMITS).to_string()
    } else {
        dice.value().to_string()
    }
}

/// Input `number` of the seed.
pub fn input(seed: u64, number: u64) -> Vec<u8> {
    let dice = &mut Dice::new(seed, number);
    match dice.below(200) {
        0..=79 => history(dice),
        80..=153 => mutated(dice),
        154..=169 => lists(dice),
        170..=185 => any_tokens(dice),
        186..=198 => any_bytes(dice),
        _ => long_lines(dice),
    }
}

// ---- Well-formed histories ----

/// What the author of a history believes of the point, so that most of the calls fit it.
struct Author<'d> {
    dice: &'d mut Dice,
    text: Vec<u8>,
    year: u64,
    month: u64,
    billing: u64,
    control: u64,
    /// Of this month: billing and control reading given.
    given: [bool; 2],
    serving: bool,
    denials: u64,
    /// Whether the last opening was sound.
    open: bool,
    /// Whether months are closed one after the other, so that the same month of the next year is reached.
    hurry: bool,
}

fn history(dice: &mut Dice) -> Vec<u8> {
    let most = dice.number_of(&[3, 8, 15, 30]);
    let hurry = dice.one_in(8);
    let lines = if hurry { dice.from(15, 40) } else { dice.from(1, most) };
    let mut author = Author {
        dice,
        text: Vec::new(),
        year: 2023,
        month: 1,
        billing: 1,
        control: 0,
        given: [false; 2],
        serving: true,
        denials: 0,
        open: false,
        hurry,
    };
    if !author.dice.one_in(40) {
        author.open();
    }
    for _ in 1..lines {
        author.any_line();
    }
    if author.dice.one_in(8) {
        author.text.pop();
    }
    author.text
}

impl Author<'_> {
    fn days(&self) -> u64 {
        match self.month {
            2 if self.year % 4 == 0 && (self.year % 100 != 0 || self.year % 400 == 0) => 29,
            2 => 28,
            4 | 6 | 9 | 11 => 30,
            _ => 31,
        }
    }

    /// Writes a line, now and then with other blanks, capital letters, a comment or a carriage return.
    fn line(&mut self, line: &str) {
        let mut line = line.to_string();
        match self.dice.below(40) {
            0 => line = line.to_ascii_uppercase(),
            1 => line = line.replace(' ', "  "),
            2 => line = line.replace(' ', "\t"),
            3 => line = line.replace(" (", "("),
            4 => line.push_str(" # a remark"),
            5 => line.push('#'),
            6 => line.push('\r'),
            7 => line.insert(0, ' '),
            8 => line.push(' '),
            _ => {}
        }
        self.text.extend_from_slice(line.as_bytes());
        self.text.push(b'\n');
    }

    fn any_line(&mut self) {
        if !self.open && self.dice.one_in(3) {
            return self.open();
        }
        if self.hurry && self.dice.one_in(2) {
            return self.close();
        }
        match self.dice.below(100) {
            0..=19 => self.reading(0),
            20..=41 => self.reading(1),
            42..=47 => self.neighbour(),
            48..=52 => self.service(),
            53..=59 => self.access(),
            60 => self.open(),
            61 | 62 => self.remark(),
            63 => {
                let call = self.dice.pick(&["failure 5", "failure 0", "admission", "denial", "permission"]);
                self.line(call);
            }
            _ => self.close(),
        }
    }

    fn remark(&mut self) {
        let remark = self.dice.pick(&["", "# -", "   ", "#", "\t # close 1"]);
        self.line(remark);
    }

    // ---- Opening ----

    fn open(&mut self) {
        self.open = true;
        self.open_month();
        self.meters();
        self.given = [false; 2];
        self.serving = true;
        self.denials = 0;
        let mut arguments = self.power_arguments();
        let meter = |kind: u64| match kind {
            0 => "none".to_string(),
            1 => "interval".to_string(),
            2 => "integral".to_string(),
            other => other.to_string(),
        };
        let words = !self.dice.one_in(4);
        let name = |kind: u64| if words { meter(kind) } else { kind.to_string() };
        arguments.push(format!("billing {}", name(self.billing)));
        if self.control != 0 || self.dice.one_in(2) {
            arguments.push(format!("control {}", name(self.control)));
        }
        if self.dice.one_in(60) {
            arguments.push(arguments[0].clone());
            self.open = false;
        }
        for last in (1..arguments.len()).rev() {
            let other = self.dice.place(last + 1);
            arguments.swap(last, other);
        }
        let zero = if self.dice.one_in(2) && self.month < 10 { "0" } else { "" };
        self.line(&format!("open {}-{zero}{} {}", self.year, self.month, arguments.join(" ")));
    }

    fn meters(&mut self) {
        (self.billing, self.control) = (self.dice.from(1, 2), self.dice.number_of(&[0, 1, 2, 2, 2]));
        match self.dice.below(50) {
            0 => self.billing = self.dice.number_of(&[0, 3, 7]),
            1 => self.control = 3,
            _ => return,
        }
        self.open = false;
    }

    fn open_month(&mut self) {
        (self.year, self.month) = match self.dice.below(30) {
            0 | 1 => (2999, self.dice.from(11, 12)),
            2 => (self.dice.number_of(&[2100, 2400, 2000 + 24, 2999]), 2),
            3 => (2014, 1),
            4 => (self.dice.number_of(&[0, 2013, 3000, 2023]), self.dice.number_of(&[0, 1, 12, 13])),
            5..=9 => (self.dice.from(2014, 2999), self.dice.from(1, 12)),
            _ => (self.dice.from(2020, 2026), self.dice.from(1, 12)),
        };
        self.open &= (2014..3000).contains(&self.year) && (1..=12).contains(&self.month);
    }

    fn power_arguments(&mut self) -> Vec<String> {
        let power = match self.dice.below(20) {
            0 => self.dice.number_of(&[0, 1, 669, 670, 1_000_000, 1_000_001]),
            1 => 100_000,
            2..=9 => self.dice.from(1, 9),
            _ => self.dice.from(1, 500),
        };
        match self.dice.below(20) {
            0..=7 => vec![self.basis("agreed", 1), format!("power {power}")],
            8..=12 => {
                let (currents, length) = self.currents();
                let place = if self.dice.one_in(12) { length } else { self.dice.below(length.max(1)) };
                vec![
                    self.basis("shared", 2),
                    format!("power {power}"),
                    format!("place {place}"),
                    format!("currents {currents}"),
                ]
            }
            13..=18 => self.cable(),
            _ => match self.dice.below(3) {
                0 => vec!["basis 4".to_string(), format!("power {power}")],
                1 => vec![format!("power {power}")],
                _ => [self.cable(), vec![format!("power {power}"), "currents 3*5".to_string()]].concat(),
            },
        }
    }

    fn basis(&mut self, word: &str, number: u64) -> String {
        if self.dice.one_in(4) {
            format!("basis {number}")
        } else {
            format!("basis {word}")
        }
    }

    fn cable(&mut self) -> Vec<String> {
        let bad = self.dice.below(40);
        let amperes = if bad == 0 { self.dice.number_of(&[0, 2_001]) } else { self.dice.from(1, 200) };
        let volts = match bad {
            1 => 250_001,
            2..=9 => self.dice.number_of(&[1, 10_000, 250_000]),
            _ => 230,
        };
        let cosine = if bad == 10 { 1_001 } else { self.dice.from(0, 1_000) };
        let phases = if bad == 11 { 2 } else { self.dice.number_of(&[1, 3]) };
        let mut arguments = vec![
            self.basis("cable", 3),
            format!("amperes {amperes}"),
            format!("volts {volts}"),
            format!("phases {phases}"),
        ];
        if !self.dice.one_in(3) {
            arguments.push(format!("cosine {cosine}"));
        }
        arguments
    }

    /// A list of currents, and how long it is.
    fn currents(&mut self) -> (String, u64) {
        let current = self.dice.from(1, 100);
        let length = self.dice.from(1, 8);
        match self.dice.below(12) {
            0 => ("65*5".to_string(), 65),
            1 => ("64*2000".to_string(), 64),
            2 => ("5 2001".to_string(), 2),
            3 => ("0*5".to_string(), 0),
            4 | 5 => (format!("{length}*({current} 7)"), 2 * length),
            6 | 7 => (format!("{length}*{current}"), length),
            _ => {
                let numbers: Vec<String> = (0..length).map(|_| self.dice.from(1, 63).to_string()).collect();
                (numbers.join(" "), length)
            }
        }
    }

    // ---- Readings ----

    /// The billing (0) or control (1) reading, mostly in the meter's own form and once a month.
    fn reading(&mut self, which: usize) {
        let barred = which == 0 && (!self.serving || self.denials == 2);
        if (self.given[which] || barred) && !self.dice.one_in(6) {
            return self.close();
        }
        let (name, kind) = [("billing", self.billing), ("control", self.control)][which];
        let kind = if self.dice.one_in(20) { 3 - kind.min(3) } else { kind };
        let reading = match kind {
            1 => format!("{name} hours {}", self.hours()),
            2 => format!("{name} volume {}", self.volume()),
            _ if self.dice.one_in(10) => format!("{name} volume 5"),
            _ => return self.close(),
        };
        self.given[which] = !barred;
        self.line(&reading);
    }

    fn volume(&mut self) -> u64 {
        let most = self.days() * 24 * 1_000_000;
        match self.dice.below(40) {
            0 => most,
            1 => most + 1,
            2 => 999_999_999_999_999_999,
            3..=6 => self.dice.below(1_000),
            7 => self.dice.below(most),
            _ => self.dice.below(200_000),
        }
    }

    fn neighbour(&mut self) {
        let source = self.dice.pick(&["billing", "control", "1", "2", "control", "billing", "3", "0"]);
        let volume = if self.dice.one_in(3) { self.volume() } else { self.dice.below(5_000) };
        self.line(&format!("neighbour {source} {volume}"));
    }

    /// Items that make a day of 24 numbers.
    fn day(&mut self) -> String {
        let mut items = Vec::new();
        let mut left = 24;
        while left > 0 {
            let length = self.dice.from(1, left);
            let value = self.dice.value();
            if length < 3 && self.dice.one_in(2) {
                (0..length).for_each(|_| items.push(value.to_string()));
            } else {
                items.push(format!("{length}*{value}"));
            }
            left -= length;
        }
        items.join(" ")
    }

    fn hours(&mut self) -> String {
        let days = self.wrong_at_times(self.days());
        let first = self.dice.from(0, days);
        match self.dice.below(8) {
            0 => format!("{}*{}", self.wrong_at_times(days * 24), self.dice.value()),
            1 | 2 => format!("{days}*({})", self.day()),
            3..=5 => format!("week ({}) ({})", self.day(), self.day()),
            6 => format!("{first}*({}) {}*{}", self.day(), 24 * (days - first), self.dice.value()),
            _ => format!("{} {}*({})", self.day(), days - 1, self.day()),
        }
    }

    fn wrong_at_times(&mut self, length: u64) -> u64 {
        match self.dice.below(60) {
            0 => length + 1,
            1 => length - 1,
            _ => length,
        }
    }

    // ---- Service and access ----

    fn service(&mut self) {
        if self.serving {
            let reason = self.dice.pick(&["fault", "loss", "verification", "removal", "1", "2", "3", "4", "fault"]);
            self.given[0] = false;
            self.line(&format!("failure {reason}"));
        } else if self.dice.one_in(8) {
            return self.line("failure loss");
        } else {
            self.line("admission");
        }
        self.serving = !self.serving;
    }

    fn access(&mut self) {
        if self.denials > 0 && self.dice.one_in(4) {
            self.denials = 0;
            return self.line("permission");
        }
        if self.denials == 2 && !self.dice.one_in(4) {
            return self.close();
        }
        if self.denials < 2 {
            self.denials += 1;
        }
        if self.denials == 2 {
            self.given[0] = false;
        }
        self.line("denial");
    }

    // ---- Closing ----

    fn close(&mut self) {
        if self.dice.one_in(14) {
            let marks = self.bad_marks();
            return self.line(&format!("close {marks}"));
        }
        let marks = self.marks();
        self.line(&format!("close {marks}"));
        self.given = [false; 2];
        self.month += 1;
        if self.month > 12 {
            (self.year, self.month) = (self.year + 1, 1);
        }
    }

    fn marks(&mut self) -> String {
        let days = self.days();
        let first = self.dice.from(0, days);
        match self.dice.below(10) {
            0..=3 => "week (8*0 3 11*1 4*0) (24*0)".to_string(),
            4 => format!("{}*0", 24 * days),
            5 => format!("{days}*({})", self.marked_day()),
            6 | 7 => format!("week ({}) ({})", self.marked_day(), self.marked_day()),
            8 => format!("{first}*({}) {}*({})", self.marked_day(), days - first, self.marked_day()),
            _ => format!("{} {}*(24*0)", self.marked_day(), days - 1),
        }
    }

    /// A day with at most 16 peak hours and one capacity hour, or with neither.
    fn marked_day(&mut self) -> String {
        let peaks = self.dice.from(1, 16);
        let before = self.dice.from(0, 24 - peaks - 1);
        let behind = 24 - peaks - 1 - before;
        match self.dice.below(6) {
            0 => "24*0".to_string(),
            1 => format!("{before}*0 2 {}*0", 23 - before),
            2 => format!("{before}*0 2 {peaks}*1 {behind}*0"),
            3 => format!("{before}*0 {}*1 3 {}*0", peaks - 1, behind + 1),
            _ => format!("{}*0 3 {}*1 {behind}*0", before + 1, peaks - 1),
        }
    }

    fn bad_marks(&mut self) -> String {
        let days = self.days();
        match self.dice.below(12) {
            0 => format!("{days}*(23*0 {})", self.dice.from(4, 255)),
            1 => "none".to_string(),
            2 => format!("{} 24*0", self.marks()),
            3 => format!("{days}*({})", self.bad_day()),
            4 => format!("week ({}) ({})", self.marked_day(), self.bad_day()),
            5 => format!("week ({}) ({})", self.bad_day(), self.marked_day()),
            6..=8 => {
                let before = self.dice.number_of(&[0, days - 1, 1, 14, 21]);
                let behind = days - before - 1;
                format!("{before}*({}) {} {behind}*({})", self.marked_day(), self.bad_day(), self.marked_day())
            }
            _ => {
                let before = self.dice.from(0, days - 2);
                let between = self.dice.from(0, days - before - 2);
                let behind = 24 * (days - before - between - 2);
                let (first, second) = (self.bad_day(), self.bad_day());
                format!("{}*0 {first} {between}*({}) {second} {behind}*0", 24 * before, self.marked_day())
            }
        }
    }

    /// A day with over 16 peak hours, or more than one capacity hour, or peak hours without one.
    fn bad_day(&mut self) -> String {
        let peaks = self.dice.from(1, 16);
        let hour = self.dice.from(0, 22);
        match self.dice.below(9) {
            0 => "3 16*1 7*0".to_string(),
            1 => "0 17*1 6*2".to_string(),
            2 => format!("{}*1 {}*0", peaks + 8, 16 - peaks),
            3 => format!("{hour}*0 2 3 {}*0", 22 - hour),
            4 => format!("2 {}*0 2 {hour}*0", 22 - hour),
            5 => "24*3".to_string(),
            6 => format!("{hour}*0 1 {}*0", 23 - hour),
            7 => format!("{}*0 {peaks}*1", 24 - peaks),
            _ => format!("{peaks}*1 {}*0", 24 - peaks),
        }
    }
}

// ---- Histories with mutations ----

fn mutated(dice: &mut Dice) -> Vec<u8> {
    let mut text = history(dice);
    for _ in 0..dice.from(1, 4) {
        if text.is_empty() {
            text = any_tokens(dice);
        }
        mutate(dice, &mut text);
    }
    text
}

fn mutate(dice: &mut Dice, text: &mut Vec<u8>) {
    let place = dice.place(text.len());
    match dice.below(20) {
        0 => text[place] ^= 1 << dice.below(8),
        1 => text.insert(place, dice.below(256) as u8),
        2 | 3 => drop(text.remove(place)),
        4 => insert(text, place, dice.pick(&MARKS).as_bytes()),
        5 => insert(text, place, any_number(dice).as_bytes()),
        6 => insert(text, place, format!("{}*", any_number(dice)).as_bytes()),
        7 => insert(text, place, format!(" {} ", dice.pick(&WORDS)).as_bytes()),
        8 => {
            let nested = dice.pick(&["((", "2*(", "2*(2*(", "))", ")(", "()", "( )"]);
            insert(text, place, nested.as_bytes());
        }
        9..=11 => {
            let number = any_number(dice);
            replace_number(text, place, number.as_bytes());
        }
        12 => {
            let remark: Vec<u8> = (0..dice.below(20)).map(|_| dice.below(256) as u8).collect();
            insert(text, place, &[b"#", remark.as_slice()].concat());
        }
        13 => text.truncate(place),
        14 => drop(text.drain(..place)),
        15 => *text = text.iter().flat_map(|b| if *b == b'\n' { vec![b'\r', b'\n'] } else { vec![*b] }).collect(),
        16 => text[place] = *dice.pick(&[&b'\n', &b'\t', &b'\r', &b' ', &b'\n']),
        _ => change_words(dice, text),
    }
}

fn insert(text: &mut Vec<u8>, place: usize, bytes: &[u8]) {
    drop(text.splice(place..place, bytes.iter().copied()));
}

/// Puts the number in the place of the first one behind this byte.
fn replace_number(text: &mut Vec<u8>, place: usize, number: &[u8]) {
    let Some(first) = text[place..].iter().position(u8::is_ascii_digit).map(|offset| place + offset) else { return };
    let length = text[first..].iter().take_while(|byte| byte.is_ascii_digit()).count();
    drop(text.splice(first..first + length, number.iter().copied()));
}

/// In one line: swaps, drops or doubles words, or cuts or doubles the line.
fn change_words(dice: &mut Dice, text: &mut Vec<u8>) {
    let mut lines: Vec<Vec<u8>> = text.split(|byte| *byte == b'\n').map(<[u8]>::to_vec).collect();
    let line = dice.place(lines.len());
    let mut words: Vec<&[u8]> = lines[line].split(|byte| *byte == b' ').collect();
    let (one, other) = (dice.place(words.len()), dice.place(words.len()));
    match dice.below(5) {
        0 => words.swap(one, other),
        1 => drop(words.remove(one)),
        2 => words.insert(one, words[other]),
        3 => words.truncate(one),
        _ => {
            let double = lines[line].clone();
            lines.insert(line, double);
            *text = lines.join(&b'\n');
            return;
        }
    }
    lines[line] = words.join(&b' ');
    *text = lines.join(&b'\n');
}

// ---- Lists at their limits ----

fn lists(dice: &mut Dice) -> Vec<u8> {
    let mut text = Vec::new();
    if dice.one_in(2) {
        text.extend_from_slice(b"open 2024-02 billing 1 control 1 basis 1 power 5\n");
    }
    for _ in 0..dice.from(1, 6) {
        let call = dice.pick(&["close", "billing hours", "control hours", "open 2023-1 currents", "close"]);
        text.extend_from_slice(call.as_bytes());
        for _ in 0..dice.from(1, 6) {
            text.push(b' ');
            text.extend_from_slice(list_part(dice).as_bytes());
        }
        text.push(b'\n');
    }
    text
}

fn list_part(dice: &mut Dice) -> String {
    let near = dice.number_of(&[4_096, 4_048, 4_072, 4_024, 3_400, 2_048, 1_365, 24, 1]);
    let count = (near + dice.below(3)).saturating_sub(1);
    let times = dice.below(4);
    let day = dice.number_of(&[24, 24, 24, 24, 24, 24, 23, 25, 0]);
    match dice.below(14) {
        0..=3 => format!("{count}*{}", dice.number_of(&[0, 1, 3, 255, 256])),
        4 | 5 => dice.below(4).to_string(),
        6 => format!("{times}*({count}*0 1)"),
        7 => format!("{times}*(1 2*3 {count}*0)"),
        8 | 9 => format!("week ({day}*0) (24*1)"),
        10 => format!("week (24*1) ({day}*0)"),
        11 => format!("week (23*0 2 {}*5) (20*0 4*1)", dice.below(2)),
        12 => any_number(dice),
        _ => dice.pick(&["none", "week", "week (", "3*", "3*(", "()", "power 5", "2*(3*)", "2*(2*(1))"]).to_string(),
    }
}

// ---- Tokens, bytes and long lines ----

fn any_token(dice: &mut Dice) -> Vec<u8> {
    match dice.below(12) {
        0..=3 => dice.pick(&WORDS).into(),
        4..=6 => any_number(dice).into(),
        7 | 8 => format!("{}*", any_number(dice)).into(),
        9 | 10 => dice.pick(&MARKS).into(),
        _ => vec![dice.below(256) as u8],
    }
}

fn any_tokens(dice: &mut Dice) -> Vec<u8> {
    let mut text = Vec::new();
    if dice.one_in(2) {
        text.extend_from_slice(b"open 2023-04 billing 2 control 2 basis 1 power 5\n");
    }
    for _ in 0..dice.from(1, 12) {
        if !dice.one_in(4) {
            let starts =
                ["open 2023-01", "billing hours", "billing", "control volume", "neighbour", "failure", "close"];
            text.extend_from_slice(dice.pick(&starts).as_bytes());
            text.push(b' ');
        }
        for _ in 0..dice.below(8) {
            text.extend_from_slice(&any_token(dice));
            if !dice.one_in(4) {
                text.push(b' ');
            }
        }
        text.push(b'\n');
    }
    text
}

fn any_bytes(dice: &mut Dice) -> Vec<u8> {
    let length = dice.below(300);
    if dice.one_in(2) {
        return (0..length).map(|_| dice.below(256) as u8).collect();
    }
    let known = b"0123456789**(())--##  \t\r\n\nabceghiklmnopqrstuvwxyzCLOSE";
    (0..length).map(|_| known[dice.place(known.len())]).collect()
}

fn long_lines(dice: &mut Dice) -> Vec<u8> {
    let mut text = if dice.one_in(2) { history(dice) } else { Vec::new() };
    for _ in 0..dice.from(1, 2) {
        let (start, filling) = dice.start_and_filling();
        let length =
            dice.number_of(&[16_383, 16_384, 16_384, 16_385, 16_386, 20_000, 32_769, 65_536, 131_073]) as usize;
        let mut line = start.as_bytes().to_vec();
        while line.len() < length {
            line.extend_from_slice(filling.as_bytes());
        }
        line.truncate(length);
        text.extend_from_slice(&line);
        if !dice.one_in(4) {
            text.push(b'\n');
        }
        if dice.one_in(2) {
            text.extend_from_slice(&history(dice));
        }
    }
    text
}

impl Dice {
    /// How a long line starts, and what fills it.
    fn start_and_filling(&mut self) -> (&'static str, &'static str) {
        let starts =
            ["", "denial", "close ", "billing hours ", "# ", "open 2023-01 currents ", "open 2023-01 ", "close 2*("];
        let fillings = ["0", " ", "#", "1 ", "0*0 ", "\t", "\r", "(", "x", "0*(1)", "power 1 ", "\u{7f}"];
        (self.pick(&starts), self.pick(&fillings))
    }
}
