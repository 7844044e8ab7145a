//! Commands for the console: `streams SEED COUNT` writes COUNT random ones,
//! the same for the same seed; `streams vectors` writes the fixed vectors;
//! `streams recorded` writes crates/console/stdin, to which the second
//! program's answers are crates/console/stdout.

use reference::attributes::{cut, hex, overlapping, segment, sequence, sequences, LONGEST_SEGMENT};
use reference::console;
use reference::random::Random;
use reference::samples::{chain, doubled, spread, upto, REGISTER_D, SEAMS};
use reference::snapshot::{self, number_at, parts, with, CONTENTS};
use reference::words::{padded, Form};
use reference::{
    AsNumber, Model, Records, Routes, Table, GREATEST_SOURCE, LONGEST_ATTRIBUTE, LONGEST_PATH,
    MOST_BODY_WORDS,
};
use std::io::{self, BufWriter, Write};
use std::process::ExitCode;

fn main() -> ExitCode {
    let arguments: Vec<String> = std::env::args().skip(1).collect();
    let arguments: Vec<&str> = arguments.iter().map(String::as_str).collect();
    let mut out = BufWriter::new(io::stdout().lock());
    let written = match arguments[..] {
        ["vectors"] => vectors().iter().try_for_each(|line| writeln!(out, "{line}")),
        ["recorded"] => recorded(&mut out),
        [seed, count] => match (seed.parse(), count.parse()) {
            (Ok(seed), Ok(count)) => random_stream(seed, count, |line, _| writeln!(out, "{line}")),
            _ => return usage(),
        },
        _ => return usage(),
    };
    match written.and_then(|()| out.flush()) {
        Ok(()) => ExitCode::SUCCESS,
        // A reader that wants no more isn't an error.
        Err(e) if e.kind() == io::ErrorKind::BrokenPipe => ExitCode::SUCCESS,
        Err(e) => {
            eprintln!("streams: {e}");
            ExitCode::FAILURE
        }
    }
}

fn usage() -> ExitCode {
    eprintln!("usage: streams SEED COUNT | streams vectors | streams recorded");
    ExitCode::from(2)
}

fn numbers(list: &[u32]) -> String {
    list.iter().map(|n| format!(" {n}")).collect()
}

const REGISTER: &str = "register";
/// The overrides.
const DRAWER: &str = "drawer";
const LEDGER: &str = "ledger";
const TABLES: [&str; 3] = [REGISTER, DRAWER, LEDGER];

/// What stands before the words of commands on a register.
fn d(register: &str) -> &'static str {
    if register == DRAWER {
        "d"
    } else {
        ""
    }
}

// Lists

fn ascending(mut list: Vec<u32>) -> Vec<u32> {
    list.sort_unstable();
    list.dedup();
    list
}

/// LENGTH numbers from `first` on, all but the customer.
fn run_without(customer: u32, first: u32, length: usize) -> Vec<u32> {
    (first..=u32::MAX).filter(|number| *number != customer).take(length).collect()
}

// Words that one poke changes

/// Of a table's words, the used ones or all of them.
fn well_formed<T: Form>(words: &[u32]) -> bool {
    words.len() <= T::LENGTH
        && T::used(words) <= words.len() as u64
        && T::well_formed(&padded(words.to_vec(), T::LENGTH))
}

/// Of well-formed words of a register, used ones or all: each word and what it
/// must become for a list to hold its own customer, all other rules being kept.
/// Either a number of the list becomes the customer or the customer one of the
/// list. None for other words.
fn own_customer_pokes(words: &[u32]) -> Vec<(usize, u32)> {
    if !well_formed::<Records>(words) {
        return Vec::new();
    }
    let count = words[0] as usize;
    let entries: Vec<&[u32]> = words[2..].chunks(4).take(count).collect();
    let mut pokes = Vec::new();
    for (nth, entry) in entries.iter().enumerate() {
        let (customer, source) = (entry[0], entry[1]);
        let start = 2 + 4 * count + entry[2] as usize;
        let list = &words[start..][..entry[3] as usize];
        for (i, provider) in list.iter().enumerate() {
            let above = i == 0 || list[i - 1] < customer;
            let below = list.get(i + 1).is_none_or(|next| customer < *next);
            if above && below {
                pokes.push((start + i, customer));
            }
            let after =
                nth == 0 || (entries[nth - 1][0], entries[nth - 1][1]) < (*provider, source);
            let before =
                entries.get(nth + 1).is_none_or(|next| (*provider, source) < (next[0], next[1]));
            if *provider > 0 && after && before {
                pokes.push((2 + 4 * nth, *provider));
            }
        }
    }
    pokes
}

/// Role, index of the first number, and path of each entry with a path, in
/// well-formed words of a ledger. None for other words.
fn paths(words: &[u32]) -> Vec<(u32, usize, &[u32])> {
    if !well_formed::<Routes>(words) {
        return Vec::new();
    }
    let count = words[0] as usize;
    let body = 2 + Routes::ENTRY * count;
    let entries = words[2..].chunks(Routes::ENTRY).take(count).filter(|entry| entry[8] > 0);
    let path = |entry: &[u32]| {
        let start = body + entry[7] as usize;
        (entry[1], start, &words[start..][..entry[8] as usize])
    };
    entries.map(path).collect()
}

/// Each word of a ledger and what it must become for two neighbours in one path to
/// be equal, all other rules being kept: a path's first number is free only from a
/// route server.
fn equal_neighbour_pokes(words: &[u32]) -> Vec<(usize, u32)> {
    let mut pokes = Vec::new();
    for (role, start, path) in paths(words) {
        for i in 1..path.len() {
            pokes.push((start + i, path[i - 1]));
            if i > 1 || role == 4 {
                pokes.push((start + i - 1, path[i]));
            }
        }
    }
    pokes
}

/// The same for the last number of one path and the first of the next: no fault.
fn seam_pokes(words: &[u32]) -> Vec<(usize, u32)> {
    let mut pokes = Vec::new();
    for pair in paths(words).windows(2) {
        let ((one, first, before), (other, second, after)) = (pair[0], pair[1]);
        let (last, next) = (before[before.len() - 1], after[0]);
        if last == next {
            continue;
        }
        if (before.len() > 1 || one == 4) && before.iter().rev().nth(1) != Some(&next) {
            pokes.push((first + before.len() - 1, next));
        }
        if other == 4 && after.get(1) != Some(&last) {
            pokes.push((second, last));
        }
    }
    pokes
}

/// What gives a path's first number to the path before it, all rules but the longest
/// path's being kept: only a route server's path may begin with any number.
fn seam_moves(words: &[u32]) -> Vec<[(usize, u32); 3]> {
    if !well_formed::<Routes>(words) {
        return Vec::new();
    }
    let count = words[0] as usize;
    let entries: Vec<&[u32]> = words[2..].chunks(Routes::ENTRY).take(count).collect();
    let mut moves = Vec::new();
    for (nth, pair) in entries.windows(2).enumerate() {
        let ([.., before], [_, role, .., start, length]) = (pair[0], pair[1]) else { continue };
        let seam = 2 + Routes::ENTRY * count + *start as usize;
        if *before > 0 && *role == 4 && *length > 1 && words[seam - 1] != words[seam] {
            let next = 2 + Routes::ENTRY * (nth + 1);
            moves.push([(next - 1, before + 1), (next + 7, start + 1), (next + 8, length - 1)]);
        }
    }
    moves
}

// Snapshots

/// The file of well-formed tables.
fn file_of(model: &Model) -> Option<Vec<u8>> {
    let mut output = vec![0; console::LONGEST_OUTPUT as usize];
    let length = model.clone().write(&mut output).ok()?;
    output.truncate(length);
    Some(output)
}

// Random streams

/// Gives COUNT commands to `write`, each with the model's answer.
fn random_stream(
    seed: u64,
    count: usize,
    write: impl FnMut(&str, &str) -> io::Result<()>,
) -> io::Result<()> {
    let model = Model::new();
    let files = file_of(&model).into_iter().collect();
    let random = Random::new(seed);
    let mut stream = Stream { random, model, files, left: count, write, failed: None };
    while stream.left > 0 {
        stream.round();
    }
    stream.failed.map_or(Ok(()), Err)
}

/// The commands are also run, so that later ones can aim at records and
/// routes that are there.
struct Stream<W> {
    random: Random,
    model: Model,
    /// Short snapshots of earlier tables, one at least.
    files: Vec<Vec<u8>>,
    left: usize,
    write: W,
    failed: Option<io::Error>,
}

impl<W: FnMut(&str, &str) -> io::Result<()>> Stream<W> {
    fn say(&mut self, line: &str) {
        if self.left == 0 {
            return;
        }
        self.left -= 1;
        let answer = console::answer(&mut self.model, line.as_bytes());
        if let Err(e) = (self.write)(line, &answer) {
            self.failed = Some(e);
            self.left = 0;
        }
    }

    /// All phases once, in some order, so that a few thousand commands reach
    /// every row of every call.
    fn round(&mut self) {
        type Phase<S> = fn(&mut S);
        let mut phases: Vec<Phase<Self>> = vec![
            Self::many_records,
            |s: &mut Self| s.long_lists(REGISTER),
            |s: &mut Self| s.long_lists(DRAWER),
            Self::many_routes,
            Self::long_paths,
            Self::longest_paths,
            Self::look_ups,
            Self::lines_that_are_no_commands,
            Self::untrue_verdicts,
            Self::single_words,
            Self::single_words,
        ];
        phases.extend([Self::long_ramps as Phase<Self>; 3]);
        phases.extend([Self::snapshots as Phase<Self>; 5]);
        phases.extend([Self::overriding as Phase<Self>; 5]);
        phases.extend([Self::two_damages as Phase<Self>; 4]);
        phases.extend([Self::ordinary as Phase<Self>; 12]);
        for damage in [
            |s: &mut Self| s.damage(REGISTER, Self::resize),
            |s: &mut Self| s.damage(DRAWER, Self::resize),
            |s: &mut Self| s.damage(LEDGER, Self::resize),
        ] {
            phases.extend([damage as Phase<Self>; 2]);
        }
        for damage in [
            |s: &mut Self| s.damage(REGISTER, Self::poke_one_rule),
            |s: &mut Self| s.damage(DRAWER, Self::poke_one_rule),
            |s: &mut Self| s.damage(LEDGER, Self::poke_one_rule),
        ] {
            phases.extend([damage as Phase<Self>; 3]);
        }
        for damage in [
            |s: &mut Self| s.damage(REGISTER, Self::poke),
            |s: &mut Self| s.damage(DRAWER, Self::poke),
            |s: &mut Self| s.damage(LEDGER, Self::poke),
        ] {
            phases.extend([damage as Phase<Self>; 6]);
        }
        while !phases.is_empty() && self.left > 0 {
            let phase = phases.swap_remove(self.random.below(phases.len()));
            phase(self);
        }
        self.first_records();
    }

    // What is there

    /// None for a register left as words by a poke.
    fn records(&self, register: &str) -> Option<&Records> {
        let table = if register == DRAWER { &self.model.overrides } else { &self.model.register };
        match table {
            Table::Held(records) => Some(records),
            Table::Words(_) => None,
        }
    }

    fn record_count(&self, register: &str) -> usize {
        self.records(register).map_or(0, Records::len)
    }

    fn route_count(&self) -> usize {
        match &self.model.ledger {
            Table::Held(routes) => routes.len(),
            Table::Words(_) => 0,
        }
    }

    /// Body words that the ledger still has room for.
    fn path_room(&self) -> usize {
        match &self.model.ledger {
            Table::Held(routes) => {
                MOST_BODY_WORDS - routes.values().map(|route| route.path.len()).sum::<usize>()
            }
            Table::Words(_) => 0,
        }
    }

    fn providers_in(&self, register: &str, customer: u32) -> Vec<u32> {
        let Some(records) = self.records(register) else { return Vec::new() };
        let customer = AsNumber(customer);
        let lists = records.range((customer, 0)..=(customer, GREATEST_SOURCE));
        lists.flat_map(|(_, list)| list.iter().map(|n| n.0)).collect()
    }

    /// By the register that counts, and now and then by the other.
    fn providers(&mut self, customer: u32) -> Vec<u32> {
        let overrides = self.providers_in(DRAWER, customer);
        let providers = if overrides.is_empty() || self.random.percent(10) {
            self.providers_in(REGISTER, customer)
        } else {
            overrides
        };
        providers.into_iter().filter(|n| *n != 0).collect()
    }

    fn some_record_in(&mut self, register: &str) -> Option<(u32, u32)> {
        let count = self.record_count(register);
        if count == 0 {
            return None;
        }
        let nth = self.random.below(count);
        self.records(register)?.keys().nth(nth).map(|(customer, source)| (customer.0, *source))
    }

    fn some_record(&mut self) -> Option<(u32, u32)> {
        let register = self.register();
        self.some_record_in(register)
    }

    fn some_route(&mut self) -> Option<u32> {
        let Table::Held(routes) = &self.model.ledger else { return None };
        if routes.is_empty() {
            return None;
        }
        let nth = self.random.below(routes.len());
        routes.keys().nth(nth).map(|route| route.0)
    }

    // Arguments

    /// The overrides are the fewer, so that public records count too.
    fn register(&mut self) -> &'static str {
        self.random.pick(&[REGISTER, REGISTER, REGISTER, DRAWER])
    }

    /// Few numbers, so that they meet again; now and then any.
    fn number(&mut self) -> u32 {
        match self.random.below(100) {
            0..=89 => self.random.between(1, 12) as u32,
            90..=95 => self.random.between(1, 40) as u32,
            96 | 97 => self.random.pick(&[u32::MAX, 23_456, 65_535, 65_536, 1 << 31, 256, 1 << 24]),
            _ => (self.random.draw() as u32).max(1),
        }
    }

    fn number_or_zero(&mut self) -> u32 {
        if self.random.percent(4) {
            0
        } else {
            self.number()
        }
    }

    /// A provider of `customer`, which is no provider of itself.
    fn provider(&mut self, customer: u32) -> u32 {
        loop {
            let number = self.number_or_zero();
            if number != customer {
                return number;
            }
        }
    }

    fn source(&mut self) -> u32 {
        match self.random.below(100) {
            0..=69 => self.random.below(3) as u32,
            70..=94 => self.random.below(8) as u32,
            95..=97 => 8,
            _ => self.random.pick(&[9, 255, 256, u32::MAX]),
        }
    }

    /// Hardly ever with the customer in it.
    fn list(&mut self, customer: u32) -> Vec<u32> {
        match self.random.below(100) {
            0..=69 => {
                let length = self.random.between(1, 5);
                ascending((0..length).map(|_| self.provider(customer)).collect())
            }
            70..=77 => vec![0],
            78..=81 => Vec::new(),
            82..=85 => vec![self.provider(customer), u32::MAX],
            86..=91 => (0..self.random.between(2, 5)).map(|_| self.provider(customer)).collect(),
            92 | 93 => vec![self.provider(customer); 2],
            94..=97 => {
                let length = self.random.pick(&[255, 256, 257]);
                run_without(customer, self.random.below(3) as u32, length)
            }
            _ => run_without(customer, 1, self.random.between(5, 39)),
        }
    }

    /// A list with the customer in it: alone, first, last or between, and mostly
    /// with no other fault.
    fn list_with(&mut self, customer: u32) -> Vec<u32> {
        if self.random.percent(40) {
            let list = self.list(customer);
            return ascending([list, vec![customer]].concat());
        }
        let length = self.random.pick(&[1, 2, 2, 3, 4, 5, 255, 256, 256, 256, 257]);
        let before = self.random.pick(&[0, length / 2, length - 1, length - 1]) as u32;
        (customer.saturating_sub(before)..=u32::MAX).take(length).collect()
    }

    fn role(&mut self) -> u32 {
        match self.random.below(100) {
            0..=29 => 3,
            30..=44 => 6,
            45..=94 => self.random.between(1, 6) as u32,
            95 | 96 => 0,
            97 | 98 => 7,
            _ => u32::MAX,
        }
    }

    /// Mostly from customer to provider by the records, else anywhere.
    fn climb(&mut self, steps: usize) -> Vec<u32> {
        let mut path = vec![match self.some_record() {
            Some((customer, _)) if self.random.percent(70) => customer,
            _ => self.number(),
        }];
        for _ in 0..steps {
            let last = path[path.len() - 1];
            let providers = self.providers(last);
            let next = if !providers.is_empty() && self.random.percent(85) {
                self.random.pick(&providers)
            } else if self.random.percent(8) {
                // another in one bit only
                (last ^ (1 << self.random.below(32))).max(1)
            } else {
                self.number()
            };
            path.push(next);
        }
        path
    }

    /// Left end first: down-ramp, then up-ramp, each perhaps short.
    fn path(&mut self) -> Vec<u32> {
        let steps = self.random.pick(&[0, 0, 1, 1, 2, 2, 3, 4, 6]);
        let mut up = self.climb(steps);
        up.reverse();
        if self.random.percent(30) {
            return up;
        }
        let steps = self.random.pick(&[0, 1, 1, 2, 3, 5]);
        let mut path = self.climb(steps);
        path.extend(up);
        path
    }

    /// A path without neighbouring equals, so that nothing in it merges.
    fn distinct_neighbours(&mut self, length: usize) -> Vec<u32> {
        self.distinct_neighbours_of(length, 14)
    }

    /// The same, of the numbers from 1 to `last`.
    fn distinct_neighbours_of(&mut self, length: usize, last: usize) -> Vec<u32> {
        let mut path: Vec<u32> = Vec::new();
        while path.len() < length {
            let number = self.random.between(1, last) as u32;
            if path.last() != Some(&number) {
                path.push(number);
            }
        }
        path
    }

    /// A path's length, near 64 or near what a segment or a path holds at most.
    fn long(&mut self) -> usize {
        let near = self.random.pick(&[64, LONGEST_SEGMENT + 1, LONGEST_PATH, LONGEST_PATH]);
        near + self.random.pick(&[0, 1, 2, 2, 2, 3]) - 2
    }

    /// Cuts a path into segments, some of its numbers repeated. A run may go on
    /// over boundaries, and fill segments of its own. In most long paths no number
    /// is repeated and few segments end before they are full.
    fn segments(&mut self, path: &[u32]) -> Vec<(u8, Vec<u32>)> {
        let mut times = &[1, 1, 1, 1, 1, 1, 2, 2, 3, 4][..];
        let mut cuts = [12, 40];
        if path.len() >= 100 && self.random.percent(60) {
            times = &[1];
            cuts[0] = self.random.below(2);
        }
        let mut parts: Vec<Vec<u32>> = Vec::new();
        for number in path {
            for nth in 0..self.random.pick(times) {
                let cut = self.random.percent(cuts[usize::from(nth > 0)]);
                match parts.last_mut() {
                    Some(part) if part.len() < LONGEST_SEGMENT && !cut => part.push(*number),
                    _ => parts.push(vec![*number]),
                }
            }
        }
        parts.into_iter().map(|part| (2, part)).collect()
    }

    /// A path in as few sequences as hold it or in more.
    fn sequences(&mut self, path: &[u32]) -> Vec<u8> {
        if self.random.percent(50) {
            return sequence(path);
        }
        self.segments(path).iter().flat_map(|(kind, numbers)| segment(*kind, numbers)).collect()
    }

    /// So many sizes of segments for `count` numbers.
    fn sizes(&mut self, segments: usize, count: usize) -> Vec<usize> {
        let mut sizes = vec![1; segments];
        let mut left = count - segments;
        while left > 0 {
            let size = &mut sizes[self.random.below(segments)];
            let more = self.random.between(1, left).min(LONGEST_SEGMENT - *size);
            *size += more;
            left -= more;
        }
        sizes
    }

    /// 4,096 bytes of long runs, cut anywhere, and the number that stands first.
    fn longest_attribute(&mut self) -> (u32, Vec<u8>) {
        // 2 bytes for each segment and 4 for each number
        let segments = self.random.pick(&[6, 6, 8, 20, 100, 256, 682]);
        let count = (LONGEST_ATTRIBUTE - 2 * segments) / 4;
        let length = self.random.pick(&[1, 2, 3, 64, 511, 512, 512, 513]);
        let path = self.distinct_neighbours(length);
        let numbers: Vec<u32> =
            spread(length, count).into_iter().map(|nth| path[nth as usize - 1]).collect();
        let sizes = self.sizes(segments, count);
        (path[0], sequences(&cut(&numbers, &sizes)))
    }

    /// An attribute and the number that stands first in it, or any.
    fn attribute(&mut self) -> (u32, Vec<u8>) {
        let path = match self.random.below(100) {
            0..=89 => self.path(),
            90..=93 => {
                let length = self.long();
                self.distinct_neighbours(length)
            }
            94 => vec![self.number(); 200],
            _ => self.distinct_neighbours(20),
        };
        let mut first = path[0];
        let mut segments = self.segments(&path);
        // Changes to the segments, then to the bytes: most of them faults
        let at = self.random.below(segments.len() + 1);
        let one = vec![self.number(), self.number()];
        match self.random.below(100) {
            0..=5 => segments.insert(at, (1, one)),
            6..=8 => segments.insert(at, (self.random.pick(&[3, 4]), one)),
            9..=11 => segments.insert(at, (self.random.pick(&[0, 5, 6, 255]), one)),
            12..=14 => segments.insert(at, (self.random.pick(&[0, 1, 2, 2, 3]), Vec::new())),
            15..=18 => {
                let segment = at.min(segments.len() - 1);
                let number = self.random.below(segments[segment].1.len());
                segments[segment].1[number] = 0;
            }
            19 => segments.insert(at, (1, vec![one[0], 0])),
            _ => {}
        }
        let mut bytes: Vec<u8> = segments.iter().flat_map(|(k, n)| segment(*k, n)).collect();
        match self.random.below(100) {
            0..=4 => bytes.truncate(self.random.below(bytes.len() + 1)),
            5..=6 => bytes.push(self.random.pick(&[0, 1, 2, 3, 5])),
            7..=8 => {
                let at = self.random.below(bytes.len());
                bytes[at] = self.random.pick(&[0, 1, 2, 3, 4, 5, 255]);
            }
            9 => {
                bytes.remove(self.random.below(bytes.len()));
            }
            10 => bytes = vec![self.random.pick(&[0, 1, 2, 3, 4, 5])],
            11 | 12 => bytes.clear(),
            13 => bytes = (0..self.random.below(40)).map(|_| self.random.below(6) as u8).collect(),
            14 | 15 => {
                (first, bytes) = self.longest_attribute();
                match self.random.below(6) {
                    0 | 1 => bytes.push(2),
                    2 => bytes.extend(sequence(&[first])),
                    _ => {}
                }
            }
            16 if self.random.percent(10) => bytes = vec![2; LONGEST_ATTRIBUTE * 2],
            _ => {}
        }
        (first, bytes)
    }

    /// Role, neighbour and attribute as words.
    fn judged(&mut self) -> String {
        let (first, mut bytes) = self.attribute();
        let mut neighbour = if self.random.percent(85) { first } else { self.number_or_zero() };
        let mut role = self.role();
        // Several faults at once show the order of the rows.
        if self.random.percent(4) {
            role = self.random.pick(&[role, 0, 7]);
            neighbour = self.random.pick(&[neighbour, 0]);
            if self.random.percent(25) {
                bytes.resize(LONGEST_ATTRIBUTE + 1, 0);
            }
        }
        format!("{role} {neighbour} {}", hex(&bytes))
    }

    fn route(&mut self) -> u32 {
        match self.random.below(100) {
            0..=89 => self.random.below(60) as u32,
            90..=95 => self.random.pick(&[0, u32::MAX, 1 << 31]),
            _ => self.random.draw() as u32,
        }
    }

    // Calls

    fn file(&mut self) {
        let register = self.register();
        self.file_in(register);
    }

    fn file_in(&mut self, register: &str) {
        let (mut source, mut customer) = (self.source(), self.number_or_zero());
        // Now and then one that the other register has
        if self.random.percent(15) {
            let other = if register == DRAWER { REGISTER } else { DRAWER };
            (customer, source) = self.some_record_in(other).unwrap_or((customer, source));
        }
        let mut list = self.list(customer);
        // Several sources with one provider
        if self.random.percent(12) {
            let others = self.providers_in(register, customer);
            list = ascending([list, others].concat());
        }
        if self.random.percent(6) {
            // Only above a greater customer is there room for long lists on both sides.
            customer = self.random.pick(&[customer, 255, 256, 1_000]);
            list = self.list_with(customer);
        }
        // Several faults at once show the order of the rows.
        if self.random.percent(4) {
            source = self.random.pick(&[source, 8]);
            customer = self.random.pick(&[customer, 0]);
            let own = [vec![customer], vec![customer, customer], vec![customer, 0]];
            let own = self.random.pick(&own);
            list = self.random.pick(&[list, own, Vec::new(), vec![2, 1]]);
        }
        self.say(&format!("{}file {source} {customer}{}", d(register), numbers(&list)));
    }

    fn withdraw(&mut self) {
        let register = self.random.pick(&[REGISTER, DRAWER]);
        self.withdraw_in(register);
    }

    fn withdraw_in(&mut self, register: &str) {
        let (mut customer, mut source) = match self.some_record_in(register) {
            Some(record) if self.random.percent(60) => record,
            // or one that the other register may have
            _ => match self.some_record() {
                Some(record) if self.random.percent(30) => record,
                _ => (self.number_or_zero(), self.source()),
            },
        };
        if self.random.percent(12) {
            (customer, source) =
                self.random.pick(&[(customer, 8), (0, source.min(7)), (0, source), (0, 8)]);
        }
        self.say(&format!("{}withdraw {source} {customer}", d(register)));
    }

    fn clear(&mut self) {
        let register = self.random.pick(&[REGISTER, DRAWER]);
        self.clear_in(register);
    }

    fn clear_in(&mut self, register: &str) {
        // Few of the calls are this one, and only a source can be wrong with it.
        let source = if self.random.percent(20) { 8 } else { self.source() };
        self.say(&format!("{}clear {source}", d(register)));
    }

    /// From a number with records to one that a list of it holds, or any.
    fn hop(&mut self) {
        let x = match self.some_record() {
            Some((customer, _)) if self.random.percent(80) => customer,
            _ => self.number_or_zero(),
        };
        self.hop_from(x);
    }

    fn hop_from(&mut self, x: u32) {
        let providers = self.providers(x);
        let y = if !providers.is_empty() && self.random.percent(70) {
            self.random.pick(&providers)
        } else {
            self.number_or_zero()
        };
        self.say(&format!("hop {x} {y}"));
    }

    fn lookup(&mut self) {
        let (customer, mut source) = match self.some_record() {
            Some(record) if self.random.percent(80) => record,
            _ => (self.number_or_zero(), self.source()),
        };
        if self.random.percent(25) {
            source = self.source();
        }
        self.say(&format!("lookup {customer} {source}"));
    }

    fn judge(&mut self) {
        let judged = self.judged();
        self.say(&format!("judge {judged}"));
    }

    fn keep(&mut self) {
        let (route, judged) = (self.route(), self.judged());
        self.say(&format!("keep {route} {judged}"));
    }

    fn drop(&mut self) {
        let route = match self.some_route() {
            Some(route) if self.random.percent(60) => route,
            _ => self.route(),
        };
        self.say(&format!("drop {route}"));
    }

    /// With room for about the file that it gives, or for any.
    fn write(&mut self) {
        let file = file_of(&self.model).unwrap_or_default();
        let length = file.len();
        if (1..=SHORT_FILE).contains(&length) {
            if self.files.len() == MOST_FILES {
                self.files.remove(0);
            }
            self.files.push(file);
        }
        let capacity = match self.random.below(20) {
            0..=6 => length,
            7..=11 => length.saturating_sub(1),
            12 | 13 => length + 1,
            14 => self.random.below(2 * length + 40),
            15..=17 => console::LONGEST_OUTPUT as usize,
            _ => self.random.pick(&[0, 19, 20, 35, 36, 100_387, 100_388, 131_073]),
        };
        self.say(&format!("write {capacity}"));
    }

    /// A snapshot of the tables as they are or as they were, or hardly one.
    fn read(&mut self) {
        let earlier = self.random.pick(&self.files);
        let mut file = match file_of(&self.model) {
            // Long lines are rare, or a stream would have little else.
            Some(now) if self.random.percent(if now.len() > SHORT_FILE { 20 } else { 60 }) => now,
            _ => earlier,
        };
        if self.random.percent(6) {
            file = self.any_bytes();
        }
        for _ in 0..self.random.pick(&[0, 0, 1, 1, 1, 1, 2]) {
            file = self.damaged(file);
        }
        self.say(&format!("read {}", hex(&file)));
    }

    fn any_bytes(&mut self) -> Vec<u8> {
        let mut bytes: Vec<u8> = (0..self.random.below(70))
            .map(|_| self.random.pick(&[0, 0, 0, 1, 8, 20, 28]))
            .collect();
        let right = snapshot::file(&[0, 0], &[0, 0]);
        let kept = self.random.pick(&[0, 4, 8, 16, 20]).min(bytes.len());
        bytes[..kept].copy_from_slice(&right[..kept]);
        bytes
    }

    /// A snapshot with one thing about it changed.
    fn damaged(&mut self, mut file: Vec<u8>) -> Vec<u8> {
        let length = file.len();
        // Damaged before, it may have no whole contents, or none that are right.
        let whole = length >= 36
            && u64::from(number_at(&file, 3)) == 20 + u64::from(number_at(&file, 2))
            && (28..length).contains(&(number_at(&file, 3) as usize))
            && length.is_multiple_of(4);
        match self.random.below(23) {
            0 | 1 if length > 0 => {
                let at = self.random.below(length);
                let steps = [1, 255, 2, 64, 128];
                file[at] = file[at].wrapping_add(self.random.pick(&steps));
            }
            2 if length > 0 => file.swap(self.random.below(length), self.random.below(length)),
            3 | 4 => {
                let most = self.random.pick(&[1, 2, 4, 8, length, length]);
                file.truncate(length - self.random.below(most.min(length) + 1));
            }
            5 => file.truncate(self.random.pick(&[0, 1, 4, 19, 20, 21, 28])),
            6 => {
                let more = self.random.pick(&[1, 2, 3, 4, 8, 40]);
                file.resize(length + more, self.random.pick(&[0, 1, 255]));
            }
            7..=10 if length >= CONTENTS => {
                let field = self.random.pick(&[0, 1, 2, 2, 3, 4, 4]);
                let lengths = [0, 4, 8, 12, 20, 49_160, 49_164, 51_208, 51_212, 1 << 31];
                let old = number_at(&file, field);
                let mut number = match self.random.below(6) {
                    0 | 1 => old.wrapping_add(1),
                    2 => old.wrapping_sub(1),
                    3 => old.wrapping_add(4),
                    4 => old.wrapping_sub(4),
                    _ => self.random.pick(&lengths),
                };
                if self.random.percent(10) {
                    number = number.rotate_left(8);
                }
                file = with(&file, &[(field, number)]);
                if field == 2 && self.random.percent(60) {
                    file = with(&file, &[(3, number.wrapping_add(20))]);
                }
            }
            11..=15 if length >= 28 => {
                let index = self.random.between(5, length / 4 - 1);
                let old = number_at(&file, index);
                let edges = [0, 1, 2, 3, 4, 7, 8, 65, 512, 513, u32::MAX, 1 << 28, 1 << 30];
                let number = match self.random.below(6) {
                    0..=2 => old.wrapping_add(1),
                    3 => old.wrapping_sub(1),
                    _ => self.random.pick(&edges),
                };
                file = with(&file, &[(index, number)]);
            }
            16..=18 if whole => {
                // a word more or less at the end of a table, and contents to match
                let mut parts = parts(&file);
                let part = &mut parts[self.random.below(2)];
                if self.random.percent(60) {
                    part.push(self.random.pick(&[0, 0, 0, 1]));
                } else {
                    part.pop();
                }
                file = snapshot::file(&parts[0], &parts[1]);
            }
            19 => file = file.chunks(4).flat_map(|n| n.iter().rev().copied()).collect(),
            20..=22 if whole => {
                let [register, ledger] = parts(&file);
                let (start, pokes) = match self.random.below(7) {
                    0..=2 => (0, own_customer_pokes(&register)),
                    3..=5 => (register.len(), equal_neighbour_pokes(&ledger)),
                    _ => (register.len(), seam_pokes(&ledger)),
                };
                if !pokes.is_empty() {
                    let (index, value) = self.random.pick(&pokes);
                    file = with(&file, &[(CONTENTS / 4 + start + index, value)]);
                }
            }
            _ => {}
        }
        file
    }

    /// The used words, or in a damaged table, where the counts need not say
    /// which those are, all words.
    fn show(&mut self, table: &str) {
        if self.well_formed(table) && self.random.percent(80) {
            self.say(table);
        } else {
            self.say(&format!("words {table}"));
        }
    }

    fn well_formed(&self, table: &str) -> bool {
        match table {
            REGISTER => self.model.register.well_formed(),
            DRAWER => self.model.overrides.well_formed(),
            _ => self.model.ledger.well_formed(),
        }
    }

    fn all_well_formed(&self) -> bool {
        TABLES.iter().all(|table| self.well_formed(table))
    }

    fn any_call(&mut self) {
        match self.random.below(1_000) {
            0..=219 => self.file(),
            220..=299 => self.withdraw(),
            300..=319 => self.clear(),
            320..=589 => self.judge(),
            590..=779 => self.keep(),
            780..=854 => self.drop(),
            855..=904 => self.hop(),
            905..=929 => self.lookup(),
            930..=965 => self.say("rejudge"),
            966..=973 => self.show(REGISTER),
            974..=980 => self.show(DRAWER),
            981..=987 => self.show(LEDGER),
            988..=990 => self.write(),
            991..=993 => self.read(),
            _ => self.bad_line(),
        }
    }

    // Phases

    fn ordinary(&mut self) {
        for (register, most) in [(REGISTER, 60), (DRAWER, 15)] {
            if self.record_count(register) > most && self.random.percent(80) {
                self.clear_all(register);
            }
        }
        if self.route_count() > 100 && self.random.percent(60) {
            self.say("empty");
        }
        for _ in 0..self.random.between(50, 250) {
            self.any_call();
        }
        self.show(REGISTER);
        self.show(DRAWER);
        self.say("rejudge");
        self.show(LEDGER);
    }

    fn clear_all(&mut self, register: &str) {
        for source in 0..8 {
            self.say(&format!("{}clear {source}", d(register)));
        }
    }

    /// Routes over public records, then overrides of numbers on their paths, put in
    /// and taken out again.
    fn overriding(&mut self) {
        if self.route_count() > 40 || self.random.percent(30) {
            self.say("empty");
        }
        self.clear_all(DRAWER);
        for _ in 0..8 {
            self.file_in(REGISTER);
            self.keep();
        }
        self.say("rejudge");
        for _ in 0..self.random.between(4, 10) {
            let Some((customer, source)) = self.some_record_in(REGISTER) else { break };
            // the same list, the same but for a number, or another; by any source
            let mut list = self.providers_in(REGISTER, customer);
            match self.random.below(5) {
                0 => {}
                1 => list.push(self.provider(customer)),
                2 => list.truncate(1),
                3 => list = vec![0],
                _ => list = self.list(customer),
            }
            let source = if self.random.percent(50) { source } else { self.source() };
            self.say(&format!("dfile {source} {customer}{}", numbers(&ascending(list))));
            for _ in 0..self.random.below(3) {
                self.hop_from(customer);
                let source = self.source();
                self.say(&format!("lookup {customer} {source}"));
            }
            // up by the public records
            let public = self.providers_in(REGISTER, customer);
            let provider = self.random.pick(&public).max(1);
            let (role, path) = (self.random.between(1, 6), sequence(&[provider, customer]));
            self.say(&format!("judge {role} {provider} {}", hex(&path)));
            self.say("rejudge");
            match self.random.below(6) {
                0 | 1 => self.judge(),
                2 => self.show(LEDGER),
                3 => self.withdraw_in(DRAWER),
                4 => self.withdraw_in(REGISTER),
                _ => self.file_in(REGISTER),
            }
        }
        self.show(DRAWER);
        if self.random.percent(50) {
            self.clear_all(DRAWER);
        }
        self.say("rejudge");
        self.show(LEDGER);
    }

    /// Paths judged before and after a number on them, unattested so far, gets a record.
    fn first_records(&mut self) {
        self.say("empty");
        for _ in 0..8 {
            self.file();
        }
        for _ in 0..20 {
            let mut path = self.path();
            path.dedup();
            let listed = |register, number: &u32| !self.providers_in(register, *number).is_empty();
            let attested = |number: &u32| listed(REGISTER, number) || listed(DRAWER, number);
            let unattested: Vec<u32> = path.iter().copied().filter(|n| !attested(n)).collect();
            if unattested.is_empty() {
                continue;
            }
            let (role, attribute) = (self.random.between(1, 6), self.sequences(&path));
            let route = format!("{role} {} {}", path[0], hex(&attribute));
            self.say(&format!("judge {route}"));
            if self.random.percent(30) {
                let number = self.route();
                self.say(&format!("keep {number} {route}"));
            }
            // with the numbers beside it, with one of them, or any list
            let customer = self.random.pick(&unattested);
            let hops = path.windows(2).flat_map(|pair| [(pair[0], pair[1]), (pair[1], pair[0])]);
            let beside = ascending(hops.filter(|(x, _)| *x == customer).map(|(_, y)| y).collect());
            let list = match self.random.below(5) {
                0..=2 if !beside.is_empty() => beside,
                3 if !beside.is_empty() => vec![self.random.pick(&beside)],
                _ => self.list(customer),
            };
            let (letter, source) = (d(self.register()), self.random.below(8));
            self.say(&format!("{letter}file {source} {customer}{}", numbers(&list)));
            self.say(&format!("judge {route}"));
            // So that some numbers stay unattested
            if self.random.percent(60) {
                self.say(&format!("{letter}withdraw {source} {customer}"));
                self.say(&format!("judge {route}"));
            } else {
                self.say("rejudge");
            }
        }
    }

    /// Up to 1,024 records, then at the limit.
    fn many_records(&mut self) {
        let register = self.random.pick(&[REGISTER, DRAWER]);
        let d = d(register);
        self.clear_all(register);
        let mut pairs: Vec<(u32, u32)> =
            (0..8).flat_map(|source| (1..=128).map(move |customer| (source, customer))).collect();
        while !pairs.is_empty() && self.left > 0 {
            let (source, customer) = pairs.swap_remove(self.random.below(pairs.len()));
            let first = self.provider(customer);
            let two = self.random.percent(30) && first < 40 && customer != 40;
            let list = if two { vec![first, 40] } else { vec![first] };
            self.say(&format!("{d}file {source} {customer}{}", numbers(&list)));
        }
        // the other register has room
        self.say("file 3 200 7");
        self.say("dfile 3 200 7");
        for _ in 0..30 {
            let source = self.random.below(8);
            let provider = self.number();
            match self.random.below(10) {
                0..=5 => {
                    let customer = self.random.between(100, 160) as u32;
                    let provider = self.random.pick(&[provider, provider, provider, customer]);
                    self.say(&format!("{d}file {source} {customer} {provider}"));
                }
                6 => self.withdraw_in(register),
                7 => {
                    self.keep();
                    self.hop();
                }
                _ => self.judge(),
            }
        }
        if self.random.percent(50) {
            self.say("rejudge");
        }
        self.show(register);
        self.long_snapshot();
        self.one_rule_and_back(register);
        self.clear_in(register);
    }

    /// Tables as they are, now and then written and read back.
    fn long_snapshot(&mut self) {
        let Some(file) = file_of(&self.model) else { return };
        if self.random.percent(40) {
            let capacity = file.len() - self.random.below(2);
            self.say(&format!("write {capacity}"));
        }
        if self.random.percent(40) {
            let file = if self.random.percent(30) { self.damaged(file) } else { file };
            self.say(&format!("read {}", hex(&file)));
        }
    }

    /// Up to 8,192 numbers in lists, then at the limit.
    fn long_lists(&mut self, register: &str) {
        let d = d(register);
        self.clear_all(register);
        for customer in 1..=32 {
            let (source, first) = (self.random.below(8), self.random.below(4) as u32);
            let list = run_without(customer, first, 256);
            self.say(&format!("{d}file {source} {customer}{}", numbers(&list)));
        }
        // the other register has room
        self.say("file 3 200 7");
        self.say("dfile 3 200 7");
        for _ in 0..25 {
            let length = self.random.pick(&[1, 1, 2, 3, 255, 256, 256, 257]);
            let first = self.random.below(4) as u32;
            let (customer, source) = match self.some_record_in(register) {
                // the same pair, so that its own room counts
                Some(record) if self.random.percent(50) => record,
                _ => (self.random.between(1, 36) as u32, self.random.below(8) as u32),
            };
            let list = if self.random.percent(10) {
                self.list_with(customer)
            } else {
                run_without(customer, first, length)
            };
            self.say(&format!("{d}file {source} {customer}{}", numbers(&list)));
            if self.random.percent(15) {
                self.withdraw_in(register);
            }
            if self.random.percent(30) {
                self.judge();
            }
            if self.random.percent(15) {
                self.lookup();
            }
        }
        self.say("rejudge");
        if self.random.percent(30) {
            self.show(register);
        }
        self.long_snapshot();
        self.one_rule_and_back(register);
        self.clear_all(register);
    }

    /// Up to 512 routes, then at the limit.
    fn many_routes(&mut self) {
        let mut routes: Vec<u32> = (0..530).collect();
        while routes.len() > 6 && self.left > 0 {
            let route = routes.swap_remove(self.random.below(routes.len()));
            let path = self.path();
            let bytes = if self.random.percent(10) { Vec::new() } else { self.sequences(&path) };
            let role = self.random.between(1, 6);
            self.say(&format!("keep {route} {role} {} {}", path[0], hex(&bytes)));
        }
        for _ in 0..20 {
            let route = self.random.between(0, 600);
            let judged = self.judged();
            self.say(&format!("keep {route} {judged}"));
            if self.random.percent(30) {
                self.drop();
            }
            if self.random.percent(20) {
                self.file();
            }
        }
        for _ in 0..self.random.below(3) {
            self.file();
            self.say("rejudge");
        }
        if self.random.percent(40) {
            self.show(LEDGER);
        }
        self.long_snapshot();
        self.one_rule_and_back(LEDGER);
        self.fewer_routes();
    }

    fn longest_paths(&mut self) {
        self.paths_of(&[LONGEST_PATH]);
    }

    fn long_paths(&mut self) {
        let all_kinds = &[1, 64, 255, 256, 511, 512];
        let lengths = self.random.pick(&[&[63, 64, 65][..], &[510, 511, 512], all_kinds]);
        self.paths_of(lengths);
    }

    /// Up to 8,192 numbers in paths of such lengths, the least of which is the first; then
    /// at the limit.
    fn paths_of(&mut self, lengths: &[usize]) {
        self.fewer_routes();
        let mut route = 1_000;
        while self.left > 0 && self.path_room() >= lengths[0] {
            let length = self.random.pick(lengths).min(self.path_room());
            let (role, path) = (self.random.between(1, 6), self.distinct_neighbours(length));
            let bytes = self.sequences(&path);
            self.say(&format!("keep {route} {role} {} {}", path[0], hex(&bytes)));
            route += 1;
        }
        for _ in 0..30 {
            let route = self.random.between(1_000, 1_200);
            // also what just fits, and one more
            let room = self.path_room().min(LONGEST_PATH);
            let longest = self.random.pick(&[1, 64, LONGEST_PATH, LONGEST_PATH + 1]);
            let length = self.random.pick(&[0, 1, 2, longest, room, room + 1, room + 1]);
            let path = self.distinct_neighbours(length);
            let bytes = self.sequences(&path);
            let neighbour = path.first().copied().unwrap_or(9);
            let call = if self.random.percent(20) { "judge" } else { &format!("keep {route}") };
            self.say(&format!("{call} 3 {neighbour} {}", hex(&bytes)));
            if self.random.percent(20) {
                self.drop();
            }
        }
        self.file();
        self.say("rejudge");
        if self.random.percent(30) {
            self.show(LEDGER);
        }
        self.long_snapshot();
        self.one_rule_and_back(LEDGER);
        self.seam_and_back();
        self.fewer_routes();
    }

    /// Long paths over numbers most of which list each other, so that places and gaps
    /// lie anywhere.
    fn long_ramps(&mut self) {
        self.say("empty");
        for customer in 1..=12 {
            self.say(&format!("file 0 {customer}{}", numbers(&run_without(customer, 1, 15))));
        }
        self.say("file 0 15 0");
        self.say("file 0 16 1 2 3 4 5 6");
        for route in 0..10 {
            let path = self.ramps();
            let (role, bytes) =
                (self.random.pick(&[1, 2, 3, 3, 4, 5, 6, 6]), self.sequences(&path));
            let call = self.random.pick(&["judge".to_string(), format!("keep {route}")]);
            self.say(&format!("{call} {role} {} {}", path[0], hex(&bytes)));
        }
        let changes = [
            "withdraw 0 15", "file 0 13 7 8 9", "file 0 14 0", "dfile 0 14 1 2 3 4 5 6",
            "dfile 1 15 0", "dfile 2 16 7 8 9",
        ];
        for _ in 0..3 {
            self.say("rejudge");
            let change = self.random.pick(&changes);
            self.say(change);
        }
        let path = self.ramps();
        let bytes = self.sequences(&path);
        self.say(&format!("judge 3 {} {}", path[0], hex(&bytes)));
        self.say("rejudge");
        self.show(LEDGER);
        self.long_snapshot();
        self.one_rule_and_back(LEDGER);
        self.fewer_routes();
    }

    /// Hops are Provider+ but for those from a few numbers, most of which are near an end:
    /// 13 and 14 have no record, 15 lists nobody, and 16 half of the others, so that it
    /// may stop one ramp alone.
    fn ramps(&mut self) -> Vec<u32> {
        let length = self.long();
        let mut path = self.distinct_neighbours_of(length, 12);
        for _ in 0..self.random.pick(&[0, 1, 1, 1, 2, 2, 3]) {
            let from_an_end = self.random.pick(&[0, 1, 1, 2]);
            let anywhere = self.random.below(length);
            let at = self.random.pick(&[from_an_end, length - 1 - from_an_end, anywhere]);
            path[at] = self.random.pick(&[13, 14, 15, 16, 16, 16]);
        }
        path
    }

    /// A table of about a power of two entries, looked up at some of them and
    /// beside them.
    fn look_ups(&mut self) {
        if self.random.percent(60) {
            self.record_look_ups();
        } else {
            self.route_look_ups();
        }
    }

    fn near_power(&mut self, most: usize) -> usize {
        let power = 1 << self.random.between(0, most.ilog2() as usize);
        (power + self.random.below(3) - 1).min(most)
    }

    fn record_look_ups(&mut self) {
        let register = self.random.pick(&[REGISTER, DRAWER]);
        let d = d(register);
        self.clear_all(register);
        let size = self.near_power(1_024);
        // By source, so that a list that is missed shows
        let provider = |customer: u32, source: u32| customer.wrapping_add(1 + source);
        // Pairs come twice now and then.
        for _ in 0..2 * size {
            if self.record_count(register) == size {
                break;
            }
            let (customer, source) =
                (3 * self.random.between(1, size) as u32, self.random.below(8) as u32);
            self.say(&format!("{d}file {source} {customer} {}", provider(customer, source)));
        }
        for _ in 0..40 {
            let Some((customer, source)) = self.some_record_in(register) else { break };
            let above = customer.wrapping_add(1);
            let beside = self.random.pick(&[customer - 1, customer, customer, above]);
            let other = self.random.below(8) as u32;
            let listed = provider(customer, source);
            match self.random.below(8) {
                0 | 1 => {
                    let path = hex(&sequence(&[listed, customer]));
                    self.say(&format!("judge 1 {listed} {path}"));
                }
                2 => {
                    self.say(&format!("{d}withdraw {source} {customer}"));
                    self.say(&format!("{d}file {source} {customer} {listed}"));
                }
                3 => self.say(&format!("{d}withdraw {other} {beside}")),
                5 => self.say(&format!("hop {beside} {listed}")),
                6 => {
                    let source = self.random.pick(&[source, source, other]);
                    self.say(&format!("lookup {beside} {source}"));
                }
                4 => {
                    let path = hex(&sequence(&[customer, beside]));
                    self.say(&format!("judge 3 {customer} {path}"));
                }
                _ => self.say(&format!("{d}file {other} {beside} {}", provider(beside, other))),
            }
        }
        self.say("rejudge");
        if self.random.percent(30) {
            self.show(register);
        }
    }

    fn route_look_ups(&mut self) {
        self.fewer_routes();
        let size = self.near_power(512);
        // Numbers come twice now and then.
        for _ in 0..3 * size {
            if self.route_count() == size {
                break;
            }
            let route = 3 * self.random.below(2 * size);
            let (role, path) = (self.random.between(1, 6), self.path());
            self.say(&format!("keep {route} {role} {} {}", path[0], hex(&sequence(&path))));
        }
        for _ in 0..40 {
            let Some(route) = self.some_route() else { break };
            let beside =
                self.random.pick(&[route.wrapping_sub(1), route, route, route.wrapping_add(1)]);
            match self.random.below(4) {
                0 => self.say(&format!("keep {beside} 1 5 -")),
                1 => self.say(&format!("drop {beside}")),
                2 => {
                    self.say(&format!("drop {route}"));
                    let judged = self.judged();
                    self.say(&format!("keep {route} {judged}"));
                }
                _ => {
                    self.say(&format!("keep {beside} 1 5 -"));
                    self.say(&format!("drop {beside}"));
                }
            }
        }
        self.say("rejudge");
        if self.random.percent(30) {
            self.show(LEDGER);
        }
    }

    fn fewer_routes(&mut self) {
        // In words left by a poke no route is found.
        if self.random.percent(50) || matches!(self.model.ledger, Table::Words(_)) {
            self.say("empty");
            return;
        }
        while self.left > 0 {
            match self.some_route() {
                Some(route) => self.say(&format!("drop {route}")),
                None => break,
            }
        }
    }

    /// Words that break the rules (or a wrong length), calls, and the repair.
    fn damage(&mut self, table: &str, alter: fn(&mut Self, &str) -> String) {
        for _ in 0..5 {
            self.file();
            self.keep();
        }
        let mut undo = vec![alter(self, table)];
        // A second one, mostly to another table: rows 1 of both go before rows 2 and 3.
        if self.random.percent(50) {
            let others = TABLES.map(|other| if other == table { LEDGER } else { other });
            let other = self.random.pick(&others);
            let second = if self.random.percent(35) { Self::resize } else { Self::poke };
            undo.push(second(self, other));
        }
        self.every_call();
        if self.random.percent(15) {
            self.show(table);
        }
        if self.random.percent(60) {
            // An altered table that was sound may have changed since: then
            // undoing is one more alteration.
            while let Some(command) = undo.pop() {
                self.say(&command);
            }
            self.any_call();
        }
        if !self.all_well_formed() {
            if self.random.percent(30) {
                self.say("resize register 12290");
                self.say("resize drawer 12290");
                self.say("resize ledger 12802");
                self.any_call();
            }
            self.say("empty");
        }
    }

    /// Every call once at least.
    fn every_call(&mut self) {
        type Call<S> = fn(&mut S);
        let all: [Call<Self>; 14] = [
            |s| s.file_in(REGISTER),
            |s| s.file_in(DRAWER),
            |s| s.withdraw_in(REGISTER),
            |s| s.withdraw_in(DRAWER),
            |s| s.clear_in(REGISTER),
            |s| s.clear_in(DRAWER),
            Self::hop,
            Self::lookup,
            Self::judge,
            Self::keep,
            Self::drop,
            |s| s.say("rejudge"),
            Self::write,
            Self::read,
        ];
        let mut calls = all.to_vec();
        for _ in 0..self.random.below(6) {
            calls.push(self.random.pick(&all));
        }
        while !calls.is_empty() {
            let call = calls.swap_remove(self.random.below(calls.len()));
            call(self);
        }
    }

    /// Two tables, each of a wrong length or with a wrong word, now and then the third too.
    fn two_damages(&mut self) {
        for _ in 0..2 {
            self.file_in(REGISTER);
            self.file_in(DRAWER);
            self.keep();
        }
        let spared = self.random.pick(&[REGISTER, DRAWER, LEDGER, "none"]);
        for table in TABLES.into_iter().filter(|table| *table != spared) {
            let full = self.words(table).len();
            let command = match self.random.below(5) {
                0 => format!("resize {table} {}", full + 1),
                1 => format!("resize {table} {}", full.saturating_sub(1)),
                2 => format!("poke {table} 1 4294967295"),
                3 => format!("poke {table} {} 1", full.saturating_sub(1)),
                _ => format!("poke {table} 0 {full}"),
            };
            self.say(&command);
        }
        self.every_call();
        self.say("empty");
    }

    fn words(&self, table: &str) -> Vec<u32> {
        match table {
            REGISTER => self.model.register.words(),
            DRAWER => self.model.overrides.words(),
            _ => self.model.ledger.words(),
        }
    }

    /// Gives the command that undoes it, but for words that shrinking took.
    fn resize(&mut self, table: &str) -> String {
        let full = self.words(table).len();
        let length = match self.random.below(8) {
            0 => 0,
            1 => self.random.between(1, 20),
            2 | 3 => full.saturating_sub(1),
            4 => (full + 1).min(16_384),
            5 => self.random.pick(&[12_289, 12_290, 12_291, 12_801, 12_802, 12_803]),
            6 => self.random.pick(&[16_384, 16_385]),
            _ => self.random.below(16_385),
        };
        self.say(&format!("resize {table} {length}"));
        format!("resize {table} {full}")
    }

    /// Gives the command that undoes it.
    fn poke(&mut self, table: &str) -> String {
        let words = self.words(table);
        let full = words.len();
        if full < 2 {
            return self.resize(table);
        }
        // In a table that is damaged already the counts may say anything.
        let entry = if table == LEDGER { 9 } else { 4 };
        let count = (words[0] as usize).min(full / entry);
        let body = (2 + entry * count).min(full - 1);
        let end = (body + words[1] as usize).min(full - 1);
        let index = match self.random.below(12) {
            0 | 1 => self.random.below(2),
            2..=6 if count > 0 => 2 + self.random.below(entry * count),
            7 | 8 if end > body => self.random.between(body, end - 1),
            9 => end,
            10 => full - 1,
            11 => self.random.below(full + 2),
            _ => self.random.below(end + 1),
        };
        let old = words.get(index).copied().unwrap_or(0);
        let edges = [0, 1, 2, 3, 4, 5, 6, 7, 8, 64, 65, 256, 257, 512, 513, 1_024, 1_025, 8_192];
        let value = match self.random.below(10) {
            0..=2 => old.wrapping_add(1),
            3 | 4 => old.wrapping_sub(1),
            5..=7 => self.random.pick(&edges),
            8 => self.random.pick(&[8_193, u32::MAX, u32::MAX - 1, 1 << 30, 1 << 31, 0xc000_0000]),
            _ => self.random.draw() as u32,
        };
        self.say(&format!("poke {table} {index} {value}"));
        format!("poke {table} {index} {old}")
    }

    /// A list with its own customer in it, or a path with equal neighbours, and no
    /// other fault, if one word can do it; or, now and then, equal numbers of two
    /// paths. Gives the command that undoes it.
    fn poke_one_rule(&mut self, table: &str) -> String {
        let words = self.words(table);
        let pokes = match table {
            REGISTER | DRAWER => own_customer_pokes(&words),
            _ if self.random.percent(20) => seam_pokes(&words),
            _ => equal_neighbour_pokes(&words),
        };
        if pokes.is_empty() {
            return self.poke(table);
        }
        let (index, value) = self.random.pick(&pokes);
        self.say(&format!("poke {table} {index} {value}"));
        format!("poke {table} {index} {}", words[index])
    }

    /// A call that is lent this table and leaves it.
    fn look_at(&mut self, table: &str) {
        match table {
            REGISTER => self.judge(),
            DRAWER if self.random.percent(50) => self.hop(),
            DRAWER => self.judge(),
            _ => self.say("drop 4000000000"),
        }
    }

    fn one_rule_and_back(&mut self, table: &str) {
        for _ in 0..3 {
            let undo = self.poke_one_rule(table);
            self.look_at(table);
            self.say(&undo);
        }
        self.look_at(table);
    }

    fn seam_and_back(&mut self) {
        let words = self.words(LEDGER);
        let moves = seam_moves(&words);
        if moves.is_empty() {
            return;
        }
        let there = self.random.pick(&moves);
        let back = there.map(|(index, _)| (index, words[index]));
        for pokes in [there, back] {
            for (index, value) in pokes {
                self.say(&format!("poke ledger {index} {value}"));
            }
            self.look_at(LEDGER);
        }
    }

    /// One word at a time, near its own bounds, looked at and put back.
    fn single_words(&mut self) {
        for _ in 0..8 {
            self.file();
            self.keep();
        }
        for _ in 0..50 {
            let table = self.random.pick(&[REGISTER, DRAWER, LEDGER, LEDGER]);
            let undo = match self.random.below(10) {
                0..=3 => self.poke(table),
                4 | 5 => self.poke_one_rule(table),
                _ => self.poke_entry(table),
            };
            self.look_at(table);
            self.say(&undo);
        }
        if !self.all_well_formed() {
            self.say("empty");
        }
    }

    /// A word of an entry, by what it means. Gives the command that undoes it.
    fn poke_entry(&mut self, table: &str) -> String {
        let words = self.words(table);
        let entry = if table == LEDGER { 9 } else { 4 };
        let count = words.first().map_or(0, |n| *n as usize);
        if !self.well_formed(table) || count == 0 {
            return self.poke(table);
        }
        let (body, length) = (2 + entry * count, words[1] as usize);
        if self.random.percent(15) && length > 0 {
            let index = body + self.random.below(length);
            let after = words.get(index + 1).copied().unwrap_or(0);
            let value = self.random.pick(&[0, 0, words[index - 1], after]);
            self.say(&format!("poke {table} {index} {value}"));
            return format!("poke {table} {index} {}", words[index]);
        }
        let nth = self.random.below(count);
        let field = self.random.below(entry);
        let index = 2 + entry * nth + field;
        // The same word of the entries beside it, for the order
        let before = words[if nth > 0 { index - entry } else { index }];
        let after = words[if nth + 1 < count { index + entry } else { index }];
        let bounds: &[u32] = match (table, field) {
            (REGISTER | DRAWER, 1) => &[0, 7, 8],
            (REGISTER | DRAWER, 3) => &[0, 1, 256, 257],
            (LEDGER, 1) => &[0, 1, 3, 4, 6, 7],
            (LEDGER, 3) => &[0, 1, 2, 3, 4],
            (LEDGER, 4) => &[0, 1, 2, 3],
            (LEDGER, 5 | 6 | 8) => &[0, 1, 65, 512, 513, 513],
            _ => &[0, 1],
        };
        let bound = self.random.pick(bounds);
        let value = self.random.pick(&[bound, bound, before, after]);
        self.say(&format!("poke {table} {index} {value}"));
        format!("poke {table} {index} {}", words[index])
    }

    /// Verdicts and places that the word rules allow, for a re-judging to mend.
    fn untrue_verdicts(&mut self) {
        for _ in 0..20 {
            self.keep();
        }
        let entries = self.route_count();
        for _ in 0..self.random.below(8) {
            if entries > 0 {
                let first = 2 + 9 * self.random.below(entries);
                let (word, most) =
                    self.random.pick(&[(4, 2), (5, LONGEST_PATH), (6, LONGEST_PATH)]);
                let value = self.random.between(0, most);
                // An entry with a ground allows no other.
                let words = self.model.ledger.words();
                if words[first + 3] == 0 {
                    self.say(&format!("poke ledger {} {value}", first + word));
                }
            }
        }
        self.say("rejudge");
        self.show(LEDGER);
        self.say("rejudge");
    }

    /// Few records and routes, so that what is read has few words and each
    /// kind of damage meets each of them.
    fn snapshots(&mut self) {
        if self.record_count(REGISTER) + self.route_count() > 20 || self.random.percent(30) {
            self.say("empty");
        }
        for _ in 0..self.random.between(2, 4) {
            self.file();
            self.keep();
        }
        self.write();
        for _ in 0..25 {
            self.read();
            match self.random.below(9) {
                0 | 1 => self.write(),
                2 => self.file(),
                3 => self.keep(),
                4 => self.say("rejudge"),
                5 => self.show(REGISTER),
                6 => self.show(LEDGER),
                7 => self.show(DRAWER),
                _ => {}
            }
        }
        self.write();
    }

    fn lines_that_are_no_commands(&mut self) {
        for _ in 0..15 {
            self.bad_line();
        }
        // at the longest line and one byte past it; not always, as it is long
        if self.random.percent(50) {
            let starts =
                ["judge 1 200 ", "judge 1 20 ", "file 0 1", "file 0 12", "dfile 0 1", "read "];
            let start = self.random.pick(&starts);
            let repeated = if start.contains("file") { " 2" } else { "00" };
            let times = (console::LONGEST_LINE + 1 - start.len()) / 2 - self.random.below(2);
            self.say(&format!("{start}{}", repeated.repeat(times)));
        }
        self.any_call();
    }

    fn bad_line(&mut self) {
        let line = self.random.pick(&BAD_LINES).to_string();
        let line = match self.random.below(4) {
            0 => {
                let (first, bytes) = self.attribute();
                let digits = hex(&bytes);
                match self.random.below(4) {
                    0 => format!("judge 1 {first} {digits}0"),
                    1 => format!(
                        "judge 1 {first} {}",
                        digits.replace('-', "0a").to_uppercase() + "0A"
                    ),
                    2 => format!("judge 1 {first}  {digits}"),
                    _ => format!("judge 1 {first} {digits} "),
                }
            }
            1 => {
                let (source, customer) = (self.source(), self.number());
                let list = numbers(&self.list(customer));
                match self.random.below(4) {
                    0 => format!("file 0{source} {customer}{list}"),
                    1 => format!("file {source} {customer}{list} "),
                    2 => format!("file {source} {customer}{list} 4294967296"),
                    _ => format!("file {source},{customer}{list}"),
                }
            }
            _ => line,
        };
        self.say(&line);
    }
}

/// Bytes of a snapshot that may come again later.
const SHORT_FILE: usize = 1_500;
const MOST_FILES: usize = 8;

const BAD_LINES: [&str; 83] = [
    "", " ", "-", "0", "hello", "File 0 1 2", "file", "file 0", "file 0 ", "file x 1 2",
    "file 0 1 +2", "file 0 1 2,3", "file 0 1 -", " file 0 1 2", "file 0  1 2", "file 0 1 2\t3",
    "file 0 1 00", "file 0 4294967296 2", "file 0 1 18446744073709551617", "files 0 1 2",
    "withdraw", "withdraw 0", "withdraw 0 1 2", "withdraw 0 01", "clear", "clear x", "clear 0 1",
    "clear 00", "judge", "judge 1 5", "judge 1 5 0", "judge 1 5 0G", "judge 1 5 0A",
    "judge 1 5 - -", "judge 1 5 é", "keep 1 1 5", "keep 1 1", "keep 01 1 5 -", "keep 1 1 5 020",
    "drop", "drop x", "drop 1 1", "rejudge x", "poke register 0", "poke registers 0 0",
    "resize ledger 99999", "words", "empty 0", "write", "write -", "write 131073", "write 036",
    "write 36 36", "read", "read 0", "read 0A", "read - -", "read 00 00", "dfile", "dfile 0",
    "dfile 0 1 x", "d file 0 1 2", "dwithdraw 0", "dwithdraw 0 1 2", "dclear", "dclear 0 1",
    "dclear 00", "drawer 0", "drawer ", "lookup", "lookup 5", "lookup 5 0 0", "lookup 5 x",
    "lookup 05 0", "hop", "hop 5", "hop 0 5", "hop 5 0", "hop 0 0", "hop 5 6 7", "hop 5 06",
    "poke drawer 0", "resize drawer 16385",
];

// Fixed vectors

/// Role, neighbour, path of the vectors A to L, all over register D.
const A_TO_L: [(u32, u32, &[u32]); 12] = [
    (1, 20, &[20, 10]),
    (1, 40, &[40, 20, 10]),
    (1, 50, &[50, 20, 10]),
    (2, 30, &[30, 60, 10]),
    (1, 30, &[30, 60]),
    (3, 50, &[50, 40, 20, 10]),
    (3, 20, &[20, 10, 30]),
    (3, 20, &[20, 10, 40]),
    (3, 50, &[50, 20]),
    (6, 80, &[80, 70]),
    (1, 30, &[20, 10]),
    (4, 30, &[20, 10]),
];

fn vectors() -> Vec<String> {
    let mut lines = Lines(Vec::new());
    whole_register(&mut lines);
    lines.say("empty");
    judged_vectors(&mut lines);
    lines.say("empty");
    attributes(&mut lines);
    lines.say("empty");
    path_lengths(&mut lines);
    lines.say("empty");
    full_segments(&mut lines);
    lines.say("empty");
    longest_attributes(&mut lines);
    last_faults(&mut lines);
    lines.say("empty");
    widest_gaps(&mut lines);
    lines.say("empty");
    places_of_stops(&mut lines);
    lines.say("empty");
    runs_over_boundaries(&mut lines);
    lines.say("empty");
    long_runs(&mut lines);
    lines.say("empty");
    argument_refusals(&mut lines);
    lines.say("empty");
    rejudging(&mut lines);
    lines.say("empty");
    damaged_tables(&mut lines);
    for (sound, pokes, call) in one_rule_broken() {
        lines.say("empty");
        lines.0.extend(sound);
        lines.say(call);
        lines.0.extend(pokes);
        lines.say(call);
    }
    lines.say("empty");
    own_customers_filed(&mut lines);
    own_customers_stored(&mut lines);
    lines.say("empty");
    equal_neighbours_stored(&mut lines);
    lines.say("empty");
    equal_neighbours_at_each_index(&mut lines);
    lines.say("empty");
    places_and_counts(&mut lines);
    lines.say("empty");
    room(&mut lines);
    for length in [64, 512] {
        lines.say("empty");
        full_of_paths(&mut lines, length);
    }
    lines.say("empty");
    look_ups(&mut lines);
    lines.say("empty");
    errors(&mut lines);
    lines.say("empty");
    snapshots_of_tables(&mut lines);
    snapshot_refusals(&mut lines);
    lines.say("empty");
    snapshots_and_damaged_tables(&mut lines);
    lines.say("empty");
    full_snapshot(&mut lines);
    for part in [
        overridden_vectors, counting_records, sides, two_registers, rejudged_overrides,
        overrides_at_the_ends, overridden_look_ups, full_overrides, damaged_overrides,
        words_of_overrides, snapshots_beside_overrides, before_and_after,
    ] {
        lines.say("empty");
        part(&mut lines);
    }
    lines.0
}

struct Lines(Vec<String>);

impl Lines {
    fn say(&mut self, line: &str) {
        self.0.push(line.to_string());
    }

    fn all(&mut self, lines: &[&str]) {
        lines.iter().for_each(|line| self.say(line));
    }

    fn file(&mut self, source: u32, customer: u32, list: &[u32]) {
        self.0.push(format!("file {source} {customer}{}", numbers(list)));
    }

    fn judge(&mut self, role: u32, neighbour: u32, attribute: &[u8]) {
        self.0.push(format!("judge {role} {neighbour} {}", hex(attribute)));
    }

    fn keep(&mut self, route: u32, role: u32, neighbour: u32, attribute: &[u8]) {
        self.0.push(format!("keep {route} {role} {neighbour} {}", hex(attribute)));
    }

    fn write(&mut self, capacity: usize) {
        self.0.push(format!("write {capacity}"));
    }

    fn read(&mut self, file: &[u8]) {
        self.0.push(format!("read {}", hex(file)));
    }

    /// A read of these words of a register and of a ledger.
    fn read_parts(&mut self, [register, ledger]: &[Vec<u32>; 2]) {
        self.read(&snapshot::file(register, ledger));
    }

    /// A read, and what the tables are then.
    fn read_and_write(&mut self, file: &[u8]) {
        self.read(file);
        self.write(131_072);
    }
}

fn whole_register(lines: &mut Lines) {
    lines.all(&["register", "ledger", "words register", "words ledger"]);
    lines.all(&["file 2 65010 65001 65002", "file 0 65010 65003", "register", "words register"]);
}

fn judged_vectors(lines: &mut Lines) {
    lines.all(&REGISTER_D);
    lines.say("register");
    for (role, neighbour, path) in A_TO_L {
        lines.judge(role, neighbour, &sequence(path));
    }
    for (route, (role, neighbour, path)) in (1..).zip(A_TO_L) {
        lines.keep(route, role, neighbour, &sequence(path));
    }
    lines.all(&["ledger", "rejudge", "ledger"]);
    let (b, c, g) = (A_TO_L[1], A_TO_L[2], A_TO_L[6]);
    // M
    lines.say("file 0 30 0");
    lines.judge(g.0, g.1, &sequence(g.2));
    lines.all(&["rejudge", "ledger", "withdraw 0 30", "rejudge", "ledger"]);
    // N, and B beside it: no source's list replaces another's
    lines.say("file 1 20 50");
    lines.judge(c.0, c.1, &sequence(c.2));
    lines.judge(b.0, b.1, &sequence(b.2));
    lines.all(&["rejudge", "ledger", "register", "withdraw 1 20"]);
    // the same with the sources the other way round
    lines.all(&["withdraw 0 20", "file 1 20 40", "file 0 20 50"]);
    lines.judge(c.0, c.1, &sequence(c.2));
    lines.judge(b.0, b.1, &sequence(b.2));
    lines.all(&["clear 1", "file 0 20 40", "rejudge"]);
    // the first and the last source
    lines.all(&["withdraw 0 20", "file 7 20 40", "file 0 20 50"]);
    lines.judge(b.0, b.1, &sequence(b.2));
    lines.judge(c.0, c.1, &sequence(c.2));
    lines.all(&["clear 7", "file 0 20 40", "rejudge"]);
    // O: a run goes on over a boundary
    let o = sequences(&[&[20], &[20, 10]]);
    lines.judge(1, 20, &o);
    lines.keep(13, 1, 20, &o);
    lines.say("ledger");
    // a number that lists itself is refused, and O needs no such list
    lines.say("file 5 20 20");
    lines.judge(1, 20, &o);
    lines.all(&["rejudge", "ledger"]);
    // without 10's record, and with it again
    lines.all(&["withdraw 0 10", "rejudge", "ledger", "file 0 10 20 30", "rejudge", "ledger"]);
    // every role on every path
    for role in 1..=6 {
        for (_, neighbour, path) in A_TO_L {
            lines.judge(role, neighbour, &sequence(path));
        }
    }
}

fn attributes(lines: &mut Lines) {
    lines.all(&REGISTER_D);
    for role in 1..=6 {
        lines.judge(role, 20, &[]);
    }
    for text in [
        "02", "00", "01", "03", "04", "05", "ff", "0300", "0400", "0000", "0509", "ff00", "0200",
        "0100", "020000000014", "0201", "0201000000", "02010000001", "020200000000000000",
        "020100000000", "02020000001400000000", "02020000000000000000", "010100000000",
        "02010000000002", "02010000001402", "02010000001400", "02010000001403", "0201000000140300",
        "0201000000140500", "0201000000140200", "0201000000140202000000010000",
        "02010000001402020000000100000000", "01010000001402", "01010000000103010000000a",
        "030100000001", "040100000001", "02010000006302", "0201000000140101000000000200",
    ] {
        lines.say(&format!("judge 1 20 {text}"));
        lines.say(&format!("judge 4 30 {text}"));
        lines.say(&format!("keep 1 3 20 {text}"));
    }
    // grounds, several at once
    let stranger_and_set = [sequence(&[99]), segment(1, &[20])].concat();
    let set_first = [segment(1, &[20]), sequence(&[99])].concat();
    let set_last = [sequence(&[20, 10]), segment(1, &[5, 6])].concat();
    for role in 1..=6 {
        lines.judge(role, 20, &stranger_and_set);
        lines.judge(role, 20, &set_first);
        lines.judge(role, 77, &set_first);
        lines.judge(role, 20, &set_last);
        lines.judge(role, 21, &set_last);
    }
    lines.keep(2, 1, 20, &stranger_and_set);
    lines.keep(3, 4, 20, &stranger_and_set);
    lines.keep(4, 1, 77, &set_first);
    lines.keep(5, 6, 20, &set_last);
    lines.say("ledger");
    // runs; one number
    lines.judge(1, 20, &sequence(&[20, 20, 20, 10, 10]));
    lines.judge(3, 20, &sequence(&[20, 20, 10, 20]));
    lines.judge(1, 20, &sequence(&[20]));
    lines.judge(3, 20, &sequence(&[20, 20]));
    lines.judge(6, 4_294_967_295, &sequence(&[4_294_967_295]));
}

/// Paths about as long as they may be, and about as long as they once might. In an empty
/// register the answer to role 3 tells how many numbers are left.
fn path_lengths(lines: &mut Lines) {
    for length in [63, 64, 65, 254, 255, 256, 257, 510, 511, 512, 513] {
        for role in 1..=6 {
            lines.judge(role, 1, &sequence(&upto(length)));
        }
    }
    // not the neighbour; a set behind
    for length in [65, 512, 513] {
        let path = sequence(&upto(length));
        let with_set = [path.clone(), segment(1, &[1])].concat();
        for role in 1..=6 {
            lines.judge(role, 2, &path);
            lines.judge(role, 1, &with_set);
        }
    }
    // 1,020 numbers, 512 of them left; then the last one again, and another
    let twice = sequence(&doubled(512, 508));
    for role in [1, 3, 4] {
        for behind in [&[][..], &[512], &[511]] {
            lines.judge(role, 1, &[twice.clone(), sequence(behind)].concat());
        }
    }
    for (route, role, neighbour, length) in
        [(1, 1, 2, 513), (2, 1, 1, 513), (3, 3, 1, 512), (4, 4, 9, 511), (5, 4, 9, 513)]
    {
        lines.keep(route, role, neighbour, &sequence(&upto(length)));
    }
    lines.say("ledger");
}

/// 512 numbers and 513 in segments of many sizes, and segments of 255, the most that a count
/// tells of.
fn full_segments(lines: &mut Lines) {
    for last in [512, 513] {
        let path = upto(last);
        for sizes in [
            &[255, 255][..],
            &[2, 255, 255],
            &[255, 2, 255],
            &[1, 255, 255],
            &[254, 255],
            &[1; 512],
            &[2; 256],
            &[128; 4],
        ] {
            lines.judge(3, 1, &sequences(&cut(&path, sizes)));
        }
        // a run over the end of each: a last number again at the start of the next
        for step in [2, 3, 253, 254] {
            lines.judge(3, 1, &overlapping(last, step));
        }
    }
    // one run alone, and with another number before it or behind
    let equal = [7; 255];
    for parts in [
        &[&equal[..]][..],
        &[&equal[..]; 4],
        &[&equal, &[8]],
        &[&equal, &[7, 8], &equal],
        &[&equal[1..], &[8], &equal],
        &[&[7, 8], &equal],
    ] {
        lines.judge(3, 7, &sequences(parts));
        lines.judge(1, 7, &sequences(parts));
    }
    // of all types: alone, behind a sequence, before one
    let full = sequence(&upto(255));
    for kind in [0, 1, 3, 4, 5] {
        let other = segment(kind, &upto(255));
        for parts in [&[&other[..]][..], &[&full, &other], &[&other, &full]] {
            for role in [1, 4] {
                lines.judge(role, 1, &parts.concat());
            }
        }
        lines.keep(u32::from(kind), 3, 1, &[full.clone(), other].concat());
    }
    // cut short; then a byte that is another, in the header or at the end
    for length in [1, 2, 3, 1_018, 1_021] {
        lines.judge(1, 1, &full[..length]);
        lines.judge(1, 1, &[&full, &full[..length]].concat());
    }
    for (at, value) in [(1, 254), (1, 0), (0, 1), (1_021, 0), (1_020, 1)] {
        let mut other = full.clone();
        other[at] = value;
        lines.judge(1, 1, &other);
        lines.judge(4, 9, &[full.clone(), other].concat());
    }
    lines.say("ledger");
}

/// Attributes of 4,096 bytes, and of a byte more. The first are 1,021 numbers in six segments,
/// of which so many are left.
fn longest_attributes(lines: &mut Lines) {
    for left in [1, 2, 511, 512, 513] {
        let numbers = spread(left, 1_021);
        for sizes in [[170; 5], [1, 1, 254, 255, 255]] {
            lines.judge(3, 1, &sequences(&cut(&numbers, &sizes)));
        }
        let most = sequences(&cut(&numbers, &[255, 255, 255, 254, 1]));
        for (role, neighbour) in [(3, 1), (1, 1), (4, 9)] {
            lines.judge(role, neighbour, &most);
        }
        lines.keep(left as u32, 6, 1, &most);
        lines.judge(3, 1, &[most, vec![2]].concat());
    }
    lines.say("ledger");
    // with a ground, which the byte more hides
    let mut most = sequences(&cut(&[1; 1_021], &[255, 255, 255, 254, 1]));
    for (neighbour, kind) in [(2, 2), (1, 1)] {
        most[0] = kind;
        lines.judge(1, neighbour, &most);
        lines.judge(1, neighbour, &[&most[..], &[0]].concat());
    }
    // as many segments as there is room for
    for left in [1, 512, 513, 683] {
        lines.judge(3, 1, &sequences(&cut(&spread(left, 683), &[1; 681])));
    }
    // the limit was once 1,024
    for second in [7, 8] {
        let once = sequences(&[&[7; 200], &[second; 55]]);
        lines.judge(1, 7, &once);
        lines.judge(3, 7, &[once.clone(), vec![2]].concat());
        lines.judge(3, 7, &[once, sequence(&[second])].concat());
    }
    lines.judge(1, 7, &[0; 1_024]);
    lines.judge(1, 7, &[0; 1_025]);
}

/// In the last bytes of 4,096, and a byte more.
fn last_faults(lines: &mut Lines) {
    // four full segments are 4,088
    let full = hex(&sequence(&spread(3, 1_020)));
    for end in [
        "0201000000040200", "0201000000040100", "0201000000040201", "02010000000402ff",
        "0201000000040300", "0201000000040400", "0201000000040000", "0201000000040500",
        "0101000000040200", "0201000000000200", "0301000000040200", "0202000000040000",
        "0202000000000000", "02010000000402", "02010000000403", "020100000004", "0201000000",
        "020100000004020000", "020200000004000000",
    ] {
        lines.say(&format!("judge 1 1 {full}{end}"));
    }
    let mut zero = spread(3, 1_021);
    zero[1_020] = 0;
    for sizes in [[170; 5], [255, 255, 255, 254, 1]] {
        lines.judge(1, 1, &sequences(&cut(&zero, &sizes)));
        lines.keep(9, 1, 9, &sequences(&cut(&zero, &sizes)));
    }
    for byte in [0, 1, 2, 255] {
        lines.judge(1, 7, &[byte; 4_096]);
        lines.judge(1, 7, &[byte; 4_097]);
    }
}

/// The path judged both ways, and the kept routes.
fn judged_and_kept(lines: &mut Lines, path: &[u8]) {
    lines.judge(1, 1, path);
    lines.judge(3, 1, path);
    lines.all(&["rejudge", "ledger"]);
}

/// Gaps of 511 and of -511, and beside them.
fn widest_gaps(lines: &mut Lines) {
    let path = sequence(&upto(512));
    lines.keep(1, 1, 1, &path);
    lines.keep(3, 3, 1, &path);
    judged_and_kept(lines, &path);
    for change in ["file 3 512 511", "file 3 1 2", "withdraw 3 512", "file 3 511 512 513"] {
        lines.say(change);
        judged_and_kept(lines, &path);
    }
    lines.say("clear 3");
    lines.0.extend(chain(512));
    for role in 1..=6 {
        lines.judge(role, 1, &path);
        lines.keep(10 + role, role, 1, &path);
    }
    lines.all(&["ledger", "rejudge"]);
    // both ends by overrides: 512 is the origin
    for change in [
        "dfile 3 1 0", "dfile 0 512 0", "file 3 512 0", "dwithdraw 0 512", "file 3 1 0",
        "dwithdraw 3 1", "dfile 0 512 0", "dclear 0",
    ] {
        lines.say(change);
        lines.judge(3, 1, &path);
        lines.judge(1, 1, &path);
    }
    lines.all(&["file 3 1 2", "file 3 512 511"]);
    // the same path, every second number at the end of one segment and the start of the next
    lines.judge(6, 1, &overlapping(512, 2));
    lines.judge(1, 1, &overlapping(512, 2));
}

/// Places up to 512 over the numbers 1 to 512, which list each other but for a few: n is
/// AS(513 - n).
fn places_of_stops(lines: &mut Lines) {
    let path = sequence(&upto(512));
    let filings = chain(512);
    lines.0.extend(filings.clone());
    lines.keep(1, 1, 1, &path);
    lines.keep(3, 3, 1, &path);
    // a ramp that ends one number or two before the path does
    for changes in [
        &["file 3 511 510"][..],
        &["file 3 2 3"],
        &["file 3 511 510", "file 3 2 3"],
        &["file 3 3 4", "file 3 510 509"],
    ] {
        lines.all(changes);
        judged_and_kept(lines, &path);
        [2, 3, 510, 511].iter().for_each(|n| lines.say(&filings[*n - 1]));
    }
    // numbers without providers, or without a record: at the ends, in the middle, side by side
    for stops in [
        &[1][..],
        &[2],
        &[512],
        &[511],
        &[1, 2],
        &[1, 3],
        &[1, 512],
        &[255, 256],
        &[255, 257],
        &[256, 258],
        &[510, 512],
        &[1, 257, 512],
    ] {
        for (change, list) in [("file", " 0"), ("withdraw", "")] {
            stops.iter().for_each(|n| lines.say(&format!("{change} 3 {n}{list}")));
            judged_and_kept(lines, &path);
            stops.iter().for_each(|n| lines.say(&filings[*n - 1]));
        }
    }
    lines.say("rejudge");
}

/// Runs over the ends of sequences, and numbers that only look like it.
const RUNS: [&[&[u32]]; 30] = [
    &[&[20], &[20, 10]],
    &[&[20], &[20], &[20, 10]],
    &[&[20], &[20], &[20], &[20, 10]],
    &[&[20, 20], &[20, 20, 10, 10], &[10, 10]],
    &[&[30, 10], &[10, 10], &[10, 20]],
    // a segment that vanishes whole: the last one, one between, several, all but the first
    &[&[20, 10], &[10]],
    &[&[20, 10], &[10, 10, 10]],
    &[&[20, 10], &[10], &[10, 30]],
    &[&[20, 10], &[10], &[30]],
    &[&[20, 10], &[10], &[10, 10], &[10], &[40]],
    &[&[20], &[20]],
    &[&[20], &[20, 20], &[20], &[20, 20, 20]],
    // a number that comes back, and the first or another number of the segment before
    &[&[20, 10], &[20]],
    &[&[20], &[10], &[20]],
    &[&[20, 10], &[20, 10]],
    &[&[20, 10], &[20, 20], &[10]],
    &[&[20, 10], &[10], &[20]],
    &[&[20, 10, 30], &[10, 30]],
    &[&[20, 10, 30], &[20, 10, 30], &[30, 20]],
    &[&[10, 20, 20], &[10, 10, 20], &[20]],
    // nothing to merge
    &[&[20], &[10]],
    &[&[50], &[40], &[20], &[10]],
    &[&[50, 40], &[20, 10]],
    // vectors B, C, F, G, H and J, cut in a run or at it
    &[&[40, 20], &[20, 10]],
    &[&[50], &[50, 20], &[20], &[20, 10]],
    &[&[50, 40], &[40, 20], &[20, 10], &[10]],
    &[&[20, 20], &[20, 10], &[10, 10, 30], &[30]],
    &[&[20], &[20], &[10], &[10], &[40], &[40]],
    &[&[80], &[80, 70], &[70]],
    &[&[80, 80, 70], &[70], &[80]],
];

/// Each judged and kept.
fn runs_over_boundaries(lines: &mut Lines) {
    lines.all(&REGISTER_D);
    for parts in RUNS {
        for role in [1, 3, 4, 6] {
            let neighbour = if role == 4 { 99 } else { parts[0][0] };
            lines.judge(role, neighbour, &sequences(parts));
        }
    }
    for (route, parts) in (1..).zip(RUNS) {
        let role = [3, 1, 6, 4, 2, 5, 1][route % 7];
        let neighbour = if role == 4 { 99 } else { parts[0][0] };
        lines.keep(route as u32, role, neighbour, &sequences(parts));
    }
    lines.all(&["ledger", "rejudge"]);
    for change in ["withdraw 0 10", "file 1 10 40", "file 0 30 10", "file 2 20 10", "clear 0"] {
        lines.all(&[change, "rejudge", "ledger"]);
    }
    lines.write(131_072);
    // every way to cut the same numbers
    lines.all(&["empty", "file 0 30 10", "file 0 20 40"]);
    let numbers = [20, 20, 10, 10, 30];
    for way in 0..16u32 {
        let cuts: Vec<usize> = (1..5).filter(|i| way >> (i - 1) & 1 == 1).collect();
        let cuts = [vec![0], cuts, vec![5]].concat();
        let parts: Vec<&[u32]> = cuts.windows(2).map(|cut| &numbers[cut[0]..cut[1]]).collect();
        lines.judge(2, 20, &sequences(&parts));
        lines.keep(way, 3, 20, &sequences(&parts));
    }
    lines.all(&["ledger", "clear 0", "rejudge", "ledger"]);
    // numbers that differ in one bit
    lines.say("empty");
    for (route, bit) in (0..).zip([0, 1, 7, 8, 15, 16, 23, 24, 31]) {
        let (one, other) = (0x4083_2114, 0x4083_2114 ^ (1 << bit));
        lines.judge(3, one, &sequences(&[&[one], &[other], &[one]]));
        lines.judge(3, one, &sequences(&[&[one, other], &[other, one], &[one], &[other]]));
        lines.keep(route, 3, one, &sequences(&[&[one], &[one, other], &[one, one], &[one]]));
    }
    lines.judge(3, u32::MAX, &sequences(&[&[u32::MAX], &[u32::MAX], &[1], &[1, u32::MAX]]));
    lines.all(&["ledger", "rejudge", "drop 4", "rejudge", "ledger"]);
    // the neighbour is compared before anything is merged
    for (neighbour, parts) in
        [(10, [[20, 20], [20, 10]]), (20, [[10, 20], [20, 20]]), (20, [[20, 20], [20, 20]])]
    {
        for role in [1, 3, 4] {
            lines.judge(role, neighbour, &sequences(&[&parts[0], &parts[1]]));
        }
    }
    // sets beside equal numbers
    for kinds in [[2, 1, 2], [1, 2, 2], [2, 2, 1], [2, 1, 1]] {
        let attribute: Vec<u8> = kinds.iter().flat_map(|kind| segment(*kind, &[20])).collect();
        let attribute = [attribute, sequence(&[20, 10])].concat();
        lines.judge(1, 20, &attribute);
        lines.judge(4, 99, &attribute);
        lines.judge(3, 99, &attribute);
        lines.keep(50, 6, 20, &attribute);
        lines.all(&["ledger", "drop 50"]);
    }
    // faults behind a run and in one, at the places of their bytes
    let run = sequences(&[&[20], &[20, 20], &[20, 10]]);
    for text in [
        "02", "00", "0202", "0201000000", "0000", "05010000000a", "03010000000a", "0400", "0200",
        "0100", "020100000000", "02020000000a00000000", "02030000000a0000000a00000000",
        "02010000000a02010000000a02", "02010000000a0300", "01010000000a02010000000a0200",
    ] {
        for role in [1, 4] {
            lines.say(&format!("judge {role} 20 {}{text}", hex(&run)));
        }
        lines.say(&format!("keep 50 3 10 {}{text}", hex(&run)));
    }
    for parts in [[[20, 20], [0, 20]], [[20, 20], [20, 0]], [[20, 0], [0, 20]]] {
        lines.judge(1, 20, &sequences(&[&parts[0], &parts[1]]));
    }
    lines.say("ledger");
}

/// A path of so many numbers over so many segments: in an empty register the
/// answer to role 3 tells how many numbers are left.
fn long_runs(lines: &mut Lines) {
    let each = |parts: &[Vec<u32>]| -> Vec<u8> { parts.iter().flat_map(|p| sequence(p)).collect() };
    let ones =
        |numbers: &[u32]| -> Vec<u8> { numbers.iter().flat_map(|n| sequence(&[*n])).collect() };
    // one more number than 512 and than 513, but the one before the cut is there twice
    for cut in [1, 2, 64, 254, 255, 256, 511, 512] {
        for last in [512, 513] {
            let attribute = each(&[upto(cut), (cut..=last).collect()]);
            lines.judge(3, 1, &attribute);
            lines.judge(1, 2, &attribute);
            lines.keep(1_000 + cut, 4, 99, &attribute);
        }
    }
    lines.say("ledger");
    for last in [64, 511, 512, 513] {
        // segments of one; some of their numbers twice, as there is room for 682
        lines.judge(3, 1, &ones(&upto(last)));
        lines.judge(3, 1, &ones(&doubled(last, 160)));
        // two numbers in turn: nothing to merge
        let turns: Vec<u32> = upto(last).iter().map(|n| n % 2 + 1).collect();
        lines.judge(3, 2, &ones(&turns));
        // up to the last number, which then fills segments of its own
        lines.judge(3, 1, &each(&[vec![upto(last)], vec![vec![last]; 60]].concat()));
        lines.judge(3, 1, &each(&[vec![vec![1]; 60], vec![upto(last)]].concat()));
    }
    // pairs, each from the number on that the one before ends with: 409 are 4,090 bytes
    for last in [64, 65, 410, 411] {
        lines.judge(3, 1, &overlapping(last, 1));
    }
    // 40 segments of one number, then another; as many as there is room for, and one more
    let many = [(40, &[10][..]), (40, &[20, 10]), (681, &[10]), (681, &[20]), (682, &[20])];
    for (route, (segments, then)) in (1..).zip(many) {
        let attribute = each(&[vec![vec![20]; segments], vec![then.to_vec()]].concat());
        lines.judge(3, 20, &attribute);
        lines.judge(1, 20, &attribute);
        lines.keep(route, 1, 20, &attribute);
    }
    lines.judge(3, 1, &ones(&upto(682)));
    lines.say("ledger");
    // 255 numbers, of which 1, 2, 3, 64 or 65 are left
    for left in [1, 2, 3, 64, 65] {
        let numbers = spread(left, 255);
        for sizes in [&[][..], &[1], &[127], &[200], &[254], &[1, 126, 126]] {
            lines.judge(3, 1, &sequences(&cut(&numbers, sizes)));
        }
    }
}

/// Each row that arguments alone, or what is stored, can give; then orders.
fn argument_refusals(lines: &mut Lines) {
    lines.all(&["file 8 1 2", "file 4294967295 1 2", "file 8 0", "file 0 0 2", "file 7 0"]);
    lines.all(&["file 0 1", "file 0 1 2 2", "file 0 1 3 2", "file 0 1 0 0", "file 0 1 0"]);
    lines.file(0, 1, &run_without(1, 0, 257));
    lines.file(0, 1, &run_without(1, 0, 256));
    lines.all(&["file 7 1 0 4294967295", "file 0 4294967295 4294967294", "register"]);
    lines.all(&["withdraw 8 1", "withdraw 8 0", "withdraw 0 0", "withdraw 0 2", "withdraw 1 1"]);
    lines.all(&[
        "withdraw 0 1", "withdraw 0 1", "clear 8", "clear 1", "clear 7", "clear 7", "register",
    ]);
    let long = vec![2; 4_097];
    let faulty = [2, 1, 0, 0, 0, 0];
    for route in ["judge", "keep 9"] {
        for (role, neighbour, attribute) in [
            (0u32, 0, &long[..]),
            (7, 5, &faulty),
            (4_294_967_295, 5, &[]),
            (6, 0, &long),
            (4, 0, &[]),
            (1, 0, &faulty),
            (1, 5, &long),
            (1, 5, &faulty),
        ] {
            lines.say(&format!("{route} {role} {neighbour} {}", hex(attribute)));
        }
    }
    lines.keep(9, 1, 5, &sequence(&[5]));
    lines.keep(9, 0, 5, &sequence(&[5]));
    lines.keep(9, 1, 0, &sequence(&[5]));
    lines.keep(9, 1, 5, &long);
    lines.keep(9, 1, 5, &faulty);
    lines.keep(9, 1, 1, &sequence(&upto(513)));
    lines.keep(9, 1, 5, &sequence(&[5]));
    lines.keep(9, 1, 5, &[]);
    lines.keep(0, 4, 6, &sequence(&[5]));
    lines.keep(4_294_967_295, 4, 6, &[]);
    lines.all(&[
        "ledger", "drop 8", "drop 9", "drop 9", "drop 0", "ledger", "drop 4294967295", "ledger",
    ]);
}

fn rejudging(lines: &mut Lines) {
    lines.keep(1, 1, 20, &sequence(&[20, 10]));
    lines.keep(2, 1, 30, &sequence(&[20, 10]));
    lines.keep(3, 6, 80, &sequence(&[80, 70]));
    lines.keep(4, 3, 20, &sequence(&[20, 10, 30]));
    lines.say("ledger");
    for change in REGISTER_D.iter().chain(&["file 0 30 0", "file 6 10 50", "clear 0", "clear 6"]) {
        lines.all(&[change, "rejudge", "rejudge", "ledger"]);
    }
}

/// Each table too short, too long, damaged; then both.
const DAMAGES: [(&str, &str); 12] = [
    ("resize register 12289", "rejudge"),
    ("resize register 12291", "rejudge"),
    ("resize register 0", "rejudge"),
    ("resize ledger 12801", "rejudge"),
    ("resize ledger 12803", "rejudge"),
    ("resize ledger 1", "rejudge"),
    ("poke register 12289 1", "rejudge"),
    ("poke ledger 12801 1", "rejudge"),
    ("poke register 0 4294967295", "resize ledger 12801"),
    ("poke ledger 0 4294967295", "resize register 12291"),
    ("poke register 1 4294967295", "poke ledger 1 4294967295"),
    ("resize register 12802", "resize ledger 12290"),
];

fn damaged_tables(lines: &mut Lines) {
    let calls = [
        "file 9 0", "file 0 1 2", "withdraw 9 0", "withdraw 0 1", "clear 9", "clear 0",
        "judge 9 0 02", "judge 1 5 -", "keep 1 9 0 02", "keep 1 1 5 -", "drop 77", "rejudge",
    ];
    for (first, second) in DAMAGES {
        lines.all(&["empty", first, second]);
        lines.all(&calls);
        lines.all(&["words register", "words ledger"]);
    }
    lines.all(&["empty", "resize register 16385", "poke register 12290 1", "poke ledger 12802 1"]);
    lines.all(&[
        "resize register 16384", "poke register 16383 7", "words register", "resize register 12290",
    ]);
    lines.all(&["words register", "clear 0"]);
    // single words of sound tables, each put back
    lines.say("empty");
    lines.all(&REGISTER_D);
    lines.say("file 1 10 7");
    lines.keep(3, 1, 20, &sequence(&[20, 10]));
    lines.keep(5, 4, 9, &[]);
    lines.keep(6, 4, 30, &sequence(&[20, 10]));
    let mut model = Model::new();
    for line in &lines.0[lines.0.len() - 10..] {
        console::answer(&mut model, line.as_bytes());
    }
    lines.all(&["register", "ledger"]);
    for (table, words, used, call) in [
        (REGISTER, model.register.words(), 39, "judge 1 5 -"),
        (LEDGER, model.ledger.words(), 35, "drop 77"),
    ] {
        let end = words.len() - 1;
        for index in (0..used).chain([end]) {
            let old = words[index];
            let mut values =
                vec![old.wrapping_sub(1), old + 1, 0, 1, 2, 3, 4, 7, 8, 65, 512, 513, u32::MAX];
            values.dedup();
            for value in values {
                lines.say(&format!("poke {table} {index} {value}"));
                lines.say(call);
            }
            lines.say(&format!("poke {table} {index} {old}"));
        }
        lines.all(&[table, call]);
    }
    // untrue but sound verdicts, mended by a re-judging
    lines.all(&["poke ledger 6 2", "poke ledger 7 512", "poke ledger 8 512", "drop 77", "ledger"]);
    lines.all(&["rejudge", "ledger", "rejudge"]);
    // shrinking takes words, growing gives zeros
    lines.all(&[
        "resize ledger 33", "words ledger", "resize ledger 12802", "words ledger", "rejudge",
    ]);
    lines.all(&["poke ledger 32 9", "rejudge", "poke ledger 33 9", "rejudge", "words ledger"]);
}

/// Sound tables, pokes that then break one rule and keep all others, and a
/// call that sees it.
fn one_rule_broken() -> Vec<(Vec<String>, Vec<String>, &'static str)> {
    let pokes = |table: &str, words: &[(usize, u32)]| {
        words.iter().map(|(index, value)| format!("poke {table} {index} {value}")).collect()
    };
    let file = |customer: u32, list: &[u32]| format!("file 0 {customer}{}", numbers(list));
    // From a route server, so that the first number is free. A path of two ends with
    // the number that the next route's begins with.
    let keep = |route: u32, length: usize| {
        let path: Vec<u32> = (route + 1..).take(length).collect();
        format!("keep {route} 4 5 {}", hex(&sequence(&path)))
    };
    let (judge, drop) = ("judge 1 5 -", "drop 4000000000");
    vec![
        // a list of no number: both go to the second record
        (vec![file(1, &[5]), file(2, &[6])], pokes(REGISTER, &[(5, 0), (8, 0), (9, 2)]), judge),
        // a list of 257: one more, taken from the second record
        (
            vec![file(1, &run_without(1, 0, 256)), file(2, &[1_000, 2_000])],
            pokes(REGISTER, &[(5, 257), (8, 257), (9, 1)]),
            judge,
        ),
        // 1,025 records: the first body words become an entry, zeros the new body words
        (
            (1..=1_024).map(|customer| file(customer, &[3_000])).collect(),
            pokes(
                REGISTER,
                &[(0, 1_025), (1, 1_025), (4_098, 2_000), (4_099, 0), (4_100, 1_024), (4_101, 1)],
            ),
            judge,
        ),
        // 8,193 body words: list 32 takes the number of list 33, which gets a new one
        (
            (1..=31)
                .map(|customer| file(customer, &run_without(customer, 0, 256)))
                .chain([file(32, &run_without(32, 0, 255)), file(33, &[1_000])])
                .collect(),
            pokes(
                REGISTER,
                &[
                    (1, 8_193),
                    (2 + 4 * 31 + 3, 256),
                    (2 + 4 * 32 + 2, 8_192),
                    (2 + 4 * 33 + 8_192, 7),
                ],
            ),
            judge,
        ),
        // one pair twice
        (vec![file(1, &[5]), file(2, &[6])], pokes(REGISTER, &[(6, 1)]), judge),
        // a list with its own customer
        (vec![file(1, &[5]), file(2, &[6])], pokes(REGISTER, &[(11, 2)]), judge),
        // a path of no number
        (vec![keep(1, 1), keep(2, 1)], pokes(LEDGER, &[(10, 0), (18, 0), (19, 2)]), drop),
        // a path under a ground
        (vec![keep(1, 0), keep(2, 2)], pokes(LEDGER, &[(10, 1), (18, 1), (19, 1)]), drop),
        // a path of 513
        (vec![keep(1, 512), keep(2, 2)], pokes(LEDGER, &[(10, 513), (18, 513), (19, 1)]), drop),
        // a place of 513
        (vec![keep(1, 512)], pokes(LEDGER, &[(7, 513)]), drop),
        (vec![keep(1, 512)], pokes(LEDGER, &[(8, 513)]), drop),
        // 513 routes
        (
            (0..512).map(|route| keep(route, 0)).collect(),
            pokes(
                LEDGER,
                &[(0, 513), (4_610, 600), (4_611, 1), (4_612, 5), (4_613, 1), (4_614, 1)],
            ),
            drop,
        ),
        // 8,193 body words, as in the register
        (
            (0..15).map(|route| keep(route, 512)).chain([keep(15, 511), keep(16, 1)]).collect(),
            pokes(
                LEDGER,
                &[
                    (1, 8_193),
                    (2 + 9 * 15 + 8, 512),
                    (2 + 9 * 16 + 7, 8_192),
                    (2 + 9 * 17 + 8_192, 7),
                ],
            ),
            drop,
        ),
        // one route twice
        (vec![keep(1, 1), keep(2, 1)], pokes(LEDGER, &[(11, 1)]), drop),
        // equal neighbours in a path; so by a number more, taken from the second route
        (vec![keep(1, 2), keep(2, 2)], pokes(LEDGER, &[(21, 2)]), drop),
        (vec![keep(1, 2), keep(2, 2)], pokes(LEDGER, &[(10, 3), (18, 3), (19, 1)]), drop),
        // ground 2 from a route server
        (vec![keep(1, 0)], pokes(LEDGER, &[(5, 2)]), drop),
    ]
}

/// Lists with the customer in all places, and those lists without it.
fn own_customers_filed(lines: &mut Lines) {
    for (customer, length, befores) in [
        (1, 1, &[0][..]),
        (1, 2, &[0, 1]),
        (300, 1, &[0]),
        (300, 2, &[0, 1]),
        (300, 3, &[0, 1, 2]),
        (300, 256, &[0, 1, 127, 128, 254, 255]),
    ] {
        for before in befores {
            let first: u32 = customer - before;
            lines.file(2, customer, &(first..).take(length).collect::<Vec<u32>>());
            lines.say("register");
            lines.file(2, customer, &run_without(customer, first, length));
        }
        lines.say("register");
    }
    lines.all(&["file 2 4294967295 4294967295", "file 2 4294967295 0 4294967294 4294967295"]);
    lines.all(&["file 2 4294967295 0 4294967294", "file 2 4294967294 4294967295", "register"]);
    // numbers far apart, and the same list under another customer
    lines.say("empty");
    for list in ["5 300 70000", "0 300", "300 4294967295", "0 1 2 300"] {
        lines.all(&[&format!("file 0 300 {list}"), &format!("file 0 301 {list}")]);
    }
    lines.say("register");
    // numbers that differ in one byte only
    lines.all(&["file 0 4 260 65540 16777220 2147483652", "file 0 65540 4", "rejudge", "register"]);
    // what is stored stays, the customer's other lists too
    lines.all(&["empty", "file 0 40 41", "file 2 40 43", "register"]);
    lines.all(&["file 0 40 40", "file 1 40 40", "file 2 40 40 43", "file 3 40 39 40", "register"]);
    lines.all(&["file 1 40 42", "file 3 40 41", "register"]);
    // one number is another's provider, and that one its
    lines.all(&["empty", "file 0 5 6", "file 0 6 5", "file 1 5 6", "file 1 6 5", "register"]);
    lines.judge(6, 6, &sequence(&[6, 5]));
    lines.all(&["file 0 20 20 30", "file 0 21 20 30", "file 0 30 20 30", "file 0 19 20 30"]);
    lines.say("register");
    // 4 and 5 go before 6; other faults of the list beside this one
    lines.all(&["file 0 0 0", "file 7 0 0 1", "file 8 7 7", "file 8 0 0", "file 4294967295 7 7"]);
    lines
        .all(&["file 0 7 7 7", "file 0 7 8 7", "file 0 7 7 6", "file 0 7 6 7 7", "file 0 7 0 0 7"]);
    lines.file(0, 7, &(7..7 + 257).collect::<Vec<u32>>());
    lines.file(0, 7, &(0..257).collect::<Vec<u32>>());
    lines.say("register");
}

/// Near numbers: in each list one word can put the customer first, between and
/// last, all other rules being kept.
const NEAR: [&str; 5] = [
    "file 0 10 9 11 12", "file 0 20 18 19 22", "file 3 20 21 22 23", "file 7 30 28 31 32",
    "keep 7 1 20 0202000000140000000a",
];

/// Registers and snapshots in which a list holds its own customer.
fn own_customers_stored(lines: &mut Lines) {
    let file = file_after(&NEAR);
    let [words, _] = parts(&file);
    let pokes = own_customer_pokes(&words);
    let calls = [
        "file 9 0", "file 0 10 9", "file 1 10 10", "withdraw 9 0", "withdraw 0 10", "clear 9",
        "clear 5", "judge 9 0 02", "judge 1 5 -", "keep 7 9 0 02", "keep 8 1 5 -", "rejudge",
        "write 0", "write 131072",
    ];
    lines.say("empty");
    lines.all(&NEAR);
    lines.write(131_072);
    for (index, value) in &pokes {
        lines.say(&format!("poke register {index} {value}"));
        lines.all(&calls);
        // a ledger alone is lent to this one
        lines.all(&["drop 9", "words register"]);
        lines.say(&format!("poke register {index} {}", words[*index]));
        lines.all(&["clear 5", "rejudge"]);
    }
    lines.say("register");
    // mended by another word: the list goes to another customer
    lines.all(&["poke register 18 10", "rejudge", "poke register 2 9", "rejudge", "register"]);
    lines.judge(1, 10, &sequence(&[10, 9]));
    lines.all(&["file 1 10 9", "file 1 9 9", "keep 8 1 5 -"]);
    // as snapshots, which leave the tables; then one of them with other faults
    lines.write(131_072);
    for (index, value) in &pokes {
        lines.read(&with(&file, &[(CONTENTS / 4 + index, *value)]));
    }
    lines.write(131_072);
    let (index, value) = pokes[0];
    let own = with(&file, &[(CONTENTS / 4 + index, value)]);
    for other in [(CONTENTS / 4 + words.len(), 9), (0, 2), (1, 24)] {
        lines.read(&with(&own, &[other]));
    }
    lines.read(&own[..file.len() - 1]);
    lines.write(131_072);
    lines.read_and_write(&file);
    // read over a register with this fault, which a refused read leaves
    lines.say(&format!("poke register {index} {value}"));
    lines.read(&own);
    lines.all(&SHOW);
    lines.read(&file);
    lines.all(&SHOW);
    lines.say("rejudge");
    // lists of 256, each of another source of the customer
    lines.say("empty");
    for (source, first) in [(0, 301), (1, 172), (2, 44)] {
        lines.file(source, 300, &run_without(300, first, 256));
    }
    for (index, old) in [(14, 301), (14 + 256 + 127, 299), (14 + 256 + 128, 301), (14 + 767, 299)] {
        lines.all(&["judge 1 5 -", &format!("poke register {index} 300"), "judge 1 5 -"]);
        lines.say(&format!("poke register {index} {old}"));
    }
    lines.all(&["judge 1 5 -", "file 1 300 299 301", "register"]);
    // lists of many lengths, the customer at each index, with another list behind that holds it
    for length in [1, 2, 3, 7, 8, 9, 15, 16, 17, 18, 33] {
        lines.say("empty");
        lines.file(0, 301, &[300]);
        for index in 0..length {
            lines.file(0, 300, &run_without(300, 300 - index, length as usize));
            lines.say("judge 1 5 -");
            lines.say(&format!("poke register {} 300", 10 + index));
            lines.say("judge 1 5 -");
            lines.say(&format!("poke register {} 301", 10 + index));
        }
        lines.say("register");
    }
}

fn seams(lines: &mut Lines) {
    lines.all(&REGISTER_D);
    for (route, role, neighbour, path) in SEAMS {
        lines.keep(route, role, neighbour, &sequence(path));
    }
}

/// Ledgers and snapshots in which a path has two equal numbers side by side, or
/// one path ends with the number that the next begins with.
fn equal_neighbours_stored(lines: &mut Lines) {
    let start = lines.0.len();
    seams(lines);
    let file = file_after(&lines.0[start..]);
    let [register, ledger] = parts(&file);
    let number = |index: usize| CONTENTS / 4 + register.len() + index;
    let pokes = equal_neighbour_pokes(&ledger);
    let refused = [
        "keep 9 9 0 02", "keep 12 1 5 -", "keep 5 1 5 -", "drop 5", "drop 99", "rejudge",
        "write 0", "write 131072",
    ];
    // a register alone is lent to these
    let answered = ["file 1 60 61", "judge 1 20 0202000000140000000a", "withdraw 1 60", "clear 1"];
    lines.write(131_072);
    for (index, value) in &pokes {
        lines.say(&format!("poke ledger {index} {value}"));
        lines.all(&refused);
        lines.all(&answered);
        lines.say("words ledger");
        lines.say(&format!("poke ledger {index} {}", ledger[*index]));
        lines.say("rejudge");
    }
    lines.say("ledger");
    // both numbers 0, or both the neighbour
    for (first, second, value) in [(67, 68, 0), (65, 66, 0), (65, 66, 20), (80, 81, 20)] {
        for index in [first, second] {
            lines.all(&[&format!("poke ledger {index} {value}"), "drop 99"]);
        }
        for index in [first, second] {
            lines.all(&[&format!("poke ledger {index} {}", ledger[index]), "drop 99"]);
        }
    }
    // beside a register that is damaged or too short
    lines.say("poke ledger 66 20");
    for (first, second) in [
        ("poke register 0 9", "poke register 0 6"),
        ("resize register 12289", "resize register 12290"),
    ] {
        lines.all(&[first, "keep 12 1 5 -", "rejudge", "write 131072", "drop 5", second]);
    }
    // mended by another number than the one that was there
    lines.all(&["drop 99", "poke ledger 66 60", "rejudge", "ledger", "poke ledger 66 10"]);
    // paths whose ends are no longer equal, and are again, one end at a time
    let mut apart = ledger.clone();
    for (index, value) in [(68, 41), (72, 60), (75, 61)] {
        apart[index] = value;
        lines.all(&[&format!("poke ledger {index} {value}"), "drop 99"]);
    }
    lines.all(&["rejudge", "ledger"]);
    for (index, value) in seam_pokes(&apart) {
        lines.say(&format!("poke ledger {index} {value}"));
        lines.all(&["drop 99", "keep 6 1 5 -", "rejudge", "ledger", "write 131072"]);
        lines.all(&[&format!("poke ledger {index} {}", apart[index]), "rejudge"]);
    }
    // but this first number is the neighbour's
    lines.all(&["poke ledger 69 41", "drop 99", "poke ledger 69 40", "drop 99"]);
    for index in [68, 72, 75] {
        lines.all(&[&format!("poke ledger {index} {}", ledger[index]), "drop 99"]);
    }
    lines.say("rejudge");
    // each route gone and kept again
    for (route, role, neighbour, path) in SEAMS {
        lines.all(&[&format!("drop {route}"), "rejudge", "ledger"]);
        lines.keep(route, role, neighbour, &sequence(path));
    }
    lines.all(&["ledger", "file 0 30 10 40", "rejudge", "ledger"]);
    // as snapshots, which leave the tables; each mended, and some with other faults
    lines.write(131_072);
    for (index, value) in &pokes {
        lines.read(&with(&file, &[(number(*index), *value)]));
    }
    lines.write(131_072);
    for (index, value) in [pokes[0], pokes[pokes.len() / 2], pokes[pokes.len() - 1]] {
        let equal = with(&file, &[(number(index), value)]);
        for other in [(5, 9), (0, 2), (1, 24), (number(0), 9)] {
            lines.read(&with(&equal, &[other]));
        }
        lines.read(&equal[..file.len() - 1]);
        lines.read(&equal);
        lines.read_and_write(&with(&equal, &[(number(index), 77)]));
        lines.read_and_write(&file);
    }
    for (index, value) in [(68, 41), (72, 60), (73, 51)] {
        lines.read_and_write(&with(&file, &[(number(index), value)]));
    }
    lines.read(&file);
    // read over a ledger with this fault, which a refused read leaves
    lines.say("poke ledger 66 20");
    lines.read(&with(&file, &[(number(66), 20)]));
    lines.all(&SHOW);
    lines.read(&file);
    lines.all(&SHOW);
    lines.say("rejudge");
    // vector O as it was kept before runs went on over boundaries, and its path merged
    let old = [1, 3, 13, 1, 20, 0, 1, 3, 0, 0, 3, 20, 20, 10];
    let new = [1, 2, 13, 1, 20, 0, 1, 3, 0, 0, 2, 20, 10];
    lines.read_parts(&[register.clone(), old.to_vec()]);
    lines.all(&SHOW);
    lines.read_parts(&[register, new.to_vec()]);
    lines.all(&["ledger", "rejudge", "ledger"]);
    // where one path ends and the next begins: 20 10 | 10 30, 20 10 10 | 30, 20 10 30 | 30,
    // 20 | 10 30 30, 20 | 10 30 10
    lines.say("empty");
    lines.keep(1, 1, 20, &sequence(&[20, 10]));
    lines.keep(2, 4, 5, &sequence(&[10, 30]));
    lines.all(&["poke ledger 10 3", "poke ledger 18 3", "poke ledger 19 1", "rejudge"]);
    lines.all(&["poke ledger 22 30", "rejudge", "ledger"]);
    lines.all(&["poke ledger 10 1", "poke ledger 18 1", "poke ledger 19 3", "rejudge"]);
    lines.all(&["poke ledger 23 10", "rejudge", "ledger", "drop 1", "rejudge", "ledger"]);
    // the word before the first path is its first number: the last count, 2
    lines.say("empty");
    lines.keep(1, 1, 2, &sequence(&[2, 3]));
    lines.all(&["rejudge", "poke ledger 12 2", "rejudge", "poke ledger 12 4", "rejudge", "ledger"]);
}

/// Paths of many lengths, each from the number on that the one before ends with.
fn equal_neighbours_at_each_index(lines: &mut Lines) {
    let start = lines.0.len();
    let mut first = 1;
    for (route, length) in (0..).zip([1, 2, 3, 17, 512, 33]) {
        let path: Vec<u32> = (first..).take(length).collect();
        lines.keep(route, 3, first, &sequence(&path));
        first = path[length - 1];
    }
    let [_, ledger] = parts(&file_after(&lines.0[start..]));
    lines.say("ledger");
    for (_, start, path) in paths(&ledger) {
        for i in 1..path.len() {
            lines.say(&format!("poke ledger {} {}", start + i, path[i - 1]));
            lines.say("drop 77");
            lines.say(&format!("poke ledger {} {}", start + i, path[i]));
        }
        lines.say("drop 77");
    }
    lines.all(&["rejudge", "ledger"]);
}

/// About 512, by pokes and by reads.
fn places_and_counts(lines: &mut Lines) {
    lines.keep(1, 4, 9, &sequence(&upto(511)));
    lines.keep(2, 4, 9, &sequence(&upto(3)));
    for word in [7, 8, 16, 17] {
        for place in [63, 64, 65, 511, 512, 513, 514, 65_536, 66_048, 0] {
            lines.all(&[&format!("poke ledger {word} {place}"), "drop 77", "keep 7 9 0 02"]);
        }
    }
    lines.all(&["poke ledger 16 512", "poke ledger 17 512", "ledger", "rejudge", "ledger"]);
    // the first path takes numbers of the second
    for count in [512, 513, 511, 510] {
        for (index, value) in [(10, count), (18, count), (19, 514 - count)] {
            lines.say(&format!("poke ledger {index} {value}"));
        }
        lines.all(&["drop 77", "rejudge", "words ledger"]);
    }
    for count in [511, 512, 513] {
        for (a, b) in [(0, 0), (64, 65), (512, 512), (512, 513), (513, 512)] {
            let ledger = [vec![1, count, 7, 3, 1, 0, 2, a, b, 0, count], upto(count)].concat();
            lines.read_parts(&[vec![0, 0], ledger]);
            lines.say("ledger");
        }
        lines.say("rejudge");
    }
}

fn room(lines: &mut Lines) {
    for customer in 1..=1_024 {
        lines.file(customer % 8, customer, &[3_000]);
    }
    lines.all(&["file 0 1025 5", "file 0 1 5", "file 1 1025", "file 1 1 5 6 7", "register"]);
    // 6 goes before 8
    lines.all(&["file 0 1025 1025", "file 0 1 1 2"]);
    lines.all(&["withdraw 1 1", "file 0 1025 5", "file 1 1 5", "clear 3", "clear 3", "file 3 3 5"]);
    lines.say("empty");
    for customer in 1..=32 {
        lines.file(0, customer, &run_without(customer, 0, 256));
    }
    lines.all(&["file 0 33 5", "file 0 33 33"]);
    lines.file(0, 32, &run_without(32, 0, 256));
    lines.file(0, 32, &run_without(32, 0, 255));
    lines.all(&["file 0 33 5 6", "file 0 33 5 33", "file 0 33 5"]);
    lines.file(0, 32, &run_without(32, 0, 256));
    lines.say("withdraw 0 33");
    lines.file(0, 32, &run_without(32, 0, 256));
    lines.all(&["clear 0", "register"]);
    for route in 0..512 {
        lines.keep(route, 1, 5, &[]);
    }
    lines.keep(512, 1, 5, &[]);
    lines.keep(512, 1, 5, &sequence(&[5]));
    lines.keep(511, 1, 5, &sequence(&[5]));
    lines.say("drop 0");
    lines.keep(512, 1, 5, &sequence(&[5]));
    lines.keep(513, 1, 5, &[]);
    lines.say("rejudge");
}

/// As many paths of this length as fill the ledger, then at the limit.
fn full_of_paths(lines: &mut Lines, length: u32) {
    let start = lines.0.len();
    let routes = 8_192 / length;
    let path = sequence(&upto(length));
    for route in 0..routes {
        lines.keep(route, 3, 1, &path);
    }
    // no room for a number, but for routes with a ground; 17 and 18 go before 20
    lines.keep(routes, 1, 5, &sequence(&[5]));
    lines.keep(routes + 1, 1, 5, &[]);
    lines.keep(routes + 2, 1, 2, &path);
    lines.keep(routes, 1, 1, &sequence(&upto(513)));
    lines.keep(2, 1, 5, &sequence(&[5]));
    lines.all(&["rejudge", "drop 3"]);
    lines.keep(routes, 1, 5, &sequence(&[5]));
    lines.keep(3, 1, 1, &path);
    lines.say(&format!("drop {routes}"));
    lines.keep(3, 1, 1, &sequence(&upto(513)));
    lines.keep(3, 1, 1, &path);
    // a number fewer is room for one
    lines.say("drop 4");
    lines.keep(4, 1, 1, &sequence(&upto(length - 1)));
    lines.keep(routes, 1, 5, &sequence(&[5, 6]));
    lines.keep(routes, 1, 5, &sequence(&[5]));
    lines.keep(routes + 3, 1, 5, &sequence(&[5]));
    // only what is left of a path needs room
    let again = [path.clone(), sequence(&[length])].concat();
    lines.keep(routes + 3, 1, 1, &again);
    lines.say("drop 5");
    lines.keep(5, 1, 1, &[path, sequence(&[length - 1])].concat());
    lines.keep(5, 1, 1, &again);
    lines.all(&[&format!("file 0 {length} {}", length - 1), "rejudge", "rejudge", "words ledger"]);
    // as a file, and from it
    let file = file_after(&lines.0[start..]);
    lines.write(file.len() - 1);
    lines.write(file.len());
    lines.say("empty");
    lines.read(&file);
    lines.keep(routes + 3, 1, 5, &sequence(&[5]));
    lines.all(&["clear 0", "rejudge", "words ledger"]);
}

/// Tables of many sizes, looked up at their entries and beside them, so that a
/// search that ends at a wrong position shows.
fn look_ups(lines: &mut Lines) {
    record_look_ups(lines);
    route_look_ups(lines);
    rejudged_look_ups(lines);
    lines.say("empty");
    source_look_ups(lines);
    lines.say("empty");
    look_ups_at_the_ends(lines);
}

/// Where a search by halves takes a step more, and beside it.
fn is_looked_through(size: usize) -> bool {
    is_small(size) || (size - 1..=size + 1).any(usize::is_power_of_two)
}

/// Looked through whole.
fn is_small(size: usize) -> bool {
    size <= 17
}

/// Of so many positions all, or the ends and those around the middle and the quarters.
fn looked_at(many: usize) -> Vec<usize> {
    if many <= 18 {
        return (0..many).collect();
    }
    let (quarter, half) = (many / 4, many / 2);
    vec![0, 1, quarter, half - 1, half, half + 1, 3 * quarter, many - 1]
}

/// Positions whose entries go and come back. The second is the one that needs
/// the most steps where the size is a power of two.
fn taken_out(size: usize) -> [usize; 4] {
    [0, 1, size / 2, size - 1]
}

/// Below each of these ascending numbers, and above the last.
fn gaps(numbers: &[u32]) -> Vec<u32> {
    let below = numbers.iter().map(|number| number - 1);
    below.chain([numbers.last().map_or(5, |last| last + 1)]).collect()
}

/// The nth customer to be filed: far from the one before, with gaps on both sides.
fn filed(nth: usize) -> u32 {
    3 * ((nth * 633 + 400) % 1_024 + 1) as u32
}

/// Each lists the one after it, so no two lists are alike.
fn filing(nth: usize) -> String {
    format!("file {} {} {}", nth % 8, filed(nth), filed(nth + 1))
}

/// Valid if the nth record and those after it are found.
fn ascent(nth: usize, hops: usize) -> Vec<u32> {
    (nth..=nth + hops).rev().map(filed).collect()
}

fn record_look_ups(lines: &mut Lines) {
    for size in 0..=1_024 {
        if size > 0 {
            lines.0.push(filing(size - 1));
        }
        if !is_looked_through(size) {
            continue;
        }
        let hops = if is_small(size) { 1 } else { LONGEST_PATH - 1 };
        for nth in (0..size).step_by(hops) {
            let path = ascent(nth, hops.min(size - nth));
            lines.judge(1, path[0], &sequence(&path));
        }
        let mut filings: Vec<usize> = (0..size).collect();
        filings.sort_by_key(|nth| filed(*nth));
        let customers: Vec<u32> = filings.iter().map(|nth| filed(*nth)).collect();
        let gaps = gaps(&customers);
        for gap in looked_at(gaps.len()).into_iter().map(|i| gaps[i]) {
            lines.say(&format!("withdraw {} {gap}", gap % 8));
            // a record more in each gap
            if size <= 5 {
                lines.judge(1, 1, &sequence(&[1, gap]));
                lines.all(&[&format!("file 0 {gap} 1"), &format!("withdraw 0 {gap}")]);
            }
        }
        if !is_small(size) {
            for nth in taken_out(size).map(|i| filings[i]) {
                let withdrawal = format!("withdraw {} {}", nth % 8, filed(nth));
                lines.all(&[&filing(nth), &withdrawal, &filing(nth)]);
            }
        }
    }
    lines.say("register");
}

/// The nth route to be kept.
fn kept(nth: usize) -> u32 {
    3 * ((nth * 317 + 200) % 512) as u32 + 1
}

/// Over so many records. Up and down from two customers of the first half, or up
/// from three of the second: Valid if their records are found. Half as many routes
/// as records lead over them all.
fn keeping(nth: usize, records: usize) -> String {
    let (role, path) = if nth.is_multiple_of(2) {
        let last = records / 2 - 1 - nth;
        (3, vec![filed(last), filed(last + 1), filed(nth + 1), filed(nth)])
    } else {
        (1, ascent(records - 2 - nth, 3))
    };
    format!("keep {} {role} {} {}", kept(nth), path[0], hex(&sequence(&path)))
}

/// Over a full register.
fn route_look_ups(lines: &mut Lines) {
    for size in 0..=512 {
        if size > 0 {
            lines.0.push(keeping(size - 1, 1_024));
        }
        if !is_looked_through(size) {
            continue;
        }
        let mut keepings: Vec<usize> = (0..size).collect();
        keepings.sort_by_key(|nth| kept(*nth));
        let routes: Vec<u32> = keepings.iter().map(|nth| kept(*nth)).collect();
        for route in looked_at(size).into_iter().map(|i| routes[i]) {
            lines.keep(route, 1, 5, &[]);
        }
        let gaps = gaps(&routes);
        for gap in looked_at(gaps.len()).into_iter().map(|i| gaps[i]) {
            lines.say(&format!("drop {gap}"));
            // a route more in each gap
            if size <= 5 {
                lines.keep(gap, 1, 5, &[]);
                lines.say(&format!("drop {gap}"));
            }
        }
        if !is_small(size) {
            for nth in taken_out(size).map(|i| keepings[i]) {
                lines.all(&[&format!("drop {}", kept(nth)), &keeping(nth, 1_024)]);
            }
        }
    }
    lines.all(&["ledger", "rejudge"]);
}

/// As many numbers in paths as records, and more. Every verdict is untrue at
/// first, and then those over changed records.
fn rejudged_look_ups(lines: &mut Lines) {
    for (records, routes) in
        [(32, 8), (32, 9), (64, 16), (64, 17), (1_024, 256), (1_024, 257), (1_024, 512)]
    {
        let filings: Vec<String> = (0..records).map(filing).collect();
        let keepings: Vec<String> = (0..routes).map(|nth| keeping(nth, records)).collect();
        let [register, _] = parts(&file_after(&filings));
        let [_, ledger] = parts(&file_after(&keepings));
        lines.read_parts(&[register, ledger]);
        lines.all(&["rejudge", "ledger"]);
        // under routes that go up and down
        let changed = [0, routes / 4 * 2, (routes - 1) / 2 * 2];
        for nth in changed {
            lines.file(nth as u32 % 8, filed(nth), &[1]);
        }
        lines.all(&["rejudge", "ledger"]);
        changed.iter().for_each(|nth| lines.say(&filings[*nth]));
        lines.say("rejudge");
    }
    lines.all(&["clear 3", "rejudge", "ledger", "clear 4", "rejudge", "ledger"]);
}

/// Several records for a customer: the search must end at the lowest source.
fn source_look_ups(lines: &mut Lines) {
    let customers: [(u32, &[u32]); 6] = [
        (10, &[5]),
        (20, &[0, 3, 7]),
        (30, &[1, 6]),
        (40, &[7]),
        (50, &[0, 1, 2, 3, 4, 5, 6, 7]),
        (60, &[0]),
    ];
    let file = |lines: &mut Lines, customer: u32, source: u32| {
        lines.file(source, customer, &[100 * source + customer + 1]);
    };
    let judge = |lines: &mut Lines, customer: u32, source: u32| {
        let provider = 100 * source + customer + 1;
        lines.judge(1, provider, &sequence(&[provider, customer]));
    };
    for (customer, sources) in customers {
        sources.iter().rev().for_each(|source| file(lines, customer, *source));
    }
    for (customer, sources) in customers {
        for source in 0..8 {
            let there = sources.contains(&source);
            if there {
                judge(lines, customer, source);
            }
            lines.say(&format!("withdraw {source} {customer}"));
            if there {
                file(lines, customer, source);
            }
        }
    }
    lines.say("register");
    // the same records further and further behind
    for before in 1..=3 {
        file(lines, before, before);
        for (customer, sources) in customers {
            judge(lines, customer, sources[0]);
            judge(lines, customer, sources[sources.len() - 1]);
        }
    }
    lines.say("register");
}

/// The least and the greatest customer and route.
fn look_ups_at_the_ends(lines: &mut Lines) {
    const TOP: u32 = u32::MAX;
    for (source, customer) in [(7, TOP), (0, 1), (0, TOP), (7, 1), (3, 1 << 31)] {
        lines.file(source, customer, &[10 + source]);
        for (source, customer) in [(0, 1), (7, 1), (0, 2), (7, TOP - 1), (0, TOP), (7, TOP)] {
            lines.judge(1, 10 + source, &sequence(&[10 + source, customer]));
        }
        for (source, customer) in [(1, 1), (0, 2), (7, TOP - 1), (6, TOP)] {
            lines.say(&format!("withdraw {source} {customer}"));
        }
    }
    for (route, path) in
        [(TOP, [TOP, 17, 10, 1]), (0, [TOP - 1, 17, 10, 1]), (1 << 31, [TOP, 17, 10, 2])]
    {
        lines.keep(route, 3, path[0], &sequence(&path));
        lines.keep(route, 1, 5, &[]);
        lines.all(&["drop 1", "drop 4294967294"]);
        lines.all(&["withdraw 7 4294967295", "rejudge", "ledger"]);
        lines.all(&["file 7 4294967295 17", "rejudge", "ledger"]);
    }
    for route in [0, TOP] {
        lines.keep(route, 1, 5, &[]);
        lines.all(&[&format!("drop {route}"), &format!("drop {route}")]);
        lines.keep(route, 1, 5, &[]);
    }
    lines.all(&["register", "ledger"]);
}

fn errors(lines: &mut Lines) {
    lines.all(&BAD_LINES);
    // no limit is at 16,384 bytes any more
    lines.say(&format!("judge 1 20 {}", "0".repeat(16_374)));
    lines.say(&format!("file 0 12{}", " 1".repeat(8_188)));
    // the longest line, and lines past it
    lines.say(&format!("judge 1 200 {}", "0".repeat(262_132)));
    lines.say(&format!("judge 1 20 {}", "0".repeat(262_134)));
    lines.say(&format!("file 0 1{}", " 2".repeat(131_068)));
    // the longest input that a line has room for, and one byte more
    let [longest, longer] = [131_069, 131_070].map(|length| {
        let mut input = snapshot::file(&[0, 0], &[0, 0]);
        input.resize(length, 0);
        input
    });
    lines.read(&longest);
    lines.read(&longer);
    lines.all(&["register", "ledger"]);
}

const SHOW: [&str; 2] = ["words register", "words ledger"];

/// Two records and two routes: 13 and 22 words, so 20 + 52 + 88 bytes.
const SMALL: [&str; 4] = [
    "file 2 65010 65001 65002", "file 0 65010 65003", "keep 7 1 20 0202000000140000000a",
    "keep 9 4 5 -",
];

/// The file that these commands end with, from empty tables.
fn file_after<S: AsRef<str>>(commands: &[S]) -> Vec<u8> {
    let mut model = Model::new();
    for line in commands {
        console::answer(&mut model, line.as_ref().as_bytes());
    }
    file_of(&model).expect("well-formed tables")
}

/// Tables written, and read back over empty and over other ones.
fn snapshots_of_tables(lines: &mut Lines) {
    for capacity in [0, 35, 36, 37, 131_072, 131_073] {
        lines.write(capacity);
    }
    lines.read(&file_after::<&str>(&[]));
    lines.all(&SHOW);
    let start = lines.0.len();
    lines.all(&REGISTER_D);
    for (route, (role, neighbour, path)) in (1..).zip(A_TO_L) {
        lines.keep(route, role, neighbour, &sequence(path));
    }
    let filled = file_after(&lines.0[start..]);
    for capacity in [0, 20, filled.len() - 1, filled.len(), filled.len() + 1, 131_072] {
        lines.write(capacity);
    }
    // over the same tables, empty ones, longer and shorter ones
    lines.all(&["register", "ledger"]);
    lines.read(&filled);
    lines.all(&SHOW);
    lines.say("empty");
    lines.read(&filled);
    lines.all(&SHOW);
    lines.write(filled.len());
    let small = file_after(&SMALL);
    lines.read(&small);
    lines.all(&SHOW);
    lines.write(small.len() - 1);
    lines.write(small.len());
    lines.say("file 7 4294967295 4294967294");
    lines.keep(4_294_967_295, 4, 4_294_967_295, &sequence(&[4_294_967_295, 1]));
    lines.write(131_072);
    lines.read(&filled);
    lines.all(&SHOW);
    // the calls go on from what was read
    lines.keep(12, 4, 30, &[]);
    lines.all(&["withdraw 0 80", "withdraw 0 80", "drop 12", "drop 12", "rejudge", "clear 0"]);
    lines.write(131_072);
    lines.read(&file_after::<&str>(&[]));
    lines.all(&["register", "ledger", "rejudge"]);
    // verdicts that newer records made untrue, and untrue places, stay until a re-judging
    lines.say("empty");
    let start = lines.0.len();
    lines.all(&SMALL);
    lines.say("file 0 10 20");
    let stale = file_after(&lines.0[start..]);
    lines.say("empty");
    for file in [&stale, &with(&stale, &[(30, 512), (31, 512)])] {
        lines.read_and_write(file);
        lines.all(&["rejudge", "ledger", "rejudge"]);
        lines.write(131_072);
    }
}

/// Each row of a read with others beside it, and each edge of the contents.
fn snapshot_refusals(lines: &mut Lines) {
    const TOP: u32 = u32::MAX;
    let file = file_after(&SMALL);
    let both = with(&file, &[(5, 9), (18, 9)]);
    // tables that are left as they are
    lines.all(&["empty", "file 0 1 2", "keep 1 1 2 020100000002"]);
    lines.write(131_072);
    // 24, before the edition can be known
    for length in [0, 1, 3, 4, 8, 19] {
        lines.read(&file[..length]);
        lines.read(&vec![0xff; length]);
    }
    // 22
    for edition in [0, 2, 3, 256, 257, 65_537, 1 << 24, (1 << 24) + 1, TOP] {
        let worse = with(&both, &[(0, edition), (1, 0), (4, 3)]);
        lines.read(&with(&file, &[(0, edition)]));
        lines.read(&worse);
        lines.read(&worse[..20]);
        lines.read(&worse[..159]);
    }
    lines.read(&[0xff; 20]);
    lines.read(&[0; 20]);
    // 23, and where a length alone is another, 24; by the contents alone
    let mut contents: Vec<Vec<(usize, u32)>> = Vec::new();
    for field in 1..5 {
        let old = number_at(&file, field);
        for value in
            [old - 1, old + 1, old - 4, old + 4, 0, old << 24, old + (1 << 31), TOP - 3, TOP]
        {
            contents.push(vec![(field, value)]);
        }
    }
    for length in [4, 7, 8, 9, 51_204, 51_207, 51_208, 51_209, 51_212] {
        contents.push(vec![(4, length)]);
    }
    // the register's length with the second start to match, or as near as four bytes come
    for length in [
        0,
        4,
        7,
        8,
        9,
        48,
        51,
        53,
        56,
        49_156,
        49_159,
        49_160,
        49_161,
        49_164,
        51_208,
        1 << 31,
        TOP - 19,
        TOP - 15,
        TOP - 7,
        TOP - 3,
        TOP,
    ] {
        contents.push(vec![(2, length), (3, length.wrapping_add(20))]);
    }
    contents.extend([
        // the file's own length, the seam elsewhere
        vec![(2, 56), (3, 76), (4, 84)],
        vec![(2, 48), (3, 68), (4, 92)],
        vec![(2, 54), (3, 74), (4, 86)],
        vec![(2, 140), (3, 160), (4, 0)],
        vec![(2, 0), (3, 20), (4, 140)],
        vec![(2, TOP - 3), (3, 16), (4, 144)],
        vec![(2, 144), (3, 164), (4, TOP - 3)],
        // the ledger in front
        vec![(1, 108), (3, 20)],
        vec![(1, 108), (2, 88), (3, 20), (4, 52)],
    ]);
    for fields in contents {
        let input = with(&file, &fields);
        lines.read(&input);
        lines.read(&input[..20]);
    }
    lines.read(&with(&both, &[(4, 89)]));
    lines.read(&[&with(&file, &[(3, 76)])[..72], &[0; 4], &file[72..]].concat());
    lines.write(131_072);
    // 24
    for length in [20, 21, 72, 156, 157, 158, 159] {
        lines.read(&file[..length]);
        lines.read(&both[..length]);
    }
    for more in [1, 2, 3, 4, 20] {
        lines.read(&[file.clone(), vec![0; more]].concat());
        lines.read(&[both.clone(), vec![0xff; more]].concat());
    }
    lines.read(&[&file[..], &file].concat());
    lines.write(131_072);
    // 2 and 3, 2 first
    lines.read(&both);
    lines.read(&with(&file, &[(18, 9)]));
    // low byte first: all of it, the bodies, the ledger
    let low: Vec<u8> = file.chunks(4).flat_map(|number| number.iter().rev().copied()).collect();
    for kept in [0, 20, 72] {
        lines.read(&[&file[..kept], &low[kept..]].concat());
    }
    // lengths unlike the counts, of one table and of both
    let whole = parts(&file);
    for part in [0, 1] {
        let words = &whole[part];
        let mut others = vec![
            [&words[..], &[0]].concat(),
            [&words[..], &[0; 50]].concat(),
            words[..words.len() - 1].to_vec(),
            words[..2].to_vec(),
            vec![0, 0, 0],
            vec![0, 0, 1],
            vec![0, 1],
            vec![1, 0],
        ];
        others.extend(snapshot::WRAPPING_COUNTS.map(|counts| counts.to_vec()));
        for other in others {
            let mut parts = whole.clone();
            parts[part] = other;
            lines.read_parts(&parts);
        }
    }
    lines.read_parts(&whole.clone().map(|part| [&part[..], &[0]].concat()));
    // used words that are zero, and so would be there without the file
    let zeros = [vec![1, 1, 5, 0, 0, 1, 0], vec![1, 0, 7, 4, 5, 1, 1, 0, 0, 0, 0]];
    for (part, least) in [(0, 6), (1, 7)] {
        for length in least..zeros[part].len() {
            let mut parts = zeros.clone();
            parts[part].truncate(length);
            lines.read_parts(&parts);
        }
    }
    lines.write(131_072);
    lines.read_parts(&zeros);
    lines.write(131_072);
    // one table empty
    for part in [0, 1] {
        let mut parts = whole.clone();
        parts[part] = vec![0, 0];
        lines.read_parts(&parts);
        lines.write(131_072);
    }
    // every word of both bodies
    for index in 5..file.len() / 4 {
        let old = number_at(&file, index);
        let mut values = vec![old.wrapping_sub(1), old + 1, 0, TOP];
        values.retain(|value| *value != old);
        values.dedup();
        for value in values {
            lines.read_and_write(&with(&file, &[(index, value)]));
        }
    }
}

/// What writing and reading say of tables that are not as they should be: a
/// read looks at their lengths alone, and a refused one leaves every word.
fn snapshots_and_damaged_tables(lines: &mut Lines) {
    let file = file_after(&SMALL);
    let both = with(&file, &[(5, 9), (18, 9)]);
    let refused = [
        Vec::new(),
        file[..19].to_vec(),
        with(&both, &[(0, 2)]),
        with(&both, &[(4, 89)]),
        both[..159].to_vec(),
        both.clone(),
        with(&file, &[(18, 9)]),
    ];
    for (first, second) in DAMAGES {
        lines.say("empty");
        lines.all(&SMALL);
        lines.all(&["file 0 1 2", first, second]);
        lines.all(&["write 0", "write 131072"]);
        for input in &refused {
            lines.read(input);
        }
        lines.all(&SHOW);
        lines.read(&file);
        lines.all(&SHOW);
        lines.all(&["write 159", "write 160"]);
    }
    // both full of words that nothing allows
    lines.say("empty");
    for (table, end) in [(REGISTER, 12_289), (LEDGER, 12_801)] {
        for index in [0, 1, 2, 5, 7, 50, end] {
            lines.say(&format!("poke {table} {index} 4294967295"));
        }
    }
    for input in &refused {
        lines.read(input);
    }
    lines.read(&file);
    lines.all(&SHOW);
    // words that are other ones and still well formed
    lines.all(&["poke register 10 0", "poke ledger 6 0", "poke ledger 7 512", "write 160"]);
    lines.read(&file);
    lines.say("write 160");
    // a table that was lent longer or shorter keeps no other word
    lines.all(&["resize register 16384", "poke register 16383 1", "resize ledger 12"]);
    lines.read(&file);
    lines.all(&["write 160", "resize register 12290", "write 160"]);
    lines.read(&file);
    lines.say("resize ledger 12802");
    lines.read(&both);
    lines.say("write 160");
    lines.read(&file);
    lines.all(&SHOW);
    lines.say("write 160");
}

/// No word of either table is free: 49,160 and 51,208 bytes behind the contents.
fn full_snapshot(lines: &mut Lines) {
    let start = lines.0.len();
    for customer in 1..=1_024u32 {
        // The last list goes up to its customer, which one word then puts into it.
        let first = if customer < 1_024 { customer + 1 } else { customer - 8 };
        lines.file(customer % 8, customer, &run_without(customer, first, 8));
    }
    for route in 0..512u32 {
        let path: Vec<u32> = (1..=16).map(|n| 2 * route + n).rev().collect();
        lines.keep(route, 3, path[0], &sequence(&path));
    }
    let file = file_after(&lines.0[start..]);
    lines.all(&["write 100387", "write 100388", "empty"]);
    lines.all(&SMALL);
    // the last word of all
    lines.read(&with(&file, &[(file.len() / 4 - 1, 0)]));
    lines.write(131_072);
    lines.read(&file);
    lines
        .all(&["write 100387", "file 0 1025 1", "keep 512 1 5 -", "rejudge", "register", "ledger"]);
    // the first list and the last word of the register with the own customer
    for (index, customer, old) in [(4_098, 1, 2), (12_289, 1_024, 1_023)] {
        lines.all(&[&format!("poke register {index} {customer}"), "rejudge", "write 131072"]);
        lines.all(&[&format!("poke register {index} {old}"), "rejudge"]);
    }
    // equal neighbours in the first, a middle and the last path, and of two paths
    for (index, value, old) in
        [(4_611, 16, 15), (8_714, 521, 520), (12_801, 1_024, 1_023), (4_625, 18, 1)]
    {
        lines.all(&[&format!("poke ledger {index} {value}"), "rejudge", "write 100387"]);
        lines.all(&[&format!("poke ledger {index} {old}"), "rejudge"]);
    }
    // one word more than the table has; as many as it has, of which two are used
    lines.read(&with(&file[..20], &[(2, 49_164), (3, 49_184)]));
    lines.read(&with(&file[..20], &[(4, 51_212)]));
    lines.read_parts(&[vec![0; 12_290], vec![0, 0]]);
    lines.read(&file[..20]);
    lines.all(&["withdraw 1 1", "write 100339", "rejudge"]);
}

// Fixed vectors of the overrides

/// A command on the public register as one on the overrides; others as they are.
fn over(line: &str) -> String {
    match line.split(' ').next() {
        Some("file" | "withdraw" | "clear") => format!("d{line}"),
        Some(REGISTER) => DRAWER.to_string(),
        _ => line.replace("poke register", "poke drawer").replace("words register", "words drawer"),
    }
}

impl Lines {
    fn all_vectors(&mut self) {
        for (role, neighbour, path) in A_TO_L {
            self.judge(role, neighbour, &sequence(path));
        }
    }

    /// Each hop between the numbers, and each list.
    fn hops_and_lists(&mut self, numbers: &[u32], sources: &[u32]) {
        for x in numbers {
            numbers.iter().for_each(|y| self.say(&format!("hop {x} {y}")));
            sources.iter().for_each(|source| self.say(&format!("lookup {x} {source}")));
        }
    }
}

/// A to L over register D as overrides alone, as both, and with each customer overridden.
fn overridden_vectors(lines: &mut Lines) {
    lines.all(&["drawer", "words drawer"]);
    REGISTER_D.iter().for_each(|filing| lines.say(&over(filing)));
    lines.all(&["drawer", "register"]);
    lines.all_vectors();
    for (route, (role, neighbour, path)) in (1..).zip(A_TO_L) {
        lines.keep(route, role, neighbour, &sequence(path));
    }
    // the same lists by both, then by the public register alone: only sides are others
    lines.all(&["ledger", "rejudge"]);
    lines.all(&REGISTER_D);
    lines.all(&["rejudge", "dclear 0", "rejudge", "ledger"]);
    lines.all_vectors();
    for (customer, list) in [
        (10, " 0"),
        (10, " 30"),
        (20, " 0"),
        (20, " 50"),
        (20, " 10"),
        (30, " 0"),
        (40, " 10 20"),
        (50, " 20"),
        (60, " 10"),
        (60, " 30"),
        (70, " 0"),
        (80, " 0"),
    ] {
        lines.say(&format!("dfile 1 {customer}{list}"));
        lines.all_vectors();
        lines.all(&["rejudge", "ledger", &format!("dwithdraw 1 {customer}"), "rejudge"]);
    }
    // M and N by overrides: of 30, and of 20 by two sources
    lines.all(&["dfile 0 30 0", "dfile 0 20 40", "dfile 1 20 50"]);
    lines.all_vectors();
    lines.all(&["rejudge", "ledger", "drawer", "register"]);
}

/// Which lists count, and the lowest source among them.
fn counting_records(lines: &mut Lines) {
    let (numbers, sources) = ([9, 10, 11, 20, 30], [0, 1, 2, 7]);
    let hops = |lines: &mut Lines| lines.hops_and_lists(&numbers, &sources);
    hops(lines);
    // a lower source without 20, several with it
    for filing in ["file 2 10 20", "file 0 10 30", "file 7 10 0 9 20", "file 1 10 20 30"] {
        lines.say(filing);
        lines.all(&["hop 10 20", "hop 10 30", "hop 10 9", "hop 10 40"]);
        sources.iter().for_each(|source| lines.say(&format!("lookup 10 {source}")));
    }
    hops(lines);
    // AS 0 alone; then a source that lists 20 beside others that don't
    for change in [
        "dfile 2 10 0", "dfile 7 10 20", "dfile 2 10 0 20", "dfile 0 10 11", "dwithdraw 7 10",
        "dfile 1 9 20", "dfile 0 11 9 10 30", "dfile 7 11 20", "dwithdraw 2 10", "dclear 0",
        "withdraw 1 10",
    ] {
        lines.all(&[change, "drawer"]);
        hops(lines);
    }
    lines.all(&["lookup 10 8", "lookup 10 4294967295", "lookup 0 0", "lookup 0 8"]);
    lines.all(&["lookup 4294967295 7", "hop 4294967295 4294967294", "hop 10 4294967295"]);
    lines.all(&["dfile 7 4294967295 4294967294", "lookup 4294967295 7"]);
    lines.all(&["hop 4294967295 4294967294", "hop 4294967294 4294967295", "hop 4294967295 1"]);
    lines.all(&["hop 0 5", "hop 5 0", "hop 5", "hop 5 6 7", "lookup 5", "lookup 5 0 0"]);
    // any line shows that nothing was changed
    lines.all(&["register", "drawer", "ledger"]);
}

/// The sides of two hops downstream and of one upstream, by overrides at both ends of each.
fn sides(lines: &mut Lines) {
    for filing in ["file 0 1 2", "file 0 2 9", "file 0 8 7", "file 0 7 9"] {
        lines.say(filing);
    }
    // 3 and 6 are where the named hops lead, 2 and 7 where they come from
    let path = sequence(&[8, 7, 6, 5, 4, 3, 2, 1]);
    for change in [
        "dfile 0 3 9", "dfile 0 6 9", "dfile 4 2 9", "dfile 7 7 9", "dwithdraw 4 2", "dclear 0",
        "dfile 0 1 0", "dfile 0 8 0", "dfile 0 2 3", "dfile 7 7 6", "dclear 7", "dclear 0",
    ] {
        lines.say(change);
        for role in 1..=6 {
            lines.judge(role, 8, &path);
        }
        lines.keep(3, 3, 8, &path);
        lines.keep(4, 4, 5, &path);
        lines.all(&["rejudge", "ledger", "drop 4", "drop 3"]);
    }
    // one hop that is both: of two numbers that do not list each other
    lines.all(&["empty", "file 0 2 9", "file 0 4 9"]);
    for change in ["dfile 0 3 9", "dfile 0 2 9", "dfile 0 4 9", "dwithdraw 0 2", "dwithdraw 0 3"] {
        lines.say(change);
        lines.judge(3, 4, &sequence(&[4, 3, 2]));
        lines.judge(6, 2, &sequence(&[2, 3, 4]));
        lines.judge(2, 4, &sequence(&[4, 3, 2]));
    }
    // a ground has no sides
    lines.judge(3, 4, &[]);
    lines.judge(3, 5, &sequence(&[4, 3, 2]));
    lines.judge(3, 5, &segment(1, &[4]));
}

/// Pairs and sources that both have; arguments that are refused.
fn two_registers(lines: &mut Lines) {
    let show = ["register", "drawer"];
    for change in [
        "file 2 10 20", "dfile 2 10 30", "file 2 10 40 50", "dfile 2 10 60", "dfile 0 10 70",
        "withdraw 0 10", "withdraw 2 10", "withdraw 2 10", "file 2 10 20", "file 2 5 20",
        "dclear 2", "dclear 2", "dfile 2 10 20", "clear 2", "clear 0", "dwithdraw 1 10",
        "dwithdraw 2 10", "dwithdraw 2 10", "file 0 10 70", "dwithdraw 0 10", "dwithdraw 0 10",
        "dfile 7 10 1", "file 6 10 1", "dclear 6", "clear 7", "dclear 7", "clear 6",
    ] {
        lines.say(change);
        lines.all(&show);
        lines.say("hop 10 20");
    }
    lines.all(&["dfile 8 1 2", "dfile 4294967295 1 2", "dfile 8 0", "dfile 0 0 2", "dfile 7 0"]);
    lines.all(&["dfile 0 1", "dfile 0 1 2 2", "dfile 0 1 3 2", "dfile 0 1 0 0", "dfile 0 1 0"]);
    lines.all(&["dfile 0 7 7", "dfile 0 7 6 7", "dfile 0 7 7 8", "dfile 8 7 7", "dfile 0 0 0"]);
    for length in [257, 256] {
        lines.say(&over(&format!("file 0 1{}", numbers(&run_without(1, 0, length)))));
    }
    lines.all(&["lookup 1 0", "hop 1 256", "hop 1 257", "dfile 7 1 0 4294967295", "drawer"]);
    lines.all(&["dwithdraw 8 1", "dwithdraw 8 0", "dwithdraw 0 0", "dwithdraw 0 2"]);
    lines.all(&["dwithdraw 1 1", "dwithdraw 0 1", "dwithdraw 0 1", "dclear 8", "dclear 1"]);
    lines.all(&["dclear 7", "dclear 7", "drawer", "file 0 1 2", "dfile 1 1 3", "keep 1 1 5 -"]);
    lines.all(&["words register", "words drawer", "words ledger", "empty"]);
    lines.all(&["words register", "words drawer", "words ledger", "hop 1 3", "rejudge"]);
}

/// Verdicts that overrides make others and the same again.
fn rejudged_overrides(lines: &mut Lines) {
    lines.all(&REGISTER_D);
    for (route, (role, neighbour, path)) in (1..).zip(A_TO_L) {
        lines.keep(route, role, neighbour, &sequence(path));
    }
    for change in [
        // the same list: sides alone are others
        "dfile 4 20 40", "dfile 4 20 50", "withdraw 0 20", "file 0 20 40", "dfile 0 20 40",
        "dwithdraw 4 20", "dwithdraw 0 20", "dfile 0 20 10", "dclear 0", "dfile 3 10 20 30",
        "dfile 3 40 0", "dfile 3 30 10", "dfile 3 60 30", "dfile 5 60 10", "dwithdraw 3 60",
        "clear 0", "dclear 5", "dfile 3 70 80", "dfile 3 80 70", "dfile 3 80 0", "dclear 3",
    ] {
        lines.all(&[change, "rejudge", "rejudge", "ledger"]);
        lines.judge(3, 20, &sequence(&[20, 10, 40]));
        lines.judge(1, 50, &sequence(&[50, 20, 10]));
    }
    // untrue verdicts and places are mended by overrides too
    lines.all(&["dfile 0 10 20", "poke ledger 6 2", "poke ledger 7 512", "poke ledger 8 512"]);
    lines.all(&["rejudge", "ledger", "rejudge"]);
}

/// What the public register's look-ups show, shown of overrides, before and behind
/// public records that they hide.
fn overrides_at_the_ends(lines: &mut Lines) {
    for public in [&["file 0 10 0"][..], &["file 0 1 9", "file 3 30 0", "file 7 4294967295 0"]] {
        let mut part = Lines(Vec::new());
        source_look_ups(&mut part);
        lines.all(public);
        part.0.iter().for_each(|line| lines.say(&over(line)));
        lines.say("empty");
    }
    let mut part = Lines(Vec::new());
    look_ups_at_the_ends(&mut part);
    lines.all(&["file 1 1 2", "file 0 2 3", "file 7 4294967294 3", "file 6 4294967295 3"]);
    part.0.iter().for_each(|line| lines.say(&over(line)));
}

/// Overrides of many sizes beside as many public records of numbers between them, looked
/// up at some of both; then full.
fn overridden_look_ups(lines: &mut Lines) {
    let mut public = Lines(Vec::new());
    for customer in (2..=3_074).step_by(24) {
        public.file(customer % 8, customer, &[customer + 1]);
    }
    let [register, _] = parts(&file_after(&public.0));
    lines.read_parts(&[register, vec![0, 0]]);
    for size in 0..=1_024 {
        if size > 0 {
            lines.say(&over(&filing(size - 1)));
        }
        if !is_looked_through(size) {
            continue;
        }
        let mut filings: Vec<usize> = (0..size).collect();
        filings.sort_by_key(|nth| filed(*nth));
        let positions: Vec<usize> = match size {
            0 => vec![],
            1..=5 => (0..size).collect(),
            _ => vec![0, 1, size / 2, size - 2, size - 1],
        };
        for nth in positions.into_iter().map(|i| filings[i]) {
            let (customer, source) = (filed(nth), nth % 8);
            lines.say(&format!("hop {customer} {}", filed(nth + 1)));
            lines.say(&format!("hop {} {customer}", customer + 1));
            lines.say(&format!("lookup {customer} {source}"));
        }
        // the public ones below, between and above
        for customer in [2, 1_538, 3_074] {
            lines.say(&format!("hop {customer} {}", customer + 1));
        }
        lines.say("lookup 26 2");
    }
    lines.all(&["dfile 0 4000 1", "file 0 4000 1", "dfile 0 4000 4000", "lookup 4000 0"]);
    let path = ascent(3, LONGEST_PATH - 1);
    lines.judge(1, path[0], &sequence(&path));
    lines.keep(1, 3, path[0], &sequence(&path));
    // its own pair, a record less, and so one more
    lines.all(&[&over(&filing(0)), &format!("dwithdraw 0 {}", filed(0)), "dfile 0 4000 2"]);
    lines.all(&[&over(&filing(0)), "lookup 4000 0", "dclear 3", "dclear 3", &over(&filing(0))]);
    lines.all(&["rejudge", "ledger", "drawer", "register"]);
}

/// 8,192 numbers in lists of the overrides, and of the public register.
fn full_overrides(lines: &mut Lines) {
    for full in ["d", ""] {
        let other = if full == "d" { "" } else { "d" };
        let list = |customer: u32, length: usize| numbers(&run_without(customer, 0, length));
        for customer in 1..=32 {
            lines.say(&format!("{full}file 0 {customer}{}", list(customer, 256)));
        }
        lines.say(&format!("{full}file 0 33 5"));
        lines.say(&format!("{other}file 0 33 5"));
        lines.say(&format!("{other}file 0 32{}", list(32, 256)));
        lines.say(&format!("{full}file 0 32{}", list(32, 255)));
        lines.say(&format!("{full}file 0 33 5 6"));
        lines.say(&format!("{full}file 0 33 5"));
        lines.say(&format!("{full}file 0 32{}", list(32, 256)));
        lines.all(&["hop 33 5", "hop 33 6", "hop 32 256", "hop 32 255", "lookup 32 0"]);
        lines.say(&format!("{full}withdraw 0 33"));
        lines.say(&format!("{full}file 0 32{}", list(32, 256)));
        lines.all(&["hop 33 5", "hop 33 6", "hop 32 256", "rejudge", "clear 0", "dclear 0"]);
    }
    lines.all(&["register", "drawer"]);
}

/// The overrides too short, too long or malformed, alone and beside the other tables.
const DAMAGED_OVERRIDES: [&[&str]; 20] = [
    &["resize drawer 12289"],
    &["resize drawer 12291"],
    &["resize drawer 0"],
    &["resize drawer 12802"],
    &["poke drawer 12289 1"],
    &["poke drawer 0 4294967295"],
    &["poke drawer 1 4294967295"],
    &["poke register 0 9", "poke drawer 0 9"],
    &["resize register 12289", "resize drawer 12291"],
    // row 1 of one before row 2 of another
    &["poke register 0 9", "resize drawer 12291"],
    &["poke drawer 0 9", "resize register 12291"],
    &["poke drawer 0 9", "resize ledger 12801"],
    &["poke register 12289 1", "resize ledger 12803"],
    &["poke ledger 0 9", "resize drawer 12289"],
    &["poke register 0 9", "poke ledger 0 9", "resize drawer 12289"],
    &["poke register 0 9", "poke drawer 0 9", "resize ledger 12801"],
    // row 2 before row 3
    &["poke drawer 0 9", "poke ledger 0 9"],
    &["poke register 0 9", "poke drawer 0 9", "poke ledger 0 9"],
    &["resize register 0", "resize drawer 0", "resize ledger 0"],
    &["poke ledger 12801 1"],
];

fn damaged_overrides(lines: &mut Lines) {
    let file = file_after(&SMALL);
    let calls = [
        "judge 9 0 02", "judge 1 5 -", "keep 1 9 0 02", "keep 7 1 5 -", "rejudge", "hop 10 20",
        "hop 1 2", "hop 0 1", "lookup 10 0", "lookup 1 0", "lookup 0 9", "file 9 0", "file 0 1 2",
        "dfile 9 0", "dfile 0 1 2", "withdraw 9 0", "withdraw 0 1", "dwithdraw 9 0",
        "dwithdraw 0 1", "clear 9", "clear 5", "dclear 9", "dclear 5", "drop 77", "drop 9",
        "write 0", "write 131072",
    ];
    for damages in DAMAGED_OVERRIDES {
        lines.say("empty");
        lines.all(&SMALL);
        lines.all(&["file 0 1 2", "dfile 0 10 20", "dfile 3 65010 65001", "rejudge"]);
        lines.all(damages);
        lines.all(&calls);
        lines.read(&file[..159]);
        lines.all(&SHOW);
        lines.say("words drawer");
        lines.read(&file);
        lines.all(&SHOW);
        lines.all(&["words drawer", "hop 10 20", "lookup 10 0", "rejudge"]);
    }
    lines.all(&["empty", "resize drawer 16385", "poke drawer 12290 1", "poke overrides 0 1"]);
    lines.all(&["resize drawer 16384", "poke drawer 16383 7", "words drawer", "drawer"]);
    lines.all(&["poke drawer 16384 7", "resize drawer 12290", "words drawer", "hop 1 2"]);
    lines.all(&["resize drawer 1", "drawer", "words drawer", "resize drawer 12290", "hop 1 2"]);
}

/// Single words of the overrides, each put back; and each rule of a register broken alone.
fn words_of_overrides(lines: &mut Lines) {
    let filings = ["dfile 0 10 20 30", "dfile 3 10 7", "dfile 7 20 0 40"];
    lines.all(&filings);
    lines.all(&["file 0 10 50", "drawer"]);
    let mut model = Model::new();
    for line in filings {
        console::answer(&mut model, line.as_bytes());
    }
    let words = model.overrides.words();
    for index in (0..20).chain([words.len() - 1]) {
        let old = words[index];
        let mut values = vec![old.wrapping_sub(1), old + 1, 0, 1, 8, 10, 257, u32::MAX];
        values.dedup();
        for value in values {
            lines.all(&[&format!("poke drawer {index} {value}"), "hop 10 20"]);
        }
        lines.say(&format!("poke drawer {index} {old}"));
    }
    lines.all(&["hop 10 20", "drawer"]);
    // other words that are well formed count
    for (index, value) in [(2, 9), (14, 19), (7, 2), (3, 1)] {
        lines.all(&[&format!("poke drawer {index} {value}"), "hop 10 20", "hop 10 19", "hop 10 7"]);
        lines.all(&["hop 9 20", "hop 10 50", "lookup 10 2", "lookup 9 0", "drawer"]);
    }
    for (sound, pokes, call) in one_rule_broken() {
        if call.starts_with("judge") && sound.len() < 100 {
            lines.say("empty");
            sound.iter().for_each(|line| lines.say(&over(line)));
            lines.say(call);
            pokes.iter().for_each(|line| lines.say(&over(line)));
            lines.say(call);
        }
    }
    // a list that would hold its own customer, at each place
    lines.say("empty");
    let near: Vec<String> = NEAR.iter().map(|line| over(line)).collect();
    lines.0.extend(near);
    let [words, _] = parts(&file_after(&NEAR));
    for (index, value) in own_customer_pokes(&words) {
        lines.all(&[&format!("poke drawer {index} {value}"), "rejudge", "hop 10 9", "clear 5"]);
        lines.say(&format!("poke drawer {index} {}", words[index]));
    }
    lines.all(&["rejudge", "drawer"]);
}

/// Writing leaves the overrides out, reading leaves them as they are.
fn snapshots_beside_overrides(lines: &mut Lines) {
    let file = file_after(&SMALL);
    let judge = "judge 1 20 0202000000140000000a";
    lines.all(&SMALL);
    lines.all(&["dfile 3 10 30", "dfile 4 65010 7", judge, "write 159", "write 160"]);
    for changes in [
        &[][..],
        &["clear 2", "drop 7"],
        &["file 0 10 20", "dfile 5 10 20"],
        &["empty"],
        &["dfile 0 10 20", "dfile 0 65010 65001"],
        &["dclear 0", "dfile 0 20 10"],
    ] {
        lines.all(changes);
        lines.read(&file);
        lines.all(&["drawer", "register", judge, "lookup 65010 2", "lookup 65010 4", "hop 10 20"]);
        lines.all(&["hop 65010 65001", "write 160", "rejudge", "ledger", "write 160"]);
    }
    // refused reads and writes leave them too
    lines.read(&file[..159]);
    lines.read(&with(&file, &[(5, 9)]));
    lines.all(&["write 0", "drawer", judge]);
    // a snapshot with the overrides' words as its register
    lines.all(&["dfile 1 10 20", "dfile 2 30 40"]);
    let [_, ledger] = parts(&file);
    let mut other = Model::new();
    for line in ["file 1 10 20", "file 2 30 40", "file 0 20 10"] {
        console::answer(&mut other, line.as_bytes());
    }
    lines.read_parts(&[other.register.used_words(), ledger]);
    lines.all(&["register", "drawer", "rejudge", judge, "dclear 1", judge, "rejudge", "ledger"]);
}

// Fixed vectors of outcomes when records change

/// Role and path.
type RoleAndPath = (u32, &'static [u32]);

/// Changes of register D, and the routes that they are about.
const CHANGES: [(&[&str], &[RoleAndPath]); 23] = [
    // a first record of 60, by either register: places and gaps may move
    (&["file 1 60 10"], &[(1, &[50, 20, 60]), (3, &[50, 20, 60])]),
    (&["dfile 1 60 10"], &[(1, &[50, 20, 60]), (3, &[50, 20, 60])]),
    (&["file 1 60 70"], &[(3, &[60, 70]), (1, &[60, 70])]),
    (&["dfile 1 60 70"], &[(3, &[60, 70]), (1, &[60, 70])]),
    // one that makes Unknown Valid or Invalid, upstream and downstream
    (&["file 0 60 30"], &[(1, &[30, 60]), (3, &[30, 60])]),
    (&["file 0 60 20"], &[(1, &[30, 60]), (3, &[30, 60])]),
    (&["dfile 0 60 30"], &[(1, &[30, 60]), (3, &[30, 60])]),
    (&["dfile 0 60 20"], &[(1, &[30, 60]), (3, &[30, 60])]),
    (&["file 0 30 10"], &[(3, &[20, 10, 30]), (6, &[20, 10, 30])]),
    (&["file 0 30 0"], &[(3, &[20, 10, 30]), (6, &[20, 10, 30])]),
    // N: 20 has a record already
    (&["file 1 20 50", "withdraw 1 20"], &[(1, &[50, 20, 10]), (1, &[40, 20, 10])]),
    // the only record withdrawn
    (
        &["withdraw 0 20", "file 3 20 40"],
        &[
            (1, &[40, 20, 10]),
            (1, &[50, 20, 10]),
            (3, &[30, 40, 20, 10]),
            (3, &[20, 10, 40]),
            (3, &[50, 40, 20, 10]),
        ],
    ),
    // a longer list, a shorter one, known providers from a second source
    (&["file 0 20 40 50"], &[(1, &[40, 20, 10]), (1, &[50, 20, 10])]),
    (&["file 0 10 30"], &[(1, &[20, 10]), (1, &[30, 10]), (1, &[50, 20, 10])]),
    (&["file 7 10 0 30"], &[(1, &[20, 10]), (1, &[50, 20, 10])]),
    // a first override hides the public list
    (&["dfile 0 10 30", "dwithdraw 0 10"], &[(1, &[20, 10]), (1, &[50, 20, 10])]),
    (&["dfile 0 20 50", "dclear 0"], &[(1, &[40, 20, 10]), (1, &[50, 20, 10])]),
    // a list in the place of 0
    (
        &["file 0 40 50"],
        &[
            (1, &[20, 10]),
            (1, &[40, 20, 10]),
            (3, &[50, 40, 20, 10]),
            (3, &[50, 20]),
            (6, &[80, 70]),
            (3, &[20, 10, 40]),
            (1, &[50, 40, 20, 10]),
        ],
    ),
    // numbers that stand on a path more than once
    (&["file 1 60 10"], &AGAIN),
    (&["file 1 60 20"], &AGAIN),
    (&["dfile 1 60 10 90"], &AGAIN),
    (&["file 1 60 90", "file 0 90 60"], &AGAIN),
    (&["file 1 60 90", "dfile 0 90 0"], &AGAIN),
];

const AGAIN: [RoleAndPath; 6] = [
    (1, &[10, 60, 10, 60, 10]),
    (3, &[10, 60, 10, 60, 10]),
    (1, &[60, 10, 60, 10, 60]),
    (3, &[60, 10, 60, 10, 60]),
    (1, &[60, 90, 60, 90, 60]),
    (3, &[60, 90, 60, 90, 60]),
];

/// Routes judged and kept over register D, and judged again after each change.
fn before_and_after(lines: &mut Lines) {
    for (changes, routes) in CHANGES {
        lines.say("empty");
        lines.all(&REGISTER_D);
        for (role, path) in routes {
            lines.judge(*role, path[0], &sequence(path));
        }
        for (route, (role, path)) in (1..).zip(routes) {
            lines.keep(route, *role, path[0], &sequence(path));
        }
        for change in changes {
            lines.say(change);
            for (role, path) in routes {
                lines.judge(*role, path[0], &sequence(path));
            }
            lines.all(&["rejudge", "ledger"]);
        }
    }
}

/// Lines at the edges of what a command is, not all of them text.
fn odd_lines() -> Vec<Vec<u8>> {
    let mut lines = Lines(Vec::new());
    lines.all(&["x".repeat(40_000).as_str(), "x".repeat(300_000).as_str()]);
    lines.all(&[
        "register", "", " ", "register ", " register", "file  1 2", "file 1 2 ", "file 1 2",
        "file 1", "clear 4294967296", "clear 4294967295", "clear 01", "clear 0", "clear +1",
        "judge 1 1 -", "judge 1 1 --", "judge 1 1 0", "judge 1 1 0A", "judge 1 1 ",
        "poke register 12290 1", "poke register 12289 1", "words register",
        "resize register 16385", "resize register 16384", "poke register 16383 4294967295",
        "words register", "register", "poke register 0 4294967295", "poke register 1 4294967295",
        "register", "resize register 0", "register", "words register", "resize register 1",
        "register", "resize register 12290", "words register", "empty", "empty 1", "empty ",
    ]);
    lines.file(0, 1, &run_without(1, 0, 3_199));
    lines.say(&format!("file 0 1{}", " 2".repeat(8_187)));
    lines.say(&format!("file 0 1{}", " 2".repeat(8_188)));
    lines.file(0, 1, &run_without(1, 0, 256));
    lines.all(&[
        "register", "poke ledger 0 1", "poke ledger 1 4294967295", "ledger", "poke tables 0 1",
        "resize tables 5", "words tables", "words", "words register ledger", "register 1", "empty",
        "drawer", "drawer ", " drawer", "drawer 1", "Drawer", "drawers", "words drawer ",
        "words drawer register", "dfile 1 2", "dfile 1", "dfile 1 2 ", "dfile  1 2",
        "dclear 4294967296", "dclear 4294967295", "dclear 01", "dclear +1", "dwithdraw 1",
        "lookup 1 1", "lookup 1 1 ", "lookup  1 1", "lookup 01 1", "lookup 4294967296 1",
        "hop 1 1", "hop 1 1 ", "hop 1", "hop 0 1", "hop 1 0", "hop 01 1", "hop 1 4294967296",
        "hop 1 4294967295", "ddrop 1", "drejudge", "poke drawer 12290 1", "poke drawer 12289 1",
        "words drawer", "resize drawer 16385", "resize drawer 16384",
        "poke drawer 16383 4294967295", "words drawer", "drawer", "poke drawer 0 4294967295",
        "poke drawer 1 4294967295", "drawer", "resize drawer 0", "drawer", "words drawer",
        "resize drawer 1", "drawer", "resize drawer 12290", "words drawer", "words register",
        "empty", "words drawer",
    ]);
    lines.say(&format!("dfile 0 1{}", " 2".repeat(131_067)));
    lines.say(&format!("dfile 0 1{}", " 2".repeat(131_068)));
    lines.say("drawer");
    let mut lines: Vec<Vec<u8>> = lines.0.into_iter().map(String::into_bytes).collect();
    lines.extend([&b"\xff"[..], b"\x00", b"register\r", b"drop\t1"].map(<[u8]>::to_vec));
    lines
}

/// Random commands in the recorded input.
const RECORDED: usize = 16_000;

/// The recorded input: the vectors, odd lines, a random stream, and a last
/// line without a newline.
fn recorded(out: &mut impl Write) -> io::Result<()> {
    vectors().iter().try_for_each(|line| writeln!(out, "{line}"))?;
    out.write_all(b"empty\n")?;
    for line in odd_lines() {
        out.write_all(&line)?;
        out.write_all(b"\n")?;
    }
    random_stream(1, RECORDED, |line, _| writeln!(out, "{line}"))?;
    out.write_all(b"words ledger\nrejudge")
}

#[cfg(test)]
mod tests {
    use super::*;
    use reference::{judge, RouteNumber};
    use std::cell::RefCell;
    use std::collections::{BTreeMap, BTreeSet};

    const ROWS: [(&str, &[u32]); 14] = [
        ("file", &[1, 2, 4, 5, 6, 8]),
        ("withdraw", &[1, 2, 4, 5, 7]),
        ("clear", &[1, 2, 4]),
        ("dfile", &[1, 2, 4, 5, 6, 8]),
        ("dwithdraw", &[1, 2, 4, 5, 7]),
        ("dclear", &[1, 2, 4]),
        ("hop", &[1, 2]),
        ("lookup", &[]),
        ("judge", &[1, 2, 9, 10, 11, 12, 13, 14, 15, 16, 17]),
        ("keep", &[1, 2, 3, 9, 10, 11, 12, 13, 14, 15, 16, 17, 18, 20]),
        ("drop", &[1, 3, 19]),
        ("rejudge", &[1, 2, 3]),
        ("write", &[1, 2, 3, 21]),
        ("read", &[1, 2, 3, 22, 23, 24]),
    ];

    /// The words with twice the customers, and providers that are odd: each rule
    /// says of them what it said, but no list holds its customer.
    fn apart(words: &[u32]) -> Option<Vec<u32>> {
        let mut words = words.to_vec();
        let used = Records::used(&words).min(words.len() as u64) as usize;
        let entries = 4 * (*words.first()?).min(2_000) as usize;
        for (index, word) in words[..used].iter_mut().enumerate().skip(2) {
            let provider = index >= 2 + entries;
            if provider || index % 4 == 2 {
                *word = word.checked_mul(2)? + u32::from(provider);
            }
        }
        Some(words)
    }

    /// False for some words that hold great numbers.
    fn only_own_customer(words: &[u32]) -> bool {
        let well_formed = well_formed::<Records>;
        !well_formed(words) && apart(words).is_some_and(|words| well_formed(&words))
    }

    #[test]
    fn pokes_of_an_own_customer_are_no_other_fault() {
        let file = file_after(&NEAR);
        let words = &parts(&file)[0];
        let pokes = own_customer_pokes(words);
        assert_eq!(pokes.len(), 18);
        for record in 0..4 {
            for place in 0..3 {
                let start = 2 + 4 * 4 + 3 * record;
                let there = |(index, value): &(usize, u32)| {
                    (*index == start + place && *value == words[2 + 4 * record])
                        || (*index == 2 + 4 * record && *value == words[start + place])
                };
                assert!(pokes.iter().any(there), "record {record}, place {place}");
            }
        }
        let mut model = Model::new();
        let mut checked = 0;
        random_stream(31, 8_000, |line, _| {
            console::answer(&mut model, line.as_bytes());
            let words = model.register.used_words();
            if line.contains("clear") && words.len() < 300 {
                for (index, value) in own_customer_pokes(&words) {
                    let mut poked = words.clone();
                    poked[index] = value;
                    if apart(&poked).is_some() {
                        assert!(only_own_customer(&poked), "{index} {value} {words:?}");
                        checked += 1;
                    }
                }
            }
            Ok(())
        })
        .unwrap();
        assert!(checked > 200, "{checked}");
    }

    /// The words with numbers in paths that are even and odd in turn, and neighbours
    /// to match: each rule says of them what it said, but no path has equal neighbours.
    fn alternating(words: &[u32]) -> Option<Vec<u32>> {
        let twice = |number: u32, index: usize| match number {
            0 => Some(0),
            _ => Some(number.checked_mul(2)? + (index % 2) as u32),
        };
        let used = Routes::used(words);
        if used > words.len() as u64 {
            return None;
        }
        let mut words = words.to_vec();
        let body = 2 + 9 * words[0] as usize;
        for entry in (2..body).step_by(9) {
            words[entry + 2] = twice(words[entry + 2], body + words[entry + 7] as usize)?;
        }
        for index in body..used as usize {
            words[index] = twice(words[index], index)?;
        }
        Some(words)
    }

    /// False for some words that hold great numbers.
    fn only_equal_neighbours(words: &[u32]) -> bool {
        let well_formed = well_formed::<Routes>;
        !well_formed(words) && alternating(words).is_some_and(|words| well_formed(&words))
    }

    #[test]
    fn pokes_of_paths_are_no_other_fault() {
        let mut lines = Lines(Vec::new());
        seams(&mut lines);
        let [_, words] = parts(&file_after(&lines.0));
        // three pairs in paths of four, from both sides but for the first number
        assert_eq!(equal_neighbour_pokes(&words).len(), 3 * 5 + 4);
        assert!(seam_pokes(&words).is_empty());
        let mut model = Model::new();
        let mut checked = [0; 3];
        random_stream(32, 6_000, |line, _| {
            console::answer(&mut model, line.as_bytes());
            let words = model.ledger.used_words();
            if line.starts_with("drop") && words.len() < 300 {
                let poked = |pokes: &[(usize, u32)]| {
                    let mut poked = words.clone();
                    pokes.iter().for_each(|(index, value)| poked[*index] = *value);
                    poked
                };
                for poke in equal_neighbour_pokes(&words) {
                    let poked = poked(&[poke]);
                    if alternating(&poked).is_some() {
                        assert!(only_equal_neighbours(&poked), "{poked:?}");
                        checked[0] += 1;
                    }
                }
                for poke in seam_pokes(&words) {
                    assert!(well_formed::<Routes>(&poked(&[poke])), "{poke:?} {words:?}");
                    checked[1] += 1;
                }
                for pokes in seam_moves(&words) {
                    assert!(well_formed::<Routes>(&poked(&pokes)), "{pokes:?} {words:?}");
                    checked[2] += 1;
                }
            }
            Ok(())
        })
        .unwrap();
        assert!(checked[0] > 1_000 && checked[1] > 200 && checked[2] > 20, "{checked:?}");
    }

    /// What the boundaries of an attribute without a ground are like, and the edges
    /// of its length.
    fn boundaries(attribute: &[u8]) -> Vec<&'static str> {
        let segments = judge::read(attribute).unwrap();
        let mut kinds = Vec::new();
        let mut vanished = false;
        for (nth, pair) in segments.windows(2).enumerate() {
            let (before, after) = (&pair[0].numbers, &pair[1].numbers);
            let last = before[before.len() - 1];
            let vanishes = after.iter().all(|number| *number == last);
            let at_the_end = nth + 2 == segments.len();
            let low_byte = last.0 as u8 == after[0].0 as u8;
            for (kind, given) in [
                ("run", last == after[0]),
                ("no run", last != after[0]),
                ("the first number before", last != after[0] && before[0] == after[0]),
                ("the low byte alone", last != after[0] && low_byte),
                ("one vanishes", vanishes && !at_the_end),
                ("last vanishes", vanishes && at_the_end),
                ("two vanish", vanishes && vanished),
            ] {
                kinds.extend(given.then_some(kind));
            }
            vanished = vanishes;
        }
        if kinds.contains(&"run") {
            let apart: usize =
                segments.iter().map(|segment| judge::merged(&[segment.clone()]).len()).sum();
            kinds.extend(match (judge::merged(&segments).len(), apart) {
                (512, 513..) => Some("512 left of more"),
                (513, _) => Some("513 left"),
                (..512, 513..) => Some("fewer left of more"),
                _ => None,
            });
            if attribute.len() == LONGEST_ATTRIBUTE {
                kinds.push("run in 4,096 bytes");
            }
        }
        kinds
    }

    /// How often each kind is drawn. `kinds` tells of which kinds a command is, by its
    /// answer and the model before it, on which it runs it.
    fn drawn<K: Ord>(kinds: impl Fn(&mut Model, &str, &str) -> Vec<K>) -> BTreeMap<K, usize> {
        let mut seen = BTreeMap::new();
        for seed in 1..=6 {
            let mut model = Model::new();
            random_stream(seed, 8_000, |line, answer| {
                for kind in kinds(&mut model, line, answer) {
                    *seen.entry(kind).or_default() += 1;
                }
                Ok(())
            })
            .unwrap();
        }
        seen
    }

    fn check_drawn(seen: &BTreeMap<&str, usize>, kinds: &[(&str, usize)]) {
        for (kind, least) in kinds {
            assert!(seen.get(kind).is_some_and(|count| count >= least), "{kind}: {seen:?}");
        }
    }

    /// Whether an attribute was read and has no ground.
    fn has_path(answer: &str) -> bool {
        let word = answer.split(' ').next().unwrap_or("");
        answer == "refused 17"
            || (["Valid", "Invalid", "Unknown"].contains(&word) && !answer.contains("ground"))
    }

    /// Runs over boundaries, pokes and reads with equal neighbours and no other
    /// fault, and equal numbers of two paths under calls that are lent the ledger.
    #[test]
    fn runs_and_equal_neighbours_are_drawn() {
        let seen = drawn(|model, line, answer| {
            let before = model.ledger.used_words();
            let sound = model.ledger.well_formed();
            console::answer(model, line.as_bytes());
            let words: Vec<&str> = line.split(' ').collect();
            let mut kinds = match words[0] {
                "judge" | "keep" if has_path(answer) => {
                    boundaries(&console::bytes(words[words.len() - 1]).unwrap())
                }
                "poke" if sound && only_equal_neighbours(&model.ledger.words()) => vec!["poke"],
                "read" if answer == "refused 3" => {
                    let [_, ledger] = parts(&console::bytes(words[1]).unwrap());
                    only_equal_neighbours(&ledger).then_some("read").into_iter().collect()
                }
                _ => vec![],
            };
            let lent = ["keep", "drop", "rejudge", "write"].contains(&words[0]);
            let paths = paths(&before);
            if lent && paths.windows(2).any(|pair| pair[0].2.last() == pair[1].2.first()) {
                kinds.push("equal ends");
            }
            kinds
        });
        check_drawn(
            &seen,
            &[
                ("run", 1_000),
                ("no run", 1_000),
                ("one vanishes", 400),
                ("two vanish", 100),
                ("last vanishes", 100),
                ("the first number before", 100),
                ("the low byte alone", 20),
                ("512 left of more", 10),
                ("513 left", 10),
                ("fewer left of more", 5),
                ("run in 4,096 bytes", 40),
                ("poke", 30),
                ("read", 12),
                ("equal ends", 1_000),
            ],
        );
    }

    /// Of an attribute without a ground.
    fn lengths(attribute: &[u8]) -> Vec<&'static str> {
        let segments = judge::read(attribute).unwrap();
        let mut kinds = match judge::merged(&segments).len() {
            65..=254 => vec!["65 to 254"],
            255..=257 => vec!["255 to 257"],
            258..=511 => vec!["258 to 511"],
            512 => vec!["512"],
            513.. => vec!["513 or more"],
            _ => vec![],
        };
        if segments.iter().any(|segment| segment.numbers.len() == LONGEST_SEGMENT) {
            kinds.push("a full segment");
        }
        kinds
    }

    /// Of a ledger to which a route has come.
    fn ledger_kinds(routes: &Routes, route: RouteNumber) -> Vec<&'static str> {
        let kept = &routes[&route];
        let lengths = || routes.values().map(|route| route.path.len());
        let full = lengths().sum::<usize>() == MOST_BODY_WORDS;
        let longest_alone = lengths().all(|length| [0, LONGEST_PATH].contains(&length));
        [
            ("512 kept", kept.path.len() == 512),
            ("place 512 kept", kept.place_a == 512 || kept.place_b == 512),
            ("place above 64 kept", (65..=512).contains(&kept.place_a)),
            ("full of 512", full && longest_alone),
            ("full of others", full && !longest_alone),
        ]
        .into_iter()
        .filter_map(|(kind, given)| given.then_some(kind))
        .collect()
    }

    /// A path of 513 numbers in a ledger of the right length, and counts that add up.
    fn one_too_many(words: &[u32]) -> bool {
        let entries = words[2..].chunks_exact(Routes::ENTRY).take(words[0] as usize);
        let counts: Vec<u64> = entries.map(|entry| entry[8].into()).collect();
        counts.contains(&513) && counts.iter().sum::<u64>() == words[1].into()
    }

    /// Long paths, and answers and ledgers that only they give.
    #[test]
    fn long_paths_are_drawn() {
        let seen = drawn(|model, line, answer| {
            console::answer(model, line.as_bytes());
            let words: Vec<&str> = line.split(' ').collect();
            let mut kinds = Vec::new();
            if ["judge", "keep"].contains(&words[0]) && has_path(answer) {
                kinds = lengths(&console::bytes(words[words.len() - 1]).unwrap());
            }
            let gap = answer.split("gap ").nth(1).map_or(0, |gap| gap.parse().unwrap());
            kinds.extend(match (answer, gap) {
                ("refused 11", _) => Some("11"),
                (_, 65..=508) => Some("gap above 64"),
                (_, 509..=511) => Some("gap of 509 or more"),
                (_, -508..=-65) => Some("gap below -64"),
                (_, -511..=-509) => Some("gap of -509 or less"),
                _ => None,
            });
            if words[0] == "drop" && answer == "refused 3" && one_too_many(&model.ledger.words()) {
                kinds.push("513 by counts");
            }
            let Table::Held(routes) = &model.ledger else { return kinds };
            match words[0] {
                "keep" if has_path(answer) && answer != "refused 17" => {
                    kinds.extend(ledger_kinds(routes, RouteNumber(words[1].parse().unwrap())));
                }
                "read" if answer == "done" => {
                    let longest = routes.values().any(|route| route.path.len() == 512);
                    kinds.extend(longest.then_some("512 read"));
                }
                _ => {}
            }
            kinds
        });
        check_drawn(
            &seen,
            &[
                ("11", 60),
                ("65 to 254", 40),
                ("255 to 257", 60),
                ("258 to 511", 60),
                ("512", 120),
                ("513 or more", 50),
                ("a full segment", 200),
                ("gap above 64", 30),
                ("gap of 509 or more", 60),
                ("gap below -64", 4),
                ("gap of -509 or less", 4),
                ("512 kept", 100),
                ("place above 64 kept", 8),
                ("place 512 kept", 15),
                ("full of 512", 5),
                ("full of others", 5),
                ("512 read", 6),
                ("513 by counts", 6),
            ],
        );
    }

    /// Where a list holds its customer.
    fn place(list: &[u32], customer: u32) -> Option<String> {
        let at = list.iter().position(|number| *number == customer)?;
        let place = match at {
            0 if list.len() == 1 => "alone",
            0 => "first",
            _ if at + 1 == list.len() => "last",
            _ => "between",
        };
        Some(format!("{place}{}", if list.len() == 256 { " of 256" } else { "" }))
    }

    /// Filings, pokes and reads with an own customer and no other fault.
    #[test]
    fn own_customers_are_drawn() {
        let seen = drawn(|model, line, answer| {
            let before = model.register.well_formed() && model.overrides.well_formed();
            console::answer(model, line.as_bytes());
            let words: Vec<&str> = line.split(' ').collect();
            let kind = match (words[0], answer) {
                ("file" | "dfile", "refused 6") => {
                    let list: Vec<u32> =
                        words[2..].iter().map(|word| word.parse().unwrap()).collect();
                    let (customer, list) = (list[0], &list[1..]);
                    let other = list.len() > 256 || list != ascending(list.to_vec());
                    place(list, customer).filter(|_| !other)
                }
                ("poke", _) if before => match words[1] {
                    REGISTER => only_own_customer(&model.register.words()),
                    DRAWER => only_own_customer(&model.overrides.words()),
                    _ => false,
                }
                .then(|| format!("poke {}", words[1])),
                ("read", "refused 2") => {
                    let [register, _] = parts(&console::bytes(words[1]).unwrap());
                    only_own_customer(&register).then(|| "read".to_string())
                }
                _ => None,
            };
            kind.into_iter().collect()
        });
        for kind in [
            "alone", "first", "between", "last", "first of 256", "between of 256", "last of 256",
            "poke register", "poke drawer", "read",
        ] {
            assert!(seen.get(kind).is_some_and(|count| *count >= 4), "{kind}: {seen:?}");
        }
    }

    /// What is wrong with a table: 1 its length, 2 its words, 0 nothing.
    fn wrong<T: Form>(table: &Table<T>) -> u32 {
        match (table.right_length(), table.well_formed()) {
            (false, _) => 1,
            (true, false) => 2,
            (true, true) => 0,
        }
    }

    /// The same with no override.
    fn without_overrides(model: &Model) -> Model {
        Model { overrides: Model::new().overrides, ..model.clone() }
    }

    /// Of a hop or a lookup over well-formed registers.
    fn kinds_of_lists(model: &Model, words: &[&str], answer: &str) -> Vec<&'static str> {
        let (Table::Held(public), Table::Held(overrides)) = (&model.register, &model.overrides)
        else {
            return vec![];
        };
        let [x, y] = [1, 2].map(|i| words[i].parse::<u32>().unwrap());
        let lists = |records: &Records| -> Vec<(u32, Vec<AsNumber>)> {
            let of = records.iter().filter(|((customer, _), _)| customer.0 == x);
            of.map(|((_, source), list)| (*source, list.clone())).collect()
        };
        let (public, overrides) = (lists(public), lists(overrides));
        let lists = if overrides.is_empty() { &public } else { &overrides };
        let both = !public.is_empty() && !overrides.is_empty();
        if words[0] == "lookup" {
            let listed = |lists: &[(u32, Vec<AsNumber>)]| lists.iter().any(|(s, _)| *s == y);
            return match (answer == "list", overrides.is_empty()) {
                (true, false) if listed(&public) => vec!["lookup: hidden"],
                (false, false) if listed(&public) => vec!["lookup: drawer for public"],
                (false, false) => vec!["lookup: drawer"],
                (false, true) => vec!["lookup: public"],
                _ => vec!["lookup: none"],
            };
        }
        let listing = |lists: &[(u32, Vec<AsNumber>)]| {
            lists.iter().filter(|(_, list)| list.contains(&AsNumber(y))).count()
        };
        let named = answer.split(' ').nth(2).map(|source| source.parse::<u32>().unwrap());
        [
            ("hop: drawer above 0", named > Some(0) && !overrides.is_empty()),
            ("hop: lower source without", named.is_some_and(|named| lists[0].0 < named)),
            ("hop: several list it", listing(lists) > 1),
            ("hop: hidden provider", both && named.is_none() && listing(&public) > 0),
            ("hop: hidden other", both && named.is_some() && listing(&public) == 0),
            ("hop: both list it", both && named.is_some() && listing(&public) > 0),
            ("hop: no public record", !both && answer.contains("drawer")),
        ]
        .into_iter()
        .filter_map(|(kind, given)| given.then_some(kind))
        .collect()
    }

    /// Of an answer that the same model gives otherwise without overrides.
    fn kind_of_change(model: &Model, line: &str, answer: &str) -> Option<&'static str> {
        let mut other = without_overrides(model);
        let without = console::answer(&mut other, line.as_bytes());
        let word = |answer: &str| answer.split(' ').next().unwrap_or("").to_string();
        Some(match (&word(&without)[..], &word(answer)[..]) {
            _ if without == answer => return None,
            ("Valid", "Invalid") => "Valid to Invalid",
            ("Invalid", "Valid") => "Invalid to Valid",
            ("Unknown", "Valid") => "Unknown to Valid",
            ("Unknown", "Invalid") => "Unknown to Invalid",
            ("Invalid", "Invalid")
                if without.replace("public", "") == answer.replace("drawer", "") =>
            {
                "sides alone"
            }
            _ => "otherwise",
        })
    }

    /// Sides, hops, lists, verdicts that overrides change, and rows with bad overrides.
    #[test]
    fn overrides_are_drawn() {
        let seen = drawn(|model, line, answer| {
            let words: Vec<&str> = line.split(' ').collect();
            let before = (words[0] == "rejudge").then(|| model.clone());
            console::answer(model, line.as_bytes());
            let mut kinds: Vec<String> = Vec::new();
            // A call that was refused, and one that is lent no more than it reads, leaves them.
            let bad = [wrong(&model.register), wrong(&model.overrides), wrong(&model.ledger)];
            if words[0] == "read" || bad != [0; 3] {
                if answer != "error" && !["poke", "resize", "words"].contains(&words[0]) {
                    kinds.push(format!(
                        "{} {bad:?} {}",
                        words[0],
                        answer.split(" at ").next().unwrap()
                    ));
                }
                return kinds;
            }
            match words[0] {
                "hop" if answer != "error" => {
                    kinds.push(answer.to_string());
                    kinds.extend(
                        kinds_of_lists(model, &words, answer).iter().map(|k| k.to_string()),
                    );
                }
                "lookup" if answer != "error" => {
                    kinds.extend(
                        kinds_of_lists(model, &words, answer).iter().map(|k| k.to_string()),
                    );
                }
                "judge" if has_path(answer) => {
                    if answer.starts_with("Invalid") {
                        let sides: Vec<&str> = answer.split(' ').skip(3).take(2).collect();
                        kinds.push(sides.join(" "));
                    }
                    kinds.extend(kind_of_change(model, line, answer).map(str::to_string));
                }
                "rejudge" if answer.starts_with("changed") => {
                    let mut other = without_overrides(&before.unwrap());
                    let without = console::answer(&mut other, b"rejudge");
                    if without != answer {
                        kinds.push("another count".to_string());
                    }
                    if other.ledger.words() != model.ledger.words() {
                        kinds.push("another ledger".to_string());
                    }
                }
                _ => {}
            }
            kinds
        });
        for (kind, least) in [
            ("none", 40),
            ("other public", 50),
            ("other drawer", 50),
            ("provider public 0", 40),
            ("provider public 7", 5),
            ("provider drawer 0", 20),
            ("provider drawer 7", 3),
            ("hop: drawer above 0", 50),
            ("hop: lower source without", 40),
            ("hop: several list it", 20),
            ("hop: hidden provider", 20),
            ("hop: hidden other", 20),
            ("hop: both list it", 20),
            ("hop: no public record", 20),
            ("lookup: none", 50),
            ("lookup: public", 50),
            ("lookup: drawer", 20),
            ("lookup: drawer for public", 20),
            ("lookup: hidden", 25),
            ("public -", 150),
            ("drawer -", 90),
            ("public public", 70),
            ("public drawer", 30),
            ("drawer public", 30),
            ("drawer drawer", 40),
            ("Valid to Invalid", 15),
            ("Invalid to Valid", 20),
            ("Unknown to Valid", 20),
            ("Unknown to Invalid", 20),
            ("sides alone", 20),
            ("another count", 50),
            ("another ledger", 50),
            // one table, then two: a length goes before words, words of a register before 3
            ("judge [0, 2, 0] refused 2", 15),
            ("judge [0, 1, 0] refused 1", 5),
            ("keep [0, 2, 0] refused 2", 15),
            ("keep [0, 1, 0] refused 1", 5),
            ("rejudge [0, 2, 0] refused 2", 15),
            ("rejudge [0, 1, 0] refused 1", 5),
            ("hop [0, 2, 0] refused 2", 15),
            ("hop [0, 1, 0] refused 1", 5),
            ("hop [2, 0, 0] refused 2", 15),
            ("hop [1, 0, 0] refused 1", 5),
            ("lookup [0, 2, 0] list", 15),
            ("lookup [0, 1, 0] list", 5),
            ("lookup [2, 0, 0] list", 15),
            ("lookup [1, 0, 0] list", 5),
            ("dfile [0, 2, 0] refused 2", 15),
            ("dfile [0, 1, 0] refused 1", 5),
            ("file [0, 2, 0] new", 5),
            ("file [0, 1, 0] new", 2),
            ("dfile [2, 0, 0] new", 5),
            ("dfile [1, 0, 0] new", 2),
            ("withdraw [0, 2, 0] done", 5),
            ("dwithdraw [2, 0, 0] done", 3),
            ("drop [0, 2, 0] done", 5),
            ("drop [0, 1, 0] done", 2),
            ("read [0, 2, 0] done", 5),
            ("read [0, 1, 0] done", 2),
            ("read [0, 2, 0] refused 24", 1),
            ("judge [1, 2, 0] refused 1", 1),
            ("judge [2, 1, 0] refused 1", 1),
            ("judge [2, 2, 0] refused 2", 1),
            ("judge [0, 2, 1] refused 2", 1),
            ("keep [0, 2, 1] refused 1", 1),
            ("keep [0, 2, 2] refused 2", 1),
            ("rejudge [0, 2, 1] refused 1", 1),
            ("rejudge [0, 2, 2] refused 2", 1),
            ("rejudge [0, 1, 2] refused 1", 1),
        ] {
            assert!(seen.get(kind).is_some_and(|count| *count >= least), "{kind}: {seen:#?}");
        }
        // a write is not lent the overrides
        let written = |(kind, _): &(&String, &usize)| {
            kind.starts_with("write [0, 2, 0] written")
                || kind.starts_with("write [0, 1, 0] written")
        };
        assert!(seen.iter().filter(written).count() > 10);
    }

    /// Paths judged on both sides of a first record of a number on them.
    #[test]
    fn first_records_are_drawn() {
        // The last judgement, and whether nothing but such a filing came after it
        let last = RefCell::new((String::new(), String::new(), false));
        let seen = drawn(|model, line, answer| {
            let words: Vec<&str> = line.split(' ').collect();
            let of = |table: &Table<Records>| match table {
                Table::Held(records) => {
                    records.keys().any(|(customer, _)| customer.0.to_string() == words[2])
                }
                Table::Words(_) => true,
            };
            let first = words[0].ends_with("file")
                && answer == "new"
                && !of(&model.register)
                && !of(&model.overrides);
            console::answer(model, line.as_bytes());
            let mut last = last.borrow_mut();
            if words[0] != "judge" {
                last.2 = first;
                return vec![];
            }
            let (before, before_answer, filed) =
                std::mem::replace(&mut *last, (line.to_string(), answer.to_string(), false));
            if !filed || before != line {
                return vec![];
            }
            let outcome = |answer: &str| answer.split(' ').next().unwrap_or("").to_string();
            let gap = |answer: &str| answer.split(" gap ").nth(1).map(str::to_string);
            let places = |answer: &str| answer.split(' ').skip(1).take(2).collect::<String>();
            match (&outcome(&before_answer)[..], &outcome(answer)[..]) {
                ("Unknown", "Valid") => vec!["Unknown to Valid"],
                ("Unknown", "Invalid") => vec!["Unknown to Invalid"],
                ("Unknown", _) => vec!["Unknown"],
                (before, after) if before != after => vec!["altered"],
                ("Invalid", _) if places(&before_answer) != places(answer) => vec!["place"],
                _ if gap(&before_answer) != gap(answer) => vec!["gap"],
                _ => vec!["the same"],
            }
        });
        check_drawn(
            &seen,
            &[
                ("Unknown to Valid", 5),
                ("Unknown to Invalid", 3),
                ("Unknown", 10),
                ("place", 2),
                ("gap", 3),
                ("the same", 20),
            ],
        );
        assert!(!seen.contains_key("altered"));
    }

    /// How often each call gave each kind of answer.
    #[derive(Default)]
    struct Seen(BTreeMap<(String, String), usize>);

    impl Seen {
        fn note(&mut self, line: &str, answer: &str) {
            let call = line.split(' ').next().unwrap_or("");
            let mut kind: String = answer.split(" at ").next().unwrap_or("").to_string();
            if !kind.starts_with("refused") && !kind.starts_with("Invalid ground") {
                kind = kind.split(' ').next().unwrap_or("").to_string();
            }
            *self.0.entry((call.to_string(), kind)).or_default() += 1;
            if answer.contains("gap -") {
                *self.0.entry((call.to_string(), "overlap".to_string())).or_default() += 1;
            }
        }

        fn count(&self, call: &str, kind: &str) -> usize {
            self.0.get(&(call.to_string(), kind.to_string())).copied().unwrap_or(0)
        }

        fn check(&self) {
            for (call, rows) in ROWS {
                for row in 1..=24 {
                    let count = self.count(call, &format!("refused {row}"));
                    assert_eq!(count > 0, rows.contains(&row), "{call}: row {row} {count} times");
                }
            }
            for call in ["judge", "keep"] {
                for kind in ["Valid", "Invalid", "Unknown", "overlap"] {
                    assert!(self.count(call, kind) > 0, "{call}: {kind}");
                }
                for ground in 1..=3 {
                    assert!(self.count(call, &format!("Invalid ground {ground}")) > 0);
                }
            }
            for (call, kind) in [
                ("file", "new"),
                ("file", "replaced"),
                ("withdraw", "done"),
                ("dfile", "new"),
                ("dfile", "replaced"),
                ("dwithdraw", "done"),
                ("hop", "none"),
                ("hop", "provider"),
                ("hop", "other"),
                ("hop", "error"),
                ("lookup", "list"),
                ("write", "written"),
                ("read", "done"),
            ] {
                assert!(self.count(call, kind) > 0, "{call}: {kind}");
            }
        }
    }

    #[test]
    fn every_row_is_reached() {
        for seed in 1..=4 {
            let mut seen = Seen::default();
            random_stream(seed, 10_000, |line, answer| {
                assert!(!line.contains('\n'));
                seen.note(line, answer);
                Ok(())
            })
            .unwrap();
            seen.check();
        }
    }

    #[test]
    fn a_seed_decides_the_stream() {
        let stream = |seed| {
            let mut lines = Vec::new();
            random_stream(seed, 500, |line, _| {
                lines.push(line.to_string());
                Ok(())
            })
            .unwrap();
            lines
        };
        assert_eq!(stream(9).len(), 500);
        assert_eq!(stream(9), stream(9));
        assert_ne!(stream(9), stream(10));
    }

    #[test]
    fn the_vectors_reach_every_row_and_edge() {
        let mut model = Model::new();
        let mut seen = Seen::default();
        let mut answers = BTreeSet::new();
        for line in vectors() {
            let answer = console::answer(&mut model, line.as_bytes());
            seen.note(&line, &answer);
            answers.insert(answer);
        }
        seen.check();
        for edge in [
            "Valid gap -511", "Unknown 1 512 gap 511", "Unknown 512 0", "Invalid 512 0 public -",
            "Invalid 2 511 public public gap 511", "refused 16 at 4092", "refused 12 at 4094",
            "Invalid 2 511 drawer drawer gap 511", "Invalid 2 511 public drawer gap 511",
            "Invalid 2 511 drawer public gap 511", "Invalid 2 0 drawer -", "provider drawer 0",
            "provider drawer 7", "provider public 7", "other drawer", "other public", "list",
            "list 0",
        ] {
            assert!(answers.contains(edge), "{edge}");
        }
    }

    /// At each size entries are found and others are not.
    #[test]
    fn look_ups_at_each_size() {
        let mut lines = Lines(Vec::new());
        look_ups(&mut lines);
        let mut model = Model::new();
        let mut sizes: BTreeMap<(String, String), BTreeSet<usize>> = BTreeMap::new();
        for line in lines.0 {
            let answer = console::answer(&mut model, line.as_bytes());
            assert!(!["error", "refused 2", "refused 3"].contains(&answer.as_str()), "{line}");
            let call = line.split(' ').next().unwrap_or("");
            let size = match (call, &model.register, &model.ledger) {
                ("judge" | "withdraw", Table::Held(records), _) => records.len(),
                ("keep" | "drop", _, Table::Held(routes)) => routes.len(),
                _ => continue,
            };
            sizes.entry((call.to_string(), answer)).or_default().insert(size);
        }
        let powers = [32, 64, 128, 256, 512, 1_024];
        let near: Vec<usize> = powers.iter().flat_map(|power| power - 1..=power + 1).collect();
        for (call, answer, least, most) in [
            ("judge", "Valid", 1, 1_024),
            ("withdraw", "refused 7", 0, 1_024),
            ("keep", "refused 18", 1, 512),
            ("drop", "refused 19", 0, 512),
        ] {
            let seen = &sizes[&(call.to_string(), answer.to_string())];
            for size in (least..=17).chain(near.clone()).filter(|size| *size <= most) {
                assert!(seen.contains(&size), "{call}: {answer} at {size}");
            }
        }
    }

    #[test]
    fn each_broken_rule_is_refused() {
        for (sound, pokes, call) in one_rule_broken() {
            let mut model = Model::new();
            let mut answer = |line: &str| console::answer(&mut model, line.as_bytes());
            for line in &sound {
                let given = answer(line);
                assert!(!given.starts_with("refused") && given != "error", "{line}: {given}");
            }
            let (before, after) = match call.starts_with("drop") {
                true => ("refused 19", "refused 3"),
                false => ("Invalid ground 1", "refused 2"),
            };
            assert_eq!(answer(call), before, "{pokes:?}");
            for line in &pokes {
                assert_eq!(answer(line), "done");
            }
            assert_eq!(answer(call), after, "{pokes:?}");
        }
    }

    /// The same answers when every call finds its tables as words.
    #[test]
    fn tables_as_words_answer_alike() {
        let mut model = Model::new();
        random_stream(21, 2_500, |line, answer| {
            model.register = Table::Words(model.register.words());
            model.overrides = Table::Words(model.overrides.words());
            model.ledger = Table::Words(model.ledger.words());
            assert_eq!(console::answer(&mut model, line.as_bytes()), answer, "{line}");
            Ok(())
        })
        .unwrap();
    }

    #[test]
    fn bad_lines_are_errors() {
        let mut model = Model::new();
        for line in BAD_LINES {
            assert_eq!(console::answer(&mut model, line.as_bytes()), "error", "{line}");
        }
    }
}
