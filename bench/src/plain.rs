//! Re-judging in plain Rust on the same tables: what the proved library is measured against. Each number is looked up in the overrides first,
//! and in the public register if it has no record there.

use aspa_filter::{
    GREATEST_SOURCE, LEDGER_WORDS, MOST_PATH, MOST_PATH_WORDS, MOST_PROVIDERS, MOST_PROVIDER_WORDS,
    MOST_RECORDS, MOST_ROUTES, REGISTER_WORDS,
};

/// The words of a record's slot and of a route's.
pub const RECORD: usize = 4;
pub const ROUTE: usize = 9;

#[derive(Clone, Copy, PartialEq)]
enum Hop {
    NoAttestation,
    Provider,
    NotProvider,
}

/// The body words of a table with entries of `width` words that end with start and count: where they begin, if the
/// limits, the starts, the counts and the zeros at the end are right.
fn bodies(words: &[u32], width: usize, most: usize, most_body: usize) -> Option<usize> {
    let (n, b) = (words[0] as usize, words[1] as usize);
    if n > most || b > most_body {
        return None;
    }
    let begin = 2 + n * width;
    let mut next = 0;
    for entry in words[2..begin].chunks_exact(width) {
        if entry[width - 2] != next {
            return None;
        }
        next = next.checked_add(entry[width - 1])?;
    }
    if next as usize != b || words[begin + b..].iter().any(|&w| w != 0) {
        return None;
    }
    Some(begin)
}

pub fn is_register(reg: &[u32]) -> bool {
    let Some(mut at) = bodies(reg, RECORD, MOST_RECORDS, MOST_PROVIDER_WORDS) else {
        return false;
    };
    let mut last = (0, 0);
    for entry in reg[2..at].chunks_exact(RECORD) {
        let key = (entry[0], entry[1]);
        let count = entry[3] as usize;
        if key <= last
            || key.0 == 0
            || key.1 > GREATEST_SOURCE
            || count == 0
            || count > MOST_PROVIDERS
        {
            return false;
        }
        let list = &reg[at..at + count];
        if list.windows(2).any(|pair| pair[0] >= pair[1]) || list.contains(&key.0) {
            return false;
        }
        last = key;
        at += count;
    }
    true
}

pub fn is_ledger(ledger: &[u32]) -> bool {
    let Some(mut at) = bodies(ledger, ROUTE, MOST_ROUTES, MOST_PATH_WORDS) else {
        return false;
    };
    let mut last = None;
    for entry in ledger[2..at].chunks_exact(ROUTE) {
        let [route, role, neighbour, ground, verdict, a, b, _, count] = *entry else {
            return false;
        };
        let count = count as usize;
        if last.is_some_and(|last| last >= route)
            || !(1..=6).contains(&role)
            || neighbour == 0
            || ground > 3
            || verdict > 2
            || a as usize > MOST_PATH
            || b as usize > MOST_PATH
        {
            return false;
        }
        let path = &ledger[at..at + count];
        let sound = if ground == 0 {
            (1..=MOST_PATH).contains(&count)
                && path.iter().all(|&x| x != 0)
                && path.windows(2).all(|two| two[0] != two[1])
                && (role == 4 || path[0] == neighbour)
        } else {
            count == 0 && verdict == 1 && a == 0 && b == 0 && !(ground == 2 && role == 4)
        };
        if !sound {
            return false;
        }
        last = Some(route);
        at += count;
    }
    true
}

/// A look-up: the position of the first record of a customer, or where it would stand.
pub trait Find {
    fn over(reg: &[u32]) -> Self;
    fn find(&self, reg: &[u32], customer: u32) -> usize;
}

fn customer_at(reg: &[u32], i: usize) -> u32 {
    reg[2 + i * RECORD]
}

/// The position of a customer that is known to be from low to high, by a loop that halves.
#[inline(always)]
fn halve(reg: &[u32], mut low: usize, mut high: usize, customer: u32) -> usize {
    while low < high {
        let middle = low + (high - low) / 2;
        if customer_at(reg, middle) < customer {
            low = middle + 1;
        } else {
            high = middle;
        }
    }
    low
}

pub struct Halving;

impl Find for Halving {
    fn over(_: &[u32]) -> Self {
        Halving
    }

    #[inline(always)]
    fn find(&self, reg: &[u32], customer: u32) -> usize {
        halve(reg, 0, reg[0] as usize, customer)
    }
}

/// By the standard library's `partition_point`, whose search has no branch to mispredict.
pub struct Standard;

impl Find for Standard {
    fn over(_: &[u32]) -> Self {
        Standard
    }

    #[inline(always)]
    fn find(&self, reg: &[u32], customer: u32) -> usize {
        let (entries, _) = reg[2..2 + RECORD * reg[0] as usize].as_chunks::<RECORD>();
        entries.partition_point(|entry| entry[0] < customer)
    }
}

const CELLS: usize = 4096;

/// Customers that lie close together, dealt into cells of one width.
#[derive(Clone, Copy)]
struct Part {
    base: u32,
    exponent: u32,
    first: usize,
    end: usize,
}

/// By the hints of the proved library, which are believed here without a test.
pub struct Hinted {
    upper: u32,
    parts: [Part; 2],
    hints: [u16; CELLS + 2],
}

impl Hinted {
    #[inline(always)]
    fn cell(&self, customer: u32) -> usize {
        let part = self.parts[(customer >= self.upper) as usize];
        if customer < part.base {
            part.first
        } else {
            part.end
                .min(part.first + ((customer - part.base) >> part.exponent) as usize)
        }
    }
}

/// The records from..to of a register in the cells first..end.
fn part(reg: &[u32], from: usize, to: usize, first: usize, end: usize) -> Part {
    let (base, last) = if from < to {
        (customer_at(reg, from), customer_at(reg, to - 1))
    } else {
        (u32::MAX, u32::MAX)
    };
    let cells = end - first;
    let exponent = (0..31).find(|e| (((last - base) >> e) as usize) < cells);
    Part {
        base,
        exponent: exponent.unwrap_or(31),
        first,
        end,
    }
}

impl Find for Hinted {
    fn over(reg: &[u32]) -> Self {
        let n = reg[0] as usize;
        let mut hinted = Hinted {
            upper: 0,
            parts: [part(reg, 0, 0, 0, 0); 2],
            hints: [0; CELLS + 2],
        };
        // The widest gap between two customers, the first if several are as wide.
        let (mut widest, mut m) = (0, 0);
        for i in 1..n {
            let gap = customer_at(reg, i) - customer_at(reg, i - 1);
            if widest < gap {
                (widest, m) = (gap, i);
            }
        }
        if n > 0 {
            hinted.upper = customer_at(reg, m);
            hinted.parts = [part(reg, 0, m, 0, 4 * m), part(reg, m, n, 4 * m, CELLS)];
        }
        for i in 0..n {
            let cell = hinted.cell(customer_at(reg, i));
            hinted.hints[cell + 1] = i as u16 + 1;
        }
        let mut last = 0;
        for hint in &mut hinted.hints {
            last = last.max(*hint);
            *hint = last;
        }
        hinted
    }

    #[inline(always)]
    fn find(&self, reg: &[u32], customer: u32) -> usize {
        let n = reg[0] as usize;
        let mut low = self.hints[self.cell(customer)] as usize;
        low += (low < n && customer_at(reg, low) < customer) as usize;
        if low < n && customer_at(reg, low) < customer {
            halve(reg, low + 1, n, customer)
        } else {
            low
        }
    }
}

/// The hop from x to y, over every record of x from the position of the first on.
fn hop(reg: &[u32], position: usize, x: u32, y: u32) -> Hop {
    let n = reg[0] as usize;
    let begin = 2 + n * RECORD;
    let mut seen = Hop::NoAttestation;
    for entry in reg[2 + position * RECORD..begin].chunks_exact(RECORD) {
        if entry[0] != x {
            break;
        }
        let from = begin + entry[2] as usize;
        if reg[from..from + entry[3] as usize].contains(&y) {
            return Hop::Provider;
        }
        seen = Hop::NotProvider;
    }
    seen
}

/// Both registers, and a look-up over each.
struct Registers<'a, F> {
    public: &'a [u32],
    overrides: &'a [u32],
    in_public: F,
    in_overrides: F,
}

impl<'a, F: Find> Registers<'a, F> {
    fn over(public: &'a [u32], overrides: &'a [u32]) -> Self {
        Registers {
            public,
            overrides,
            in_public: F::over(public),
            in_overrides: F::over(overrides),
        }
    }

    /// The register that counts for a customer, and the position of its first record there, or where it would stand.
    #[inline(always)]
    fn find(&self, customer: u32) -> (&'a [u32], usize) {
        let reg = self.overrides;
        let position = self.in_overrides.find(reg, customer);
        if position < reg[0] as usize && customer_at(reg, position) == customer {
            (reg, position)
        } else {
            (self.public, self.in_public.find(self.public, customer))
        }
    }
}

fn upstream(by: &Registers<impl Find>, path: &[u32]) -> [u32; 3] {
    let n = path.len();
    let mut unattested = 0;
    for u in 2..=n {
        let (x, y) = (path[n + 1 - u], path[n - u]);
        let (reg, position) = by.find(x);
        match hop(reg, position, x, y) {
            Hop::NotProvider => return [1, u as u32, 0],
            Hop::NoAttestation if unattested == 0 => unattested = u as u32,
            _ => {}
        }
    }
    if unattested == 0 {
        [0, 0, 0]
    } else {
        [2, unattested, 0]
    }
}

fn downstream(by: &Registers<impl Find>, path: &[u32]) -> [u32; 3] {
    let n = path.len();
    let (mut u, mut v, mut k, mut l) = (n + 1, 0, 1, 1);
    let (mut reg, mut position) = by.find(path[n - 1]);
    for i in 1..n {
        let (x, y) = (path[n - i], path[n - i - 1]);
        match hop(reg, position, x, y) {
            Hop::Provider if k == i => k = i + 1,
            Hop::NotProvider if u > n => u = i + 1,
            _ => {}
        }
        (reg, position) = by.find(y);
        match hop(reg, position, y, x) {
            Hop::Provider => {}
            Hop::NotProvider => (v, l) = (i, i + 1),
            Hop::NoAttestation => l = i + 1,
        }
    }
    if u <= v {
        [1, u as u32, v as u32]
    } else if l <= k + 1 {
        [0, 0, 0]
    } else {
        [2, k as u32, l as u32]
    }
}

/// Rows 1 to 3 of these registers and the ledger.
pub fn check(registers: &[&[u32]], ledger: &[u32]) -> Result<(), u32> {
    if registers.iter().any(|reg| reg.len() != REGISTER_WORDS) || ledger.len() != LEDGER_WORDS {
        return Err(1);
    }
    if !registers.iter().all(|reg| is_register(reg)) {
        return Err(2);
    }
    if !is_ledger(ledger) {
        return Err(3);
    }
    Ok(())
}

/// Of both registers, where a call is lent no ledger.
#[cfg(feature = "overrides")]
fn are_registers(public: &[u32], overrides: &[u32]) -> Result<(), u32> {
    let both = [public, overrides];
    if both.iter().any(|reg| reg.len() != REGISTER_WORDS) {
        return Err(1);
    }
    if !both.iter().all(|reg| is_register(reg)) {
        return Err(2);
    }
    Ok(())
}

/// The records of a customer in the register that counts for it: the register's number, 1 for the public one, its words, and the slots.
#[cfg(feature = "overrides")]
fn records<'a>(
    public: &'a [u32],
    overrides: &'a [u32],
    customer: u32,
) -> (u32, &'a [u32], &'a [[u32; RECORD]]) {
    let of = |reg: &'a [u32]| {
        let (slots, _) = reg[2..2 + RECORD * reg[0] as usize].as_chunks::<RECORD>();
        let from = slots.partition_point(|slot| slot[0] < customer);
        let count = slots[from..].iter().take_while(|slot| slot[0] == customer);
        &slots[from..from + count.count()]
    };
    match of(overrides) {
        [] => (1, public, of(public)),
        own => (2, overrides, own),
    }
}

#[cfg(feature = "overrides")]
fn list_of<'a>(reg: &'a [u32], slot: &[u32; RECORD]) -> &'a [u32] {
    let from = 2 + reg[0] as usize * RECORD + slot[2] as usize;
    &reg[from..from + slot[3] as usize]
}

/// The refusal's number, or what the hop is, its register and its source, as the library's words.
#[cfg(feature = "overrides")]
pub fn hop_words(public: &[u32], overrides: &[u32], x: u32, y: u32) -> Result<[u32; 3], u32> {
    are_registers(public, overrides)?;
    let (origin, reg, slots) = records(public, overrides, x);
    if slots.is_empty() {
        return Ok([0, 0, 8]);
    }
    match slots.iter().find(|slot| list_of(reg, slot).contains(&y)) {
        Some(slot) => Ok([1, origin, slot[1]]),
        None => Ok([2, origin, 8]),
    }
}

/// The list of a source, empty where there is none.
#[cfg(feature = "overrides")]
pub fn lookup<'a>(
    public: &'a [u32],
    overrides: &'a [u32],
    source: u32,
    customer: u32,
) -> &'a [u32] {
    if are_registers(public, overrides).is_err() || source > GREATEST_SOURCE || customer == 0 {
        return &[];
    }
    let (_, reg, slots) = records(public, overrides, customer);
    match slots.iter().find(|slot| slot[1] == source) {
        Some(slot) => list_of(reg, slot),
        None => &[],
    }
}

/// The refusal's number, or how many entries changed.
pub fn rejudge<F: Find>(public: &[u32], overrides: &[u32], ledger: &mut [u32]) -> Result<u32, u32> {
    check(&[public, overrides], ledger)?;
    let by = Registers::<F>::over(public, overrides);
    let begin = 2 + ledger[0] as usize * ROUTE;
    let (entries, paths) = ledger.split_at_mut(begin);
    let mut changed = 0;
    for entry in entries[2..].chunks_exact_mut(ROUTE) {
        if entry[3] != 0 {
            continue;
        }
        let from = entry[7] as usize;
        let path = &paths[from..from + entry[8] as usize];
        let now = match entry[1] {
            3 | 6 => downstream(&by, path),
            _ => upstream(&by, path),
        };
        if entry[4..7] != now {
            entry[4..7].copy_from_slice(&now);
            changed += 1;
        }
    }
    Ok(changed)
}
