//! A second program for the ASPA path filter, to compare its answers with.
//!
//! State is held in maps: records by customer and source, routes by number.
//! Words of a table exist only while a test command has altered them; every
//! call first goes through the rows of refusal in their order.

use std::collections::BTreeMap;

pub mod attributes;
pub mod console;
pub mod judge;
pub mod random;
pub mod samples;
pub mod snapshot;
pub mod words;

use judge::{Hop, Judgement, Registers};
use words::Form;

#[derive(Clone, Copy, PartialEq, Eq, PartialOrd, Ord, Debug)]
pub struct AsNumber(pub u32);

#[derive(Clone, Copy, PartialEq, Eq, PartialOrd, Ord, Debug)]
pub struct RouteNumber(pub u32);

pub const GREATEST_SOURCE: u32 = 7;
pub const MOST_RECORDS: usize = 1_024;
pub const MOST_PROVIDERS: usize = 256;
pub const MOST_ROUTES: usize = 512;
pub const MOST_BODY_WORDS: usize = 8_192;
pub const LONGEST_ATTRIBUTE: usize = 4_096;
pub const LONGEST_PATH: usize = 512;

/// Provider lists by customer, then source: the order of the register's entries.
pub type Records = BTreeMap<(AsNumber, u32), Vec<AsNumber>>;

/// Kept routes by number: the order of the ledger's entries.
pub type Routes = BTreeMap<RouteNumber, Route>;

/// A kept route. Verdict and places stay words: a poked ledger may hold any
/// that the word rules allow, true or not.
#[derive(Clone, PartialEq, Eq, Debug)]
pub struct Route {
    pub role: u32,
    pub neighbour: AsNumber,
    pub ground: u32,
    pub verdict: u32,
    pub place_a: u32,
    pub place_b: u32,
    /// Merged, left end first; empty under a ground.
    pub path: Vec<AsNumber>,
}

#[derive(Clone, Copy, PartialEq, Eq, Debug)]
pub struct Refusal {
    pub row: u8,
    /// Byte offset of the fault, for rows 12 to 16.
    pub place: Option<usize>,
}

impl Refusal {
    pub fn row(row: u8) -> Refusal {
        Refusal { row, place: None }
    }

    pub fn at(row: u8, place: usize) -> Refusal {
        Refusal { row, place: Some(place) }
    }
}

#[derive(Clone, Copy, PartialEq, Eq, Debug)]
pub enum Filed {
    New,
    Replaced,
}

/// A table as the map it stands for, or as words after a poke or a resize.
#[derive(Clone, Debug)]
pub enum Table<T> {
    Held(T),
    Words(Vec<u32>),
}

impl<T: Form> Table<T> {
    fn empty() -> Table<T> {
        Table::Held(T::default())
    }

    pub fn length(&self) -> usize {
        match self {
            Table::Held(_) => T::LENGTH,
            Table::Words(words) => words.len(),
        }
    }

    /// All words of the table, to its end.
    pub fn words(&self) -> Vec<u32> {
        match self {
            Table::Held(held) => words::padded(held.write(), T::LENGTH),
            Table::Words(words) => words.clone(),
        }
    }

    /// The words up to the last body word. In a table that breaks the word
    /// rules the two counts may lead past its end: then all its words.
    pub fn used_words(&self) -> Vec<u32> {
        match self {
            Table::Held(held) => held.write(),
            Table::Words(words) => {
                words[..T::used(words).min(words.len() as u64) as usize].to_vec()
            }
        }
    }

    /// False if INDEX is past the end.
    pub fn poke(&mut self, index: usize, value: u32) -> bool {
        if index >= self.length() {
            return false;
        }
        let mut words = self.words();
        words[index] = value;
        *self = Table::Words(words);
        true
    }

    pub fn resize(&mut self, length: usize) {
        let mut words = self.words();
        words.resize(length, 0);
        *self = Table::Words(words);
    }

    pub fn right_length(&self) -> bool {
        self.length() == T::LENGTH
    }

    pub fn well_formed(&self) -> bool {
        match self {
            Table::Held(_) => true,
            Table::Words(words) => words.len() == T::LENGTH && T::well_formed(words),
        }
    }

    /// Row 1.
    fn check_length(&self) -> Result<(), Refusal> {
        if self.right_length() {
            Ok(())
        } else {
            Err(Refusal::row(1))
        }
    }

    /// Row 2 or 3; well-formed words become the map that they stand for.
    fn open(&mut self) -> Result<&mut T, Refusal> {
        if let Table::Words(words) = self {
            if !T::well_formed(words) {
                return Err(Refusal::row(T::DAMAGED));
            }
            *self = Table::Held(T::read(words));
        }
        match self {
            Table::Held(held) => Ok(held),
            Table::Words(_) => unreachable!("the words were read above"),
        }
    }
}

/// The calls on one register, which are lent no other table.
impl Table<Records> {
    pub fn file(
        &mut self,
        source: u32,
        customer: AsNumber,
        list: &[AsNumber],
    ) -> Result<Filed, Refusal> {
        self.check_length()?;
        let records = self.open()?;
        check_source(source)?;
        check_customer(customer)?;
        check_list(customer, list)?;
        // Room is that of the register afterwards: a replaced list gives its own back.
        let key = (customer, source);
        let others = records.iter().filter(|(k, _)| **k != key);
        let (count, body) = others.fold((0, 0), |(n, b), (_, l)| (n + 1, b + l.len()));
        if count + 1 > MOST_RECORDS || body + list.len() > MOST_BODY_WORDS {
            return Err(Refusal::row(8));
        }
        match records.insert(key, list.to_vec()) {
            None => Ok(Filed::New),
            Some(_) => Ok(Filed::Replaced),
        }
    }

    pub fn withdraw(&mut self, source: u32, customer: AsNumber) -> Result<(), Refusal> {
        self.check_length()?;
        let records = self.open()?;
        check_source(source)?;
        check_customer(customer)?;
        match records.remove(&(customer, source)) {
            Some(_) => Ok(()),
            None => Err(Refusal::row(7)),
        }
    }

    /// Answers how many records went.
    pub fn clear(&mut self, source: u32) -> Result<usize, Refusal> {
        self.check_length()?;
        let records = self.open()?;
        check_source(source)?;
        let before = records.len();
        records.retain(|(_, s), _| *s != source);
        Ok(before - records.len())
    }
}

/// The tables and the calls on more than one of them.
#[derive(Clone, Debug)]
pub struct Model {
    /// The public register.
    pub register: Table<Records>,
    /// The operator's own register ("drawer").
    pub overrides: Table<Records>,
    pub ledger: Table<Routes>,
}

impl Default for Model {
    fn default() -> Model {
        Model::new()
    }
}

impl Model {
    pub fn new() -> Model {
        Model { register: Table::empty(), overrides: Table::empty(), ledger: Table::empty() }
    }

    /// Row 1 of both registers, then row 2 of either.
    fn registers(&mut self) -> Result<Registers<'_>, Refusal> {
        self.register.check_length()?;
        self.overrides.check_length()?;
        Ok(Registers { public: self.register.open()?, overrides: self.overrides.open()? })
    }

    /// Row 1 of the three tables, row 2 of either register, row 3.
    fn registers_and_ledger(&mut self) -> Result<(Registers<'_>, &mut Routes), Refusal> {
        self.register.check_length()?;
        self.overrides.check_length()?;
        self.ledger.check_length()?;
        let (public, overrides) = (self.register.open()?, self.overrides.open()?);
        Ok((Registers { public, overrides }, self.ledger.open()?))
    }

    pub fn hop(&mut self, x: AsNumber, y: AsNumber) -> Result<Hop, Refusal> {
        Ok(self.registers()?.hop(x, y))
    }

    /// Empty also where rows 1, 2, 4 or 5 apply.
    pub fn lookup(&mut self, customer: AsNumber, source: u32) -> &[AsNumber] {
        let asked = check_source(source).and_then(|()| check_customer(customer));
        match (self.registers(), asked) {
            (Ok(registers), Ok(())) => registers.list(customer, source).unwrap_or_default(),
            _ => &[],
        }
    }

    pub fn judge(
        &mut self,
        role: u32,
        neighbour: AsNumber,
        attribute: &[u8],
    ) -> Result<Judgement, Refusal> {
        let registers = self.registers()?;
        let (judgement, _) = judge::judge(registers, role, neighbour, attribute)?;
        Ok(judgement)
    }

    pub fn keep(
        &mut self,
        route: RouteNumber,
        role: u32,
        neighbour: AsNumber,
        attribute: &[u8],
    ) -> Result<Judgement, Refusal> {
        let (registers, routes) = self.registers_and_ledger()?;
        let (judgement, path) = judge::judge(registers, role, neighbour, attribute)?;
        if routes.contains_key(&route) {
            return Err(Refusal::row(18));
        }
        let body: usize = routes.values().map(|r| r.path.len()).sum();
        if routes.len() + 1 > MOST_ROUTES || body + path.len() > MOST_BODY_WORDS {
            return Err(Refusal::row(20));
        }
        let (verdict, place_a, place_b) = judgement.verdict.words();
        let ground = judgement.verdict.ground();
        let kept = Route { role, neighbour, ground, verdict, place_a, place_b, path };
        routes.insert(route, kept);
        Ok(judgement)
    }

    pub fn drop(&mut self, route: RouteNumber) -> Result<(), Refusal> {
        self.ledger.check_length()?;
        let routes = self.ledger.open()?;
        match routes.remove(&route) {
            Some(_) => Ok(()),
            None => Err(Refusal::row(19)),
        }
    }

    /// Answers how many entries changed in verdict or places.
    pub fn rejudge(&mut self) -> Result<usize, Refusal> {
        let (registers, routes) = self.registers_and_ledger()?;
        let mut changed = 0;
        for route in routes.values_mut().filter(|r| r.ground == 0) {
            let (verdict, _) = judge::verdict(route.role, &route.path, |x, y| registers.hop(x, y));
            let after = verdict.words();
            if after != (route.verdict, route.place_a, route.place_b) {
                (route.verdict, route.place_a, route.place_b) = after;
                changed += 1;
            }
        }
        Ok(changed)
    }

    /// Puts the snapshot, without the overrides, into the first bytes of `output`;
    /// answers its length.
    pub fn write(&mut self, output: &mut [u8]) -> Result<usize, Refusal> {
        self.register.check_length()?;
        self.ledger.check_length()?;
        let file = snapshot::write(self.register.open()?, self.ledger.open()?);
        let part = output.get_mut(..file.len()).ok_or(Refusal::row(21))?;
        part.copy_from_slice(&file);
        Ok(file.len())
    }

    /// Takes register and ledger from a snapshot. Of what they were, only the lengths
    /// count. The overrides stay.
    pub fn read(&mut self, input: &[u8]) -> Result<(), Refusal> {
        self.register.check_length()?;
        self.ledger.check_length()?;
        let (records, routes) = snapshot::read(input)?;
        self.register = Table::Held(records);
        self.ledger = Table::Held(routes);
        Ok(())
    }
}

fn check_source(source: u32) -> Result<(), Refusal> {
    if source > GREATEST_SOURCE {
        return Err(Refusal::row(4));
    }
    Ok(())
}

fn check_customer(customer: AsNumber) -> Result<(), Refusal> {
    if customer.0 == 0 {
        return Err(Refusal::row(5));
    }
    Ok(())
}

/// Row 6. The word rules ask the same of a stored list.
fn check_list(customer: AsNumber, list: &[AsNumber]) -> Result<(), Refusal> {
    let length = (1..=MOST_PROVIDERS).contains(&list.len());
    let ascends = list.windows(2).all(|pair| pair[0] < pair[1]);
    if !length || !ascends || list.contains(&customer) {
        return Err(Refusal::row(6));
    }
    Ok(())
}

#[cfg(test)]
mod tests;
