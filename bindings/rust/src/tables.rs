//! Registers and ledgers: their calls, and what they hold.
use crate::limits::{
    counters, record, route, GREATEST_SOURCE, LEDGER_WORDS, MOST_PATH, MOST_PROVIDERS,
    MOST_RECORDS, MOST_ROUTES, REGISTER_WORDS,
};
use crate::{ffi, Answer, AsNumber, Hop, KeptVerdict, Origin, Refusal, Role, RouteNumber};
use std::fmt;
use std::iter::FusedIterator;
use std::ops::RangeInclusive;

/// What a filing answers.
#[derive(Clone, Copy, Debug, PartialEq, Eq, Hash)]
pub enum Filed {
    /// There was no record of this source for this customer.
    New,
    /// The list took the place of an earlier one.
    Replaced,
}

impl Filed {
    fn told((row, word): (u32, u32)) -> Result<Filed, Refusal> {
        Refusal::told(row, 0)?;
        match word {
            0 => Ok(Filed::New),
            1 => Ok(Filed::Replaced),
            _ => Err(Refusal::NoAnswer { number: row }),
        }
    }
}

/// How many entries, or bytes, a call tells of; a number that it never tells is no answer.
pub(crate) fn count(
    (row, count): (u32, u32),
    possible: RangeInclusive<usize>,
) -> Result<u32, Refusal> {
    Refusal::told(row, 0)?;
    if possible.contains(&(count as usize)) {
        Ok(count)
    } else {
        Err(Refusal::NoAnswer { number: row })
    }
}

/// Provider records from sources 0 to [`GREATEST_SOURCE`].
///
/// There are two of them: the public register, and the overrides, which are the operator's own. Where the overrides hold any record of a
/// customer, from whichever source, only they count for that customer; where they hold none, only the public register does. Who has no
/// overrides lends an empty register. Calls that read both are calls of the public register, and are lent the overrides.
///
/// ```
/// use aspa_filter::{AsNumber, Hop, Origin, Register};
///
/// let (mut public, mut overrides) = (Register::new(), Register::new());
/// let (customer, provider) = (AsNumber(64496), AsNumber(64500));
/// public.file(0, customer, &[AsNumber(64501)])?;
/// let origin = Origin::Public;
/// assert_eq!(public.hop(&overrides, customer, provider)?, Hop::NotProviderPlus { origin });
/// // The public record is wrong.
/// overrides.file(3, customer, &[provider])?;
/// let (origin, source) = (Origin::Overrides, 3);
/// assert_eq!(public.hop(&overrides, customer, provider)?, Hop::ProviderPlus { origin, source });
/// # Ok::<(), aspa_filter::Refusal>(())
/// ```
///
/// A register owns its [`REGISTER_WORDS`] words of four bytes, which [`words`](Register::words) and [`from_words`](Register::from_words)
/// give and take. To store and load the public one with a ledger, see [`Tables`](crate::Tables).
#[derive(Clone, PartialEq, Eq)]
pub struct Register(pub(crate) Box<[u32]>);

impl Register {
    /// The empty register.
    pub fn new() -> Register {
        Register(vec![0; REGISTER_WORDS].into())
    }

    /// A register of any words. Every call tests them first: a wrong length is refused by [`Refusal::TableLength`], words that break the
    /// rules by [`Refusal::RegisterMalformed`]. Since version 0.4.0 a list that holds its own record's customer breaks them.
    pub fn from_words(words: impl Into<Box<[u32]>>) -> Register {
        Register(words.into())
    }

    /// The words of the table.
    pub fn words(&self) -> &[u32] {
        &self.0
    }

    /// Files the providers of a customer as one source attests them. What this source filed for this customer before is replaced, and
    /// nothing else. Sources are 0 to [`GREATEST_SOURCE`]; the list ascends strictly, has 1 to [`MOST_PROVIDERS`] numbers and does not
    /// hold the customer itself. 0 in it matches nobody: a list of 0 alone says that the customer has no providers.
    ///
    /// # Errors
    ///
    /// [`TableLength`](Refusal::TableLength), [`RegisterMalformed`](Refusal::RegisterMalformed), [`Source`](Refusal::Source),
    /// [`Customer`](Refusal::Customer), [`Providers`](Refusal::Providers), [`RegisterFull`](Refusal::RegisterFull).
    pub fn file(
        &mut self,
        source: u32,
        customer: AsNumber,
        providers: &[AsNumber],
    ) -> Result<Filed, Refusal> {
        let providers = AsNumber::words(providers);
        Filed::told(ffi::file(&mut self.0, source, customer.0, providers))
    }

    /// Withdraws the record of one source for a customer.
    ///
    /// # Errors
    ///
    /// [`TableLength`](Refusal::TableLength), [`RegisterMalformed`](Refusal::RegisterMalformed), [`Source`](Refusal::Source),
    /// [`Customer`](Refusal::Customer), [`NoRecord`](Refusal::NoRecord).
    pub fn withdraw(&mut self, source: u32, customer: AsNumber) -> Result<(), Refusal> {
        Refusal::told(ffi::withdraw(&mut self.0, source, customer.0), 0)
    }

    /// Withdraws every record of one source, and answers how many went.
    ///
    /// # Errors
    ///
    /// [`TableLength`](Refusal::TableLength), [`RegisterMalformed`](Refusal::RegisterMalformed), [`Source`](Refusal::Source).
    pub fn clear(&mut self, source: u32) -> Result<u32, Refusal> {
        count(ffi::clear(&mut self.0, source), 0..=MOST_RECORDS)
    }

    /// Says what the hop from a customer to another network is, by the register that counts for the customer. Both numbers are 1 or more;
    /// 0 is not refused, but no network.
    ///
    /// # Errors
    ///
    /// [`TableLength`](Refusal::TableLength), [`RegisterMalformed`](Refusal::RegisterMalformed), of either register.
    pub fn hop(
        &self,
        overrides: &Register,
        customer: AsNumber,
        other: AsNumber,
    ) -> Result<Hop, Refusal> {
        Hop::told(ffi::hop(&self.0, &overrides.0, customer.0, other.0))
    }

    /// The list that a source has for a customer in the register that counts for the customer, which is a part of that register.
    ///
    /// It is empty, which no list is, where that register has none of this source; where either register has the wrong length or is
    /// malformed; and for a source above [`GREATEST_SOURCE`] or the customer 0. Nothing is refused.
    ///
    /// ```
    /// use aspa_filter::{AsNumber, Register};
    ///
    /// let (mut public, mut overrides) = (Register::new(), Register::new());
    /// public.file(0, AsNumber(10), &[20, 30].map(AsNumber))?;
    /// assert_eq!(public.lookup(&overrides, 0, AsNumber(10)), [20, 30].map(AsNumber));
    /// overrides.file(1, AsNumber(10), &[AsNumber(40)])?;
    /// assert_eq!(public.lookup(&overrides, 1, AsNumber(10)), [AsNumber(40)]);
    /// assert!(public.lookup(&overrides, 0, AsNumber(10)).is_empty(), "the overrides have none of source 0");
    /// # Ok::<(), aspa_filter::Refusal>(())
    /// ```
    pub fn lookup<'a>(
        &'a self,
        overrides: &'a Register,
        source: u32,
        customer: AsNumber,
    ) -> &'a [AsNumber] {
        let told = ffi::lookup(&self.0, &overrides.0, source, customer.0);
        part(self, overrides, told).unwrap_or_default()
    }

    /// Judges a route: the role and the number of the neighbour that sent it, and the value of its AS_PATH attribute with four-byte
    /// numbers (see [`PathBuilder`](crate::PathBuilder)). Each hop goes by the register that counts for its customer. Needs no ledger
    /// and changes nothing.
    ///
    /// What is judged is the merged path, in which a run of one number counts once, over the ends of segments too. Before version 0.5.0 a
    /// run ended with its segment.
    ///
    /// # Errors
    ///
    /// [`TableLength`](Refusal::TableLength), [`RegisterMalformed`](Refusal::RegisterMalformed), of either register;
    /// [`Neighbour`](Refusal::Neighbour), [`AttributeLength`](Refusal::AttributeLength); for the attribute's first fault
    /// [`CutShort`](Refusal::CutShort), [`SegmentType`](Refusal::SegmentType), [`Confederation`](Refusal::Confederation),
    /// [`SegmentEmpty`](Refusal::SegmentEmpty) or [`AsZero`](Refusal::AsZero); [`PathLength`](Refusal::PathLength).
    pub fn judge(
        &self,
        overrides: &Register,
        role: Role,
        neighbour: AsNumber,
        attribute: &[u8],
    ) -> Result<Answer, Refusal> {
        Answer::told(ffi::judge(
            &self.0,
            &overrides.0,
            role.number(),
            neighbour.0,
            attribute,
        ))
    }

    /// The records, by customer and then by source.
    ///
    /// Nothing is tested beforehand, and no words make this panic. Over words that break the rules it ends at the first entry that does
    /// not lie in the table or has a word that means nothing, and before any if the two counters lead past the table's end.
    ///
    /// ```
    /// use aspa_filter::{AsNumber, Register};
    ///
    /// let mut register = Register::new();
    /// register.file(0, AsNumber(64496), &[64500, 64501].map(AsNumber))?;
    /// for record in register.records() {
    ///     println!("{} has {} providers", record.customer, record.providers.len());
    /// }
    /// # assert_eq!(register.records().next().unwrap().providers.len(), 2);
    /// # Ok::<(), aspa_filter::Refusal>(())
    /// ```
    pub fn records(&self) -> Records<'_> {
        Records(Entries::of(&self.0, record::WORDS))
    }
}

/// What a lookup tells of: nothing where there is no list, or what is no part of a register.
fn part<'a>(
    public: &'a Register,
    overrides: &'a Register,
    [origin, start, count]: [u32; 3],
) -> Option<&'a [AsNumber]> {
    let register = match Origin::from_word(origin)? {
        Origin::Public => public,
        Origin::Overrides => overrides,
    };
    body(&register.0, start, count)
}

impl Default for Register {
    fn default() -> Register {
        Register::new()
    }
}

/// The words, and the two counters as they stand.
impl fmt::Debug for Register {
    fn fmt(&self, f: &mut fmt::Formatter<'_>) -> fmt::Result {
        f.debug_struct("Register")
            .field("words", &self.0.len())
            .field("records", &counter(&self.0, counters::ENTRIES))
            .field("provider_words", &counter(&self.0, counters::BODY_WORDS))
            .finish()
    }
}

/// Kept routes with their verdicts.
///
/// A ledger owns its [`LEDGER_WORDS`] words of four bytes, which [`words`](Ledger::words) and [`from_words`](Ledger::from_words) give and
/// take. To store and load it with the public register, see [`Tables`](crate::Tables).
#[derive(Clone, PartialEq, Eq)]
pub struct Ledger(pub(crate) Box<[u32]>);

impl Ledger {
    /// The empty ledger.
    pub fn new() -> Ledger {
        Ledger(vec![0; LEDGER_WORDS].into())
    }

    /// A ledger of any words. Every call tests them first: a wrong length is refused by [`Refusal::TableLength`], words that break the
    /// rules by [`Refusal::LedgerMalformed`]. Since version 0.5.0 two equal numbers side by side on a path break them.
    pub fn from_words(words: impl Into<Box<[u32]>>) -> Ledger {
        Ledger(words.into())
    }

    /// The words of the table.
    pub fn words(&self) -> &[u32] {
        &self.0
    }

    /// Judges a route as [`Register::judge`] does, by the public register and the overrides, and keeps it under a number that is free,
    /// with that verdict and its merged path. The registers of the hops are not kept.
    ///
    /// ```
    /// use aspa_filter::{AsNumber, Ledger, PathBuilder, Register, Role, RouteNumber};
    ///
    /// let (public, overrides, mut ledger) = (Register::new(), Register::new(), Ledger::new());
    /// // AS20 prepends its own number, in a segment of its own.
    /// let path = PathBuilder::new()
    ///     .sequence(&[AsNumber(20)])?
    ///     .sequence(&[20, 10].map(AsNumber))?;
    /// ledger.keep(&public, &overrides, RouteNumber(7), Role::Customer, AsNumber(20), path.bytes())?;
    /// assert_eq!(ledger.routes().next().unwrap().path, [20, 10].map(AsNumber));
    /// # Ok::<(), Box<dyn std::error::Error>>(())
    /// ```
    ///
    /// # Errors
    ///
    /// Those of [`Register::judge`]; also [`LedgerMalformed`](Refusal::LedgerMalformed), [`RouteTaken`](Refusal::RouteTaken),
    /// [`LedgerFull`](Refusal::LedgerFull).
    pub fn keep(
        &mut self,
        public: &Register,
        overrides: &Register,
        route: RouteNumber,
        role: Role,
        neighbour: AsNumber,
        attribute: &[u8],
    ) -> Result<Answer, Refusal> {
        Answer::told(ffi::keep(
            &public.0,
            &overrides.0,
            &mut self.0,
            route.0,
            role.number(),
            neighbour.0,
            attribute,
        ))
    }

    /// Takes one route out.
    ///
    /// # Errors
    ///
    /// [`TableLength`](Refusal::TableLength), [`LedgerMalformed`](Refusal::LedgerMalformed), [`NoRoute`](Refusal::NoRoute).
    pub fn drop_route(&mut self, route: RouteNumber) -> Result<(), Refusal> {
        Refusal::told(ffi::drop_route(&mut self.0, route.0), 0)
    }

    /// Judges every kept route without a ground again by both registers as they are now, and answers how many changed in their verdict or
    /// its places. It takes some 33 KiB of stack, and [`Tables::read`](crate::Tables::read) more; every other call takes less than 3 KiB.
    ///
    /// # Errors
    ///
    /// [`TableLength`](Refusal::TableLength), [`RegisterMalformed`](Refusal::RegisterMalformed),
    /// [`LedgerMalformed`](Refusal::LedgerMalformed).
    pub fn rejudge(&mut self, public: &Register, overrides: &Register) -> Result<u32, Refusal> {
        let told = ffi::rejudge(&public.0, &overrides.0, &mut self.0);
        count(told, 0..=MOST_ROUTES)
    }

    /// The kept routes, by number, with the verdicts of their keeping or of the last re-judging.
    ///
    /// Nothing is tested beforehand, and no words make this panic. Over words that break the rules it ends at the first entry that does
    /// not lie in the table or has a word that means nothing, and before any if the two counters lead past the table's end.
    ///
    /// ```
    /// use aspa_filter::{sequence, AsNumber, KeptVerdict, Ledger, Register, Role, RouteNumber};
    ///
    /// let (public, overrides, mut ledger) = (Register::new(), Register::new(), Ledger::new());
    /// let path = sequence(&[20, 10].map(AsNumber))?;
    /// ledger.keep(&public, &overrides, RouteNumber(7), Role::Customer, AsNumber(20), &path)?;
    /// let route = ledger.routes().find(|route| route.number == RouteNumber(7)).unwrap();
    /// assert_eq!(route.verdict, KeptVerdict::Unknown { a: 2, b: 0 });
    /// assert_eq!(route.path, [20, 10].map(AsNumber));
    /// # Ok::<(), Box<dyn std::error::Error>>(())
    /// ```
    pub fn routes(&self) -> Routes<'_> {
        Routes(Entries::of(&self.0, route::WORDS))
    }
}

impl Default for Ledger {
    fn default() -> Ledger {
        Ledger::new()
    }
}

/// The words, and the two counters as they stand.
impl fmt::Debug for Ledger {
    fn fmt(&self, f: &mut fmt::Formatter<'_>) -> fmt::Result {
        f.debug_struct("Ledger")
            .field("words", &self.0.len())
            .field("routes", &counter(&self.0, counters::ENTRIES))
            .field("path_words", &counter(&self.0, counters::BODY_WORDS))
            .finish()
    }
}

/// One of the two counters; 0 in a table that is too short to have it.
fn counter(words: &[u32], index: usize) -> u32 {
    words.get(index).copied().unwrap_or(0)
}

/// A record: the providers of a customer as one source attests them.
#[derive(Clone, Copy, Debug, PartialEq, Eq, Hash)]
pub struct Record<'a> {
    /// Whose providers they are.
    pub customer: AsNumber,
    /// Who attests them, 0 to [`GREATEST_SOURCE`].
    pub source: u32,
    /// The providers, ascending.
    pub providers: &'a [AsNumber],
}

/// A kept route.
#[derive(Clone, Copy, Debug, PartialEq, Eq, Hash)]
pub struct Route<'a> {
    /// The caller's number.
    pub number: RouteNumber,
    /// What the neighbour is.
    pub role: Role,
    /// Who sent the route.
    pub neighbour: AsNumber,
    /// The verdict of the keeping or of the last re-judging. A ground, if there is one, is in its cause.
    pub verdict: KeptVerdict,
    /// The merged path, left end first: the last number is the origin. Empty under a ground.
    pub path: &'a [AsNumber],
}

/// The slots and bodies of a table, entry by entry.
#[derive(Clone)]
struct Entries<'a> {
    width: usize,
    slots: &'a [u32],
    bodies: &'a [u32],
}

impl<'a> Entries<'a> {
    /// Nothing where the counters lead past the end, which a sum that does not fit leads to as well.
    fn of(words: &'a [u32], width: usize) -> Entries<'a> {
        let parts = || {
            let entries = counter(words, counters::ENTRIES) as usize;
            let slots = entries.checked_mul(width)?;
            let (slots, rest) = words.get(counters::WORDS..)?.split_at_checked(slots)?;
            let bodies = rest.get(..counter(words, counters::BODY_WORDS) as usize)?;
            Some((slots, bodies))
        };
        let (slots, bodies) = parts().unwrap_or_default();
        Entries {
            width,
            slots,
            bodies,
        }
    }

    /// What the next entry is by `read`. At one that is nothing the entries end.
    fn next<T>(&mut self, read: impl FnOnce(&'a [u32], &'a [u32]) -> Option<T>) -> Option<T> {
        let (slot, rest) = self.slots.split_at_checked(self.width)?;
        let entry = read(slot, self.bodies);
        self.slots = if entry.is_some() { rest } else { &[] };
        entry
    }

    fn size_hint(&self) -> (usize, Option<usize>) {
        (0, Some(self.slots.len() / self.width))
    }
}

/// The body of an entry, if it lies among the bodies.
fn body(bodies: &[u32], start: u32, count: u32) -> Option<&[AsNumber]> {
    let words = bodies.get(start as usize..)?.get(..count as usize)?;
    Some(AsNumber::numbers(words))
}

impl<'a> Record<'a> {
    fn read(slot: &'a [u32], bodies: &'a [u32]) -> Option<Record<'a>> {
        let (customer, source) = (slot[record::CUSTOMER], slot[record::SOURCE]);
        let providers = body(bodies, slot[record::START], slot[record::COUNT])?;
        let meant = customer != 0
            && source <= GREATEST_SOURCE
            && (1..=MOST_PROVIDERS).contains(&providers.len());
        meant.then_some(Record {
            customer: AsNumber(customer),
            source,
            providers,
        })
    }
}

impl<'a> Route<'a> {
    fn read(slot: &'a [u32], bodies: &'a [u32]) -> Option<Route<'a>> {
        let neighbour = slot[route::NEIGHBOUR];
        let path = body(bodies, slot[route::START], slot[route::COUNT])?;
        // Under a ground no path is kept, and without one there is a path.
        let lengths = if slot[route::GROUND] == 0 {
            1..=MOST_PATH
        } else {
            0..=0
        };
        let meant = neighbour != 0 && lengths.contains(&path.len());
        meant.then_some(Route {
            number: RouteNumber(slot[route::NUMBER]),
            role: Role::try_from(slot[route::ROLE]).ok()?,
            neighbour: AsNumber(neighbour),
            verdict: KeptVerdict::from_words(
                slot[route::VERDICT],
                slot[route::GROUND],
                slot[route::PLACE_A],
                slot[route::PLACE_B],
            )?,
            path,
        })
    }
}

/// The records of a register: see [`Register::records`].
#[derive(Clone)]
pub struct Records<'a>(Entries<'a>);

/// The routes of a ledger: see [`Ledger::routes`].
#[derive(Clone)]
pub struct Routes<'a>(Entries<'a>);

impl<'a> Iterator for Records<'a> {
    type Item = Record<'a>;

    fn next(&mut self) -> Option<Record<'a>> {
        self.0.next(Record::read)
    }

    fn size_hint(&self) -> (usize, Option<usize>) {
        self.0.size_hint()
    }
}

impl<'a> Iterator for Routes<'a> {
    type Item = Route<'a>;

    fn next(&mut self) -> Option<Route<'a>> {
        self.0.next(Route::read)
    }

    fn size_hint(&self) -> (usize, Option<usize>) {
        self.0.size_hint()
    }
}

impl FusedIterator for Records<'_> {}
impl FusedIterator for Routes<'_> {}

impl fmt::Debug for Records<'_> {
    fn fmt(&self, f: &mut fmt::Formatter<'_>) -> fmt::Result {
        f.debug_struct("Records").finish_non_exhaustive()
    }
}

impl fmt::Debug for Routes<'_> {
    fn fmt(&self, f: &mut fmt::Formatter<'_>) -> fmt::Result {
        f.debug_struct("Routes").finish_non_exhaustive()
    }
}

#[cfg(test)]
mod tests {
    use super::*;
    use crate::ffi::UNWRITTEN;
    use crate::limits::SHORTEST_SNAPSHOT;

    #[test]
    fn words_that_are_no_answer() {
        let none = Refusal::NoAnswer { number: 0 };
        assert_eq!(Filed::told((0, 1)), Ok(Filed::Replaced));
        assert_eq!(count((0, 512), 0..=MOST_ROUTES), Ok(512));
        for word in [2, UNWRITTEN] {
            assert_eq!(Filed::told((0, word)), Err(none));
        }
        for word in [513, UNWRITTEN] {
            assert_eq!(count((0, word), 0..=MOST_ROUTES), Err(none));
        }
        for word in [0, 35, 61, UNWRITTEN] {
            assert_eq!(count((0, word), SHORTEST_SNAPSHOT..=60), Err(none));
        }
        assert_eq!(count((0, 36), SHORTEST_SNAPSHOT..=60), Ok(36));
    }

    /// A part of one register, to its last word; nothing else is one.
    #[test]
    fn parts() {
        let [public, overrides] = [[1, 2, 3], [4, 5, 6]].map(Register::from_words);
        let list = |told| part(&public, &overrides, told).map(AsNumber::words);
        assert_eq!(list([1, 0, 3]), Some(&[1, 2, 3][..]));
        assert_eq!(list([2, 1, 2]), Some(&[5, 6][..]));
        assert_eq!(list([1, 3, 0]), Some(&[][..]));
        for told in [
            [0, 0, 0],
            [0, 1, 1],
            [3, 0, 1],
            [UNWRITTEN; 3],
            [1, 0, 4],
            [2, 2, 2],
            [2, 4, 0],
            [1, UNWRITTEN, 2],
            [1, 1, UNWRITTEN],
        ] {
            assert_eq!(list(told), None, "{told:?}");
        }
    }

    #[test]
    fn words_of_a_refusal() {
        for word in [0, 1, 2, UNWRITTEN] {
            assert_eq!(Filed::told((6, word)), Err(Refusal::Providers));
            assert_eq!(count((3, word), 0..=1), Err(Refusal::LedgerMalformed));
            let none = Refusal::NoAnswer { number: 25 };
            assert_eq!(count((25, word), 0..=1), Err(none));
        }
    }
}
