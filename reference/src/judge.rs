//! One route: reading its AS_PATH attribute, grounds, merging, verdicts.

use crate::{AsNumber, Records, Refusal, GREATEST_SOURCE, LONGEST_ATTRIBUTE, LONGEST_PATH};

/// Which register counts for a customer.
#[derive(Clone, Copy, PartialEq, Eq, PartialOrd, Ord, Debug)]
pub enum Side {
    Overrides,
    Public,
}

#[derive(Clone, Copy, PartialEq, Eq, Debug)]
pub enum Ground {
    Empty = 1,
    /// The first AS number isn't the neighbour's ("stranger").
    NotNeighbour = 2,
    AsSet = 3,
}

/// A hop that an Invalid names: its place, and the side of its customer.
#[derive(Clone, Copy, PartialEq, Eq, Debug)]
pub struct Named {
    pub place: u32,
    pub side: Side,
}

#[derive(Clone, Copy, PartialEq, Eq, Debug)]
pub enum Cause {
    Ground(Ground),
    /// Upstream only one hop is named.
    Hops {
        a: Named,
        b: Option<Named>,
    },
}

#[derive(Clone, Copy, PartialEq, Eq, Debug)]
pub enum Verdict {
    Valid,
    Invalid(Cause),
    Unknown { a: u32, b: u32 },
}

impl Verdict {
    /// The ledger's three words: verdict, place a, place b.
    pub fn words(self) -> (u32, u32, u32) {
        match self {
            Verdict::Valid => (0, 0, 0),
            Verdict::Invalid(Cause::Ground(_)) => (1, 0, 0),
            Verdict::Invalid(Cause::Hops { a, b }) => (1, a.place, b.map_or(0, |b| b.place)),
            Verdict::Unknown { a, b } => (2, a, b),
        }
    }

    /// The ledger's ground word, 0 for none.
    pub fn ground(self) -> u32 {
        match self {
            Verdict::Invalid(Cause::Ground(ground)) => ground as u32,
            _ => 0,
        }
    }
}

#[derive(Clone, Copy, PartialEq, Eq, Debug)]
pub struct Judgement {
    pub verdict: Verdict,
    /// L - K, of a downstream judgement without a ground.
    pub gap: Option<i32>,
}

#[derive(Clone, Copy, PartialEq, Eq, Debug)]
pub enum SegmentType {
    Set,
    Sequence,
}

#[derive(Clone, PartialEq, Eq, Debug)]
pub struct Segment {
    pub kind: SegmentType,
    pub numbers: Vec<AsNumber>,
}

const ROUTE_SERVER: u32 = 4;

/// Roles 3 (provider) and 6 (mutual transit).
pub fn is_downstream(role: u32) -> bool {
    role == 3 || role == 6
}

/// Rows 9 to 17, then the judgement with the path that a ledger stores.
pub fn judge(
    registers: Registers,
    role: u32,
    neighbour: AsNumber,
    attribute: &[u8],
) -> Result<(Judgement, Vec<AsNumber>), Refusal> {
    if !(1..=6).contains(&role) {
        return Err(Refusal::row(9));
    }
    if neighbour.0 == 0 {
        return Err(Refusal::row(10));
    }
    if attribute.len() > LONGEST_ATTRIBUTE {
        return Err(Refusal::row(11));
    }
    let segments = read(attribute)?;
    if let Some(ground) = ground(role, neighbour, &segments) {
        let verdict = Verdict::Invalid(Cause::Ground(ground));
        return Ok((Judgement { verdict, gap: None }, Vec::new()));
    }
    // Only a path without a ground is merged, so a ground goes before row 17.
    let path = merged(&segments);
    if path.len() > LONGEST_PATH {
        return Err(Refusal::row(17));
    }
    let (verdict, gap) = verdict(role, &path, |x, y| registers.hop(x, y));
    Ok((Judgement { verdict, gap }, path))
}

/// Rows 12 to 16, by place.
pub fn read(attribute: &[u8]) -> Result<Vec<Segment>, Refusal> {
    let mut segments = Vec::new();
    let mut rest = attribute;
    while !rest.is_empty() {
        let start = attribute.len() - rest.len();
        if rest.len() == 1 {
            return Err(Refusal::at(12, start));
        }
        let kind = match rest[0] {
            1 => SegmentType::Set,
            2 => SegmentType::Sequence,
            3 | 4 => return Err(Refusal::at(14, start)),
            _ => return Err(Refusal::at(13, start)),
        };
        let count = usize::from(rest[1]);
        if count == 0 {
            return Err(Refusal::at(15, start));
        }
        let body = &rest[2..];
        if body.len() < 4 * count {
            return Err(Refusal::at(12, start));
        }
        let (body, after) = body.split_at(4 * count);
        let mut numbers = Vec::new();
        for (i, bytes) in body.chunks(4).enumerate() {
            let number = bytes.iter().fold(0, |high, low| high * 256 + u32::from(*low));
            if number == 0 {
                return Err(Refusal::at(16, start + 2 + 4 * i));
            }
            numbers.push(AsNumber(number));
        }
        segments.push(Segment { kind, numbers });
        rest = after;
    }
    Ok(segments)
}

pub fn ground(role: u32, neighbour: AsNumber, segments: &[Segment]) -> Option<Ground> {
    let Some(first) = segments.first() else {
        return Some(Ground::Empty);
    };
    if first.kind == SegmentType::Sequence && role != ROUTE_SERVER && first.numbers[0] != neighbour
    {
        return Some(Ground::NotNeighbour);
    }
    if segments.iter().any(|s| s.kind == SegmentType::Set) {
        return Some(Ground::AsSet);
    }
    None
}

/// All numbers in their order, each run of one number become one. A run may go
/// on over the ends of segments: without a ground they are all sequences.
pub fn merged(segments: &[Segment]) -> Vec<AsNumber> {
    let mut path: Vec<AsNumber> =
        segments.iter().flat_map(|segment| segment.numbers.iter().copied()).collect();
    path.dedup();
    path
}

#[derive(Clone, Copy, PartialEq, Eq, Debug)]
pub enum Hop {
    NoAttestation,
    /// With the lowest source that lists the provider.
    Provider {
        side: Side,
        source: u32,
    },
    NotProvider {
        side: Side,
    },
}

impl Hop {
    fn is_provider(self) -> bool {
        matches!(self, Hop::Provider { .. })
    }

    /// If it is Not Provider+, as the one named at a place.
    fn named(self, place: usize) -> Option<Named> {
        match self {
            Hop::NotProvider { side } => Some(Named { place: place as u32, side }),
            _ => None,
        }
    }
}

/// The two registers that verdicts read. For each customer one of them counts,
/// the other is not looked at.
#[derive(Clone, Copy, Debug)]
pub struct Registers<'a> {
    pub overrides: &'a Records,
    pub public: &'a Records,
}

impl<'a> Registers<'a> {
    /// The lists by source of the register that counts: the overrides if they hold
    /// any record of the customer.
    fn lists(self, customer: AsNumber) -> (Side, Vec<(u32, &'a [AsNumber])>) {
        let of = |records: &'a Records| -> Vec<(u32, &'a [AsNumber])> {
            let records = records.range((customer, 0)..=(customer, GREATEST_SOURCE));
            records.map(|((_, source), list)| (*source, &list[..])).collect()
        };
        let overrides = of(self.overrides);
        if overrides.is_empty() {
            (Side::Public, of(self.public))
        } else {
            (Side::Overrides, overrides)
        }
    }

    /// Over the united lists of all sources.
    pub fn hop(self, x: AsNumber, y: AsNumber) -> Hop {
        let (side, lists) = self.lists(x);
        if lists.is_empty() {
            return Hop::NoAttestation;
        }
        // Sources ascend, so the first that lists it is the lowest.
        match lists.iter().find(|(_, list)| list.contains(&y)) {
            Some((source, _)) => Hop::Provider { side, source: *source },
            None => Hop::NotProvider { side },
        }
    }

    /// The list that a source has in the register that counts for the customer.
    pub fn list(self, customer: AsNumber, source: u32) -> Option<&'a [AsNumber]> {
        let (_, lists) = self.lists(customer);
        lists.into_iter().find(|(s, _)| *s == source).map(|(_, list)| list)
    }
}

/// The verdict on a merged path, left end first and not empty, with the gap
/// if the role is judged downstream.
pub fn verdict(
    role: u32,
    path: &[AsNumber],
    hop: impl Fn(AsNumber, AsNumber) -> Hop,
) -> (Verdict, Option<i32>) {
    if is_downstream(role) {
        let (verdict, gap) = downstream(path, hop);
        (verdict, Some(gap))
    } else {
        (upstream(path, hop), None)
    }
}

fn upstream(path: &[AsNumber], hop: impl Fn(AsNumber, AsNumber) -> Hop) -> Verdict {
    let n = path.len();
    // AS(1) is the origin, at the right end.
    let number = |i: usize| path[n - i];
    let up = |u: usize| hop(number(u - 1), number(u));
    if let Some(a) = (2..=n).find_map(|u| up(u).named(u)) {
        return Verdict::Invalid(Cause::Hops { a, b: None });
    }
    if let Some(u) = (2..=n).find(|&u| up(u) == Hop::NoAttestation) {
        return Verdict::Unknown { a: u as u32, b: 0 };
    }
    Verdict::Valid
}

fn downstream(path: &[AsNumber], hop: impl Fn(AsNumber, AsNumber) -> Hop) -> (Verdict, i32) {
    let n = path.len();
    let number = |i: usize| path[n - i];
    let up = |i: usize| hop(number(i - 1), number(i));
    let down = |i: usize| hop(number(i + 1), number(i));
    let first = (2..=n).find_map(|u| up(u).named(u));
    let last = (1..n).rev().find_map(|v| down(v).named(v));
    let mut k = 1;
    while k < n && up(k + 1).is_provider() {
        k += 1;
    }
    let mut l = n;
    while l > 1 && down(l - 1).is_provider() {
        l -= 1;
    }
    // Negative where the ramps overlap.
    let gap = l as i32 - k as i32;
    let verdict = match (first, last) {
        (Some(a), Some(b)) if a.place <= b.place => Verdict::Invalid(Cause::Hops { a, b: Some(b) }),
        _ if gap <= 1 => Verdict::Valid,
        _ => Verdict::Unknown { a: k as u32, b: l as u32 },
    };
    (verdict, gap)
}

/// The same judgements by trying every index, to compare with.
pub mod slow {
    use super::{is_downstream, AsNumber, Hop, Side};

    /// A hop without its side and source.
    #[derive(Clone, Copy, PartialEq, Eq)]
    enum Kind {
        None,
        Provider,
        Other,
    }

    struct Path<'a, F> {
        numbers: &'a [AsNumber],
        hop: F,
    }

    impl<F: Fn(AsNumber, AsNumber) -> Hop> Path<'_, F> {
        fn n(&self) -> usize {
            self.numbers.len()
        }

        /// hop(AS(from), AS(to))
        fn hop(&self, from: usize, to: usize) -> Hop {
            let number = |i: usize| *self.numbers.iter().rev().nth(i - 1).expect("1 <= i <= N");
            (self.hop)(number(from), number(to))
        }

        fn kind(&self, from: usize, to: usize) -> Kind {
            match self.hop(from, to) {
                Hop::NoAttestation => Kind::None,
                Hop::Provider { .. } => Kind::Provider,
                Hop::NotProvider { .. } => Kind::Other,
            }
        }

        /// Is there a legitimate shape, if each unattested hop is taken as given?
        /// Upstream: every hop climbs. Downstream: up to some AS(k) every hop
        /// climbs, AS(k) to AS(k+1) is free, from there on every hop descends.
        fn admitted(&self, downstream: bool, unattested: bool) -> bool {
            let n = self.n();
            let yes = |from, to| match self.kind(from, to) {
                Kind::Provider => true,
                Kind::Other => false,
                Kind::None => unattested,
            };
            let climbs = |k: usize| (1..k).all(|i| yes(i, i + 1));
            if downstream {
                (1..=n).any(|k| climbs(k) && (k + 2..=n).all(|j| yes(j, j - 1)))
            } else {
                climbs(n)
            }
        }

        /// The only candidate that passes.
        fn one(
            &self,
            candidates: impl Iterator<Item = usize>,
            test: impl Fn(usize) -> bool,
        ) -> usize {
            let found: Vec<usize> = candidates.filter(|i| test(*i)).collect();
            assert_eq!(found.len(), 1, "one index");
            found[0]
        }

        /// Lowest u of 2..N whose upward hop is of a kind, or N + 1.
        fn lowest_up(&self, kind: Kind) -> usize {
            let n = self.n();
            let is = |u: usize| self.kind(u - 1, u) == kind;
            self.one(2..=n + 1, |u| (u == n + 1 || is(u)) && (2..u).all(|w| !is(w)))
        }

        /// Highest v of 1..N-1 whose downward hop is Not Provider+, or 0.
        fn highest_down(&self) -> usize {
            let n = self.n();
            let is = |v: usize| self.kind(v + 1, v) == Kind::Other;
            self.one(0..=n - 1, |v| (v == 0 || is(v)) && (v + 1..n).all(|w| !is(w)))
        }

        fn apex_up(&self) -> usize {
            let reached = |k: usize| (2..=k).all(|i| self.kind(i - 1, i) == Kind::Provider);
            (1..=self.n()).filter(|k| reached(*k)).max().expect("AS(1) is reached")
        }

        fn apex_down(&self) -> usize {
            let n = self.n();
            let reached = |l: usize| (l..n).all(|j| self.kind(j + 1, j) == Kind::Provider);
            (1..=n).filter(|l| reached(*l)).min().expect("AS(N) is reached")
        }
    }

    /// The verdict's word: Valid if admitted with unattested hops as no,
    /// Invalid if not even with them as yes, Unknown otherwise.
    pub fn word(role: u32, numbers: &[AsNumber], hop: impl Fn(AsNumber, AsNumber) -> Hop) -> u32 {
        let path = Path { numbers, hop };
        let downstream = is_downstream(role);
        if path.admitted(downstream, false) {
            0
        } else if !path.admitted(downstream, true) {
            1
        } else {
            2
        }
    }

    /// The verdict's word by the draft's numbered steps, its short paths apart.
    pub fn steps(role: u32, numbers: &[AsNumber], hop: impl Fn(AsNumber, AsNumber) -> Hop) -> u32 {
        let path = Path { numbers, hop };
        let n = path.n();
        if is_downstream(role) {
            if n <= 2 {
                return 0;
            }
            if path.lowest_up(Kind::Other) <= path.highest_down() {
                return 1;
            }
            if path.apex_down() <= path.apex_up() + 1 {
                0
            } else {
                2
            }
        } else {
            if n == 1 {
                return 0;
            }
            if (2..=n).any(|i| path.kind(i - 1, i) == Kind::Other) {
                return 1;
            }
            if (2..=n).any(|i| path.kind(i - 1, i) == Kind::None) {
                return 2;
            }
            0
        }
    }

    /// Places and gap for a verdict's word.
    pub fn places(
        role: u32,
        word: u32,
        numbers: &[AsNumber],
        hop: impl Fn(AsNumber, AsNumber) -> Hop,
    ) -> (u32, u32, Option<i32>) {
        let path = Path { numbers, hop };
        let (a, b, gap) = if is_downstream(role) {
            let (k, l) = (path.apex_up(), path.apex_down());
            let gap = Some(l as i32 - k as i32);
            match word {
                0 => (0, 0, gap),
                1 => (path.lowest_up(Kind::Other), path.highest_down(), gap),
                _ => (k, l, gap),
            }
        } else {
            match word {
                0 => (0, 0, None),
                1 => (path.lowest_up(Kind::Other), 0, None),
                _ => (path.lowest_up(Kind::None), 0, None),
            }
        };
        (a as u32, b as u32, gap)
    }

    /// The sides of the hops that an Invalid with these places names, each by its own
    /// customer: AS(a - 1) and AS(b + 1).
    pub fn sides(
        a: u32,
        b: u32,
        numbers: &[AsNumber],
        hop: impl Fn(AsNumber, AsNumber) -> Hop,
    ) -> (Option<Side>, Option<Side>) {
        let path = Path { numbers, hop };
        let side = |hop: Hop| match hop {
            Hop::NoAttestation => None,
            Hop::Provider { side, .. } | Hop::NotProvider { side } => Some(side),
        };
        let (a, b) = (a as usize, b as usize);
        (side(path.hop(a - 1, a)), if b > 0 { side(path.hop(b + 1, b)) } else { None })
    }
}
