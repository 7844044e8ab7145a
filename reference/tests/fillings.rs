//! What Unknown means, by brute force: every filling of every small case.
//!
//! A case is a path of up to six numbers over 1 to 4, no two neighbours equal, and both registers.
//! Up to renaming every case is tried. What a filling admits is worked out here from plain sets,
//! and compared with the library's verdict.

use reference::judge::{self, Hop, Registers, Side, Verdict};
use reference::random::Random;
use reference::{AsNumber, Records, GREATEST_SOURCE};
use std::array;
use std::collections::{BTreeMap, BTreeSet};

const UPSTREAM: u32 = 1;
const DOWNSTREAM: u32 = 3;
const ROLES: [u32; 2] = [UPSTREAM, DOWNSTREAM];
const SIDES: [Side; 2] = [Side::Public, Side::Overrides];

const LONGEST: usize = 6;

/// A set of the numbers 0 to 5, a bit each.
type Set = u8;

/// 0 is in lists only: it matches nobody.
const ZERO: Set = 1;
/// 1 to 4.
const ON_PATHS: Set = 0b01_1110;

/// How many sets a filling may give: those of 1 to 5, where 5 is on no path and in no record.
const CHOICES: usize = 32;

fn holds(set: Set, number: usize) -> bool {
    set >> number & 1 == 1
}

/// By number: 0, which has no set, to 4.
type Sets = [Set; 5];

/// Lists by number and source.
type Lists = BTreeMap<(usize, u32), Set>;

fn united(lists: &Lists, number: usize) -> Option<Set> {
    lists.range((number, 0)..=(number, GREATEST_SOURCE)).map(|(_, list)| *list).reduce(|a, b| a | b)
}

/// Both registers in plain sets.
#[derive(Clone, Default)]
struct Plain {
    public: Lists,
    overrides: Lists,
}

impl Plain {
    fn lists(&self, side: Side) -> &Lists {
        match side {
            Side::Public => &self.public,
            Side::Overrides => &self.overrides,
        }
    }

    fn lists_mut(&mut self, side: Side) -> &mut Lists {
        match side {
            Side::Public => &mut self.public,
            Side::Overrides => &mut self.overrides,
        }
    }

    fn file(&mut self, side: Side, number: usize, source: u32, list: Set) {
        assert!(source <= GREATEST_SOURCE && list != 0 && !holds(list, number), "may be filed");
        self.lists_mut(side).insert((number, source), list);
    }

    fn withdraw(&mut self, side: Side, number: usize, source: u32) {
        self.lists_mut(side).remove(&(number, source)).expect("a record is there");
    }

    /// Files a set by one source or several, so that their lists together hold it.
    fn file_in_parts(&mut self, random: &mut Random, side: Side, number: usize, set: Set) {
        let (count, first) = (random.pick(&[1, 1, 2, 3]), random.below(8) as u32);
        let mut missing = set;
        for nth in 0..count {
            let mut list = set & random.draw() as Set;
            if nth == count - 1 {
                list |= missing;
            }
            missing &= !list;
            if list == 0 || random.percent(20) {
                list |= ZERO;
            }
            self.file(side, number, (first + 3 * nth) % 8, list);
        }
    }

    /// None for a number that is unattested.
    fn set(&self, number: usize) -> Option<Set> {
        united(&self.overrides, number).or(united(&self.public, number))
    }

    fn unattested(&self) -> Vec<usize> {
        (1..=4).filter(|number| self.set(*number).is_none()).collect()
    }

    fn hops(&self) -> Hops {
        let (public, overrides) = (records(&self.public), records(&self.overrides));
        let registers = Registers { public: &public, overrides: &overrides };
        let number = |n: usize| AsNumber(n as u32);
        array::from_fn(|x| array::from_fn(|y| registers.hop(number(x), number(y))))
    }
}

fn records(lists: &Lists) -> Records {
    let numbers = |set: Set| (0..5).filter(move |n| holds(set, *n)).map(|n| AsNumber(n as u32));
    let record = |((number, source), list): (&(usize, u32), &Set)| {
        ((AsNumber(*number as u32), *source), numbers(*list).collect())
    };
    lists.iter().map(record).collect()
}

/// The library's answers for all pairs, asked once for all paths.
type Hops = [[Hop; 5]; 5];

/// With the gap, if there is one.
type Judged = (Verdict, Option<i32>);

fn judged(role: u32, path: &[AsNumber], hops: &Hops) -> Judged {
    judge::verdict(role, path, |x, y| hops[x.0 as usize][y.0 as usize])
}

#[derive(Clone, Copy, PartialEq, Eq, Debug)]
enum Outcome {
    Valid,
    Invalid,
    Unknown,
}

fn outcome(verdict: Verdict) -> Outcome {
    match verdict {
        Verdict::Valid => Outcome::Valid,
        Verdict::Invalid(_) => Outcome::Invalid,
        Verdict::Unknown { .. } => Outcome::Unknown,
    }
}

// Fillings

/// Whether some filling admits a path, and whether some does not.
#[derive(Clone, Copy, Default)]
struct Tally {
    admitted: bool,
    not_admitted: bool,
}

impl Tally {
    fn note(&mut self, admitted: bool) {
        self.admitted |= admitted;
        self.not_admitted |= !admitted;
    }

    fn outcome(self) -> Outcome {
        match (self.admitted, self.not_admitted) {
            (true, false) => Outcome::Valid,
            (false, true) => Outcome::Invalid,
            (true, true) => Outcome::Unknown,
            (false, false) => unreachable!("there is a filling"),
        }
    }
}

/// By role.
type Tallies = [Tally; 2];

fn note(tallies: &mut Tallies, admitted: [bool; 2]) {
    tallies.iter_mut().zip(admitted).for_each(|(tally, admitted)| tally.note(admitted));
}

/// A path each number on which has a set.
struct Filled {
    /// AS(1) first.
    numbers: Vec<usize>,
    sets: Sets,
}

impl Filled {
    fn new(path: &[AsNumber], sets: Sets) -> Filled {
        Filled { numbers: path.iter().rev().map(|number| number.0 as usize).collect(), sets }
    }

    fn n(&self) -> usize {
        self.numbers.len()
    }

    /// Whether hop(AS(from), AS(to)) is Provider+; if it isn't it is Not Provider+.
    fn provider(&self, from: usize, to: usize) -> bool {
        holds(self.sets[self.numbers[from - 1]], self.numbers[to - 1])
    }

    fn k(&self) -> usize {
        (1..self.n()).find(|k| !self.provider(*k, k + 1)).unwrap_or(self.n())
    }

    fn l(&self) -> usize {
        (2..=self.n()).rev().find(|l| !self.provider(*l, l - 1)).unwrap_or(1)
    }

    fn u(&self) -> usize {
        (2..=self.n()).find(|u| !self.provider(u - 1, *u)).unwrap_or(self.n() + 1)
    }

    fn v(&self) -> usize {
        (1..self.n()).rev().find(|v| !self.provider(v + 1, *v)).unwrap_or(0)
    }

    fn admitted(&self, role: u32) -> bool {
        if role == UPSTREAM {
            (2..=self.n()).all(|u| self.provider(u - 1, u))
        } else {
            self.l() as i32 - self.k() as i32 <= 1
        }
    }

    fn admitted_by_role(&self) -> [bool; 2] {
        ROLES.map(|role| self.admitted(role))
    }
}

/// Every choice of sets for those of `free` that are on the path; one set for each number,
/// however often it stands there.
fn fill(sets: Sets, path: &[AsNumber], free: &[usize], mut each: impl FnMut(&Filled)) {
    let mut filled = Filled::new(path, sets);
    let stands = |number: &usize| filled.numbers.contains(number);
    let free: Vec<usize> = free.iter().copied().filter(stands).collect();
    for nth in 0..CHOICES.pow(free.len() as u32) {
        let mut digits = nth;
        for number in &free {
            filled.sets[*number] = ((digits % CHOICES) as Set) << 1;
            digits /= CHOICES;
        }
        each(&filled);
    }
}

// Cases

/// Paths of up to six numbers, up to renaming: a number that is new on one is the next of 1 to 4.
fn shapes() -> Vec<Vec<usize>> {
    let mut shapes = vec![vec![1]];
    let mut nth = 0;
    while nth < shapes.len() {
        let shape = shapes[nth].clone();
        let (last, most) = (shape[shape.len() - 1], *shape.iter().max().unwrap());
        if shape.len() < LONGEST {
            let next = (1..=4.min(most + 1)).filter(|next| *next != last);
            shapes.extend(next.map(|next| [&shape[..], &[next]].concat()));
        }
        nth += 1;
    }
    shapes
}

struct Case {
    plain: Plain,
    sets: Sets,
    unattested: Vec<usize>,
    hops: Hops,
    /// The shapes in their order, with names of this case.
    paths: Vec<Vec<AsNumber>>,
}

impl Case {
    /// Each path by each role, over these registers or others.
    fn judged(&self, hops: &Hops) -> Vec<Judged> {
        self.paths.iter().flat_map(|path| ROLES.map(|role| judged(role, path, hops))).collect()
    }

    fn judged_after(&self, change: impl FnOnce(&mut Plain)) -> Vec<Judged> {
        let mut plain = self.plain.clone();
        change(&mut plain);
        self.judged(&plain.hops())
    }
}

/// 9^4 registers: each of four numbers is unattested or has one of the 8 sets of the others. With
/// all shapes that is every case up to renaming. Names, sides, sources and what is hidden differ
/// from one to the next.
fn cases() -> impl Iterator<Item = Case> {
    let shapes = shapes();
    let mut random = Random::new(7);
    (0..9usize.pow(4)).map(move |nth| {
        let names = names(nth);
        let mut plain = Plain::default();
        let mut states = nth;
        for number in 1..=4 {
            let (state, name) = (states % 9, names[number]);
            states /= 9;
            if state == 0 {
                continue;
            }
            let others = (1..=4).filter(|other| *other != number).enumerate();
            let chosen = others.filter(|(bit, _)| holds((state - 1) as Set, *bit));
            let set = chosen.fold(0, |set, (_, other)| set | 1 << names[other]);
            let side = if random.percent(30) { Side::Overrides } else { Side::Public };
            plain.file_in_parts(&mut random, side, name, set);
            if side == Side::Overrides && random.percent(60) {
                let hidden = random.draw() as Set & ON_PATHS & !(1 << name);
                plain.file_in_parts(&mut random, Side::Public, name, hidden);
            }
        }
        let named = |shape: &Vec<usize>| shape.iter().map(|n| AsNumber(names[*n] as u32)).collect();
        Case {
            sets: array::from_fn(|number| plain.set(number).unwrap_or(0)),
            unattested: plain.unattested(),
            hops: plain.hops(),
            paths: shapes.iter().map(named).collect(),
            plain,
        }
    })
}

/// The 24 ways to name 1 to 4, in turn; 0 stays.
fn names(nth: usize) -> [usize; 5] {
    let (mut left, mut digits) = (vec![1, 2, 3, 4], nth);
    array::from_fn(|number| {
        if number == 0 {
            return 0;
        }
        let at = digits % left.len();
        digits /= left.len();
        left.remove(at)
    })
}

/// How many judgements have each outcome before a change, and which one after it: Valid, Invalid,
/// Unknown.
type Moves = [[usize; 3]; 3];

fn add(moves: &mut Moves, before: &[Judged], after: &[Judged]) {
    for (before, after) in before.iter().zip(after) {
        moves[outcome(before.0) as usize][outcome(after.0) as usize] += 1;
    }
}

/// All that may be filed for a number: lists of 0 to 4, not empty and without it.
fn lists_for(number: usize) -> impl Iterator<Item = Set> {
    (1..32).filter(move |list| !holds(*list, number))
}

#[test]
fn the_cases_are_many() {
    assert_eq!(shapes().len(), 64);
    let mut paths = BTreeSet::new();
    let mut numbers: BTreeMap<&str, usize> = BTreeMap::new();
    for case in cases() {
        for number in 1..=4 {
            let [public, overrides] = SIDES.map(|side| {
                case.plain.lists(side).range((number, 0)..=(number, GREATEST_SOURCE)).count()
            });
            let kind = match (public, overrides) {
                (0, 0) => "unattested",
                (_, 0) => "public",
                (0, _) => "overridden",
                _ => "overridden, with public records",
            };
            *numbers.entry(kind).or_default() += 1;
            if public.max(overrides) > 1 {
                *numbers.entry("several sources").or_default() += 1;
            }
        }
        paths.extend(case.paths);
    }
    assert_eq!(paths.len(), 4 + 12 + 36 + 108 + 324 + 972);
    let expected = [
        ("unattested", 2_916),
        ("public", 16_370),
        ("overridden", 2_822),
        ("overridden, with public records", 4_136),
        ("several sources", 12_626),
    ];
    assert_eq!(numbers, BTreeMap::from(expected));
}

/// Valid exactly if every filling admits the path, Invalid exactly if none does.
#[test]
fn outcomes_by_every_filling() {
    let mut fillings = 0;
    // by role, then outcome
    let mut counts = [[0; 3]; 2];
    for case in cases() {
        for path in &case.paths {
            let mut tallies = Tallies::default();
            fill(case.sets, path, &case.unattested, |filled| {
                fillings += 1;
                note(&mut tallies, filled.admitted_by_role());
            });
            for (nth, role) in ROLES.into_iter().enumerate() {
                let by_fillings = tallies[nth].outcome();
                let (verdict, _) = judged(role, path, &case.hops);
                assert_eq!(outcome(verdict), by_fillings, "role {role} {path:?} {:?}", case.sets);
                counts[nth][by_fillings as usize] += 1;
            }
        }
    }
    assert_eq!(fillings, 97_573_160);
    assert_eq!(counts, [[31_869, 362_973, 25_062], [85_104, 285_156, 49_644]]);
}

/// A record for a number that had none in either register alters no Valid and no Invalid.
#[test]
fn first_records() {
    let mut filings = 0;
    let mut moves = Moves::default();
    // By the outcome that stays
    let (mut places, mut gaps) = ([0; 3], [0; 3]);
    for case in cases() {
        let before = case.judged(&case.hops);
        for number in &case.unattested {
            for (list, side) in lists_for(*number).flat_map(|list| SIDES.map(|side| (list, side))) {
                let source = filings % (GREATEST_SOURCE + 1);
                let after = case.judged_after(|plain| plain.file(side, *number, source, list));
                filings += 1;
                add(&mut moves, &before, &after);
                for (before, after) in before.iter().zip(&after) {
                    let stays = outcome(before.0);
                    if stays == outcome(after.0) {
                        places[stays as usize] += usize::from(before.0.words() != after.0.words());
                        gaps[stays as usize] += usize::from(before.1 != after.1);
                    }
                }
            }
        }
    }
    assert_eq!(filings, 2_916 * 15 * 2);
    assert_eq!(moves, [[823_740, 0, 0], [0, 7_358_970, 0], [883_080, 1_363_500, 768_150]]);
    assert_eq!(places, [0, 1_508_052, 264_172]);
    assert_eq!(gaps, [185_664, 796_736, 189_264]);
}

/// What an operator may count on when a number has records, and what not. A 0 in a list counts
/// for nothing.
#[test]
fn laws_for_operators() {
    let mut seen: BTreeMap<&str, Moves> = BTreeMap::new();
    let mut note = |kind, before: &[Judged], after: &[Judged]| {
        add(seen.entry(kind).or_default(), before, after);
    };
    // Every seventh, to be quick
    for case in cases().step_by(7) {
        let before = case.judged(&case.hops);
        for (number, side) in (1..=4).flat_map(|number| SIDES.map(|side| (number, side))) {
            let lists = case.plain.lists(side);
            let held = |source: u32| lists.get(&(number, source)).copied();
            let (has, has_not): (Vec<u32>, Vec<u32>) =
                (0..=GREATEST_SOURCE).partition(|source| held(*source).is_some());
            let there = !has.is_empty();
            let elsewhere = !there && case.plain.set(number).is_some();
            let providers = united(lists, number).unwrap_or(0);
            for source in has.iter().chain(has_not.first()).copied() {
                let same = held(source).is_some();
                for list in lists_for(number) {
                    let after = case.judged_after(|plain| plain.file(side, number, source, list));
                    let keeps = held(source).unwrap_or(0) & !list & !ZERO == 0;
                    let known = list & !providers & !ZERO == 0;
                    for (kind, given) in [
                        ("keeps what the source held", there && keeps),
                        ("drops what the source held", there && !keeps),
                        ("known providers", known),
                        ("others, from a second source", there && !same && !known),
                        ("others, from the same source", same && !known),
                        ("first override", elsewhere && side == Side::Overrides),
                        ("first behind an override", elsewhere && side == Side::Public),
                    ] {
                        if given {
                            note(kind, &before, &after);
                        }
                    }
                }
            }
            for source in &has {
                let after = case.judged_after(|plain| plain.withdraw(side, number, *source));
                let mut left = case.plain.clone();
                left.withdraw(side, number, *source);
                let kind = match left.set(number) {
                    None => "withdrawn, the only one",
                    _ if has.len() > 1 => "withdrawn, one of several",
                    _ if side == Side::Overrides => "withdrawn, the only override",
                    _ => "withdrawn behind an override",
                };
                note(kind, &before, &after);
            }
        }
    }
    let expected: [(&str, Moves); 11] = [
        // Valid stays if a list keeps what it replaces, Invalid if all its numbers were providers.
        (
            "keeps what the source held",
            [[2_156_748, 0, 0], [626_892, 11_291_084, 273_020], [20_058, 0, 933_446]],
        ),
        ("known providers", [[1_328_672, 124_108, 3_876], [0, 6_296_687, 0], [0, 81_363, 565_166]]),
        // Without that neither need stay. Vector N is from a second source.
        (
            "drops what the source held",
            [[707_815, 184_788, 6_149], [142_190, 3_922_781, 65_368], [4_698, 84_230, 301_373]],
        ),
        (
            "others, from a second source",
            [[601_822, 0, 0], [290_346, 3_366_924, 131_264], [9_584, 0, 265_916]],
        ),
        (
            "others, from the same source",
            [[971_922, 82_430, 2_814], [478_736, 5_895_112, 207_124], [15_172, 38_002, 420_560]],
        ),
        (
            "first override",
            [[509_967, 157_930, 5_573], [180_828, 3_233_828, 83_884], [6_004, 70_439, 221_307]],
        ),
        // Of a number that is left unattested
        ("withdrawn, the only one", [[12_848, 0, 12_536], [0, 114_904, 23_530], [0, 0, 12_438]]),
        ("withdrawn, one of several", [[82_279, 11_041, 282], [0, 490_636, 0], [0, 4_393, 34_857]]),
        (
            "withdrawn, the only override",
            [[3_497, 1_469, 36], [1_104, 28_465, 757], [38, 805, 1_973]],
        ),
        // What is hidden counts for nothing.
        ("first behind an override", [[110_850, 0, 0], [0, 617_220, 0], [0, 0, 51_450]]),
        ("withdrawn behind an override", [[5_976, 0, 0], [0, 31_791, 0], [0, 0, 2_169]]),
    ];
    assert_eq!(seen, BTreeMap::from(expected));
}

/// Readings that the cases tell from the right one, and two that come to the same: u > v for
/// L - K <= 1, filling by filling, and no empty set while 5 may be in a set.
#[test]
fn other_readings() {
    // Attested numbers change too: whatever the registers
    let free_for_all: Vec<Tallies> = shapes()
        .iter()
        .map(|shape| {
            let path: Vec<AsNumber> = shape.iter().map(|n| AsNumber(*n as u32)).collect();
            let mut tallies = Tallies::default();
            let each = |filled: &Filled| note(&mut tallies, filled.admitted_by_role());
            fill([0; 5], &path, &[1, 2, 3, 4], each);
            tallies
        })
        .collect();
    // Cases with another outcome, by role
    let mut others: BTreeMap<&str, [usize; 2]> = BTreeMap::new();
    for case in cases() {
        for (path, free_for_all) in case.paths.iter().zip(&free_for_all) {
            let (mut not_empty, mut v_minus_u) = (Tallies::default(), Tallies::default());
            fill(case.sets, path, &case.unattested, |filled| {
                let [upstream, downstream] = filled.admitted_by_role();
                // No list is empty, so an empty set is one that the filling gave.
                if filled.numbers.iter().all(|number| filled.sets[*number] != 0) {
                    note(&mut not_empty, [upstream, downstream]);
                }
                let (u, v) = (filled.u(), filled.v());
                assert_eq!(u > v, downstream, "{path:?} {:?}", filled.sets);
                note(&mut v_minus_u, [upstream, v as i32 - u as i32 <= 1]);
            });
            let mut sets = case.sets;
            case.unattested.iter().for_each(|number| sets[*number] = ON_PATHS);
            let mut no_choice = Tallies::default();
            note(&mut no_choice, Filled::new(path, sets).admitted_by_role());
            for (reading, tallies) in [
                ("attested numbers change too", *free_for_all),
                ("unattested numbers have no choice", no_choice),
                ("v - u <= 1", v_minus_u),
                ("no empty set", not_empty),
            ] {
                for (nth, role) in ROLES.into_iter().enumerate() {
                    let (verdict, _) = judged(role, path, &case.hops);
                    let other = tallies[nth].outcome() != outcome(verdict);
                    others.entry(reading).or_default()[nth] += usize::from(other);
                }
            }
        }
    }
    let expected = [
        ("attested numbers change too", [388_281, 357_138]),
        ("unattested numbers have no choice", [25_062, 49_644]),
        ("v - u <= 1", [0, 165_827]),
        ("no empty set", [0, 0]),
    ];
    assert_eq!(others, BTreeMap::from(expected));
}
