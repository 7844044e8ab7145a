//! What is timed. Every process makes the same cases, in the same order, from the same random numbers.
use crate::library;
use crate::plain::{self, RECORD, ROUTE};
use crate::work::{self, attribute, numbers, Random, Work, ROUTES};
use aspa_filter::{
    AsNumber, Filed, Ledger, Refusal, Register, Role, RouteNumber, MOST_PATH, MOST_PROVIDERS,
    MOST_PROVIDER_WORDS, MOST_RECORDS,
};
use std::cell::RefCell;
use std::fmt;
use std::hash::{DefaultHasher, Hash, Hasher};
use std::hint::black_box;
use std::time::Instant;

/// How long a call took, and a hash of its answer and of the words that it left.
#[derive(Clone, Copy)]
pub struct Timed {
    pub nanoseconds: u64,
    pub check: u64,
}

pub fn hash(told: impl Hash) -> u64 {
    let mut hasher = DefaultHasher::new();
    told.hash(&mut hasher);
    hasher.finish()
}

pub fn time<T>(f: impl FnOnce() -> T) -> (u64, T) {
    let began = Instant::now();
    let r = black_box(f());
    (began.elapsed().as_nanos() as u64, r)
}

/// The tables of a re-judging. The overrides are empty unless the name says otherwise.
pub struct Tables {
    pub name: String,
    pub register: Register,
    pub overrides: Register,
    pub stale: Ledger,
}

type Plain = fn(&[u32], &[u32], &mut [u32]) -> Result<u32, u32>;

/// The ways to re-judge in plain Rust.
pub const PLAIN: [(&str, Plain); 3] = [
    ("Rust, halving", plain::rejudge::<plain::Halving>),
    ("Rust, standard", plain::rejudge::<plain::Standard>),
    ("Rust, hints", plain::rejudge::<plain::Hinted>),
];

/// A run of a call, in which it changes nothing or a copy.
pub type Run = Box<dyn Fn(usize) -> Timed>;

/// A call's name, a run of it, and of the same in plain Rust where that is timed too.
pub struct Call {
    pub name: &'static str,
    pub run: Run,
    pub plain: Option<Run>,
}

/// One thing that is timed.
#[derive(Clone, Copy)]
pub enum What {
    /// A re-judging of these tables by the library, or in this plain way.
    Rejudge(usize, Option<usize>),
    /// This call by the library, or in plain Rust.
    Call(usize),
    PlainCall(usize),
}

/// In words that a worker reads.
impl fmt::Display for What {
    fn fmt(&self, f: &mut fmt::Formatter<'_>) -> fmt::Result {
        match self {
            What::Rejudge(tables, None) => write!(f, "library {tables}"),
            What::Rejudge(tables, Some(way)) => write!(f, "plain {tables} {way}"),
            What::Call(call) => write!(f, "call {call}"),
            What::PlainCall(call) => write!(f, "plain-call {call}"),
        }
    }
}

pub struct Cases {
    /// The first are those of the main figure, the others those of the table of medians. The longest paths are last but for overrides, and
    /// so are the calls with them: earlier libraries do not take them.
    pub tables: Vec<Tables>,
    pub calls: Vec<Call>,
    random: Random,
}

impl Cases {
    pub fn make() -> Cases {
        let mut random = Random(0x9E37_79B9_7F4A_7C15);
        let work = work::make(&mut random, &work::ALL, MOST_RECORDS, 8);
        let (register, stale) = work.tables();
        let changes = random.clone();
        let mut tables = vec![Tables {
            name: "main".into(),
            register,
            overrides: Register::new(),
            stale,
        }];
        let sorts = std::iter::once(&work::ALL).chain(&work::OTHERS);
        let sorts = sorts.map(|sort| (sort.name.to_string(), sort, MOST_RECORDS, 8));
        let lengths = [1, 16, 64, MOST_PROVIDERS].map(|providers| {
            let records = (MOST_PROVIDER_WORDS / providers).min(MOST_RECORDS);
            let name = format!("{records} records of {providers}");
            (name, &work::ALL, records, providers)
        });
        for (name, sort, records, providers) in sorts.chain(lengths) {
            let (register, stale) = work::make(&mut random, sort, records, providers).tables();
            tables.push(Tables {
                name,
                register,
                overrides: Register::new(),
                stale,
            });
        }
        let long = &tables[tables.len() - 1].register;
        let calls = calls(&work, &tables[0], long).into_iter();
        #[cfg(feature = "snapshots")]
        let calls = calls.chain(crate::snapshots::calls(
            &tables[0].register,
            &tables[0].stale,
        ));
        let mut calls: Vec<Call> = calls.collect();
        if let Some(stale) = work.longest_paths() {
            let register = tables[0].register.clone();
            calls.extend(calls_on_longest_paths(&work, &register));
            tables.push(Tables {
                name: format!("{} routes of {MOST_PATH}", stale.routes().count()),
                register,
                overrides: Register::new(),
                stale,
            });
        }
        #[cfg(feature = "overrides")]
        {
            let shares = [
                ("8 of the records overridden", MOST_RECORDS / 8),
                ("half of the records overridden", 2),
                ("all overridden", 1),
            ];
            for (name, step) in shares {
                tables.push(Tables {
                    name: name.into(),
                    register: tables[0].register.clone(),
                    overrides: work::every(&tables[0].register, step),
                    stale: tables[0].stale.clone(),
                });
            }
            // Two full registers with other customers.
            let [public, overrides] = [0, 1].map(|i| tables[i].register.clone());
            calls.extend(calls_on_overrides(&work, public, overrides));
        }
        Cases {
            calls,
            tables,
            random: changes,
        }
    }

    pub fn time(&self, what: What, round: usize) -> Timed {
        match what {
            What::Rejudge(tables, way) => self.rejudge(tables, way),
            What::Call(call) => (self.calls[call].run)(round),
            What::PlainCall(call) => self.calls[call].plain.as_ref().expect("it has one")(round),
        }
    }

    fn rejudge(&self, tables: usize, way: Option<usize>) -> Timed {
        let Tables {
            register,
            overrides,
            stale,
            ..
        } = &self.tables[tables];
        match way {
            None => {
                let (nanoseconds, r, ledger) = library::rejudge(register, overrides, stale);
                let check = hash((r.expect("judged anew"), ledger.words()));
                Timed { nanoseconds, check }
            }
            Some(way) => {
                let mut ledger = stale.words().to_vec();
                let (register, overrides) = (register.words(), overrides.words());
                let (nanoseconds, r) = time(|| {
                    PLAIN[way].1(
                        black_box(register),
                        black_box(overrides),
                        black_box(&mut ledger),
                    )
                });
                let check = hash((r.expect("judged anew"), &ledger[..]));
                Timed { nanoseconds, check }
            }
        }
    }

    /// The library and plain Rust must answer the same and leave the same words, on the main tables and on damaged ones. Answers how many
    /// were refused, and a hash of all answers and words.
    pub fn compare(&self) -> (usize, u64) {
        self.compare_on(&self.tables[0], false)
    }

    /// The same with half of the records overridden, and damaged overrides too. Answers how many were refused.
    #[cfg(feature = "overrides")]
    pub fn compare_overrides(&self) -> usize {
        let half = &self.tables[self.tables.len() - 2];
        self.compare_on(half, true).0
    }

    fn compare_on(&self, tables: &Tables, damage_overrides: bool) -> (usize, u64) {
        let Tables {
            register,
            overrides,
            stale,
            ..
        } = tables;
        let mut random = self.random.clone();
        let (mut refused, mut ends) = (0, DefaultHasher::new());
        for i in 0..=CHANGED {
            let (mut reg, mut ledger) = (register.words().to_vec(), stale.words().to_vec());
            let mut own = overrides.words().to_vec();
            if i > 0 {
                let t = match i % 2 {
                    0 if damage_overrides && i % 4 == 0 => &mut own,
                    0 => &mut reg,
                    _ => &mut ledger,
                };
                // Mostly the slots, some of the bodies, the counters and the end.
                let at = if i % 5 == 0 {
                    random.below(t.len())
                } else {
                    random.below(2 + ROUTES * ROUTE)
                };
                t[at] = match i % 3 {
                    0 => random.next(),
                    1 => random.below(12) as u32,
                    _ => t[at].wrapping_add(1),
                };
            }
            let stale = Ledger::from_words(ledger.clone());
            let (public, overrides) = (
                Register::from_words(reg.clone()),
                Register::from_words(own.clone()),
            );
            let (_, answer, kept) = library::rejudge(&public, &overrides, &stale);
            for (name, rejudge) in PLAIN {
                let mut ledger = ledger.clone();
                assert!(
                    rejudge(&reg, &own, &mut ledger) == answer && ledger == kept.words(),
                    "the library and {name} differ on changed tables {i}"
                );
            }
            #[cfg(feature = "overrides")]
            library::compare_reads(&public, &overrides, &mut Random(i as u64 + 1));
            (answer, kept.words()).hash(&mut ends);
            refused += answer.is_err() as usize;
        }
        (refused, ends.finish())
    }

    /// Each list of the main register in turn with its own customer in it: refused by 2, by the library and by plain Rust. Apart from
    /// `compare`, since libraries before that rule answer otherwise. Answers how many lists there are.
    pub fn compare_own_customers(&self) -> usize {
        let Tables {
            register,
            overrides,
            stale,
            ..
        } = &self.tables[0];
        let mut start = 2 + RECORD * register.records().count();
        for record in register.records() {
            let (customer, list) = (record.customer, record.providers);
            let at = list.partition_point(|number| *number < customer);
            let mut words = register.words().to_vec();
            words[start + at.min(list.len() - 1)] = customer.0;
            start += list.len();
            for (_, rejudge) in PLAIN {
                let mut ledger = stale.words().to_vec();
                let answer = rejudge(&words, overrides.words(), &mut ledger);
                assert_eq!(answer, Err(2), "plain Rust");
            }
            let damaged = Register::from_words(words);
            let (_, answer, _) = library::rejudge(&damaged, overrides, stale);
            assert_eq!(answer, Err(2), "the library");
        }
        register.records().count()
    }

    /// Each path of the main ledger in turn with two equal numbers side by side: refused by 3, by both. Apart for the same reason. Answers
    /// how many paths there are.
    pub fn compare_equal_neighbours(&self) -> usize {
        let Tables {
            register,
            overrides,
            stale,
            ..
        } = &self.tables[0];
        let mut start = 2 + ROUTE * stale.routes().count();
        for (i, route) in stale.routes().enumerate() {
            let at = start + i % (route.path.len() - 1);
            let mut words = stale.words().to_vec();
            words[at + 1] = words[at];
            start += route.path.len();
            for (_, rejudge) in PLAIN {
                let mut ledger = words.clone();
                let answer = rejudge(register.words(), overrides.words(), &mut ledger);
                assert_eq!(answer, Err(3), "plain Rust");
            }
            let damaged = Ledger::from_words(words);
            let (_, answer, _) = library::rejudge(register, overrides, &damaged);
            assert_eq!(answer, Err(3), "the library");
        }
        stale.routes().count()
    }

    /// The same of snapshots, written of changed tables and read when they are changed. Answers how many were refused.
    #[cfg(feature = "snapshots")]
    pub fn compare_snapshots(&self) -> usize {
        let Tables {
            register, stale, ..
        } = &self.tables[0];
        crate::snapshots::compare(register, stale, &mut self.random.clone())
    }
}

/// How many damaged tables are compared.
pub const CHANGED: usize = 4000;

/// The check of a register, of empty overrides and of an empty ledger.
fn check(register: &Register) -> Timed {
    let (overrides, none) = (Register::new(), Ledger::new());
    let (nanoseconds, r, left) = library::rejudge(register, &overrides, &none);
    assert_eq!(r, Ok(0));
    let check = hash(left.words());
    Timed { nanoseconds, check }
}

fn call(name: &'static str, run: impl Fn(usize) -> Timed + 'static) -> Call {
    Call {
        name,
        run: Box::new(run),
        plain: None,
    }
}

/// Judges paths of so many numbers, cut into segments of so many. The overrides are empty.
fn judge(
    work: &Work,
    register: &Register,
    role: Role,
    length: usize,
    segment: usize,
) -> impl Fn(usize) -> Timed + 'static {
    judge_by(work, register, Register::new(), role, length, segment)
}

fn judge_by(
    work: &Work,
    register: &Register,
    overrides: Register,
    role: Role,
    length: usize,
    segment: usize,
) -> impl Fn(usize) -> Timed + 'static {
    let register = register.clone();
    let paths: Vec<_> = (0..ROUTES)
        .map(|first| {
            let path = work.joined(first, length);
            let bytes: Vec<u8> = path.chunks(segment).flat_map(attribute).collect();
            (AsNumber(path[0]), bytes)
        })
        .collect();
    move |round| {
        let (neighbour, bytes) = &paths[round % ROUTES];
        let (nanoseconds, r) = library::judge(&register, &overrides, role, *neighbour, bytes);
        let check = hash(r.expect("judged"));
        Timed { nanoseconds, check }
    }
}

fn calls_on_longest_paths(work: &Work, register: &Register) -> [Call; 3] {
    let judge =
        |register: &Register, role, segment| judge(work, register, role, MOST_PATH, segment);
    [
        call(
            "judge, path of 512, role 1",
            judge(register, Role::Customer, MOST_PATH),
        ),
        call(
            "judge, path of 512, role 3",
            judge(register, Role::Provider, MOST_PATH),
        ),
        call(
            "judge, path of 512 in segments of 1, empty register",
            judge(&Register::new(), Role::Customer, 1),
        ),
    ]
}

/// Over two full registers of other customers. A hop and a lookup are of a customer of the first, of one of the second, and of none, in turn.
#[cfg(feature = "overrides")]
fn calls_on_overrides(work: &Work, public: Register, overrides: Register) -> Vec<Call> {
    let asked: Vec<(AsNumber, AsNumber)> = public
        .records()
        .zip(overrides.records())
        .flat_map(|(one, two)| {
            let none = AsNumber(one.customer.0 ^ 1);
            let (first, last) = (one.providers[0], two.providers[two.providers.len() - 1]);
            [(one.customer, first), (two.customer, last), (none, first)]
        })
        .collect();
    let both_ways = |name, library: Run, plain: Run| Call {
        name,
        run: library,
        plain: Some(plain),
    };
    let pair = || (public.clone(), overrides.clone(), asked.clone());
    let hop = {
        let (public, overrides, asked) = pair();
        move |round: usize| {
            let (x, y) = asked[round % asked.len()];
            let (nanoseconds, r) = time(|| library::hop(&public, black_box(&overrides), x, y));
            let check = hash(r.expect("a hop"));
            Timed { nanoseconds, check }
        }
    };
    let plain_hop = {
        let (public, overrides, asked) = pair();
        move |round: usize| {
            let (x, y) = asked[round % asked.len()];
            let (one, two) = (public.words(), overrides.words());
            let (nanoseconds, r) =
                time(|| plain::hop_words(black_box(one), black_box(two), x.0, y.0));
            let check = hash(r.expect("a hop"));
            Timed { nanoseconds, check }
        }
    };
    let lookup = {
        let (public, overrides, asked) = pair();
        move |round: usize| {
            let (x, _) = asked[round % asked.len()];
            let (nanoseconds, list) =
                time(|| black_box(&public).lookup(black_box(&overrides), 0, x));
            let list: Vec<u32> = list.iter().map(|number| number.0).collect();
            let check = hash(list);
            Timed { nanoseconds, check }
        }
    };
    let plain_lookup = {
        let (public, overrides, asked) = pair();
        move |round: usize| {
            let (x, _) = asked[round % asked.len()];
            let (one, two) = (public.words(), overrides.words());
            let (nanoseconds, list) =
                time(|| plain::lookup(black_box(one), black_box(two), 0, x.0));
            let check = hash(list.to_vec());
            Timed { nanoseconds, check }
        }
    };
    vec![
        call(
            "judge, path of 5, role 1, both registers full",
            judge_by(work, &public, overrides.clone(), Role::Customer, 5, 5),
        ),
        both_ways(
            "hop, both registers full",
            Box::new(hop),
            Box::new(plain_hop),
        ),
        both_ways(
            "lookup, both registers full",
            Box::new(lookup),
            Box::new(plain_lookup),
        ),
    ]
}

/// Over the main tables and over a register of the longest lists. A processor comes to know the branches of a register that is checked again
/// and again; "new lists" are other ones in every run.
fn calls(work: &Work, tables: &Tables, long: &Register) -> Vec<Call> {
    let register = &tables.register;
    let judge =
        |register: &Register, role, length, segment| judge(work, register, role, length, segment);
    let rejudge_none = |register: &Register| {
        let register = register.clone();
        move |_| check(&register)
    };
    let rejudge_none_anew = |register: &Register, most: Option<usize>| {
        let (register, random) = (register.clone(), RefCell::new(Random(1)));
        move |_| {
            let random = &mut random.borrow_mut();
            check(&work::with_other_lists(&register, random, most))
        }
    };
    let (front, list) = (AsNumber(work.customers[0]), numbers(&work.lists[0]));
    let without = {
        let mut register = register.clone();
        register.withdraw(0, front).expect("withdrawn");
        register
    };
    let file = {
        let (whole, without) = (register.clone(), without.clone());
        move |_| {
            let mut register = without.clone();
            let (nanoseconds, r) =
                time(|| black_box(&mut register).file(0, front, black_box(&list)));
            assert!(
                r == Ok(Filed::New) && register == whole,
                "withdrawn and filed again, it is the same"
            );
            let check = hash(register.words());
            Timed { nanoseconds, check }
        }
    };
    let withdraw = {
        let whole = register.clone();
        move |_| {
            let mut register = whole.clone();
            let (nanoseconds, r) = time(|| black_box(&mut register).withdraw(0, front));
            assert!(r == Ok(()) && register == without);
            let check = hash(register.words());
            Timed { nanoseconds, check }
        }
    };
    let clear = {
        let whole = register.clone();
        move |_| {
            let mut register = whole.clone();
            let (nanoseconds, r) = time(|| black_box(&mut register).clear(0));
            assert!(r == Ok(whole.words()[0]) && register == Register::new());
            let check = hash(register.words());
            Timed { nanoseconds, check }
        }
    };
    // Into the empty register, so that what it takes is of the list alone.
    let file_long = {
        let record = long.records().nth(16).expect("one of 32");
        let (customer, list) = (record.customer, record.providers.to_vec());
        assert_eq!(list.len(), MOST_PROVIDERS);
        move |_| {
            let mut register = Register::new();
            let (nanoseconds, r) =
                time(|| black_box(&mut register).file(0, customer, black_box(&list)));
            assert_eq!(r, Ok(Filed::New));
            let check = hash(register.words());
            Timed { nanoseconds, check }
        }
    };
    // The check of a full ledger.
    let drop_none = {
        let whole = tables.stale.clone();
        move |_| {
            let mut ledger = whole.clone();
            // The routes are numbered from 0.
            let none = RouteNumber(ROUTES as u32);
            let (nanoseconds, r) = time(|| black_box(&mut ledger).drop_route(none));
            assert_eq!(r, Err(Refusal::NoRoute));
            let check = hash(ledger.words());
            Timed { nanoseconds, check }
        }
    };
    vec![
        call("re-judge of no route", rejudge_none(register)),
        call(
            "re-judge of no route, new lists",
            rejudge_none_anew(register, None),
        ),
        call(
            "re-judge of no route, new lists of 1 to 4",
            rejudge_none_anew(register, Some(4)),
        ),
        call(
            "re-judge of no route, new lists of 1 to 14",
            rejudge_none_anew(register, Some(14)),
        ),
        call(
            "re-judge of no route, 32 records of 256",
            rejudge_none(long),
        ),
        call(
            "re-judge of no route, 32 new lists of 256",
            rejudge_none_anew(long, None),
        ),
        call(
            "judge, path of 5, role 1",
            judge(register, Role::Customer, 5, 5),
        ),
        call(
            "judge, path of 5, role 3",
            judge(register, Role::Provider, 5, 5),
        ),
        call(
            "judge, path of 5, empty register",
            judge(&Register::new(), Role::Provider, 5, 5),
        ),
        call(
            "judge, path of 64, role 1",
            judge(register, Role::Customer, 64, 64),
        ),
        call(
            "judge, path of 64, role 3",
            judge(register, Role::Provider, 64, 64),
        ),
        call(
            "judge, path of 64 in segments of 1, empty register",
            judge(&Register::new(), Role::Customer, 64, 1),
        ),
        call("drop of no route, full ledger", drop_none),
        call("file at the front, up to a full register", file),
        call("file a list of 256, empty register", file_long),
        call("withdraw at the front of a full register", withdraw),
        call("clear a full register of one source", clear),
    ]
}
