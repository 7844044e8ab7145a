//! Random histories of calls, run through the binding and through the second program's model. Every answer is compared, all three tables
//! word for word and entry by entry every 50 calls, the refusals of damaged tables, and snapshots: each reads what the other wrote, whole
//! or damaged. The same seed gives the same history.
use aspa_filter::{
    Answer, AsNumber, Cause, Filed, Ground, Hop, KeptCause, KeptVerdict, Ledger, NamedHop, Origin,
    Refusal, Register, Role, RouteNumber, Tables, Verdict, LEDGER_WORDS, MOST_ATTRIBUTE_BYTES,
    MOST_PATH, MOST_SEGMENT, REGISTER_WORDS, SNAPSHOT_BYTES,
};
use reference::random::Random;
use reference::words::{padded, Form};
use reference::{judge as by, snapshot, Model, Table, GREATEST_SOURCE};
use std::collections::BTreeMap;

/// Of each shape.
const HISTORIES: u64 = 3;
const CALLS: usize = 3000;
const BETWEEN_TABLES: usize = 50;
const BETWEEN_DAMAGE: usize = 60;
/// The farthest place, and one above it.
const FAR: u32 = MOST_PATH as u32;
const TOO_FAR: u32 = FAR + 1;

// Calls and what they say, in words that both sides share

/// The first three are on this register.
#[derive(Clone, Debug)]
enum Call {
    File(Origin, u32, u32, Vec<u32>),
    Withdraw(Origin, u32, u32),
    Clear(Origin, u32),
    Judge(Route),
    Keep(u32, Route),
    Drop(u32),
    Rejudge,
    /// Into so many bytes.
    Write(usize),
    Read(Vec<u8>),
    Hop(u32, u32),
    /// Of a source and a customer.
    Lookup(u32, u32),
}

#[derive(Clone, Debug)]
struct Route {
    role: Role,
    neighbour: u32,
    attribute: Vec<u8>,
}

#[derive(Clone, Debug, PartialEq, Eq)]
enum Said {
    Filed(Filed),
    Done,
    Count(u32),
    Judged(Answer),
    Hop(Hop),
    List(Vec<u32>),
    /// The length, and the whole output.
    Written(usize, Vec<u8>),
    Refused(u32, Option<u32>),
}

/// So many bytes to write to.
fn output(capacity: usize) -> Vec<u8> {
    (0..capacity).map(|i| (7 * i + 3) as u8).collect()
}

fn said<T>(result: Result<T, Refusal>, then: impl Fn(T) -> Said) -> Said {
    match result {
        Ok(x) => then(x),
        Err(r) => Said::Refused(r.number(), r.place()),
    }
}

fn meant<T>(result: Result<T, reference::Refusal>, then: impl Fn(T) -> Said) -> Said {
    match result {
        Ok(x) => then(x),
        Err(r) => Said::Refused(r.row.into(), r.place.map(|p| p as u32)),
    }
}

fn meant_filed(filed: reference::Filed) -> Said {
    Said::Filed(match filed {
        reference::Filed::New => Filed::New,
        reference::Filed::Replaced => Filed::Replaced,
    })
}

fn meant_origin(side: by::Side) -> Origin {
    match side {
        by::Side::Public => Origin::Public,
        by::Side::Overrides => Origin::Overrides,
    }
}

fn meant_hop(hop: by::Hop) -> Said {
    Said::Hop(match hop {
        by::Hop::NoAttestation => Hop::NoAttestation,
        by::Hop::Provider { side, source } => Hop::ProviderPlus {
            origin: meant_origin(side),
            source,
        },
        by::Hop::NotProvider { side } => Hop::NotProviderPlus {
            origin: meant_origin(side),
        },
    })
}

fn meant_answer(judgement: by::Judgement) -> Said {
    let named = |hop: by::Named| NamedHop {
        place: hop.place,
        origin: meant_origin(hop.side),
    };
    let verdict = match judgement.verdict {
        by::Verdict::Valid => Verdict::Valid,
        by::Verdict::Invalid(by::Cause::Hops { a, b }) => Verdict::Invalid(Cause::Hops {
            a: named(a),
            b: b.map(named),
        }),
        by::Verdict::Invalid(by::Cause::Ground(ground)) => {
            Verdict::Invalid(Cause::Ground(match ground {
                by::Ground::Empty => Ground::Empty,
                by::Ground::NotNeighbour => Ground::NotNeighbour,
                by::Ground::AsSet => Ground::AsSet,
            }))
        }
        by::Verdict::Unknown { a, b } => Verdict::Unknown { a, b },
    };
    Said::Judged(Answer {
        verdict,
        gap: judgement.gap,
    })
}

/// What a stored route's words mean.
fn meant_verdict(route: &reference::Route) -> KeptVerdict {
    let (a, b) = (route.place_a, route.place_b);
    let ground = |ground| KeptVerdict::Invalid(KeptCause::Ground(ground));
    match (route.verdict, route.ground) {
        (0, 0) => KeptVerdict::Valid,
        (1, 0) => KeptVerdict::Invalid(KeptCause::Hops { a, b }),
        (1, 1) => ground(Ground::Empty),
        (1, 2) => ground(Ground::NotNeighbour),
        (1, 3) => ground(Ground::AsSet),
        (2, 0) => KeptVerdict::Unknown { a, b },
        words => panic!("verdict and ground are {words:?}"),
    }
}

fn model_numbers(numbers: &[AsNumber]) -> Vec<reference::AsNumber> {
    numbers.iter().map(|n| reference::AsNumber(n.0)).collect()
}

/// The one of two that is meant.
fn chosen<'a, T>(origin: Origin, public: &'a mut T, overrides: &'a mut T) -> &'a mut T {
    match origin {
        Origin::Public => public,
        Origin::Overrides => overrides,
    }
}

fn run(tables: &mut Tables, overrides: &mut Register, call: &Call) -> Said {
    let Tables { register, ledger } = tables;
    match call {
        Call::File(origin, source, customer, list) => {
            let list: Vec<AsNumber> = list.iter().copied().map(AsNumber).collect();
            let register = chosen(*origin, register, overrides);
            let filed = register.file(*source, AsNumber(*customer), &list);
            said(filed, Said::Filed)
        }
        Call::Withdraw(origin, source, customer) => {
            let register = chosen(*origin, register, overrides);
            let withdrawn = register.withdraw(*source, AsNumber(*customer));
            said(withdrawn, |()| Said::Done)
        }
        Call::Clear(origin, source) => {
            let register = chosen(*origin, register, overrides);
            said(register.clear(*source), Said::Count)
        }
        Call::Judge(r) => said(
            register.judge(overrides, r.role, AsNumber(r.neighbour), &r.attribute),
            Said::Judged,
        ),
        Call::Keep(route, r) => said(
            ledger.keep(
                register,
                overrides,
                RouteNumber(*route),
                r.role,
                AsNumber(r.neighbour),
                &r.attribute,
            ),
            Said::Judged,
        ),
        Call::Drop(route) => said(ledger.drop_route(RouteNumber(*route)), |()| Said::Done),
        Call::Rejudge => said(tables.rejudge(overrides), Said::Count),
        Call::Write(capacity) => {
            let mut to = output(*capacity);
            let written = tables.write(&mut to);
            assert!(
                written.is_ok() || to == output(*capacity),
                "a byte of the output changed"
            );
            said(written, |length| Said::Written(length, to.clone()))
        }
        Call::Read(file) => said(tables.read(file), |()| Said::Done),
        Call::Hop(x, y) => {
            let hop = register.hop(overrides, AsNumber(*x), AsNumber(*y));
            said(hop, Said::Hop)
        }
        Call::Lookup(source, customer) => {
            let list = register.lookup(overrides, *source, AsNumber(*customer));
            Said::List(list.iter().map(|number| number.0).collect())
        }
    }
}

fn run_model(model: &mut Model, call: &Call) -> Said {
    use reference::{AsNumber, RouteNumber};
    let count = |n: usize| Said::Count(n as u32);
    match call {
        Call::File(origin, source, customer, list) => {
            let list: Vec<AsNumber> = list.iter().copied().map(AsNumber).collect();
            let filed = of(model, *origin).file(*source, AsNumber(*customer), &list);
            meant(filed, meant_filed)
        }
        Call::Withdraw(origin, source, customer) => {
            let withdrawn = of(model, *origin).withdraw(*source, AsNumber(*customer));
            meant(withdrawn, |()| Said::Done)
        }
        Call::Clear(origin, source) => meant(of(model, *origin).clear(*source), count),
        Call::Judge(r) => meant(
            model.judge(r.role.number(), AsNumber(r.neighbour), &r.attribute),
            meant_answer,
        ),
        Call::Keep(route, r) => meant(
            model.keep(
                RouteNumber(*route),
                r.role.number(),
                AsNumber(r.neighbour),
                &r.attribute,
            ),
            meant_answer,
        ),
        Call::Drop(route) => meant(model.drop(RouteNumber(*route)), |()| Said::Done),
        Call::Rejudge => meant(model.rejudge(), count),
        Call::Write(capacity) => {
            let mut to = output(*capacity);
            let written = model.write(&mut to);
            meant(written, |length| Said::Written(length, to.clone()))
        }
        Call::Read(file) => meant(model.read(file), |()| Said::Done),
        Call::Hop(x, y) => meant(model.hop(AsNumber(*x), AsNumber(*y)), meant_hop),
        Call::Lookup(source, customer) => {
            let list = model.lookup(AsNumber(*customer), *source);
            Said::List(list.iter().map(|number| number.0).collect())
        }
    }
}

fn of(model: &mut Model, origin: Origin) -> &mut Table<reference::Records> {
    chosen(origin, &mut model.register, &mut model.overrides)
}

// Histories

/// What a history is rich in.
struct Shape {
    /// Customers are mostly 1 to this.
    customers: usize,
    /// Route numbers are mostly below this.
    routes: usize,
    /// Percent of lists near 256 providers, and of paths near 64 numbers, one segment, two segments or the most.
    long_lists: usize,
    long_paths: usize,
    /// Percent of the calls on one register that are on the overrides.
    overrides: usize,
    /// Weights of the calls, in the order of `Call`.
    weights: [usize; KINDS],
}

/// How many kinds of calls there are.
const KINDS: usize = 11;

struct History<'a> {
    shape: &'a Shape,
    seed: u64,
    random: Random,
    tables: Tables,
    overrides: Register,
    model: Model,
    calls: usize,
    /// The last snapshots that the binding wrote.
    files: Vec<Vec<u8>>,
    /// How often each kind of answer was given.
    tally: BTreeMap<String, usize>,
}

impl History<'_> {
    fn new(shape: &Shape, seed: u64) -> History<'_> {
        History {
            shape,
            seed,
            random: Random::new(seed),
            tables: Tables::new(),
            overrides: Register::new(),
            model: Model::new(),
            calls: 0,
            files: vec![],
            tally: BTreeMap::new(),
        }
    }

    fn run(mut self) -> (usize, BTreeMap<String, usize>) {
        for i in 1..=CALLS {
            let kind = self.kind();
            self.call(kind);
            if i % BETWEEN_TABLES == 0 {
                self.compare_tables();
            }
            if i % BETWEEN_DAMAGE == 0 {
                self.damaged();
            }
        }
        self.compare_tables();
        (self.calls, self.tally)
    }

    fn call(&mut self, kind: usize) {
        let call = self.some_call(kind);
        self.make(call);
    }

    fn make(&mut self, call: Call) {
        self.calls += 1;
        let before = (self.tables.clone(), self.overrides.clone());
        let answer = run(&mut self.tables, &mut self.overrides, &call);
        let at = || format!("seed {}, call {}: {call:?}", self.seed, self.calls);
        let meant = run_model(&mut self.model, &call);
        assert!(answer == meant, "{answer:?} and {meant:?}, {}", at());
        let refused = matches!(answer, Said::Refused(..));
        let (tables, overrides) = match call {
            _ if refused => (false, false),
            Call::Judge(_) | Call::Write(_) | Call::Hop(..) | Call::Lookup(..) => (false, false),
            Call::File(origin, ..) | Call::Withdraw(origin, ..) | Call::Clear(origin, _) => {
                (origin == Origin::Public, origin == Origin::Overrides)
            }
            _ => (true, false),
        };
        let stays = tables || self.tables == before.0;
        assert!(stays, "a table changed: {}", at());
        let stays = overrides || self.overrides == before.1;
        assert!(stays, "the overrides changed: {}", at());
        if let Said::Written(length, to) = &answer {
            self.files.push(to[..*length].to_vec());
            if self.files.len() > 4 {
                self.files.remove(0);
            }
        }
        // All words of both tables come from a snapshot.
        if matches!((&call, &answer), (Call::Read(_), Said::Done)) {
            self.compare_tables();
        }
        self.count(&call, answer);
    }

    fn tell(&mut self, key: &str) {
        *self.tally.entry(key.into()).or_default() += 1;
    }

    fn count(&mut self, call: &Call, answer: Said) {
        match (call, &answer) {
            (Call::File(_, _, customer, list), Said::Refused(6, _)) if list.contains(customer) => {
                self.tell("own customer filed");
            }
            (Call::Read(file), Said::Refused(2, _)) if holds_own(&file_register(file)) => {
                self.tell("own customer read");
            }
            (Call::Read(file), Said::Refused(3, _)) if equal_beside(&file_ledger(file)) => {
                self.tell("equal neighbours read");
            }
            (Call::Read(file), Said::Done) if equal_across(&file_ledger(file)) => {
                self.tell("equal ends read");
            }
            (Call::Judge(r) | Call::Keep(_, r), answer) if merged(answer) => {
                for key in runs(&r.attribute) {
                    self.tell(key);
                }
            }
            (Call::Lookup(source, customer), Said::List(list))
                if list.is_empty() && self.is_filed(*source, *customer) =>
            {
                self.tell("hidden list");
            }
            _ => {}
        }
        let key = match answer {
            Said::Refused(number, _) => format!("refused by {number}"),
            Said::Filed(filed) => format!("{filed:?}"),
            Said::Written(..) => "written".into(),
            Said::Done if matches!(call, Call::Read(_)) => "read".into(),
            Said::Count(0) | Said::Done => return,
            Said::Count(_) if matches!(call, Call::Rejudge) => "changed".into(),
            Said::Count(_) => "cleared".into(),
            Said::Hop(Hop::ProviderPlus { origin, .. }) => format!("provider {origin:?}"),
            Said::Hop(hop) => format!("{hop:?}"),
            Said::List(list) if list.is_empty() => "no list".into(),
            Said::List(_) => "list".into(),
            Said::Judged(Answer { verdict, gap }) => {
                let way = if gap.is_some() { "down" } else { "up" };
                if gap.is_some_and(|g| g < 0) {
                    self.tell("overlap");
                }
                if gap.is_some_and(|g| g.unsigned_abs() as usize == MOST_PATH - 1) {
                    self.tell("widest gap");
                }
                if farthest(verdict) as usize > MOST_SEGMENT {
                    self.tell("far place");
                }
                match verdict {
                    Verdict::Valid => format!("valid {way}"),
                    Verdict::Invalid(Cause::Hops { a, b }) => {
                        let others = b.map(|b| format!(" {:?}", b.origin));
                        let others = others.unwrap_or_default();
                        format!("invalid {way} {:?}{others}", a.origin)
                    }
                    Verdict::Invalid(Cause::Ground(ground)) => format!("{ground:?}"),
                    Verdict::Unknown { .. } => format!("unknown {way}"),
                }
            }
        };
        self.tell(&key);
    }

    /// Whether the public register, as it stands, has a list of this source for this customer.
    fn is_filed(&self, source: u32, customer: u32) -> bool {
        let key = (reference::AsNumber(customer), source);
        matches!(&self.model.register, Table::Held(records) if records.contains_key(&key))
    }

    fn compare_tables(&self) {
        let at = format!("seed {}, after call {}", self.seed, self.calls);
        let pairs = [
            (
                "overrides",
                self.overrides.words(),
                self.model.overrides.words(),
            ),
            (
                "register",
                self.tables.register.words(),
                self.model.register.words(),
            ),
            (
                "ledger",
                self.tables.ledger.words(),
                self.model.ledger.words(),
            ),
        ];
        for (name, ours, theirs) in pairs {
            assert_eq!(ours.len(), theirs.len(), "length of the {name}, {at}");
            if ours != theirs {
                let differs = ours.iter().zip(&theirs).position(|(x, y)| x != y);
                let i = differs.expect("they differ");
                panic!("{name}, word {i}: {} and {}, {at}", ours[i], theirs[i]);
            }
        }
        self.compare_entries();
    }

    /// The iterators give what the model holds, all entries of any table that is well formed, and no more than fit into any other.
    fn compare_entries(&self) {
        let at = format!("seed {}, after call {}", self.seed, self.calls);
        let Tables { register, ledger } = &self.tables;
        for (register, model) in [
            (register, &self.model.register),
            (&self.overrides, &self.model.overrides),
        ] {
            let Table::Held(records) = model else {
                continue;
            };
            let ours = register.records().map(|r| {
                let key = (reference::AsNumber(r.customer.0), r.source);
                (key, model_numbers(r.providers))
            });
            let theirs = records.iter().map(|(key, list)| (*key, list.clone()));
            assert!(ours.eq(theirs), "records, {at}");
        }
        if let Table::Held(routes) = &self.model.ledger {
            let ours = ledger.routes().map(|r| {
                let about = (r.number.0, r.role.number(), r.neighbour.0, r.verdict);
                (about, model_numbers(r.path))
            });
            let theirs = routes.iter().map(|(number, r)| {
                let about = (number.0, r.role, r.neighbour.0, meant_verdict(r));
                (about, r.path.clone())
            });
            assert!(ours.eq(theirs), "routes, {at}");
        }
        for (words, entries, width, well_formed) in [
            (
                register.words(),
                register.records().count(),
                <reference::Records as Form>::ENTRY,
                self.model.register.well_formed(),
            ),
            (
                self.overrides.words(),
                self.overrides.records().count(),
                <reference::Records as Form>::ENTRY,
                self.model.overrides.well_formed(),
            ),
            (
                ledger.words(),
                ledger.routes().count(),
                <reference::Routes as Form>::ENTRY,
                self.model.ledger.well_formed(),
            ),
        ] {
            if well_formed {
                assert_eq!(entries, words[0] as usize, "{at}");
            } else {
                assert!(entries * width <= words.len(), "{at}");
            }
        }
        assert!(format!("{:?}", (register, ledger)).len() < 200, "{at}");
    }

    /// Counts ledgers with two equal numbers side by side on a path, which are malformed, and well-formed ones in which a path ends with
    /// the number that begins the next.
    fn tell_equal(&mut self) {
        let well_formed = self.model.ledger.well_formed();
        if equal_beside(&self.tables.ledger) {
            assert!(!well_formed, "seed {}, call {}", self.seed, self.calls);
            self.tell("equal neighbours held");
        } else if well_formed && equal_across(&self.tables.ledger) {
            self.tell("equal ends held");
        }
    }

    /// Damages one table or more, makes every call, and repairs them. Altered words that the word rules allow sometimes stay: verdicts
    /// that aren't true, other providers, a path that ends with the number that begins the next.
    fn damaged(&mut self) {
        let kept = self.kept();
        let [register, overrides, ledger] = self.random.pick(&[
            [true, false, false],
            [false, true, false],
            [false, false, true],
            [true, false, false],
            [false, false, true],
            [true, true, false],
            [true, false, true],
            [false, true, true],
            [true, true, true],
        ]);
        if ledger {
            let beside = equal_neighbours(&self.tables.ledger);
            let across = equal_ends(&self.tables.ledger);
            let (change, ends) = match self.random.below(4) {
                0 if !beside.is_empty() => (Change::Poke(self.random.pick(&beside)), false),
                1 if !across.is_empty() => (Change::Poke(self.random.pick(&across)), true),
                _ => (Change::draw(&mut self.random, &self.model.ledger), false),
            };
            let words = change.make(&mut self.model.ledger, self.tables.ledger.words());
            self.tables.ledger = Ledger::from_words(words);
            assert!(!ends || self.model.ledger.well_formed(), "equal ends");
            self.tell_equal();
        }
        for (origin, damaged) in [(Origin::Public, register), (Origin::Overrides, overrides)] {
            if !damaged {
                continue;
            }
            let ours = chosen(origin, &mut self.tables.register, &mut self.overrides);
            let model = of(&mut self.model, origin);
            let own = own_customers(ours);
            let change = if !own.is_empty() && self.random.percent(20) {
                Change::Poke(self.random.pick(&own))
            } else {
                Change::draw(&mut self.random, model)
            };
            *ours = Register::from_words(change.make(model, ours.words()));
            if holds_own(ours) {
                self.tell("own customer held");
            }
            if !of(&mut self.model, origin).well_formed() {
                self.tell(&format!("damaged {origin:?}"));
            }
        }
        self.compare_tables();
        let registers = self.model.register.well_formed() && self.model.overrides.well_formed();
        let allowed = registers && self.model.ledger.well_formed();
        for kind in 0..KINDS {
            self.call(kind);
        }
        self.compare_tables();
        self.tell(if allowed { "altered" } else { "damaged" });
        if !allowed || self.random.percent(50) {
            self.restore(&kept);
        }
    }

    fn kept(&self) -> (Tables, Register, Model) {
        let (tables, overrides) = (self.tables.clone(), self.overrides.clone());
        (tables, overrides, self.model.clone())
    }

    fn restore(&mut self, kept: &(Tables, Register, Model)) {
        (self.tables, self.overrides, self.model) = kept.clone();
    }

    // Calls

    fn kind(&mut self) -> usize {
        let weights = &self.shape.weights;
        let mut left = self.random.below(weights.iter().sum());
        for (kind, weight) in weights.iter().enumerate() {
            if left < *weight {
                return kind;
            }
            left -= weight;
        }
        unreachable!("the weights were summed")
    }

    fn some_call(&mut self, kind: usize) -> Call {
        match kind {
            0 => {
                let (source, mut customer) = (self.source(), self.customer());
                let list = if self.random.percent(4) {
                    // Below a greater customer there is room for a long list.
                    customer = self.random.pick(&[customer, customer, 256, 1000]);
                    self.list_with(customer)
                } else {
                    self.list(customer)
                };
                Call::File(self.origin(), source, customer, list)
            }
            1 => Call::Withdraw(self.origin(), self.source(), self.customer()),
            2 => Call::Clear(self.origin(), self.source()),
            3 => Call::Judge(self.route()),
            4 => Call::Keep(self.route_number(), self.route()),
            5 => Call::Drop(self.route_number()),
            6 => Call::Rejudge,
            7 => Call::Write(self.capacity()),
            8 => Call::Read(self.file()),
            9 => {
                let customer = self.customer();
                let providers = self.providers(customer);
                let other = if !providers.is_empty() && self.random.percent(60) {
                    self.random.pick(&providers)
                } else {
                    self.number()
                };
                Call::Hop(customer, other)
            }
            _ => Call::Lookup(self.source(), self.customer()),
        }
    }

    fn origin(&mut self) -> Origin {
        if self.random.percent(self.shape.overrides) {
            Origin::Overrides
        } else {
            Origin::Public
        }
    }

    /// The model's snapshot of the tables as they are.
    fn model_file(&self) -> Option<Vec<u8>> {
        match (&self.model.register, &self.model.ledger) {
            (Table::Held(records), Table::Held(routes)) => Some(snapshot::write(records, routes)),
            _ => None,
        }
    }

    /// Around the length of the snapshot, or anything.
    fn capacity(&mut self) -> usize {
        let length = self.model_file().map_or(100, |file| file.len());
        let any = self.random.below(SNAPSHOT_BYTES + 100);
        self.random.pick(&[
            length,
            length + 1,
            length - 1,
            length + 4,
            length - 4,
            0,
            any,
            SNAPSHOT_BYTES,
        ])
    }

    /// A snapshot that the model writes now, or that the binding wrote before; every other one with something about it changed.
    fn file(&mut self) -> Vec<u8> {
        let earlier = self.files.get(self.random.below(4)).cloned();
        let now = self.model_file();
        let file = if self.random.percent(30) {
            earlier.or(now)
        } else {
            now.or(earlier)
        };
        let empty = || snapshot::file(&[0, 0], &[0, 0]);
        let file = file.unwrap_or_else(empty);
        if self.random.percent(50) {
            return file;
        }
        self.changed(file)
    }

    fn changed(&mut self, mut file: Vec<u8>) -> Vec<u8> {
        let any = self.random.draw() as u32;
        let near = |old: u32| [old + 1, old - 1, old + 4, old - 4];
        match self.random.below(12) {
            // The edition, and the other contents.
            0 => snapshot::with(&file, &[(0, self.random.pick(&[0, 2, 3, 1 << 24, any]))]),
            1 | 2 => {
                let index = self.random.between(1, 4);
                let old = snapshot::number_at(&file, index);
                let near = self.random.pick(&near(old));
                let value = self.random.pick(&[near, near, 0, 4, 8, u32::MAX - 3, any]);
                snapshot::with(&file, &[(index, value)])
            }
            // The length.
            3 => {
                let end = self
                    .random
                    .pick(&[0, 19, 20, file.len() - 4, file.len() - 1]);
                let any = self.random.below(file.len());
                file.truncate(self.random.pick(&[end, any]));
                file
            }
            4 => {
                file.extend(vec![0; self.random.pick(&[1, 4, 1000, SNAPSHOT_BYTES])]);
                file
            }
            // A word of a table, its counts more often than the others.
            5 | 6 => {
                let ledger = snapshot::number_at(&file, 3) as usize / 4;
                let counts = [5, 6, ledger, ledger + 1];
                let any_word = self.random.between(5, file.len() / 4 - 1);
                let index = self
                    .random
                    .pick(&[counts.to_vec(), vec![any_word; 12]].concat());
                let old = snapshot::number_at(&file, index);
                let value = self
                    .random
                    .pick(&[old ^ 1, old ^ (1 << 31), 0, 1, 2, TOO_FAR, any]);
                snapshot::with(&file, &[(index, value)])
            }
            // A list with its own customer, if it has a list.
            7 => {
                let own = own_customers(&file_register(&file));
                if own.is_empty() {
                    return file;
                }
                let (index, customer) = self.random.pick(&own);
                snapshot::with(&file, &[(snapshot::CONTENTS / 4 + index, customer)])
            }
            // Equal numbers side by side on a path, or at the end of one and the start of the next.
            kind @ 8..=10 => {
                let ledger = file_ledger(&file);
                let equal = match kind {
                    8 | 9 => equal_neighbours(&ledger),
                    _ => equal_ends(&ledger),
                };
                if equal.is_empty() {
                    return file;
                }
                let (index, number) = self.random.pick(&equal);
                let start = snapshot::number_at(&file, 3) as usize / 4;
                snapshot::with(&file, &[(start + index, number)])
            }
            // A table with a word more or less, and contents that say so.
            _ => {
                let mut parts = snapshot::parts(&file);
                let part = &mut parts[self.random.below(2)];
                if self.random.percent(50) || part.len() == 2 {
                    part.push(self.random.pick(&[0, 0, 1, any]));
                } else {
                    part.pop();
                }
                snapshot::file(&parts[0], &parts[1])
            }
        }
    }

    /// Few numbers, so that they meet again; now and then any.
    fn number(&mut self) -> u32 {
        match self.random.below(100) {
            0..=93 => self.random.between(1, 12) as u32,
            94..=96 => self.random.between(1, 40) as u32,
            97 | 98 => self
                .random
                .pick(&[256, 65_535, 65_536, 1 << 24, 1 << 31, u32::MAX]),
            _ => (self.random.draw() as u32).max(1),
        }
    }

    fn source(&mut self) -> u32 {
        match self.random.below(100) {
            0..=96 => self.random.below(8) as u32,
            _ => self.random.pick(&[8, 9, 256, u32::MAX]),
        }
    }

    fn customer(&mut self) -> u32 {
        match self.random.below(100) {
            0..=2 => 0,
            3..=5 => self.number(),
            _ => self.random.between(1, self.shape.customers) as u32,
        }
    }

    fn route_number(&mut self) -> u32 {
        match self.random.below(100) {
            0..=2 => self.random.pick(&[0, 1 << 31, u32::MAX]),
            _ => self.random.below(self.shape.routes) as u32,
        }
    }

    /// A provider of the customer, which is no provider of its own.
    fn provider(&mut self, customer: u32) -> u32 {
        loop {
            let number = self.number();
            if number != customer {
                return number;
            }
        }
    }

    /// Ascending numbers, with the customer first, last or between.
    fn list_with(&mut self, customer: u32) -> Vec<u32> {
        let length = self.random.pick(&[1, 2, 3, 5, 255, 256, 256]);
        let before = self.random.pick(&[0, length / 2, length - 1]);
        let first = customer.saturating_sub(before as u32);
        (first..=u32::MAX).take(length).collect()
    }

    /// A list without the customer.
    fn list(&mut self, customer: u32) -> Vec<u32> {
        if self.random.percent(self.shape.long_lists) {
            let length = self.random.pick(&[200, 255, 256, 256, 256, 257]);
            let (first, step) = (self.random.below(3) as u32, self.random.between(1, 2));
            let numbers = (first..).step_by(step).filter(|n| *n != customer);
            return numbers.take(length).collect();
        }
        let length = self.random.between(1, 5);
        let mut list: Vec<u32> = (0..length).map(|_| self.provider(customer)).collect();
        match self.random.below(100) {
            0..=1 => list.clear(),
            2..=4 => list.push(list[0]),
            5..=6 => list = vec![0],
            7..=8 => {} // in any order
            n => {
                if n < 14 {
                    list.push(0);
                }
                list.sort_unstable();
                list.dedup();
            }
        }
        list
    }

    fn route(&mut self) -> Route {
        let (first, attribute) = self.attribute();
        let neighbour = match self.random.below(100) {
            0..=1 => 0,
            2..=9 => self.number(),
            _ => first,
        };
        let role = self.random.pick(&[1, 2, 3, 3, 3, 4, 5, 6, 6]);
        Route {
            role: Role::try_from(role).expect("1 to 6"),
            neighbour,
            attribute,
        }
    }

    /// By the register that counts.
    fn providers(&self, customer: u32) -> Vec<u32> {
        let customer = reference::AsNumber(customer);
        for register in [&self.model.overrides, &self.model.register] {
            let Table::Held(records) = register else {
                return vec![];
            };
            let lists = records.range((customer, 0)..=(customer, GREATEST_SOURCE));
            let listed: Vec<u32> = lists
                .flat_map(|(_, list)| list.iter().map(|n| n.0))
                .collect();
            if !listed.is_empty() {
                return listed.into_iter().filter(|n| *n != 0).collect();
            }
        }
        vec![]
    }

    /// Mostly from customer to provider by the records, origin first.
    fn climb(&mut self, steps: usize) -> Vec<u32> {
        let mut path = vec![self.customer().max(1)];
        for i in 0..steps {
            let providers = self.providers(path[i]);
            path.push(if !providers.is_empty() && self.random.percent(85) {
                self.random.pick(&providers)
            } else {
                self.number()
            });
        }
        path
    }

    /// Left end first: what descends, then what climbs from the origin.
    fn path(&mut self) -> Vec<u32> {
        if self.random.percent(self.shape.long_paths) {
            let whole = MOST_SEGMENT;
            let near = [64, whole, 2 * whole, MOST_PATH, MOST_PATH, MOST_PATH];
            let near = self.random.pick(&near);
            let length = self.random.pick(&[near - 1, near, near, near + 1]);
            let mut path: Vec<u32> = vec![];
            while path.len() < length {
                let number = self.random.between(1, 12) as u32;
                if path.last() != Some(&number) {
                    path.push(number);
                }
            }
            return path;
        }
        let steps = self.random.below(5);
        let mut up = self.climb(steps);
        up.reverse();
        if self.random.percent(30) {
            return up;
        }
        let steps = self.random.below(4);
        [self.climb(steps), up].concat()
    }

    /// An attribute, and the number that was to stand first in it.
    fn attribute(&mut self) -> (u32, Vec<u8>) {
        let path = self.path();
        let first = path[0];
        // Several segments, or no more than there must be; numbers repeated within one and over boundaries: all are merged.
        let cuts = self.random.pick(&[[12, 40], [12, 40], [12, 40], [0, 0]]);
        let mut segments: Vec<(u8, Vec<u32>)> = vec![];
        for number in path {
            let times = self.random.pick(&[1, 1, 1, 1, 1, 2, 3]);
            for nth in 0..times {
                let cut = cuts[usize::from(nth > 0)];
                match segments.last_mut() {
                    Some((_, numbers))
                        if numbers.len() < MOST_SEGMENT && !self.random.percent(cut) =>
                    {
                        numbers.push(number)
                    }
                    _ => segments.push((2, vec![number])),
                }
            }
        }
        let at = self.random.below(segments.len() + 1);
        let two = vec![self.number(), self.number()];
        match self.random.below(100) {
            0..=3 => segments.insert(at, (1, two)),
            4..=5 => segments.insert(at, (self.random.pick(&[3, 4]), two)),
            6..=7 => segments.insert(at, (self.random.pick(&[0, 5, 255]), two)),
            8..=9 => segments.insert(at, (self.random.pick(&[0, 1, 2, 2, 3]), vec![])),
            10..=12 => {
                let numbers = &mut segments[at.saturating_sub(1)].1;
                let i = self.random.below(numbers.len());
                numbers[i] = 0;
            }
            _ => {}
        }
        let mut bytes: Vec<u8> = segments.iter().flat_map(|(t, n)| segment(*t, n)).collect();
        match self.random.below(100) {
            0..=2 => bytes.truncate(self.random.below(bytes.len())),
            3 => bytes.push(self.random.below(6) as u8),
            4 => {
                let i = self.random.below(bytes.len());
                bytes[i] = self.random.pick(&[0, 1, 2, 3, 4, 5, 255]);
            }
            5 => bytes.clear(),
            6 => bytes = (0..40).map(|_| self.random.below(6) as u8).collect(),
            7 => {
                bytes = self.longest(first);
                bytes.extend(vec![2; self.random.pick(&[0, 0, 1, 400])]);
            }
            8 => {
                // The most numbers or one more, and one of them on both sides of a boundary.
                let length = self.random.between(MOST_PATH, MOST_PATH + 1);
                let path: Vec<u32> = (0..length as u32).map(|i| first ^ i << 8).collect();
                let cut = self.random.between(1, length);
                bytes = [sequences(&path[..cut]), sequences(&path[cut - 1..])].concat();
            }
            _ => {}
        }
        (first, bytes)
    }

    /// As many bytes as there may be, in six segments, which is the fewest, or more. The numbers come in runs.
    fn longest(&mut self, first: u32) -> Vec<u8> {
        let segments = self.random.pick(&[6, 6, 8, 50, 682]);
        let all = (MOST_ATTRIBUTE_BYTES - 2 * segments) / 4;
        let merged = self.random.pick(&[1, 2, MOST_PATH, MOST_PATH + 1]);
        let numbers = (0..all).map(|i| first ^ ((i * merged / all) as u32) << 8);
        let numbers: Vec<u32> = numbers.collect();
        let (mut rest, mut bytes) = (&numbers[..], vec![]);
        for behind in (0..segments).rev() {
            // Those behind have at least one number each, and no more than they have room for.
            let least = rest.len().saturating_sub(behind * MOST_SEGMENT).max(1);
            let most = MOST_SEGMENT.min(rest.len() - behind);
            let (part, left) = rest.split_at(self.random.between(least, most));
            bytes.extend(segment(2, part));
            rest = left;
        }
        assert_eq!(bytes.len(), MOST_ATTRIBUTE_BYTES);
        bytes
    }
}

fn segment(kind: u8, numbers: &[u32]) -> Vec<u8> {
    let mut bytes = vec![kind, u8::try_from(numbers.len()).expect("one segment's")];
    bytes.extend(numbers.iter().flat_map(|n| n.to_be_bytes()));
    bytes
}

/// A path in as few segments as there can be.
fn sequences(path: &[u32]) -> Vec<u8> {
    let parts = path.chunks(MOST_SEGMENT);
    parts.flat_map(|part| segment(2, part)).collect()
}

/// One word of a table altered, or its length.
enum Change {
    Resize(usize),
    Poke((usize, u32)),
}

impl Change {
    fn draw<T: Form>(random: &mut Random, table: &Table<T>) -> Change {
        let (length, used) = (table.length(), table.used_words().len());
        if random.percent(20) {
            let any = random.below(length);
            return Change::Resize(random.pick(&[0, 1, 2, any, length - 1, length + 1]));
        }
        let index = match random.below(10) {
            0 | 1 => random.below(2),
            2..=4 => 2 + random.below((T::ENTRY * table.words()[0] as usize).max(1)),
            5..=7 => random.below(used),
            8 => used.min(length - 1),
            _ => random.below(length),
        };
        let old = table.words()[index];
        let any = random.draw() as u32;
        let near = [old.wrapping_add(1), old.wrapping_sub(1), old ^ (1 << 31)];
        let value = match random.below(3) {
            0 => random.pick(&near),
            _ => random.pick(&[
                0,
                1,
                2,
                3,
                4,
                6,
                7,
                8,
                257,
                FAR,
                TOO_FAR,
                8193,
                u32::MAX,
                any,
            ]),
        };
        Change::Poke((index, value))
    }

    /// Makes it in the model's table; gives the binding's words with it.
    fn make<T: Form>(self, table: &mut Table<T>, words: &[u32]) -> Vec<u32> {
        let mut words = words.to_vec();
        match self {
            Change::Resize(length) => {
                table.resize(length);
                words.resize(length, 0);
            }
            Change::Poke((index, value)) => {
                assert!(table.poke(index, value));
                words[index] = value;
            }
        }
        words
    }
}

/// Of a well-formed register: each word of a list that can become the list's own customer with no other fault.
fn own_customers(register: &Register) -> Vec<(usize, u32)> {
    let mut start = 2 + 4 * register.records().count();
    let mut pokes = vec![];
    for record in register.records() {
        let (customer, list) = (record.customer, record.providers);
        // It takes the place of the number before it or of the one behind it.
        let at = list.partition_point(|number| *number < customer);
        let places = at.saturating_sub(1)..list.len().min(at + 1);
        pokes.extend(places.map(|i| (start + i, customer.0)));
        start += list.len();
    }
    pokes
}

/// The register's words in a snapshot whose contents are right.
fn file_register(file: &[u8]) -> Register {
    Register::from_words(&snapshot::parts(file)[0][..])
}

fn holds_own(register: &Register) -> bool {
    let mut records = register.records();
    records.any(|record| record.providers.contains(&record.customer))
}

/// The ledger's words in such a snapshot.
fn file_ledger(file: &[u8]) -> Ledger {
    Ledger::from_words(&snapshot::parts(file)[1][..])
}

/// Role, index of the first word, and numbers of each path.
fn paths(ledger: &Ledger) -> Vec<(Role, usize, &[AsNumber])> {
    let mut start = 2 + 9 * ledger.routes().count();
    let paths = ledger.routes().map(|route| {
        start += route.path.len();
        (route.role, start - route.path.len(), route.path)
    });
    paths.filter(|(_, _, path)| !path.is_empty()).collect()
}

/// Of a well-formed ledger: each word of a path that can become the number beside it with no other fault. The first number of a path is
/// free only from a route server.
fn equal_neighbours(ledger: &Ledger) -> Vec<(usize, u32)> {
    let mut pokes = vec![];
    for (role, start, path) in paths(ledger) {
        for i in 1..path.len() {
            pokes.push((start + i, path[i - 1].0));
            if i > 1 || role == Role::RouteServer {
                pokes.push((start + i - 1, path[i].0));
            }
        }
    }
    pokes
}

/// The same for the last number of one path and the first of the next, which is no fault.
fn equal_ends(ledger: &Ledger) -> Vec<(usize, u32)> {
    let mut pokes = vec![];
    for pair in paths(ledger).windows(2) {
        let ((role, start, before), (next_role, next_start, after)) = (pair[0], pair[1]);
        let (last, next) = (before[before.len() - 1], after[0]);
        if last == next {
            continue;
        }
        let free = before.len() > 1 || role == Role::RouteServer;
        if free && before.iter().rev().nth(1) != Some(&next) {
            pokes.push((start + before.len() - 1, next.0));
        }
        if next_role == Role::RouteServer && after.get(1) != Some(&last) {
            pokes.push((next_start, last.0));
        }
    }
    pokes
}

/// Whether a path has two equal numbers side by side, and the ledger no other fault: with others in their place it is well formed.
fn equal_beside(ledger: &Ledger) -> bool {
    let mut words = padded(ledger.words().to_vec(), LEDGER_WORDS);
    let mut equal = false;
    for (_, start, path) in paths(ledger) {
        let mut others = (1..).filter(|n| !path.contains(&AsNumber(*n)));
        for i in (1..path.len()).filter(|i| path[i - 1] == path[*i]) {
            equal = true;
            if let Some(word) = words.get_mut(start + i) {
                *word = others.next().expect("more than a path has");
            }
        }
    }
    equal && <reference::Routes as Form>::well_formed(&words)
}

/// Whether a path ends with the number that begins the next.
fn equal_across(ledger: &Ledger) -> bool {
    let paths = paths(ledger);
    let mut pairs = paths.windows(2);
    pairs.any(|pair| pair[0].2.last() == pair[1].2.first())
}

/// The farther place of a verdict.
fn farthest(verdict: Verdict) -> u32 {
    match verdict {
        Verdict::Invalid(Cause::Hops { a, b }) => b.map_or(a.place, |b| a.place.max(b.place)),
        Verdict::Unknown { a, b } => a.max(b),
        _ => 0,
    }
}

/// Whether an attribute with this answer had neither a fault nor a ground, so that its path was merged.
fn merged(answer: &Said) -> bool {
    match answer {
        Said::Judged(answer) => !matches!(answer.verdict, Verdict::Invalid(Cause::Ground(_))),
        Said::Refused(row, _) => *row == 17,
        _ => false,
    }
}

/// What such an attribute has of runs over the ends of segments.
fn runs(attribute: &[u8]) -> Vec<&'static str> {
    let segments = by::read(attribute).expect("no fault");
    let one_by_one = segments.iter().map(std::slice::from_ref);
    let apart: usize = one_by_one.map(|one| by::merged(one).len()).sum();
    let left = by::merged(&segments).len();
    let vanishes = segments.windows(2).any(|pair| {
        let last = pair[0].numbers[pair[0].numbers.len() - 1];
        pair[1].numbers.iter().all(|number| *number == last)
    });
    let whole = |segment: &by::Segment| segment.numbers.len() == MOST_SEGMENT;
    let kinds = [
        ("run over segments", apart > left),
        ("segment gone", vanishes),
        ("most left of more", left == MOST_PATH && apart > left),
        ("too many of more", left == MOST_PATH + 1 && apart > left),
        ("whole segment", segments.iter().any(whole)),
        ("longest attribute", attribute.len() == MOST_ATTRIBUTE_BYTES),
    ];
    let given = kinds.into_iter().filter(|(_, given)| *given);
    given.map(|(kind, _)| kind).collect()
}

/// What every shape must reach, with the refusals below.
const REACHED: [&str; 37] = [
    "New",
    "Replaced",
    "cleared",
    "changed",
    "valid up",
    "valid down",
    "invalid up Public",
    "invalid up Overrides",
    "invalid down Public Public",
    "invalid down Public Overrides",
    "invalid down Overrides Public",
    "invalid down Overrides Overrides",
    "NoAttestation",
    "provider Public",
    "provider Overrides",
    "NotProviderPlus { origin: Public }",
    "NotProviderPlus { origin: Overrides }",
    "list",
    "no list",
    "hidden list",
    "unknown up",
    "unknown down",
    "overlap",
    "widest gap",
    "far place",
    "longest attribute",
    "Empty",
    "NotNeighbour",
    "AsSet",
    "altered",
    "damaged Public",
    "damaged Overrides",
    "written",
    "read",
    "own customer filed",
    "own customer held",
    "own customer read",
];

/// What every shape must reach this often: equal numbers over the ends of segments, on stored paths and where two of them meet, and
/// segments that have no room for another number.
const OFTEN: usize = 10;
const REACHED_OFTEN: [&str; 9] = [
    "run over segments",
    "segment gone",
    "most left of more",
    "too many of more",
    "whole segment",
    "equal neighbours held",
    "equal neighbours read",
    "equal ends held",
    "equal ends read",
];

/// `full` are the refusals of a full table that this shape must reach.
fn histories(first_seed: u64, shape: Shape, full: &[u32]) {
    let mut calls = 0;
    let mut tally: BTreeMap<String, usize> = BTreeMap::new();
    for seed in first_seed..first_seed + HISTORIES {
        let (n, counts) = History::new(&shape, seed).run();
        calls += n;
        for (key, n) in counts {
            *tally.entry(key).or_default() += n;
        }
    }
    println!("{calls} calls: {tally:?}");
    // Not 9: every Role is of 1 to 6.
    let refusals = (1..=7).chain(10..=19).chain(21..=24);
    let refusals = refusals.chain(full.iter().copied());
    let refusals = refusals.map(|number| format!("refused by {number}"));
    for key in REACHED.map(String::from).into_iter().chain(refusals) {
        assert!(tally.contains_key(&key), "never: {key}");
    }
    for key in REACHED_OFTEN {
        let times = tally.get(key).copied().unwrap_or(0);
        assert!(times >= OFTEN, "{times} times: {key}");
    }
}

#[test]
fn table_lengths() {
    assert_eq!(REGISTER_WORDS, <reference::Records as Form>::LENGTH);
    assert_eq!(LEDGER_WORDS, <reference::Routes as Form>::LENGTH);
}

const EVERYTHING: Shape = Shape {
    customers: 12,
    routes: 60,
    long_lists: 2,
    long_paths: 4,
    overrides: 40,
    weights: [200, 80, 20, 300, 200, 100, 100, 30, 40, 100, 60],
};

#[test]
fn everything() {
    histories(100, EVERYTHING, &[]);
}

/// Small tables with every role and ground, each of their words set to each of some values, and each number of their snapshot too.
#[test]
fn single_words() {
    let mut history = History::new(&EVERYTHING, 600);
    let (public, overrides) = (Origin::Public, Origin::Overrides);
    for (origin, source, customer, list) in [
        (public, 0, 3, vec![0]),
        (public, 7, 3, vec![4, 6]),
        (public, 2, 4, vec![3, 5, u32::MAX]),
        (public, 2, 9, vec![4]),
        (overrides, 1, 4, vec![5]),
        (overrides, 5, 4, vec![3, 6]),
        (overrides, 0, 8, vec![0, 3]),
    ] {
        history.make(Call::File(origin, source, customer, list));
    }
    let attributes = [
        vec![],
        segment(2, &[4, 3]),
        segment(2, &[5]),
        segment(1, &[4, 3]),
    ];
    for role in 1..=6 {
        for (i, attribute) in attributes.iter().enumerate() {
            let route = Route {
                role: Role::try_from(role).expect("1 to 6"),
                neighbour: 4,
                attribute: attribute.clone(),
            };
            history.make(Call::Keep(10 * role + 2 * i as u32, route));
        }
    }
    history.compare_tables();

    let kept = history.kept();
    let values = |old: u32| {
        let near = [old.wrapping_add(1), old.wrapping_sub(1), old ^ (1 << 31)];
        (0..=9)
            .chain([256, 257, FAR, TOO_FAR, 8193, u32::MAX])
            .chain(near)
    };
    let used = kept.2.register.used_words().len();
    for index in (0..=used).chain([REGISTER_WORDS - 1]) {
        for value in values(kept.0.register.words()[index]) {
            let mut words = kept.0.register.words().to_vec();
            words[index] = value;
            history.tables.register = Register::from_words(words);
            assert!(history.model.register.poke(index, value));
            history.compare_entries();
            history.make(Call::Hop(3, 4));
            history.make(Call::Lookup(7, 3));
            history.make(Call::Lookup(5, 4));
            history.make(Call::Withdraw(public, 2, 8));
            history.make(Call::Rejudge);
            history.restore(&kept);
        }
    }
    let used = kept.2.overrides.used_words().len();
    for index in (0..=used).chain([REGISTER_WORDS - 1]) {
        for value in values(kept.1.words()[index]) {
            let mut words = kept.1.words().to_vec();
            words[index] = value;
            history.overrides = Register::from_words(words);
            assert!(history.model.overrides.poke(index, value));
            history.compare_entries();
            history.make(Call::Hop(4, 3));
            history.make(Call::Hop(8, 3));
            history.make(Call::Lookup(5, 4));
            history.make(Call::Lookup(7, 3));
            history.make(Call::Withdraw(overrides, 2, 8));
            history.make(Call::File(public, 3, 3, vec![5]));
            history.make(Call::Write(SNAPSHOT_BYTES));
            history.make(Call::Rejudge);
            history.restore(&kept);
        }
    }
    let used = kept.2.ledger.used_words().len();
    for index in (0..=used).chain([LEDGER_WORDS - 1]) {
        for value in values(kept.0.ledger.words()[index]) {
            let mut words = kept.0.ledger.words().to_vec();
            words[index] = value;
            history.tables.ledger = Ledger::from_words(words);
            assert!(history.model.ledger.poke(index, value));
            history.tell_equal();
            history.compare_entries();
            history.make(Call::Drop(1));
            history.make(Call::Rejudge);
            history.restore(&kept);
        }
    }
    let file = history.model_file().expect("well formed");
    for index in 0..file.len() / 4 {
        for value in values(snapshot::number_at(&file, index)) {
            let file = snapshot::with(&file, &[(index, value)]);
            history.make(Call::Read(file));
            history.restore(&kept);
        }
    }
    println!("{} calls: {:?}", history.calls, history.tally);
    // The same numbers are set in the tables and in their snapshot.
    for key in ["equal neighbours", "equal ends"] {
        let [held, read] = ["held", "read"].map(|what| history.tally[&format!("{key} {what}")]);
        assert!(held > 0 && held == read, "{held} and {read} times: {key}");
    }
}

#[test]
fn many_records() {
    let shape = Shape {
        customers: 600,
        routes: 60,
        long_lists: 0,
        long_paths: 8,
        overrides: 12,
        weights: [1200, 20, 1, 80, 80, 60, 19, 20, 10, 30, 30],
    };
    histories(200, shape, &[8]);
}

#[test]
fn long_lists() {
    let shape = Shape {
        customers: 12,
        routes: 60,
        long_lists: 60,
        long_paths: 15,
        overrides: 30,
        weights: [300, 60, 4, 300, 150, 100, 86, 20, 30, 40, 40],
    };
    histories(300, shape, &[8]);
}

#[test]
fn many_routes() {
    let shape = Shape {
        customers: 12,
        routes: 700,
        long_lists: 1,
        long_paths: 1,
        overrides: 30,
        weights: [100, 30, 3, 80, 700, 30, 57, 20, 20, 40, 40],
    };
    histories(400, shape, &[20]);
}

#[test]
fn long_paths() {
    let shape = Shape {
        customers: 12,
        routes: 150,
        long_lists: 10,
        long_paths: 75,
        overrides: 30,
        weights: [150, 50, 5, 150, 450, 60, 135, 20, 30, 40, 40],
    };
    histories(500, shape, &[20]);
}
