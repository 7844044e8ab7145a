//! Every row through the binding: its number, its place, its text, and all tables as they were.
use aspa_filter::{
    sequence, AsNumber, Ledger, PathBuilder, Refusal, Register, Role, RouteNumber, Tables,
    LEDGER_WORDS, MOST_ATTRIBUTE_BYTES, MOST_PATH, MOST_PROVIDERS, MOST_RECORDS, MOST_ROUTES,
    REGISTER_WORDS, SNAPSHOT_BYTES,
};
use std::collections::BTreeSet;

/// The tables of a snapshot, and overrides.
#[derive(Clone, PartialEq)]
struct All {
    register: Register,
    overrides: Register,
    ledger: Ledger,
}

impl All {
    /// The same with the registers exchanged.
    fn exchanged(&self) -> All {
        All {
            register: self.overrides.clone(),
            overrides: self.register.clone(),
            ledger: self.ledger.clone(),
        }
    }

    fn tables(&self) -> Tables {
        Tables {
            register: self.register.clone(),
            ledger: self.ledger.clone(),
        }
    }

    fn read(&mut self, snapshot: &[u8]) -> Result<(), Refusal> {
        let mut tables = self.tables();
        let read = tables.read(snapshot);
        (self.register, self.ledger) = (tables.register, tables.ledger);
        read
    }
}

type Call = Box<dyn Fn(&mut All) -> Result<(), Refusal>>;

/// The refusal of a fault at a place.
type Faulty = fn(u32) -> Refusal;

/// The text of each row.
const TEXTS: [&str; 24] = [
    "refused by 1: a table has the wrong length: a register has 12290 words, a ledger 12802",
    "refused by 2: a register is malformed",
    "refused by 3: the ledger is malformed",
    "refused by 4: the source is above 7",
    "refused by 5: the customer is 0",
    "refused by 6: the provider list is empty, longer than 256 or not strictly ascending, or holds its own customer",
    "refused by 7: there is no such record",
    "refused by 8: the register would hold more than 1024 records or 8192 provider numbers",
    "refused by 9: the role is not 1 to 6",
    "refused by 10: the neighbour is 0",
    "refused by 11: the attribute is longer than 4096 bytes",
    "refused by 12: a segment is cut short",
    "refused by 13: a segment has an unknown type",
    "refused by 14: a segment is of a confederation",
    "refused by 15: a segment has no numbers",
    "refused by 16: an AS number is 0",
    "refused by 17: the merged path has more than 512 numbers",
    "refused by 18: the route number is taken",
    "refused by 19: there is no such route",
    "refused by 20: the ledger would hold more than 512 routes or 8192 path numbers",
    "refused by 21: the output is shorter than the snapshot",
    "refused by 22: the snapshot's edition is unknown",
    "refused by 23: the snapshot's contents are wrong",
    "refused by 24: the snapshot is cut short, or longer than its contents say",
];

fn path() -> Vec<u8> {
    sequence(&[20, 10].map(AsNumber)).unwrap()
}

/// The customer of the one override, which is on no path.
const ELSEWHERE: AsNumber = AsNumber(3_999_999_999);

fn overrides() -> Register {
    let mut overrides = Register::new();
    overrides.file(3, ELSEWHERE, &[AsNumber(20)]).unwrap();
    overrides
}

/// A few records and two routes.
fn some() -> All {
    let (mut register, overrides, mut ledger) = (Register::new(), overrides(), Ledger::new());
    register.file(0, AsNumber(10), &[AsNumber(20)]).unwrap();
    register.file(7, AsNumber(20), &[AsNumber(0)]).unwrap();
    for (number, role) in [(1, Role::Customer), (4, Role::Provider)] {
        ledger
            .keep(
                &register,
                &overrides,
                RouteNumber(number),
                role,
                AsNumber(20),
                &path(),
            )
            .unwrap();
    }
    All {
        register,
        overrides,
        ledger,
    }
}

fn numbers(count: usize) -> Vec<AsNumber> {
    (1..=count as u32).map(AsNumber).collect()
}

/// As many records, and routes, as there may be.
fn full() -> All {
    let All {
        mut register,
        overrides,
        mut ledger,
    } = some();
    for customer in 100.. {
        if register.records().count() == MOST_RECORDS {
            break;
        }
        register.file(1, AsNumber(customer), &numbers(3)).unwrap();
    }
    for number in 100.. {
        if ledger.routes().count() == MOST_ROUTES {
            break;
        }
        let number = RouteNumber(number);
        ledger
            .keep(
                &register,
                &overrides,
                number,
                Role::Peer,
                AsNumber(20),
                &path(),
            )
            .unwrap();
    }
    All {
        register,
        overrides,
        ledger,
    }
}

/// As many provider numbers, and path numbers, as there may be, but few entries. The customers are 1001 to 1032.
fn full_bodies() -> All {
    let (mut register, overrides, mut ledger) = (Register::new(), overrides(), Ledger::new());
    for customer in 1001..=1032 {
        let providers = numbers(MOST_PROVIDERS);
        register.file(1, AsNumber(customer), &providers).unwrap();
    }
    let path = sequence(&numbers(MOST_PATH)).unwrap();
    for number in 1..=16 {
        let number = RouteNumber(number);
        ledger
            .keep(
                &register,
                &overrides,
                number,
                Role::Peer,
                AsNumber(1),
                &path,
            )
            .unwrap();
    }
    All {
        register,
        overrides,
        ledger,
    }
}

fn with_words(change: impl Fn(&mut Vec<u32>, &mut Vec<u32>)) -> All {
    let All {
        register,
        overrides,
        ledger,
    } = some();
    let (mut r, mut l) = (register.words().to_vec(), ledger.words().to_vec());
    change(&mut r, &mut l);
    All {
        register: Register::from_words(r),
        overrides,
        ledger: Ledger::from_words(l),
    }
}

fn file(source: u32, customer: u32, providers: Vec<AsNumber>) -> Call {
    Box::new(move |t| {
        let filed = t.register.file(source, AsNumber(customer), &providers);
        filed.map(|_| ())
    })
}

fn withdraw(source: u32, customer: u32) -> Call {
    Box::new(move |t| t.register.withdraw(source, AsNumber(customer)))
}

fn clear(source: u32) -> Call {
    Box::new(move |t| t.register.clear(source).map(|_| ()))
}

fn judge(neighbour: u32, attribute: Vec<u8>) -> Call {
    Box::new(move |t| {
        let (role, neighbour) = (Role::Customer, AsNumber(neighbour));
        let answer = t.register.judge(&t.overrides, role, neighbour, &attribute);
        answer.map(|_| ())
    })
}

fn keep(number: u32, neighbour: u32, attribute: Vec<u8>) -> Call {
    Box::new(move |t| {
        let answer = t.ledger.keep(
            &t.register,
            &t.overrides,
            RouteNumber(number),
            Role::Customer,
            AsNumber(neighbour),
            &attribute,
        );
        answer.map(|_| ())
    })
}

fn drop_route(number: u32) -> Call {
    Box::new(move |t| t.ledger.drop_route(RouteNumber(number)))
}

fn rejudge() -> Call {
    Box::new(|t| t.ledger.rejudge(&t.register, &t.overrides).map(|_| ()))
}

fn hop(customer: u32, other: u32) -> Call {
    Box::new(move |t| {
        let hop = t
            .register
            .hop(&t.overrides, AsNumber(customer), AsNumber(other));
        hop.map(|_| ())
    })
}

/// Into so many bytes, none of which may change where it is refused.
fn write(capacity: usize) -> Call {
    Box::new(move |t| {
        let before: Vec<u8> = (0..capacity).map(|i| i as u8).collect();
        let mut output = before.clone();
        let written = t.tables().write(&mut output).map(|_| ());
        assert!(written.is_ok() || output == before);
        written
    })
}

fn read(snapshot: Vec<u8>) -> Call {
    Box::new(move |t| t.read(&snapshot))
}

fn snapshot(tables: &All) -> Vec<u8> {
    let mut bytes = Vec::new();
    tables.tables().write_to(&mut bytes).unwrap();
    bytes
}

/// Every call that looks at both registers, and may be refused.
fn on_both() -> Vec<Call> {
    vec![
        judge(20, path()),
        keep(2, 20, path()),
        rejudge(),
        hop(10, 20),
        hop(0, 0),
    ]
}

/// Every call that looks at the public register, or at the one that it is lent.
fn on_register() -> Vec<Call> {
    let mut calls = vec![
        file(0, 10, numbers(1)),
        withdraw(0, 10),
        clear(0),
        write(0),
        write(SNAPSHOT_BYTES),
    ];
    calls.extend(on_both());
    calls
}

/// Every call that looks at a ledger.
fn on_ledger() -> Vec<Call> {
    vec![
        keep(2, 20, path()),
        drop_route(1),
        rejudge(),
        write(0),
        write(SNAPSHOT_BYTES),
    ]
}

/// The rows that have been seen.
#[derive(Default)]
struct Seen(BTreeSet<u32>);

impl Seen {
    /// Each call on these tables is refused so.
    fn all(&mut self, tables: &All, refusal: Refusal, calls: Vec<Call>) {
        for (i, call) in calls.iter().enumerate() {
            let mut after = tables.clone();
            assert_eq!(call(&mut after), Err(refusal), "call {i}");
            // By words: the tables' own text is short.
            assert_eq!(after.register.words(), tables.register.words());
            assert_eq!(after.overrides.words(), tables.overrides.words());
            assert_eq!(after.ledger.words(), tables.ledger.words());
        }
        self.told(refusal);
    }

    /// A public register that is refused, by every call that looks at it; so it is as the overrides, and as both. Nothing is found then.
    fn registers(&mut self, tables: &All, refusal: Refusal) {
        self.all(tables, refusal, on_register());
        self.all(&tables.exchanged(), refusal, on_both());
        let mut both = tables.clone();
        both.overrides = both.register.clone();
        self.all(&both, refusal, on_both());
        for tables in [tables, &tables.exchanged(), &both] {
            for (source, customer) in [(0, AsNumber(10)), (3, ELSEWHERE)] {
                let list = tables.register.lookup(&tables.overrides, source, customer);
                assert_eq!(list, []);
            }
        }
    }

    fn told(&mut self, refusal: Refusal) {
        let number = refusal.number();
        let text = TEXTS[number as usize - 1];
        match (12..=16).contains(&number).then(|| refusal.place()) {
            Some(place) => {
                let place = place.expect("a place");
                assert_eq!(refusal.to_string(), format!("{text} (byte {place})"));
            }
            None => {
                assert_eq!(refusal.place(), None);
                assert_eq!(refusal.to_string(), text);
            }
        }
        self.0.insert(number);
    }
}

#[test]
fn every_row() {
    let mut seen = Seen::default();
    let some = some();

    for (register, ledger) in [
        (REGISTER_WORDS - 1, LEDGER_WORDS - 1),
        (REGISTER_WORDS + 1, LEDGER_WORDS + 1),
        (0, 0),
    ] {
        let tables = with_words(|r, l| {
            r.resize(register, 0);
            l.resize(ledger, 0);
        });
        seen.registers(&tables, Refusal::TableLength);
        seen.all(&tables, Refusal::TableLength, on_ledger());
        let calls = || vec![read(snapshot(&some)), read(vec![])];
        seen.all(&tables, Refusal::TableLength, calls());
        // Either table's length refuses a reading.
        let tables = with_words(|r, _| r.resize(register, 0));
        seen.all(&tables, Refusal::TableLength, calls());
        let tables = with_words(|_, l| l.resize(ledger, 0));
        seen.all(&tables, Refusal::TableLength, calls());
        // A wrong ledger does not touch who is not lent it, but comes before a malformed register.
        let tables = with_words(|r, l| {
            r[1] += 1;
            l.resize(ledger, 0);
        });
        seen.all(&tables, Refusal::TableLength, on_ledger());
    }
    let tables = with_words(|r, l| {
        r[0] = u32::MAX;
        l[0] = u32::MAX;
    });
    seen.registers(&tables, Refusal::RegisterMalformed);
    let tables = with_words(|_, l| l[1] += 1);
    seen.all(&tables, Refusal::LedgerMalformed, on_ledger());

    let calls = vec![file(8, 0, vec![]), withdraw(8, 0), clear(u32::MAX)];
    seen.all(&some, Refusal::Source, calls);
    let calls = vec![file(7, 0, vec![]), withdraw(7, 0)];
    seen.all(&some, Refusal::Customer, calls);
    let calls = vec![
        file(0, 1, vec![]),
        file(0, 1000, numbers(MOST_PROVIDERS + 1)),
        file(0, 1, [2, 2].map(AsNumber).to_vec()),
        file(0, 1, [3, 2].map(AsNumber).to_vec()),
        file(0, 1, numbers(1)),
    ];
    seen.all(&some, Refusal::Providers, calls);
    let calls = vec![withdraw(1, 10), withdraw(0, 11)];
    seen.all(&some, Refusal::NoRecord, calls);
    seen.all(&full(), Refusal::RegisterFull, vec![file(0, 9, numbers(1))]);
    let calls = vec![file(0, 1001, numbers(1)), file(0, 1033, numbers(1))];
    seen.all(&full_bodies(), Refusal::RegisterFull, calls);

    // A Role is always one: its row is what a number that is no role's becomes.
    for number in [0, 7, u32::MAX] {
        let judged = |number| -> Result<_, Refusal> {
            let role = Role::try_from(number)?;
            let neighbour = AsNumber(20);
            some.register
                .judge(&some.overrides, role, neighbour, &path())
        };
        assert_eq!(judged(number), Err(Refusal::Role));
    }
    seen.told(Refusal::Role);

    let calls = vec![judge(0, vec![9]), keep(1, 0, vec![9])];
    seen.all(&some, Refusal::Neighbour, calls);
    let long = vec![0; MOST_ATTRIBUTE_BYTES + 1];
    let calls = vec![judge(20, long.clone()), keep(1, 20, long)];
    seen.all(&some, Refusal::AttributeLength, calls);

    // The same fault first and after a good segment, which has 10 bytes.
    let faults: [(&[u8], Faulty, u32); 9] = [
        (&[2], |place| Refusal::CutShort { place }, 0),
        (&[2, 1, 0, 0, 0], |place| Refusal::CutShort { place }, 0),
        (&[0, 1], |place| Refusal::SegmentType { place }, 0),
        (&[5, 0], |place| Refusal::SegmentType { place }, 0),
        (&[3, 0], |place| Refusal::Confederation { place }, 0),
        (&[4, 1], |place| Refusal::Confederation { place }, 0),
        (&[2, 0], |place| Refusal::SegmentEmpty { place }, 0),
        (&[1, 0, 9], |place| Refusal::SegmentEmpty { place }, 0),
        (
            &[2, 2, 0, 0, 0, 20, 0, 0, 0, 0],
            |place| Refusal::AsZero { place },
            6,
        ),
    ];
    for (bytes, refusal, place) in faults {
        let calls = vec![judge(20, bytes.to_vec()), keep(1, 20, bytes.to_vec())];
        seen.all(&some, refusal(place), calls);
        let bytes = [&path(), bytes].concat();
        let calls = vec![judge(20, bytes.clone()), keep(1, 20, bytes)];
        seen.all(&some, refusal(10 + place), calls);
    }

    let long = sequence(&numbers(MOST_PATH + 1)).unwrap();
    let calls = vec![judge(1, long.clone()), keep(1, 1, long)];
    seen.all(&some, Refusal::PathLength, calls);
    // Cut once more, and the number before the cut on both sides.
    let all = numbers(MOST_PATH + 1);
    for cut in [1, 40, 255, 256, MOST_PATH, MOST_PATH + 1] {
        let parts = [&all[..cut], &all[cut - 1..]].map(|part| sequence(part).unwrap());
        let calls = vec![judge(1, parts.concat()), keep(1, 1, parts.concat())];
        seen.all(&some, Refusal::PathLength, calls);
    }
    let calls = vec![keep(1, 20, path()), keep(4, 9, vec![])];
    seen.all(&some, Refusal::RouteTaken, calls);
    seen.all(&full(), Refusal::RouteTaken, vec![keep(1, 20, path())]);
    let calls = vec![drop_route(0), drop_route(2)];
    seen.all(&some, Refusal::NoRoute, calls);
    let calls = vec![keep(2, 20, path()), keep(2, 20, vec![])];
    seen.all(&full(), Refusal::LedgerFull, calls);
    let one = sequence(&[AsNumber(20)]).unwrap();
    let calls = vec![keep(0, 20, path()), keep(17, 20, one)];
    seen.all(&full_bodies(), Refusal::LedgerFull, calls);

    // The snapshot of `some`, whose register has 12 words and whose ledger 24.
    let file = snapshot(&some);
    assert_eq!(file.len(), 20 + 4 * 12 + 4 * 24);
    let calls = (0..file.len()).map(write).collect();
    seen.all(&some, Refusal::OutputLength, calls);
    let with = |index: usize, number: u32| {
        let mut file = file.clone();
        file[4 * index..][..4].copy_from_slice(&number.to_be_bytes());
        file
    };
    let calls = [0, 2, 3, 1 << 24, u32::MAX].map(|edition| read(with(0, edition)));
    seen.all(&some, Refusal::Edition, calls.into());
    let calls = [
        (1, 16),
        (1, 24),
        (2, 44),
        (2, 49),
        (2, u32::MAX - 3),
        (3, 64),
        (3, 72),
        (4, 4),
        (4, 95),
        (4, 4 * LEDGER_WORDS as u32 + 4),
        (4, u32::MAX - 3),
    ];
    let calls = calls.map(|(index, number)| read(with(index, number)));
    seen.all(&some, Refusal::Contents, calls.into());
    let cut = (0..file.len()).map(|length| read(file[..length].to_vec()));
    let longer = (1..9).map(|more| read([&file[..], &vec![0; more]].concat()));
    let other = [8, 92, 100, 4 * LEDGER_WORDS as u32].map(|length| read(with(4, length)));
    let calls = cut.chain(longer).chain(other).collect();
    seen.all(&some, Refusal::SnapshotLength, calls);
    // A file under 20 bytes is too short, whatever its edition.
    let calls = (0..20).map(|length| read(with(0, 7)[..length].to_vec()));
    seen.all(&some, Refusal::SnapshotLength, calls.collect());
    let both = |mut file: Vec<u8>| {
        file[20 + 4 * 12..].fill(0xFF);
        read(file)
    };
    let calls = vec![read(with(5, 3)), read(with(6, 1)), both(with(7, 0))];
    seen.all(&some, Refusal::RegisterMalformed, calls);
    let calls = vec![read(with(17, 1)), read(with(18, 5)), both(file.clone())];
    seen.all(&some, Refusal::LedgerMalformed, calls);
    // A zero behind a table's words, of which its own counts do not tell.
    let wider = [&with(2, 52)[..12], &72u32.to_be_bytes(), &file[16..68]];
    let calls = vec![read([&wider.concat()[..], &[0; 4], &file[68..]].concat())];
    seen.all(&some, Refusal::RegisterMalformed, calls);
    let calls = vec![read([&with(4, 100)[..], &[0; 4]].concat())];
    seen.all(&some, Refusal::LedgerMalformed, calls);

    assert!(seen.0.into_iter().eq(1..=24), "every row");
}

/// A table as it should be, with a word too few, or malformed.
#[derive(Clone, Copy, PartialEq)]
enum State {
    Sound,
    Short,
    Broken,
}

impl State {
    const ALL: [State; 3] = [State::Sound, State::Short, State::Broken];

    fn of(self, words: &[u32]) -> Vec<u32> {
        let mut words = words.to_vec();
        match self {
            State::Sound => {}
            State::Short => drop(words.pop()),
            State::Broken => words[1] += 1,
        }
        words
    }
}

/// The row of tables in these states: of all lengths, then of either register, then of the ledger.
fn row(registers: &[State], ledger: State) -> Result<(), Refusal> {
    let any = |state| registers.contains(&state);
    if any(State::Short) || ledger == State::Short {
        Err(Refusal::TableLength)
    } else if any(State::Broken) {
        Err(Refusal::RegisterMalformed)
    } else if ledger == State::Broken {
        Err(Refusal::LedgerMalformed)
    } else {
        Ok(())
    }
}

/// Every table in every state, for every call: each looks at those that it is lent, and in this order.
#[test]
fn orders() {
    let good = some();
    let file_of_some = snapshot(&good);
    let faulty = || (0, vec![0; MOST_ATTRIBUTE_BYTES + 1]);
    for register in State::ALL {
        for overrides in State::ALL {
            for ledger in State::ALL {
                let tables = All {
                    register: Register::from_words(register.of(good.register.words())),
                    overrides: Register::from_words(overrides.of(good.overrides.words())),
                    ledger: Ledger::from_words(ledger.of(good.ledger.words())),
                };
                let check = |calls: Vec<Call>, row: Result<(), Refusal>| {
                    for call in calls {
                        let mut after = tables.clone();
                        assert_eq!(call(&mut after), row);
                        assert!(row.is_ok() || after == tables);
                    }
                };
                let both = [register, overrides];
                let read_both = row(&both, State::Sound);
                check(vec![judge(20, path()), hop(10, 20)], read_both);
                let found = tables.register.lookup(&tables.overrides, 0, AsNumber(10));
                let overridden = tables.register.lookup(&tables.overrides, 3, ELSEWHERE);
                for list in [found, overridden] {
                    assert_eq!(list.len(), usize::from(read_both.is_ok()));
                }
                check(vec![keep(2, 20, path()), rejudge()], row(&both, ledger));
                // The tables go before the arguments.
                if let Err(refusal) = read_both {
                    let (neighbour, attribute) = faulty();
                    check(vec![judge(neighbour, attribute)], Err(refusal));
                }
                if let Err(refusal) = row(&both, ledger) {
                    let (neighbour, attribute) = faulty();
                    check(vec![keep(1, neighbour, attribute)], Err(refusal));
                }
                // One register, whichever it is: the other is not looked at.
                let calls = || vec![file(0, 77, numbers(1)), clear(5)];
                check(calls(), row(&[register], State::Sound));
                for call in calls() {
                    let mut after = tables.exchanged();
                    assert_eq!(call(&mut after), row(&[overrides], State::Sound));
                }
                check(vec![drop_route(1)], row(&[], ledger));
                check(vec![write(SNAPSHOT_BYTES)], row(&[register], ledger));
                // Reading goes by lengths alone.
                let lengths = [register, ledger].contains(&State::Short);
                let told = if lengths {
                    Err(Refusal::TableLength)
                } else {
                    Ok(())
                };
                check(vec![read(file_of_some.clone())], told);
            }
        }
    }
}

/// So many numbers, two apart, with this one at this position. The numbers beside it are not in the list.
fn around(number: u32, length: usize, position: usize) -> Vec<AsNumber> {
    let numbers = (0..length as u32).map(|i| number + 2 * i - 2 * position as u32);
    numbers.map(AsNumber).collect()
}

/// Lists that hold their own customer, at each position. Without it, or of a customer beside it, they are filed.
#[test]
fn own_customer_filed() {
    let (mut seen, some) = (Seen::default(), some());
    for length in [1, 2, 3, MOST_PROVIDERS] {
        for position in 0..length {
            let mut list = around(1000, length, position);
            let calls = vec![file(0, 1000, list.clone())];
            seen.all(&some, Refusal::Providers, calls);
            let mut tables = some.clone();
            for other in [999, 1001] {
                assert_eq!(file(0, other, list.clone())(&mut tables), Ok(()));
            }
            list.remove(position);
            if !list.is_empty() {
                assert_eq!(file(0, 1000, list.clone())(&mut tables), Ok(()));
                let filed = tables.register.records().nth(3).unwrap();
                assert_eq!(filed.providers, list);
            }
        }
    }
    // In place of an earlier list, from another source, and at both ends of the numbers.
    let list = |numbers: &[u32]| numbers.iter().copied().map(AsNumber).collect::<Vec<_>>();
    let calls = vec![
        file(0, 10, list(&[10])),
        file(5, 10, list(&[10, 20])),
        file(5, 1, list(&[0, 1])),
        file(5, u32::MAX, list(&[7, u32::MAX])),
    ];
    seen.all(&some, Refusal::Providers, calls);
    // The rows before: the source, and the customer 0, whose list of 0 holds it.
    let calls = vec![file(8, 10, list(&[10])), file(8, 0, list(&[0]))];
    seen.all(&some, Refusal::Source, calls);
    let calls = vec![file(0, 0, list(&[0])), file(7, 0, list(&[0, 1]))];
    seen.all(&some, Refusal::Customer, calls);
    // The row behind: there is no room either.
    let calls = || vec![file(0, 9, list(&[9])), file(0, 1033, list(&[1033]))];
    seen.all(&full(), Refusal::Providers, calls());
    seen.all(&full_bodies(), Refusal::Providers, calls());
}

/// Three records of three providers, in which the number at this position is one above the customer: the customer in its place is the
/// register's one fault. Gives the tables, and each of those words with its customer.
fn nearly_own(position: usize) -> (All, [(usize, u32); 3]) {
    let mut tables = some();
    tables.register = Register::new();
    let words = [0, 1, 2].map(|i| {
        let customer = 100 + 100 * i;
        let list = around(customer + 1, 3, position);
        assert_eq!(file(i, customer, list)(&mut tables), Ok(()));
        (2 + 3 * 4 + 3 * i as usize + position, customer)
    });
    (tables, words)
}

/// Registers whose one fault is such a list, in words and in a snapshot.
#[test]
fn own_customer_held() {
    let mut seen = Seen::default();
    let malformed = Refusal::RegisterMalformed;
    for position in 0..3 {
        let (good, words) = nearly_own(position);
        for (index, customer) in words {
            let mut held = good.register.words().to_vec();
            held[index] = customer;
            let tables = All {
                register: Register::from_words(held),
                ..good.clone()
            };
            seen.registers(&tables, malformed);
            // The register goes before the list, and before the ledger.
            seen.all(&tables, malformed, vec![file(0, 1, numbers(1))]);
            let mut both = tables.clone();
            both.ledger = Ledger::from_words(vec![u32::MAX; LEDGER_WORDS]);
            seen.all(&both, malformed, vec![keep(2, 20, path()), rejudge()]);

            let mut file = snapshot(&good);
            file[20 + 4 * index..][..4].copy_from_slice(&customer.to_be_bytes());
            seen.all(&some(), malformed, vec![read(file.clone())]);
            seen.all(&tables, malformed, vec![read(file)]);
            // Reading does not look at the words that were there, nor dropping at the register.
            let mut after = tables.clone();
            assert_eq!(drop_route(1)(&mut after), Ok(()));
            assert_eq!(read(snapshot(&good))(&mut after), Ok(()));
            assert!(after == good);
        }
    }
    // The customer changes and not the list: 10 is filed with 20, and then becomes 20.
    let tables = with_words(|r, _| r[2] = 20);
    seen.registers(&tables, malformed);
}

/// Each list is held against its own customer alone.
#[test]
fn other_customers_held() {
    let mut tables = some();
    tables.register = Register::new();
    for (source, customer, provider) in [(0, 40, 50), (0, 50, 40), (3, 40, 60), (3, 60, 40)] {
        let list = vec![AsNumber(provider)];
        assert_eq!(file(source, customer, list)(&mut tables), Ok(()));
    }
    for call in on_register() {
        let told = call(&mut tables.clone());
        // The one that withdraws a record which is not there, and the one that writes into no bytes.
        assert!(matches!(
            told,
            Ok(()) | Err(Refusal::NoRecord | Refusal::OutputLength)
        ));
    }
    let mut after = some();
    assert_eq!(read(snapshot(&tables))(&mut after), Ok(()));
    assert!(after == tables);
}

/// Routes of which each path ends with the number that begins the next. The second has none, by a ground.
const ENDS: [(u32, Role, &[u32]); 5] = [
    (1, Role::Customer, &[20, 10, 30, 40]),
    (3, Role::Provider, &[]),
    (4, Role::RouteServer, &[40, 30, 20]),
    (5, Role::Peer, &[20]),
    (6, Role::MutualTransit, &[20, 10, 40]),
];

/// The records of `some` and these routes.
fn equal_ends() -> All {
    let mut tables = some();
    tables.ledger = Ledger::new();
    for (number, role, path) in ENDS {
        let neighbour = AsNumber(*path.first().unwrap_or(&20));
        let path: Vec<AsNumber> = path.iter().copied().map(AsNumber).collect();
        let attribute = sequence(&path).unwrap_or_default();
        let number = RouteNumber(number);
        tables
            .ledger
            .keep(
                &tables.register,
                &tables.overrides,
                number,
                role,
                neighbour,
                &attribute,
            )
            .unwrap();
    }
    tables
}

/// Each word of the ledger of `equal_ends`, and what it has to become to make two neighbours of a path equal and break no other rule: the
/// first number is free only from a route server.
fn equal_neighbours() -> Vec<(usize, u32)> {
    let (mut pokes, mut start) = (vec![], 2 + 9 * ENDS.len());
    for (_, role, path) in ENDS {
        for i in 1..path.len() {
            pokes.push((start + i, path[i - 1]));
            if i > 1 || role == Role::RouteServer {
                pokes.push((start + i - 1, path[i]));
            }
        }
        start += path.len();
    }
    pokes
}

/// Ledgers whose one fault is two equal numbers side by side on a path, in words and in a snapshot.
#[test]
fn equal_neighbours_held() {
    let (mut seen, good) = (Seen::default(), equal_ends());
    let malformed = Refusal::LedgerMalformed;
    let pokes = equal_neighbours();
    assert_eq!(pokes.len(), 12);
    for (index, value) in pokes {
        let with = |value: u32| {
            let mut words = good.ledger.words().to_vec();
            words[index] = value;
            let ledger = Ledger::from_words(words);
            All {
                ledger,
                ..good.clone()
            }
        };
        let tables = with(value);
        seen.all(&tables, malformed, on_ledger());
        // The ledger goes before the route, and behind the register.
        seen.all(&tables, malformed, vec![keep(1, 0, vec![9])]);
        let mut both = tables.clone();
        both.register = Register::from_words(vec![u32::MAX; REGISTER_WORDS]);
        let calls = vec![keep(2, 20, path()), rejudge(), write(SNAPSHOT_BYTES)];
        seen.all(&both, Refusal::RegisterMalformed, calls);
        // Who is not lent it does not look at it.
        let mut after = tables.clone();
        for call in [file(0, 9, numbers(1)), withdraw(0, 9), judge(20, path())] {
            assert_eq!(call(&mut after), Ok(()));
        }
        assert!(after == tables);

        // The ledger's words are the last of the file.
        let mut file = snapshot(&good);
        let used = 2 + 9 * ENDS.len() + good.ledger.words()[1] as usize;
        let at = file.len() - 4 * used + 4 * index;
        file[at..][..4].copy_from_slice(&value.to_be_bytes());
        seen.all(&some(), malformed, vec![read(file.clone())]);
        seen.all(&tables, malformed, vec![read(file.clone())]);
        // With another number it is read, and the ledger is one again.
        file[at..][..4].copy_from_slice(&77u32.to_be_bytes());
        let mended = with(77);
        assert_eq!(read(file)(&mut after), Ok(()));
        assert!(after == mended);
        assert_eq!(rejudge()(&mut after), Ok(()));
        assert_eq!(read(snapshot(&good))(&mut after), Ok(()));
        assert!(after == good);
    }
}

/// The last number of one path and the first of the next may be equal, whichever routes meet.
#[test]
fn equal_ends_held() {
    let tables = equal_ends();
    for dropped in [1, 3, 4, 5, 6] {
        let mut after = tables.clone();
        assert_eq!(rejudge()(&mut after), Ok(()));
        assert!(after == tables, "they were judged by these records");
        assert_eq!(drop_route(dropped)(&mut after), Ok(()));
        assert_eq!(after.ledger.routes().count(), ENDS.len() - 1);
        for call in [keep(2, 20, path()), rejudge(), write(SNAPSHOT_BYTES)] {
            assert_eq!(call(&mut after), Ok(()));
        }
        let mut again = some();
        assert_eq!(read(snapshot(&after))(&mut again), Ok(()));
        assert!(again == after);
    }
}

/// Faults in the last bytes of the longest attribute. They go before the path, which is too long.
#[test]
fn faults_at_the_end() {
    let (mut seen, some) = (Seen::default(), some());
    let mut all = |bytes: Vec<u8>, refusal| {
        assert!([4095, 4096].contains(&bytes.len()));
        let calls = vec![judge(1, bytes.clone()), keep(2, 1, bytes)];
        seen.all(&some, refusal, calls);
    };
    // Every segment, and so every place, is at an even byte.
    let (start, place) = (sequence(&numbers(1021)).unwrap(), 4094);
    assert_eq!(start.len(), 4094);
    for (bytes, refusal) in [
        (&[2][..], Refusal::CutShort { place }),
        (&[2, 1], Refusal::CutShort { place }),
        (&[0, 1], Refusal::SegmentType { place }),
        (&[5, 0], Refusal::SegmentType { place }),
        (&[3, 0], Refusal::Confederation { place }),
        (&[4, 1], Refusal::Confederation { place }),
        (&[2, 0], Refusal::SegmentEmpty { place }),
        (&[1, 0], Refusal::SegmentEmpty { place }),
    ] {
        all([&start, bytes].concat(), refusal);
    }
    let parts = [&numbers(1019)[..], &[AsNumber(1)], &[AsNumber(0)]];
    let parts = parts.map(|part| sequence(part).unwrap());
    all(parts.concat(), Refusal::AsZero { place: 4092 });
}

/// One route with so many numbers and these places.
fn one_route(count: u32, a: u32, b: u32) -> All {
    let mut words = vec![1, count, 9, 3, 1, 0, 2, a, b, 0, count];
    words.extend(1..=count);
    words.resize(LEDGER_WORDS, 0);
    let ledger = Ledger::from_words(words);
    All { ledger, ..some() }
}

/// The snapshot of these tables, made without the library, which writes none of malformed ones.
fn snapshot_of(tables: &All) -> Vec<u8> {
    fn used(words: &[u32], width: u32) -> &[u32] {
        &words[..(2 + width * words[0] + words[1]) as usize]
    }
    let parts = [
        used(tables.register.words(), 4),
        used(tables.ledger.words(), 9),
    ];
    let [first, second] = parts.map(|part| 4 * part.len() as u32);
    let contents = [1, 20, first, 20 + first, second];
    let words = [&contents[..], parts[0], parts[1]].concat();
    words.iter().flat_map(|word| word.to_be_bytes()).collect()
}

/// A path of 512 numbers and places of 512, on a path of any length, are the farthest that a ledger holds.
#[test]
fn farthest_held() {
    let mut seen = Seen::default();
    for (count, a, b) in [(512, 512, 512), (512, 0, 0), (1, 512, 0), (1, 0, 512)] {
        let tables = one_route(count, a, b);
        let file = snapshot_of(&tables);
        assert_eq!(snapshot(&tables), file);
        let mut after = some();
        assert_eq!(read(file)(&mut after), Ok(()));
        assert!(after == tables);
        for call in [keep(2, 20, path()), rejudge(), drop_route(9)] {
            assert_eq!(call(&mut after), Ok(()));
        }
    }
    for (count, a, b) in [(513, 1, 512), (512, 513, 0), (1, 513, 512), (1, 512, 513)] {
        let tables = one_route(count, a, b);
        seen.all(&tables, Refusal::LedgerMalformed, on_ledger());
        let calls = || vec![read(snapshot_of(&tables))];
        seen.all(&some(), Refusal::LedgerMalformed, calls());
        seen.all(&tables, Refusal::LedgerMalformed, calls());
    }
}

/// What full tables still take.
#[test]
fn room() {
    let mut tables = full_bodies();
    assert_eq!(tables.ledger.words()[..2], [16, 8192]);
    // A shorter list and a route with a ground need no body words.
    assert_eq!(file(1, 1001, numbers(255))(&mut tables), Ok(()));
    assert_eq!(file(0, 1001, numbers(1))(&mut tables), Ok(()));
    assert_eq!(keep(200, 20, vec![])(&mut tables), Ok(()));
    assert_eq!(drop_route(7)(&mut tables), Ok(()));
    assert_eq!(keep(7, 20, path())(&mut tables), Ok(()));
    assert_eq!(
        keep(8, 20, path())(&mut tables),
        Err(Refusal::RouteTaken),
        "only 7 was dropped"
    );
    // Of a path in segments, only what is left of it needs room.
    let mut tables = full_bodies();
    assert_eq!(drop_route(7)(&mut tables), Ok(()));
    let all = numbers(MOST_PATH);
    let parts = [&all[..], &all[MOST_PATH - 1..]].map(|part| sequence(part).unwrap());
    assert_eq!(keep(7, 1, parts.concat())(&mut tables), Ok(()));
    let kept = tables.ledger.routes().nth(6).unwrap();
    assert_eq!((kept.number, kept.path), (RouteNumber(7), &all[..]));
}

#[test]
fn a_set_is_no_fault() {
    let path = PathBuilder::new().set(&[AsNumber(20)]).unwrap();
    let mut tables = some();
    assert_eq!(judge(9, path.into())(&mut tables), Ok(()));
}
