//! The iterators and the short text of tables: good, empty and damaged ones.
use aspa_filter::{
    sequence, AsNumber, Filed, Ground, KeptCause, KeptVerdict, Ledger, Record, Refusal, Register,
    Role, Route, RouteNumber, LEDGER_WORDS, REGISTER_WORDS,
};

const FEW: [AsNumber; 2] = [AsNumber(0), AsNumber(40)];
const MORE: [AsNumber; 3] = [AsNumber(20), AsNumber(30), AsNumber(u32::MAX)];
const UP: [AsNumber; 3] = [AsNumber(30), AsNumber(20), AsNumber(10)];
const DOWN: [AsNumber; 3] = [AsNumber(50), AsNumber(60), AsNumber(10)];

fn register() -> Register {
    let mut register = Register::new();
    for (source, customer, providers) in [(7, 20, &FEW[..]), (0, 20, &FEW[1..]), (3, 10, &MORE)] {
        let filed = register.file(source, AsNumber(customer), providers);
        assert_eq!(filed, Ok(Filed::New));
    }
    register
}

fn ledger() -> Ledger {
    let (register, none, mut ledger) = (register(), Register::new(), Ledger::new());
    for (number, role, neighbour, path) in [
        (9, Role::Customer, 20, &UP[1..]),
        (u32::MAX, Role::Provider, 50, &DOWN),
        (0, Role::Peer, 7, &UP[1..]),
        (4, Role::RouteServer, 7, &UP),
    ] {
        let (number, neighbour) = (RouteNumber(number), AsNumber(neighbour));
        let path = sequence(path).unwrap();
        ledger
            .keep(&register, &none, number, role, neighbour, &path)
            .unwrap();
    }
    ledger
}

#[test]
fn records() {
    let register = register();
    let record = |customer, source, providers| Record {
        customer: AsNumber(customer),
        source,
        providers,
    };
    let expected = [
        record(10, 3, &MORE[..]),
        record(20, 0, &FEW[1..]),
        record(20, 7, &FEW),
    ];
    assert_eq!(register.records().collect::<Vec<_>>(), expected);
    assert_eq!(register.records().size_hint(), (0, Some(3)));
    let mut records = register.records();
    assert_eq!(records.nth(1).unwrap(), expected[1]);
    assert_eq!(records.clone().count(), 1, "a copy goes on from there");
    assert_eq!((records.next(), records.next()), (Some(expected[2]), None));
    assert_eq!(records.next(), None);
    assert_eq!(format!("{records:?}"), "Records { .. }");
}

#[test]
fn routes() {
    let ledger = ledger();
    let route = |number, role, neighbour, verdict, path| Route {
        number: RouteNumber(number),
        role,
        neighbour: AsNumber(neighbour),
        verdict,
        path,
    };
    let hops = |a, b| KeptVerdict::Invalid(KeptCause::Hops { a, b });
    let stranger = KeptVerdict::Invalid(KeptCause::Ground(Ground::NotNeighbour));
    let expected = [
        route(0, Role::Peer, 7, stranger, &[][..]),
        route(4, Role::RouteServer, 7, hops(3, 0), &UP),
        route(9, Role::Customer, 20, KeptVerdict::Valid, &UP[1..]),
        route(
            u32::MAX,
            Role::Provider,
            50,
            KeptVerdict::Unknown { a: 1, b: 3 },
            &DOWN,
        ),
    ];
    assert_eq!(ledger.routes().collect::<Vec<_>>(), expected);
    assert_eq!(ledger.routes().size_hint(), (0, Some(4)));
    assert_eq!(format!("{:?}", ledger.routes()), "Routes { .. }");
    // The place of a verdict, counted from the origin: the hop from 20 to 30.
    let path = expected[1].path;
    assert_eq!(path[path.len() - 3], AsNumber(30));
}

#[test]
fn empty() {
    assert_eq!(Register::new().records().next(), None);
    assert_eq!(Ledger::new().routes().next(), None);
    assert_eq!(Register::new().records().size_hint(), (0, Some(0)));
    assert_eq!(Register::default(), Register::new());
    assert_eq!(Ledger::default(), Ledger::new());
}

#[test]
fn short_texts() {
    let texts = [
        format!("{:?}", Register::new()),
        format!("{:?}", register()),
        format!("{:?}", Register::from_words([])),
        format!("{:?}", Register::from_words([3])),
        format!("{:?}", Ledger::new()),
        format!("{:?}", ledger()),
        format!("{:?}", Ledger::from_words([u32::MAX, u32::MAX, 1])),
    ];
    assert_eq!(
        texts,
        [
            "Register { words: 12290, records: 0, provider_words: 0 }",
            "Register { words: 12290, records: 3, provider_words: 6 }",
            "Register { words: 0, records: 0, provider_words: 0 }",
            "Register { words: 1, records: 3, provider_words: 0 }",
            "Ledger { words: 12802, routes: 0, path_words: 0 }",
            "Ledger { words: 12802, routes: 4, path_words: 8 }",
            "Ledger { words: 3, routes: 4294967295, path_words: 4294967295 }",
        ]
    );
}

fn records_with(changes: &[(usize, u32)]) -> usize {
    let mut words = register().words().to_vec();
    for &(index, value) in changes {
        words[index] = value;
    }
    Register::from_words(words).records().count()
}

fn routes_with(changes: &[(usize, u32)]) -> usize {
    let mut words = ledger().words().to_vec();
    for &(index, value) in changes {
        words[index] = value;
    }
    Ledger::from_words(words).routes().count()
}

/// The slots begin at word 2; a record has 4 words, a route 9.
#[test]
fn damaged_records() {
    const TOP: u32 = u32::MAX;
    assert_eq!(records_with(&[]), 3);
    // Counters.
    for counters in [
        [TOP, TOP],
        [TOP, 0],
        [TOP, 6],
        [3, TOP],
        [0, TOP],
        [3, REGISTER_WORDS as u32],
        [REGISTER_WORDS as u32, 0],
        [1 << 30, 6],
    ] {
        let changes = [(0, counters[0]), (1, counters[1])];
        assert_eq!(records_with(&changes), 0, "{counters:?}");
    }
    assert_eq!(records_with(&[(0, 0)]), 0);
    assert_eq!(records_with(&[(0, 1), (1, 12)]), 1, "the slot of the first");
    assert_eq!(records_with(&[(1, 5)]), 2, "the last list is cut");
    // The second record, whose list is the fourth word of the bodies.
    for (word, value, left) in [
        (6, 0, 1),
        (6, TOP, 3),
        (7, 8, 1),
        (7, TOP, 1),
        (8, 6, 1),
        (8, 5, 3),
        (8, TOP, 1),
        (9, 0, 1),
        (9, 3, 3),
        (9, 4, 1),
        (9, TOP, 1),
    ] {
        assert_eq!(records_with(&[(word, value)]), left, "word {word}: {value}");
    }
    // It ends for good: the third record is not shown after the second.
    let mut words = register().words().to_vec();
    words[6] = 0;
    let damaged = Register::from_words(words);
    let shown: Vec<bool> = {
        let mut records = damaged.records();
        (0..4).map(|_| records.next().is_some()).collect()
    };
    assert_eq!(shown, [true, false, false, false]);
    // Start and count whose sum passes 2^32, and a count above the most of a list.
    assert_eq!(records_with(&[(8, TOP), (9, 2)]), 1);
    assert_eq!(records_with(&[(1, 300), (9, 256)]), 3);
    assert_eq!(records_with(&[(1, 300), (9, 257)]), 1);
}

#[test]
fn damaged_routes() {
    const TOP: u32 = u32::MAX;
    assert_eq!(routes_with(&[]), 4);
    for counters in [
        [TOP, TOP],
        [TOP, 0],
        [4, TOP],
        [4, LEDGER_WORDS as u32],
        [1 << 29, 8],
    ] {
        let changes = [(0, counters[0]), (1, counters[1])];
        assert_eq!(routes_with(&changes), 0, "{counters:?}");
    }
    assert_eq!(routes_with(&[(1, 7)]), 3, "the last path is cut");
    // The second route, from word 11: number, role, neighbour, ground, verdict, places, start, count.
    for (word, value, left) in [
        (11, TOP, 4),
        (12, 0, 1),
        (12, 6, 4),
        (12, 7, 1),
        (13, 0, 1),
        (14, 1, 1),
        (14, 4, 1),
        (15, 0, 4),
        (15, 2, 4),
        (15, 3, 1),
        (15, TOP, 1),
        (16, 512, 4),
        (16, 513, 1),
        (17, 512, 4),
        (17, 513, 1),
        (17, TOP, 1),
        (18, 5, 4),
        (18, 6, 1),
        (18, TOP, 1),
        (19, 0, 1),
        (19, 8, 4),
        (19, 9, 1),
        (19, TOP, 1),
    ] {
        assert_eq!(routes_with(&[(word, value)]), left, "word {word}: {value}");
    }
    // A count above the most of a path.
    assert_eq!(routes_with(&[(1, 600), (19, 512)]), 4);
    assert_eq!(routes_with(&[(1, 600), (19, 513)]), 1);
    // The first route has a ground: no path, no other verdict, no places; a start past the end is none in the table.
    for (word, value) in [
        (5, 0),
        (5, 4),
        (6, 0),
        (6, 2),
        (7, 1),
        (8, 1),
        (9, 9),
        (10, 1),
    ] {
        assert_eq!(routes_with(&[(word, value)]), 0, "word {word}: {value}");
    }
    assert_eq!(routes_with(&[(5, 3)]), 4, "another ground");
}

/// A path of a version before 0.5.0, with two equal numbers side by side, is shown as it stands. The calls refuse its ledger, so its
/// routes are kept anew in another.
#[test]
fn equal_neighbours() {
    let (register, none) = (register(), Register::new());
    let mut words = ledger().words().to_vec();
    // The path 30 20 10 of the second route becomes 30 30 10.
    words[39] = 30;
    let mut damaged = Ledger::from_words(words);
    let judged = damaged.rejudge(&register, &none);
    assert_eq!(judged, Err(Refusal::LedgerMalformed));
    let routes: Vec<Route> = damaged.routes().collect();
    assert_eq!(routes.len(), 4);
    assert_eq!(routes[1].path, [30, 30, 10].map(AsNumber));
    assert_eq!(routes[2..], ledger().routes().collect::<Vec<_>>()[2..]);

    let mut anew = Ledger::new();
    for route in &routes[1..] {
        let path = sequence(route.path).unwrap();
        let Route {
            number,
            role,
            neighbour,
            ..
        } = *route;
        anew.keep(&register, &none, number, role, neighbour, &path)
            .unwrap();
    }
    assert_eq!(anew.routes().next().unwrap().path, [30, 10].map(AsNumber));
    assert_eq!(anew.rejudge(&register, &none), Ok(0));
}

/// Whatever words are left of a table, reading them ends and shows whole entries alone.
#[test]
fn cut_tables() {
    let (register, ledger) = (register(), ledger());
    for length in (0..=60).chain([REGISTER_WORDS - 1]) {
        let cut = Register::from_words(&register.words()[..length]);
        // 2 counters, 3 slots of 4, 6 providers.
        assert_eq!(cut.records().count(), if length < 20 { 0 } else { 3 });
        let cut = Ledger::from_words(&ledger.words()[..length]);
        // 2 counters, 4 slots of 9, 8 numbers on paths.
        assert_eq!(cut.routes().count(), if length < 46 { 0 } else { 4 });
    }
}
