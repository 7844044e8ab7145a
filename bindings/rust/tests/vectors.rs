//! The worked vectors A to O, runs over the ends of segments, the limits, and the calls on whole tables. What is judged by public records
//! is judged by the same as overrides too.
use aspa_filter::{
    Answer, AsNumber, Cause, Filed, Ground, Ledger, NamedHop, Origin, Refusal, Register, Role,
    RouteNumber, Verdict, LEDGER_WORDS, MOST_ATTRIBUTE_BYTES, MOST_PATH, MOST_RECORDS,
    REGISTER_WORDS,
};

fn numbers(list: &[u32]) -> Vec<AsNumber> {
    list.iter().copied().map(AsNumber).collect()
}

/// Register D.
fn register_d() -> Register {
    let mut register = Register::new();
    for (customer, list) in [
        (10, &[20, 30][..]),
        (20, &[40]),
        (40, &[0]),
        (50, &[40]),
        (70, &[80]),
        (80, &[70]),
    ] {
        assert_eq!(
            register.file(0, AsNumber(customer), &numbers(list)),
            Ok(Filed::New)
        );
    }
    register
}

/// Sequences, or one where the path is not too long for it, left end first.
fn sequence(path: &[u32]) -> Vec<u8> {
    aspa_filter::sequence(&numbers(path)).unwrap()
}

fn judge(register: &Register, role: u32, path: &[u32]) -> Result<Answer, Refusal> {
    judge_from(register, role, path[0], path)
}

fn judge_from(
    register: &Register,
    role: u32,
    neighbour: u32,
    path: &[u32],
) -> Result<Answer, Refusal> {
    judge_bytes(
        register,
        Role::try_from(role).unwrap(),
        neighbour,
        &sequence(path),
    )
}

/// By a public register without overrides. As overrides, it gives the same answer with the other origin.
fn judge_bytes(
    register: &Register,
    role: Role,
    neighbour: u32,
    bytes: &[u8],
) -> Result<Answer, Refusal> {
    let (none, neighbour) = (Register::new(), AsNumber(neighbour));
    let answer = register.judge(&none, role, neighbour, bytes);
    let other = none.judge(register, role, neighbour, bytes);
    assert_eq!(other, answer.map(mirrored));
    answer
}

/// An answer from public records, had they been overrides.
fn mirrored(answer: Answer) -> Answer {
    let mirrored = |hop: NamedHop| {
        assert_eq!(hop.origin, Origin::Public);
        let origin = Origin::Overrides;
        NamedHop { origin, ..hop }
    };
    let verdict = match answer.verdict {
        Verdict::Invalid(Cause::Hops { a, b }) => Verdict::Invalid(Cause::Hops {
            a: mirrored(a),
            b: b.map(mirrored),
        }),
        other => other,
    };
    Answer { verdict, ..answer }
}

fn valid(gap: Option<i32>) -> Result<Answer, Refusal> {
    Ok(Answer {
        verdict: Verdict::Valid,
        gap,
    })
}

/// By public records; without a hop at 0.
fn invalid(a: u32, b: u32, gap: Option<i32>) -> Result<Answer, Refusal> {
    let origin = Origin::Public;
    let [a, b] = [a, b].map(|place| (place > 0).then_some(NamedHop { place, origin }));
    let a = a.expect("a place");
    Ok(Answer {
        verdict: Verdict::Invalid(Cause::Hops { a, b }),
        gap,
    })
}

fn unknown(a: u32, b: u32, gap: Option<i32>) -> Result<Answer, Refusal> {
    Ok(Answer {
        verdict: Verdict::Unknown { a, b },
        gap,
    })
}

fn ground(ground: Ground) -> Result<Answer, Refusal> {
    Ok(Answer {
        verdict: Verdict::Invalid(Cause::Ground(ground)),
        gap: None,
    })
}

fn refused<T: std::fmt::Debug>(r: Result<T, Refusal>) -> (u32, Option<u32>) {
    let r = r.expect_err("refused");
    (r.number(), r.place())
}

#[test]
fn vectors_a_to_l() {
    let d = register_d();
    assert_eq!(sequence(&[20, 10]), [2, 2, 0, 0, 0, 0x14, 0, 0, 0, 0x0A]);
    assert_eq!(judge(&d, 1, &[20, 10]), valid(None), "A");
    assert_eq!(judge(&d, 1, &[40, 20, 10]), valid(None), "B");
    assert_eq!(judge(&d, 1, &[50, 20, 10]), invalid(3, 0, None), "C");
    assert_eq!(judge(&d, 2, &[30, 60, 10]), invalid(2, 0, None), "D");
    assert_eq!(judge(&d, 1, &[30, 60]), unknown(2, 0, None), "E");
    assert_eq!(judge(&d, 3, &[50, 40, 20, 10]), valid(Some(0)), "F");
    assert_eq!(judge(&d, 3, &[20, 10, 30]), unknown(1, 3, Some(2)), "G");
    assert_eq!(judge(&d, 3, &[20, 10, 40]), invalid(2, 2, Some(2)), "H");
    assert_eq!(judge(&d, 3, &[50, 20]), valid(Some(1)), "I");
    assert_eq!(judge(&d, 6, &[80, 70]), valid(Some(-1)), "J");
    assert_eq!(
        judge_from(&d, 1, 30, &[20, 10]),
        ground(Ground::NotNeighbour),
        "K"
    );
    assert_eq!(judge_from(&d, 4, 30, &[20, 10]), valid(None), "L");
}

#[test]
fn vector_m() {
    let mut register = register_d();
    register.file(0, AsNumber(30), &numbers(&[0])).unwrap();
    assert_eq!(judge(&register, 3, &[20, 10, 30]), invalid(2, 2, Some(2)));
}

#[test]
fn vector_n() {
    let mut register = register_d();
    assert_eq!(
        register.file(5, AsNumber(20), &numbers(&[50])),
        Ok(Filed::New)
    );
    assert_eq!(judge(&register, 1, &[50, 20, 10]), valid(None));
    // The earlier source's list still counts.
    assert_eq!(judge(&register, 1, &[40, 20, 10]), valid(None));
}

#[test]
fn vector_o() {
    let d = register_d();
    let bytes = [sequence(&[20]), sequence(&[20, 10])].concat();
    let (customer, neighbour) = (Role::Customer, AsNumber(20));
    assert_eq!(judge_bytes(&d, customer, 20, &bytes), valid(None));
    // As within one segment.
    assert_eq!(judge(&d, 1, &[20, 20, 10]), valid(None));
    let mut ledger = Ledger::new();
    let none = Register::new();
    let kept = ledger.keep(&d, &none, RouteNumber(13), customer, neighbour, &bytes);
    assert_eq!(kept, valid(None));
    let mut words = vec![1, 2, 13, 1, 20, 0, 0, 0, 0, 0, 2, 20, 10];
    words.resize(LEDGER_WORDS, 0);
    assert_eq!(ledger.words(), words);
}

/// Sequences are judged and kept, in every role, as one of the numbers to which they merge.
fn merge_to(register: &Register, parts: &[&[u32]], merged: &[u32]) {
    let bytes = parts.iter().map(|part| sequence(part)).collect::<Vec<_>>();
    let (bytes, once) = (bytes.concat(), sequence(merged));
    let neighbour = AsNumber(merged[0]);
    for role in Role::ALL {
        let judged = judge_bytes(register, role, neighbour.0, &bytes);
        assert!(judged.is_ok(), "{parts:?}");
        let judged_once = judge_bytes(register, role, neighbour.0, &once);
        assert_eq!(judged, judged_once, "{parts:?}");
        let [kept, plainly] = [&bytes, &once].map(|attribute| {
            let mut ledger = Ledger::new();
            let (none, number) = (Register::new(), RouteNumber(1));
            let answer = ledger.keep(register, &none, number, role, neighbour, attribute);
            assert_eq!(answer, judged, "{parts:?}");
            ledger
        });
        assert_eq!(kept, plainly, "{parts:?}");
        assert_eq!(kept.routes().next().unwrap().path, numbers(merged));
    }
}

/// A run of one number counts once, also over the ends of segments.
#[test]
fn runs_over_segments() {
    let d = register_d();
    merge_to(&d, &[&[20], &[20, 10]], &[20, 10]);
    merge_to(&d, &[&[20], &[20], &[20, 20], &[20, 10]], &[20, 10]);
    // Whole segments that go: the first, one between, two between, the last, all but one.
    merge_to(&d, &[&[20, 20], &[20, 10, 30]], &[20, 10, 30]);
    merge_to(&d, &[&[20, 10], &[10], &[40]], &[20, 10, 40]);
    merge_to(&d, &[&[20, 10], &[10, 10], &[10], &[10, 40]], &[20, 10, 40]);
    merge_to(&d, &[&[20, 10], &[10, 10]], &[20, 10]);
    merge_to(&d, &[&[20], &[20], &[20, 20]], &[20]);
    // Runs over both ends of a segment.
    merge_to(
        &d,
        &[&[40, 20, 20], &[20, 10, 10], &[10, 20], &[20, 40]],
        &[40, 20, 10, 20, 40],
    );
    // Nothing to merge: a number that comes back, and numbers that differ in one byte.
    merge_to(&d, &[&[20, 10], &[20, 10]], &[20, 10, 20, 10]);
    merge_to(&d, &[&[20, 10, 20], &[10], &[20]], &[20, 10, 20, 10, 20]);
    merge_to(
        &d,
        &[&[20], &[0x114], &[0x100_0014], &[20]],
        &[20, 0x114, 0x100_0014, 20],
    );
    // Grounds and faults go by the segments as they stand.
    let judge_bytes = |bytes: Vec<u8>| judge_bytes(&d, Role::Customer, 20, &bytes);
    let set = [vec![1, 1, 0, 0, 0, 20], sequence(&[20, 10])];
    assert_eq!(
        judge_bytes([sequence(&[20]), set.concat()].concat()),
        ground(Ground::AsSet)
    );
    assert_eq!(
        judge_bytes([sequence(&[30]), sequence(&[30, 20])].concat()),
        ground(Ground::NotNeighbour)
    );
    assert_eq!(
        refused(judge_bytes([sequence(&[20]), sequence(&[20, 0])].concat())),
        (16, Some(12))
    );
}

/// The limit is on the merged path, wherever the number before the cut is there twice.
#[test]
fn limit_over_segments() {
    let d = register_d();
    let path: Vec<u32> = (0..=MOST_PATH as u32).map(|i| 1000 + i).collect();
    for cut in 1..=MOST_PATH {
        // 513 numbers, of which 512 are left.
        let parts = [&path[..cut], &path[cut - 1..MOST_PATH]];
        merge_to(&d, &parts, &path[..MOST_PATH]);
    }
    for width in [1, 2, 3, 64, 128, 254, 255] {
        let parts: Vec<&[u32]> = path[..MOST_PATH].chunks(width).collect();
        merge_to(&d, &parts, &path[..MOST_PATH]);
    }
    for cut in 1..=MOST_PATH + 1 {
        // 514 numbers, of which 513 are left.
        let bytes = [sequence(&path[..cut]), sequence(&path[cut - 1..])].concat();
        for role in Role::ALL {
            let judged = judge_bytes(&d, role, 1000, &bytes);
            assert_eq!(refused(judged), (17, None), "{cut}");
            let (mut ledger, none) = (Ledger::new(), Register::new());
            let (number, neighbour) = (RouteNumber(1), AsNumber(1000));
            let kept = ledger.keep(&d, &none, number, role, neighbour, &bytes);
            assert_eq!(refused(kept), (17, None), "{cut}");
            assert_eq!(ledger, Ledger::new());
        }
    }
}

#[test]
fn grounds_and_limits() {
    let d = register_d();
    let judge_bytes = |bytes: &[u8]| judge_bytes(&d, Role::Customer, 20, bytes);
    assert_eq!(judge_bytes(&[]), ground(Ground::Empty));
    assert_eq!(
        judge_bytes(&[sequence(&[20]), vec![1, 1, 0, 0, 0, 10]].concat()),
        ground(Ground::AsSet)
    );

    assert_eq!(MOST_PATH, 512);
    let path: Vec<u32> = (1000..=1512).collect();
    assert_eq!(judge(&d, 1, &path[..512]), unknown(2, 0, None));
    assert_eq!(refused(judge(&d, 1, &path)), (17, None));
    // A ground goes before the length.
    let stranger = judge_from(&d, 1, 999, &path);
    assert_eq!(stranger, ground(Ground::NotNeighbour));
    let with_set = [sequence(&path), vec![1, 1, 0, 0, 0, 10]].concat();
    let judged = d.judge(&Register::new(), Role::Customer, AsNumber(1000), &with_set);
    assert_eq!(judged, ground(Ground::AsSet));

    assert_eq!(refused(judge_bytes(&[2])), (12, Some(0)));
    assert_eq!(
        refused(judge_bytes(
            &[sequence(&[20]), vec![2, 1, 0, 0, 0]].concat()
        )),
        (12, Some(6))
    );
    assert_eq!(refused(judge_bytes(&[5, 1, 0, 0, 0, 20])), (13, Some(0)));
    assert_eq!(refused(judge_bytes(&[3, 1, 0, 0, 0, 20])), (14, Some(0)));
    assert_eq!(
        refused(judge_bytes(&[sequence(&[20]), vec![2, 0]].concat())),
        (15, Some(6))
    );
    assert_eq!(refused(judge_bytes(&sequence(&[20, 0]))), (16, Some(6)));
    assert_eq!(
        refused(d.judge(&Register::new(), Role::Customer, AsNumber(0), &[])),
        (10, None)
    );
}

/// 1 to `merged`, in runs that make 1,021 numbers, in six segments of 255, 255, 255, 254, 1 and 1: no fewer make 4,096 bytes.
fn longest(merged: u32) -> Vec<u8> {
    let path: Vec<u32> = (0..1021).map(|i| 1 + i * merged / 1021).collect();
    let parts = [&path[..1019], &path[1019..1020], &path[1020..]];
    parts.map(sequence).concat()
}

#[test]
fn longest_attribute() {
    assert_eq!(MOST_ATTRIBUTE_BYTES, 4096);
    let mut register = Register::new();
    register.file(0, AsNumber(2), &numbers(&[1])).unwrap();
    for (merged, told) in [
        (1, valid(None)),
        (2, valid(None)),
        (511, unknown(2, 0, None)),
        (512, unknown(2, 0, None)),
        (513, Err(Refusal::PathLength)),
        (1021, Err(Refusal::PathLength)),
    ] {
        let mut bytes = longest(merged);
        assert_eq!(bytes.len(), 4096);
        let judge = |bytes: &[u8]| judge_bytes(&register, Role::Customer, 1, bytes);
        assert_eq!(judge(&bytes), told, "{merged}");
        bytes.push(2);
        assert_eq!(refused(judge(&bytes)), (11, None));
    }
}

/// The path 1 to 512: 512 is the origin, AS(1).
fn longest_path() -> Vec<u32> {
    (1..=512).collect()
}

#[test]
fn gap_at_both_ends() {
    let path = longest_path();
    let mut register = Register::new();
    assert_eq!(judge(&register, 3, &path), unknown(1, 512, Some(511)));
    // Nobody is a provider of either end.
    for end in [1, 512] {
        register.file(0, AsNumber(end), &numbers(&[0])).unwrap();
    }
    assert_eq!(judge(&register, 3, &path), invalid(2, 511, Some(511)));
    // Each has both its neighbours as providers.
    for x in &path {
        let beside: Vec<u32> = [x - 1, x + 1]
            .into_iter()
            .filter(|y| path.contains(y))
            .collect();
        register.file(0, AsNumber(*x), &numbers(&beside)).unwrap();
    }
    assert_eq!(judge(&register, 3, &path), valid(Some(-511)));
}

/// The farthest places, as they are kept and as they are judged again.
#[test]
fn farthest_places() {
    let (mut register, none, mut ledger) = (Register::new(), Register::new(), Ledger::new());
    let bytes = sequence(&longest_path());
    let mut keep = |register: &Register, number, role| {
        let number = RouteNumber(number);
        ledger.keep(register, &none, number, role, AsNumber(1), &bytes)
    };
    let kept = keep(&register, 1, Role::Provider);
    assert_eq!(kept, unknown(1, 512, Some(511)));
    // Every number but 2 and 1, the last two from the origin, has the next as its provider.
    for x in 3..=512 {
        register.file(0, AsNumber(x), &numbers(&[x - 1])).unwrap();
    }
    let kept = keep(&register, 2, Role::Customer);
    assert_eq!(kept, unknown(512, 0, None));
    // Verdict and places of both.
    let words = |ledger: &Ledger| [6, 15].map(|at| ledger.words()[at..at + 3].to_vec());
    assert_eq!(words(&ledger), [[2, 1, 512], [2, 512, 0]]);
    register.file(0, AsNumber(2), &numbers(&[0])).unwrap();
    assert_eq!(ledger.rejudge(&register, &none), Ok(2));
    assert_eq!(words(&ledger), [[0, 0, 0], [1, 512, 0]]);
    let verdicts = ledger.routes().map(|route| route.verdict.to_string());
    assert!(verdicts.eq(["Valid", "Invalid 512 0"]));
    register.clear(0).unwrap();
    assert_eq!(ledger.rejudge(&register, &none), Ok(2));
    assert_eq!(words(&ledger), [[2, 1, 512], [2, 2, 0]]);
    let verdicts = ledger.routes().map(|route| route.verdict.to_string());
    assert!(verdicts.eq(["Unknown 1 512", "Unknown 2 0"]));
}

#[test]
fn whole_register() {
    let mut register = Register::new();
    assert_eq!(
        register.file(2, AsNumber(65010), &numbers(&[65001, 65002])),
        Ok(Filed::New)
    );
    assert_eq!(
        register.file(0, AsNumber(65010), &numbers(&[65003])),
        Ok(Filed::New)
    );
    let mut words = vec![2, 3, 65010, 0, 0, 1, 65010, 2, 1, 2, 65003, 65001, 65002];
    words.resize(REGISTER_WORDS, 0);
    assert_eq!(register.words(), words);
    assert_eq!(
        register.file(0, AsNumber(65010), &numbers(&[65004, 65005])),
        Ok(Filed::Replaced)
    );
    assert_eq!(register.withdraw(0, AsNumber(65010)), Ok(()));
    assert_eq!(refused(register.withdraw(0, AsNumber(65010))), (7, None));
    assert_eq!(register.clear(2), Ok(1));
    assert_eq!(register.clear(2), Ok(0));
    assert_eq!(register, Register::new());
}

#[test]
fn refused_filings_change_nothing() {
    let mut register = register_d();
    let before = register.clone();
    assert_eq!(
        refused(register.file(8, AsNumber(1), &numbers(&[2]))),
        (4, None)
    );
    assert_eq!(
        refused(register.file(0, AsNumber(0), &numbers(&[2]))),
        (5, None)
    );
    assert_eq!(refused(register.file(0, AsNumber(1), &[])), (6, None));
    assert_eq!(
        refused(register.file(0, AsNumber(1), &numbers(&[2, 2]))),
        (6, None)
    );
    assert_eq!(
        refused(register.file(0, AsNumber(10), &numbers(&[10, 20]))),
        (6, None)
    );
    assert_eq!(refused(register.clear(8)), (4, None));
    assert_eq!(register, before);

    let mut full = Register::new();
    for x in 1..=MOST_RECORDS as u32 {
        full.file(0, AsNumber(x), &numbers(&[x + 1])).unwrap();
    }
    let before = full.clone();
    assert_eq!(
        refused(full.file(0, AsNumber(2000), &numbers(&[1]))),
        (8, None)
    );
    assert_eq!(full, before);
}

#[test]
fn wrong_tables() {
    let mut short = Register::from_words(vec![0; REGISTER_WORDS - 1]);
    assert_eq!(refused(short.clear(0)), (1, None));
    let mut none = Register::from_words(vec![]);
    assert_eq!(refused(none.clear(0)), (1, None));
    let mut words = vec![0; REGISTER_WORDS];
    words[REGISTER_WORDS - 1] = 1;
    let damaged = Register::from_words(words);
    assert_eq!(refused(judge(&damaged, 1, &[20, 10])), (2, None));
    let mut words = vec![0; LEDGER_WORDS];
    words[1] = 1;
    let mut ledger = Ledger::from_words(words.clone());
    assert_eq!(refused(ledger.drop_route(RouteNumber(1))), (3, None));
    let good = Register::new();
    assert_eq!(refused(ledger.rejudge(&damaged, &good)), (2, None));
    assert_eq!(refused(ledger.rejudge(&good, &damaged)), (2, None));
    assert_eq!(refused(ledger.rejudge(&good, &good)), (3, None));
    assert_eq!(refused(ledger.rejudge(&damaged, &short)), (1, None));
    assert_eq!(refused(ledger.rejudge(&short, &damaged)), (1, None));
    assert_eq!(ledger.words(), words);
}

#[test]
fn kept_and_judged_again() {
    let (mut register, none) = (register_d(), Register::new());
    let mut ledger = Ledger::new();
    let path = [50, 20, 10];
    let kept = ledger.keep(
        &register,
        &none,
        RouteNumber(7),
        Role::Customer,
        AsNumber(50),
        &sequence(&path),
    );
    assert_eq!(kept, invalid(3, 0, None));
    assert_eq!(
        ledger.keep(
            &register,
            &none,
            RouteNumber(3),
            Role::Provider,
            AsNumber(9),
            &[]
        ),
        ground(Ground::Empty)
    );
    assert_eq!(
        refused(ledger.keep(
            &register,
            &none,
            RouteNumber(7),
            Role::Customer,
            AsNumber(50),
            &sequence(&path)
        )),
        (18, None)
    );
    let mut words = vec![
        2, 3, 3, 3, 9, 1, 1, 0, 0, 0, 0, 7, 1, 50, 0, 1, 3, 0, 0, 3, 50, 20, 10,
    ];
    words.resize(LEDGER_WORDS, 0);
    assert_eq!(ledger.words(), words);

    assert_eq!(ledger.rejudge(&register, &none), Ok(0));
    register.file(1, AsNumber(20), &numbers(&[50])).unwrap();
    assert_eq!(ledger.rejudge(&register, &none), Ok(1));
    assert_eq!(ledger.words()[15..18], [0, 0, 0]);
    register.withdraw(0, AsNumber(10)).unwrap();
    assert_eq!(ledger.rejudge(&register, &none), Ok(1));
    assert_eq!(ledger.words()[15..18], [2, 2, 0]);

    assert_eq!(ledger.drop_route(RouteNumber(3)), Ok(()));
    assert_eq!(refused(ledger.drop_route(RouteNumber(3))), (19, None));
    assert_eq!(ledger.drop_route(RouteNumber(7)), Ok(()));
    assert_eq!(ledger, Ledger::new());
}

/// Two registers serve several threads, and a table may be made in one and used in another.
#[test]
fn threads() {
    let register = std::thread::spawn(register_d).join().unwrap();
    let judged = std::thread::scope(|scope| {
        let threads = [1, 3].map(|role| {
            let register = &register;
            scope.spawn(move || judge(register, role, &[40, 20, 10]))
        });
        threads.map(|thread| thread.join().unwrap())
    });
    assert_eq!(judged, [valid(None), valid(Some(0))]);
}

/// A call on register D, a role, a path, and its answer before the call and after it. A network's first record leaves Valid and Invalid,
/// though a place or the gap may move; changes for a network that has a record may turn them.
const CHANGES: &str = "\
file 1 60 10 | 1 | 50 20 60 | Invalid 3 0 public - | Invalid 2 0 public -
dfile 1 60 10 | 1 | 50 20 60 | Invalid 3 0 public - | Invalid 2 0 drawer -
file 1 60 70 | 3 | 60 70 | Valid gap 1 | Valid gap 0
file 0 60 30 | 1 | 30 60 | Unknown 2 0 | Valid
file 0 60 20 | 1 | 30 60 | Unknown 2 0 | Invalid 2 0 public -
file 1 20 50 | 1 | 50 20 10 | Invalid 3 0 public - | Valid
withdraw 0 20 | 1 | 40 20 10 | Valid | Unknown 3 0
withdraw 0 20 | 1 | 50 20 10 | Invalid 3 0 public - | Unknown 3 0
file 0 20 40 50 | 1 | 40 20 10 | Valid | Valid
file 0 10 30 | 1 | 20 10 | Valid | Invalid 2 0 public -
dfile 0 10 30 | 1 | 20 10 | Valid | Invalid 2 0 drawer -
dfile 0 10 20 30 50 | 1 | 20 10 | Valid | Valid";

#[test]
fn records_that_come_and_go() {
    let words = |text: &str| -> Vec<u32> { text.split(' ').map(|w| w.parse().unwrap()).collect() };
    assert_eq!(CHANGES.lines().count(), 12);
    for line in CHANGES.lines() {
        let [call, role, path, before, after] = line.split(" | ").collect::<Vec<_>>()[..] else {
            panic!("{line}");
        };
        let (role, path) = (Role::try_from(words(role)[0]).unwrap(), words(path));
        let judged = |public: &Register, overrides: &Register| {
            let answer = public.judge(overrides, role, AsNumber(path[0]), &sequence(&path));
            answer.unwrap().to_string()
        };
        let (mut public, mut overrides) = (register_d(), Register::new());
        assert_eq!(judged(&public, &overrides), before, "{line}");
        let (call, arguments) = call.split_once(' ').unwrap();
        let arguments = words(arguments);
        let (source, customer, list) = (arguments[0], AsNumber(arguments[1]), &arguments[2..]);
        match call {
            "file" => assert!(public.file(source, customer, &numbers(list)).is_ok()),
            "dfile" => assert!(overrides.file(source, customer, &numbers(list)).is_ok()),
            _ => assert_eq!(public.withdraw(source, customer), Ok(())),
        }
        assert_eq!(judged(&public, &overrides), after, "{line}");
    }
}
