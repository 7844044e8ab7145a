use crate::attributes::{cut, hex, overlapping, segment, sequence, sequences, LONGEST_SEGMENT};
use crate::console::answer;
use crate::judge::{self, slow, Cause, Hop, Registers, Side, Verdict};
use crate::random::Random;
use crate::samples::{chain, doubled, spread, upto, REGISTER_D, SEAMS};
use crate::snapshot::{number_at, parts, with};
use crate::words::{padded, Form};
use crate::*;

/// Runs each command and compares its answer.
fn check(model: &mut Model, steps: &[(&str, &str)]) {
    for (command, expected) in steps {
        assert_eq!(answer(model, command.as_bytes()), *expected, "{command}");
    }
}

fn run(steps: &[(&str, &str)]) {
    check(&mut Model::new(), steps);
}

/// A path in as few sequences as hold it, as hex.
fn in_hex(path: &[u32]) -> String {
    hex(&sequence(path))
}

fn with_register_d() -> Model {
    let mut model = Model::new();
    for command in REGISTER_D {
        check(&mut model, &[(command, "new")]);
    }
    model
}

// The vectors, by hand

const VECTORS: [(&str, u32, u32, &[u32], &str); 12] = [
    ("A", 1, 20, &[20, 10], "Valid"),
    ("B", 1, 40, &[40, 20, 10], "Valid"),
    ("C", 1, 50, &[50, 20, 10], "Invalid 3 0 public -"),
    ("D", 2, 30, &[30, 60, 10], "Invalid 2 0 public -"),
    ("E", 1, 30, &[30, 60], "Unknown 2 0"),
    ("F", 3, 50, &[50, 40, 20, 10], "Valid gap 0"),
    ("G", 3, 20, &[20, 10, 30], "Unknown 1 3 gap 2"),
    ("H", 3, 20, &[20, 10, 40], "Invalid 2 2 public public gap 2"),
    ("I", 3, 50, &[50, 20], "Valid gap 1"),
    ("J", 6, 80, &[80, 70], "Valid gap -1"),
    ("K", 1, 30, &[20, 10], "Invalid ground 2"),
    ("L", 4, 30, &[20, 10], "Valid"),
];

#[test]
fn vectors_a_to_l() {
    let mut model = with_register_d();
    assert_eq!(in_hex(&[20, 10]), "0202000000140000000a");
    for (name, role, neighbour, path, expected) in VECTORS {
        let command = format!("judge {role} {neighbour} {}", in_hex(path));
        assert_eq!(answer(&mut model, command.as_bytes()), expected, "vector {name}");
    }
    check(&mut model, &[("ledger", "0 0")]);
    for (i, (name, role, neighbour, path, expected)) in VECTORS.iter().enumerate() {
        let command = format!("keep {} {role} {neighbour} {}", i + 1, in_hex(path));
        assert_eq!(answer(&mut model, command.as_bytes()), *expected, "vector {name}");
    }
    let entries = [
        "12 29", "1 1 20 0 0 0 0 0 2", "2 1 40 0 0 0 0 2 3", "3 1 50 0 1 3 0 5 3",
        "4 2 30 0 1 2 0 8 3", "5 1 30 0 2 2 0 11 2", "6 3 50 0 0 0 0 13 4", "7 3 20 0 2 1 3 17 3",
        "8 3 20 0 1 2 2 20 3", "9 3 50 0 0 0 0 23 2", "10 6 80 0 0 0 0 25 2",
        "11 1 30 2 1 0 0 27 0", "12 4 30 0 0 0 0 27 2",
    ];
    // The eleventh has a ground and no path.
    let paths =
        "20 10 40 20 10 50 20 10 30 60 10 30 60 50 40 20 10 20 10 30 20 10 40 50 20 80 70 20 10";
    let words = format!("{} {paths}", entries.join(" "));
    check(&mut model, &[("ledger", &words), ("rejudge", "changed 0"), ("ledger", &words)]);
}

#[test]
fn vectors_m_to_o() {
    let mut model = with_register_d();
    let g = format!("judge 3 20 {}", in_hex(&[20, 10, 30]));
    let b = format!("judge 1 40 {}", in_hex(&[40, 20, 10]));
    let c = format!("judge 1 50 {}", in_hex(&[50, 20, 10]));
    let o = hex(&sequences(&[&[20], &[20, 10]]));
    assert_eq!(o, "0201000000140202000000140000000a");
    check(
        &mut model,
        &[
            ("file 0 30 0", "new"),
            (&g, "Invalid 2 2 public public gap 2"),
            ("withdraw 0 30", "done"),
            (&g, "Unknown 1 3 gap 2"),
            ("file 1 20 50", "new"),
            (&c, "Valid"),
            (&b, "Valid"),
            ("withdraw 1 20", "done"),
            (&c, "Invalid 3 0 public -"),
            (&format!("judge 1 20 {o}"), "Valid"),
            (&format!("keep 15 1 20 {o}"), "Valid"),
            ("ledger", "1 2 15 1 20 0 0 0 0 0 2 20 10"),
            ("rejudge", "changed 0"),
        ],
    );
}

#[test]
fn whole_register() {
    let mut model = Model::new();
    check(
        &mut model,
        &[
            ("file 2 65010 65001 65002", "new"),
            ("file 0 65010 65003", "new"),
            ("register", "2 3 65010 0 0 1 65010 2 1 2 65003 65001 65002"),
            ("words register", "12290 2 3 65010 0 0 1 65010 2 1 2 65003 65001 65002"),
        ],
    );
    let words = model.register.words();
    assert_eq!(words.len(), 12_290);
    assert_eq!(words[13..].len(), 12_277);
    assert!(words[13..].iter().all(|w| *w == 0));
    assert_eq!(Records::LENGTH, 12_290);
    assert_eq!(Routes::LENGTH, 12_802);
}

// Reading

#[test]
fn faults_by_place() {
    let cases: [(&str, &str); 30] = [
        ("-", "Invalid ground 1"),
        ("02", "refused 12 at 0"),
        ("00", "refused 12 at 0"),
        ("03", "refused 12 at 0"),
        ("05", "refused 12 at 0"),
        ("0300", "refused 14 at 0"),
        ("0400", "refused 14 at 0"),
        ("0000", "refused 13 at 0"),
        ("0509", "refused 13 at 0"),
        ("ff00", "refused 13 at 0"),
        ("0200", "refused 15 at 0"),
        ("0100", "refused 15 at 0"),
        ("020000000014", "refused 15 at 0"),
        ("0201", "refused 12 at 0"),
        ("0201000000", "refused 12 at 0"),
        ("020200000000000000", "refused 12 at 0"),
        ("020100000000", "refused 16 at 2"),
        ("02020000001400000000", "refused 16 at 6"),
        ("02020000000000000000", "refused 16 at 2"),
        ("010100000000", "refused 16 at 2"),
        // a fault on the left goes first, whatever its row
        ("02010000000002", "refused 16 at 2"),
        ("02010000001402", "refused 12 at 6"),
        ("0201000000140300", "refused 14 at 6"),
        ("0201000000140500", "refused 13 at 6"),
        ("0201000000140200", "refused 15 at 6"),
        ("0201000000140202000000010000", "refused 12 at 6"),
        ("02010000001402020000000100000000", "refused 16 at 12"),
        // grounds come after the whole reading
        ("01010000001402", "refused 12 at 6"),
        ("01010000000103010000000a", "refused 14 at 6"),
        ("02010000006303", "refused 12 at 6"),
    ];
    for (bytes, expected) in cases {
        run(&[(&format!("judge 1 20 {bytes}"), expected)]);
        run(&[(&format!("keep 7 1 20 {bytes}"), expected)]);
    }
}

#[test]
fn first_fault_of_joined_attributes() {
    let mut random = Random::new(11);
    let part = |random: &mut Random| {
        let mut bytes = Vec::new();
        for _ in 0..random.below(3) {
            let kind = random.pick(&[1, 2, 2, 2, 2, 2, 0, 3, 4, 5]);
            let numbers: Vec<u32> = (0..random.below(4)).map(|_| random.below(9) as u32).collect();
            bytes.extend(segment(kind, &numbers));
        }
        let cut = if random.percent(30) { random.below(bytes.len() + 1) } else { bytes.len() };
        bytes.truncate(cut);
        bytes
    };
    for _ in 0..20_000 {
        let (a, b) = (part(&mut random), part(&mut random));
        let joined = [a.clone(), b.clone()].concat();
        match (judge::read(&a), judge::read(&b), judge::read(&joined)) {
            (Ok(left), Ok(right), whole) => assert_eq!(whole, Ok([left, right].concat())),
            (Ok(_), Err(fault), whole) => {
                let place = fault.place.unwrap() + a.len();
                assert_eq!(whole, Err(Refusal::at(fault.row, place)));
            }
            // Only a segment cut short may be made whole by what follows.
            (Err(fault), _, whole) => assert!(fault.row == 12 || whole == Err(fault)),
        }
    }
}

#[test]
fn grounds_in_order() {
    let mut model = with_register_d();
    let of = |parts: &[(u8, &[u32])]| {
        let bytes: Vec<u8> = parts.iter().flat_map(|(k, n)| segment(*k, n)).collect();
        hex(&bytes)
    };
    let set_first = of(&[(1, &[20]), (2, &[99])]);
    let stranger_and_set = of(&[(2, &[99]), (1, &[20])]);
    let set_last = of(&[(2, &[20]), (1, &[10])]);
    let long = in_hex(&upto(513));
    let long_set = format!("{long}{}", of(&[(1, &[3])]));
    for (role, neighbour, bytes, expected) in [
        (4, 20, "-", "Invalid ground 1"),
        (3, 20, "-", "Invalid ground 1"),
        (1, 20, &set_first[..], "Invalid ground 3"),
        (1, 77, &set_first, "Invalid ground 3"),
        (1, 20, &stranger_and_set, "Invalid ground 2"),
        (4, 20, &stranger_and_set, "Invalid ground 3"),
        (6, 20, &set_last, "Invalid ground 3"),
        (3, 21, &set_last, "Invalid ground 2"),
        // a ground goes before row 17
        (1, 1, &long_set, "Invalid ground 3"),
        (1, 2, &long_set, "Invalid ground 2"),
        (1, 2, &long, "Invalid ground 2"),
        (4, 2, &long, "refused 17"),
        (1, 1, &long, "refused 17"),
    ] {
        check(&mut model, &[(&format!("judge {role} {neighbour} {bytes}"), expected)]);
    }
}

/// Judges in an empty register, where the answer to role 3 tells how many numbers are left.
fn judged(role: u32, neighbour: u32, attribute: &[u8]) -> String {
    answer(&mut Model::new(), format!("judge {role} {neighbour} {}", hex(attribute)).as_bytes())
}

#[test]
fn path_lengths() {
    for (length, downstream) in [
        (1, "Valid gap 0"),
        (2, "Valid gap 1"),
        (63, "Unknown 1 63 gap 62"),
        (64, "Unknown 1 64 gap 63"),
        (65, "Unknown 1 65 gap 64"),
        (254, "Unknown 1 254 gap 253"),
        (255, "Unknown 1 255 gap 254"),
        (256, "Unknown 1 256 gap 255"),
        (257, "Unknown 1 257 gap 256"),
        (511, "Unknown 1 511 gap 510"),
        (512, "Unknown 1 512 gap 511"),
        (513, "refused 17"),
        (1_021, "refused 17"),
    ] {
        let upstream = match length {
            1 => "Valid",
            513.. => "refused 17",
            _ => "Unknown 2 0",
        };
        let path = sequence(&upto(length));
        for (role, expected) in [(1, upstream), (3, downstream), (4, upstream), (6, downstream)] {
            assert_eq!(judged(role, 1, &path), expected, "{length}");
        }
        // a ground goes before row 17
        assert_eq!(judged(3, 9, &path), "Invalid ground 2");
        if length <= 513 {
            assert_eq!(judged(4, 9, &[path, segment(1, &[1])].concat()), "Invalid ground 3");
        }
    }
    assert_eq!(judged(1, 7, &sequence(&[7, 7, 7])), "Valid");
    // 1,020 numbers, 512 of them left; then the last one again, and another
    let twice = sequence(&doubled(512, 508));
    assert_eq!(twice.len(), 4 * 1_022);
    let longest = "Unknown 1 512 gap 511";
    for (behind, expected) in [(&[][..], longest), (&[512], longest), (&[511], "refused 17")] {
        assert_eq!(judged(3, 1, &[twice.clone(), sequence(behind)].concat()), expected);
    }
}

#[test]
fn segments_hold_255() {
    let full = sequence(&upto(255));
    assert_eq!((full.len(), full[1]), (1_022, 255));
    assert_eq!(sequence(&upto(256))[1_022..], [2, 1, 0, 0, 1, 0]);
    assert_eq!(sequence(&upto(512)).len(), 3 * 2 + 4 * 512);
    for (last, expected) in [(512, "Unknown 1 512 gap 511"), (513, "refused 17")] {
        for sizes in [&[255, 255][..], &[2, 255, 255], &[255, 2, 255], &[1; 512], &[2; 256]] {
            assert_eq!(judged(3, 1, &sequences(&cut(&upto(last), sizes))), expected, "{sizes:?}");
        }
        // a run over the end of each segment, of 255 numbers or fewer
        for step in [2, 253, 254] {
            assert_eq!(judged(3, 1, &overlapping(last, step)), expected, "{step}");
        }
    }
    let equal = [7; 255];
    assert_eq!(judged(3, 7, &sequences(&[&equal])), "Valid gap 0");
    assert_eq!(judged(3, 7, &sequences(&[&equal[..]; 4])), "Valid gap 0");
    assert_eq!(judged(3, 7, &sequences(&[&equal, &[8], &equal])), "Unknown 1 3 gap 2");
    // of another type, alone and behind a full sequence
    for (kind, first, second) in [
        (0, "refused 13 at 0", "refused 13 at 1022"),
        (1, "Invalid ground 3", "Invalid ground 3"),
        (3, "refused 14 at 0", "refused 14 at 1022"),
        (4, "refused 14 at 0", "refused 14 at 1022"),
    ] {
        let other = segment(kind, &upto(255));
        assert_eq!(judged(1, 1, &other), first);
        assert_eq!(judged(1, 1, &[full.clone(), other].concat()), second);
    }
    // a count of one fewer leaves a header of zeros, one of one more a short segment
    let count = |numbers: u32, count: u8| {
        let mut bytes = sequence(&upto(numbers));
        bytes[1] = count;
        bytes
    };
    assert_eq!(judged(1, 1, &count(255, 254)), "refused 13 at 1018");
    assert_eq!(judged(1, 1, &count(254, 255)), "refused 12 at 0");
    assert_eq!(judged(1, 1, &full[..1_021]), "refused 12 at 0");
}

#[test]
#[should_panic(expected = "a count fits one byte")]
fn no_segment_of_256() {
    segment(2, &upto(256));
}

/// Six segments of 1,021 numbers: 12 + 4,084 bytes.
#[test]
fn longest_attributes() {
    let most = |left: usize| sequences(&cut(&spread(left, 1_021), &[255, 255, 255, 254, 1]));
    for (left, expected) in [
        (1, "Valid gap 0"),
        (2, "Valid gap 1"),
        (511, "Unknown 1 511 gap 510"),
        (512, "Unknown 1 512 gap 511"),
        (513, "refused 17"),
    ] {
        assert_eq!(most(left).len(), 4_096);
        assert_eq!(judged(3, 1, &most(left)), expected);
        assert_eq!(judged(3, 1, &[most(left), vec![2]].concat()), "refused 11");
    }
    // a byte more hides a ground and a fault
    let mut set = most(513);
    set[0] = 1;
    assert_eq!(judged(1, 1, &set), "Invalid ground 3");
    assert_eq!(judged(1, 1, &[set, vec![0]].concat()), "refused 11");
    assert_eq!(judged(1, 2, &most(513)), "Invalid ground 2");
    assert_eq!(judged(1, 2, &[most(513), vec![0]].concat()), "refused 11");
    assert_eq!(judged(1, 7, &[0; 4_096]), "refused 13 at 0");
    assert_eq!(judged(1, 7, &[0; 4_097]), "refused 11");
    // the last number begins at 4,092
    let mut zero = most(3);
    zero[4_095] = 0;
    assert_eq!(judged(1, 1, &zero), "refused 16 at 4092");
    // four full segments are 4,088 bytes, six bytes more a fifth
    let full = sequence(&spread(3, 1_020));
    for (end, expected) in [
        (&[2, 1, 0, 0, 0, 3][..], "Unknown 1 3 gap 2"),
        (&[2, 1, 0, 0, 0, 3, 2], "refused 12 at 4094"),
        (&[2, 1, 0, 0, 0, 3, 2, 1], "refused 12 at 4094"),
        (&[2, 1, 0, 0, 0, 3, 0, 0], "refused 13 at 4094"),
        (&[2, 1, 0, 0, 0, 3, 4, 0], "refused 14 at 4094"),
        (&[2, 1, 0, 0, 0, 3, 2, 0], "refused 15 at 4094"),
        (&[2, 1, 0, 0, 0, 0, 2, 0], "refused 16 at 4090"),
        (&[2, 2, 0, 0, 0, 0, 0, 0], "refused 12 at 4088"),
        (&[2, 1, 0, 0, 0, 0, 2, 0, 0], "refused 11"),
    ] {
        assert_eq!(judged(3, 1, &[&full, end].concat()), expected);
    }
    // 682 segments of one number are 4,092 bytes
    for (segments, expected) in [(682, "Valid gap 0"), (683, "refused 11")] {
        assert_eq!(judged(3, 7, &sequences(&vec![&[7][..]; segments])), expected);
    }
    // 2 + 4 * 200 + 2 + 4 * 55 = 1,024 bytes, once the most
    let once = sequences(&[&[7; 200], &[8; 55]]);
    assert_eq!(once.len(), 1_024);
    assert_eq!(judged(3, 7, &once), "Valid gap 1");
    assert_eq!(judged(3, 7, &[once, vec![2]].concat()), "refused 12 at 1024");
    assert_eq!(judged(3, 7, &[0; 1_025]), "refused 13 at 0");
}

#[test]
fn runs_go_on_over_boundaries() {
    let many: Vec<&[u32]> = [vec![&[20][..]; 40], vec![&[10]]].concat();
    let cases: [(&[&[u32]], &[u32]); 20] = [
        (&[&[20], &[20, 10]], &[20, 10]),
        (&[&[20], &[20], &[20, 10]], &[20, 10]),
        (&[&[20, 20], &[20, 20, 10], &[10]], &[20, 10]),
        (&[&[30, 10], &[10, 10], &[10, 20]], &[30, 10, 20]),
        (&many, &[20, 10]),
        // a segment that vanishes whole, at the end, in the middle, all but the first number
        (&[&[20, 10], &[10]], &[20, 10]),
        (&[&[20, 10], &[10], &[10, 10], &[30]], &[20, 10, 30]),
        (&[&[20], &[20]], &[20]),
        (&[&[20, 20], &[20], &[20, 20]], &[20]),
        // the number before the boundary counts, and no other
        (&[&[20, 10], &[20]], &[20, 10, 20]),
        (&[&[20, 10], &[20, 10]], &[20, 10, 20, 10]),
        (&[&[20], &[10], &[20]], &[20, 10, 20]),
        (&[&[20, 10, 30], &[10, 30]], &[20, 10, 30, 10, 30]),
        (&[&[20, 10], &[10], &[20]], &[20, 10, 20]),
        // nothing to merge
        (&[&[50], &[40], &[20], &[10]], &[50, 40, 20, 10]),
        (&[&[50, 40], &[20, 10]], &[50, 40, 20, 10]),
        // numbers that differ in one byte
        (&[&[20], &[276], &[20]], &[20, 276, 20]),
        (&[&[20], &[65_556], &[20]], &[20, 65_556, 20]),
        (&[&[20], &[16_777_236], &[20]], &[20, 16_777_236, 20]),
        (&[&[u32::MAX], &[u32::MAX], &[u32::MAX - 1]], &[u32::MAX, u32::MAX - 1]),
    ];
    for (parts, path) in cases {
        let bytes = sequences(parts);
        let numbers: Vec<AsNumber> = path.iter().map(|n| AsNumber(*n)).collect();
        assert_eq!(judge::merged(&judge::read(&bytes).unwrap()), numbers, "{parts:?}");
        // every role judges and keeps it as one sequence of the merged numbers
        for role in 1..=6 {
            let neighbour = if role == 4 { 99 } else { path[0] };
            let [mut cut, mut whole] = [with_register_d(), with_register_d()];
            for call in ["judge", "keep 7"] {
                let line = |hex: &str| format!("{call} {role} {neighbour} {hex}");
                let expected = answer(&mut whole, line(&in_hex(path)).as_bytes());
                check(&mut cut, &[(&line(&hex(&bytes)), &expected)]);
            }
            assert!(same_words(&cut, &whole));
        }
    }
}

/// Numbers cut into sequences anyhow give the path that they give in one.
#[test]
fn cuts_do_not_matter() {
    let mut random = Random::new(12);
    let mut over = 0;
    for _ in 0..5_000 {
        let length = random.pick(&[1, 2, 3, 5, 8, 20, 100, 255, 256, 700]);
        let numbers: Vec<u32> = (0..length).map(|_| random.between(1, 3) as u32).collect();
        let mut parts: Vec<Vec<u32>> = vec![Vec::new()];
        let often = random.pick(&[0, 5, 30, 90]);
        for (i, number) in numbers.iter().enumerate() {
            let full = parts[parts.len() - 1].len() == LONGEST_SEGMENT;
            if full || (i > 0 && random.percent(often)) {
                parts.push(Vec::new());
                over += usize::from(*number == numbers[i - 1]);
            }
            parts.last_mut().unwrap().push(*number);
        }
        let parts: Vec<&[u32]> = parts.iter().map(Vec::as_slice).collect();
        let mut path: Vec<AsNumber> = Vec::new();
        for number in &numbers {
            if path.last().is_none_or(|last| last.0 != *number) {
                path.push(AsNumber(*number));
            }
        }
        for bytes in [sequence(&numbers), sequences(&parts)] {
            assert_eq!(judge::merged(&judge::read(&bytes).unwrap()), path);
        }
    }
    assert!(over > 5_000, "{over}");
}

#[test]
fn bounds_over_boundaries() {
    let each = |parts: &[Vec<u32>]| -> Vec<u8> { parts.iter().flat_map(|p| sequence(p)).collect() };
    for (last, expected) in [(512, "Unknown 1 512 gap 511"), (513, "refused 17")] {
        // the last number before a cut again behind it
        for cut in [1, 2, 64, 254, 255, 256, 511, 512] {
            let two = each(&[upto(cut), (cut..=last).collect()]);
            assert_eq!(judged(3, 1, &two), expected);
            assert_eq!(judged(3, 2, &two), "Invalid ground 2");
        }
        // segments of one, 160 of their numbers twice; the ends in many segments
        let ones: Vec<Vec<u32>> = doubled(last, 160).iter().map(|n| vec![*n]).collect();
        assert_eq!(judged(3, 1, &each(&ones)), expected);
        assert_eq!(judged(3, 1, &each(&[vec![vec![1]; 60], vec![upto(last)]].concat())), expected);
        assert_eq!(
            judged(3, 1, &each(&[vec![upto(last)], vec![vec![last]; 60]].concat())),
            expected
        );
    }
    // pairs that overlap: 409 are 4,090 bytes
    assert_eq!(judged(3, 1, &overlapping(410, 1)), "Unknown 1 410 gap 409");
    assert_eq!(judged(3, 1, &overlapping(411, 1)), "refused 11");
}

/// A set between equal numbers, and faults behind a run: as without merging.
#[test]
fn grounds_and_faults_beside_runs() {
    let mut model = with_register_d();
    let run = sequences(&[&[20], &[20, 20], &[20, 10]]);
    assert_eq!(run.len(), 26);
    for (role, neighbour, tail, expected) in [
        (1, 20, "", "Valid"),
        (4, 99, "", "Valid"),
        (1, 10, "", "Invalid ground 2"),
        (1, 20, "01010000000a", "Invalid ground 3"),
        (4, 20, "01010000000a02010000000a", "Invalid ground 3"),
        (1, 99, "01010000000a02010000000a", "Invalid ground 2"),
        (1, 20, "02", "refused 12 at 26"),
        (1, 20, "0203", "refused 12 at 26"),
        (1, 20, "0500", "refused 13 at 26"),
        (1, 20, "03010000000a", "refused 14 at 26"),
        (1, 20, "0200", "refused 15 at 26"),
        (1, 20, "020100000000", "refused 16 at 28"),
        (1, 20, "02020000000a00000000", "refused 16 at 32"),
        (1, 99, "02010000000a02010000000a02", "refused 12 at 38"),
    ] {
        let line = format!("judge {role} {neighbour} {}{tail}", hex(&run));
        check(&mut model, &[(&line, expected)]);
    }
    let set = [segment(2, &[20]), segment(1, &[20]), segment(2, &[20, 10])].concat();
    check(&mut model, &[(&format!("judge 1 20 {}", hex(&set)), "Invalid ground 3")]);
}

/// Over the numbers 1 to 512, each of which lists both its neighbours: n is AS(513 - n).
#[test]
fn widest_gaps() {
    let path = in_hex(&upto(512));
    let filings = chain(512);
    let mut model = Model::new();
    for filing in &filings {
        check(&mut model, &[(filing, "new")]);
    }
    assert_eq!((&filings[0][..], &filings[255][..]), ("file 3 1 2", "file 3 256 255 257"));
    for (changes, upstream, downstream, [verdict, a, b]) in [
        (&[][..], "Valid", "Valid gap -511", [0, 0, 0]),
        // one ramp or both end before the path does
        (&["file 3 511 510"], "Valid", "Valid gap -510", [0, 0, 0]),
        (&["file 3 2 3"], "Invalid 512 0 public -", "Valid gap -510", [0, 0, 0]),
        (&["file 3 511 510", "file 3 2 3"], "Invalid 512 0 public -", "Valid gap -509", [0, 0, 0]),
        // no providers
        (&["file 3 2 0"], "Invalid 512 0 public -", "Valid gap 0", [0, 0, 0]),
        (&["file 3 512 0"], "Invalid 2 0 public -", "Valid gap 0", [0, 0, 0]),
        (&["file 3 256 0", "file 3 257 0"], "Invalid 257 0 public -", "Valid gap 1", [0, 0, 0]),
        (
            &["file 3 255 0", "file 3 257 0"],
            "Invalid 257 0 public -",
            "Invalid 257 257 public public gap 2",
            [1, 257, 257],
        ),
        (
            &["file 3 256 0", "file 3 258 0"],
            "Invalid 256 0 public -",
            "Invalid 256 256 public public gap 2",
            [1, 256, 256],
        ),
        (
            &["file 3 1 0", "file 3 3 0"],
            "Invalid 511 0 public -",
            "Invalid 511 511 public public gap 2",
            [1, 511, 511],
        ),
        (
            &["file 3 510 0", "file 3 512 0"],
            "Invalid 2 0 public -",
            "Invalid 2 2 public public gap 2",
            [1, 2, 2],
        ),
        (
            &["file 3 1 0", "file 3 512 0"],
            "Invalid 2 0 public -",
            "Invalid 2 511 public public gap 511",
            [1, 2, 511],
        ),
        // no record
        (&["withdraw 3 2"], "Unknown 512 0", "Valid gap 0", [0, 0, 0]),
        (
            &["withdraw 3 1", "withdraw 3 3"],
            "Unknown 511 0",
            "Unknown 510 512 gap 2",
            [2, 510, 512],
        ),
        (&["withdraw 3 1", "withdraw 3 512"], "Unknown 2 0", "Unknown 1 512 gap 511", [2, 1, 512]),
        (&["withdraw 3 1", "withdraw 3 511"], "Unknown 3 0", "Unknown 2 512 gap 510", [2, 2, 512]),
    ] {
        let mut model = model.clone();
        check(&mut model, &[(&format!("keep 7 3 1 {path}"), "Valid gap -511")]);
        for change in changes {
            assert_ne!(answer(&mut model, change.as_bytes()), "error");
        }
        for (role, expected) in [(1, upstream), (4, upstream), (3, downstream), (6, downstream)] {
            check(&mut model, &[(&format!("judge {role} 1 {path}"), expected)]);
        }
        // kept under these records, and judged again
        let changed = if verdict == 0 { "changed 0" } else { "changed 1" };
        check(&mut model, &[(&format!("keep 8 6 1 {path}"), downstream), ("rejudge", changed)]);
        let words = model.ledger.used_words();
        assert_eq!(words[..2], [2, 1_024]);
        assert_eq!(
            words[2..20],
            [7, 3, 1, 0, verdict, a, b, 0, 512, 8, 6, 1, 0, verdict, a, b, 512, 512]
        );
        assert_eq!(words[20..], [upto(512), upto(512)].concat());
    }
}

// Refusals

#[test]
fn refusals_in_order() {
    let list = |n: usize| (2..).take(n).map(|i| format!(" {i}")).collect::<String>();
    let long = "02".repeat(4_097);
    let five = in_hex(&[5]);
    let many = in_hex(&upto(513));
    run(&[
        ("file 8 0", "refused 4"),
        ("file 7 0", "refused 5"),
        ("file 7 1", "refused 6"),
        ("file 7 1 2 2", "refused 6"),
        ("file 7 1 3 2", "refused 6"),
        (&format!("file 7 1{}", list(257)), "refused 6"),
        (&format!("file 7 1{}", list(256)), "new"),
        ("file 7 1 0", "replaced"),
        ("file 6 1 0 4294967295", "new"),
        ("withdraw 8 0", "refused 4"),
        ("withdraw 4294967295 1", "refused 4"),
        ("withdraw 7 0", "refused 5"),
        ("withdraw 7 2", "refused 7"),
        ("withdraw 5 1", "refused 7"),
        ("withdraw 7 1", "done"),
        ("withdraw 7 1", "refused 7"),
        ("clear 8", "refused 4"),
        ("clear 7", "cleared 0"),
        ("clear 6", "cleared 1"),
        (&format!("judge 0 0 {long}"), "refused 9"),
        (&format!("judge 7 1 {five}"), "refused 9"),
        (&format!("judge 6 0 {long}"), "refused 10"),
        ("judge 4 0 -", "refused 10"),
        (&format!("judge 6 1 {long}"), "refused 11"),
        (&format!("keep 9 0 0 {long}"), "refused 9"),
        (&format!("keep 9 1 0 {long}"), "refused 10"),
        (&format!("keep 9 1 1 {long}"), "refused 11"),
        (&format!("keep 9 1 5 {five}"), "Valid"),
        (&format!("keep 9 1 1 {long}"), "refused 11"),
        ("keep 9 1 5 02", "refused 12 at 0"),
        (&format!("keep 9 1 1 {many}"), "refused 17"),
        (&format!("keep 9 1 5 {five}"), "refused 18"),
        ("keep 9 1 5 -", "refused 18"),
        ("drop 8", "refused 19"),
        ("drop 9", "done"),
        ("drop 9", "refused 19"),
        ("register", "0 0"),
        ("ledger", "0 0"),
    ]);
}

/// A list of `length` consecutive numbers, `before` of them below the customer.
fn around(customer: u32, before: usize, length: usize) -> Vec<u32> {
    (customer - before as u32..).take(length).collect()
}

fn words_of(list: &[u32]) -> String {
    list.iter().map(|number| format!(" {number}")).collect()
}

#[test]
fn no_list_holds_its_customer() {
    let mut model = Model::new();
    for (length, befores) in
        [(1, &[0][..]), (2, &[0, 1]), (3, &[0, 1, 2]), (256, &[0, 1, 127, 128, 254, 255])]
    {
        for before in befores {
            let own = around(300, *before, length);
            let before = model.clone();
            check(&mut model, &[(&format!("file 2 300{}", words_of(&own)), "refused 6")]);
            assert!(same_words(&model, &before));
            // right for another customer, and without the customer
            check(&mut model, &[(&format!("file 2 1000{}", words_of(&own)), "new")]);
            let other: Vec<u32> = own.iter().map(|n| if *n < 300 { *n } else { n + 1 }).collect();
            check(
                &mut model,
                &[
                    (&format!("file 2 300{}", words_of(&other)), "new"),
                    ("withdraw 2 300", "done"),
                    ("withdraw 2 1000", "done"),
                ],
            );
        }
    }
    run(&[
        ("file 0 1 1", "refused 6"),
        ("file 0 1 0 1", "refused 6"),
        ("file 0 4294967295 4294967295", "refused 6"),
        ("file 0 4294967295 0 7 4294967295", "refused 6"),
        ("file 0 4294967295 0 7 4294967294", "new"),
        // 4 and 5 go first, other faults of a list are the same row
        ("file 0 0 0", "refused 5"),
        ("file 8 7 7", "refused 4"),
        ("file 8 0 0", "refused 4"),
        ("file 0 7 7 7", "refused 6"),
        ("file 0 7 8 7", "refused 6"),
        ("file 0 7 7 6", "refused 6"),
        (&format!("file 0 7{}", words_of(&around(7, 3, 257))), "refused 6"),
        // each list for itself: two numbers that list each other, other sources' lists
        ("file 0 5 6", "new"),
        ("file 0 6 5", "new"),
        ("file 1 5 5", "refused 6"),
        ("file 1 5 4 5 6", "refused 6"),
        ("file 0 5 5", "refused 6"),
        ("file 1 5 6", "new"),
        ("register", "4 6 5 0 0 1 5 1 1 1 6 0 2 1 4294967295 0 3 3 6 6 5 0 7 4294967294"),
    ]);
}

/// Each poke puts the customer into one list, and breaks no other rule.
#[test]
fn a_register_with_an_own_customer() {
    let mut sound = Model::new();
    check(
        &mut sound,
        &[
            ("file 0 10 9 11 12", "new"),
            ("file 0 20 18 19 22", "new"),
            ("file 3 20 21 22 23", "new"),
            ("file 7 30 28 31 32", "new"),
            ("keep 7 4 5 -", "Invalid ground 1"),
            (
                "register",
                "4 12 10 0 0 3 20 0 3 3 20 3 6 3 30 7 9 3 9 11 12 18 19 22 21 22 23 28 31 32",
            ),
        ],
    );
    let file = written(&mut sound.clone());
    for (index, value) in [
        // the customer becomes a number of the list: first, between, last
        (2, 9),
        (2, 11),
        (2, 12),
        (6, 18),
        (6, 19),
        (10, 21),
        (10, 22),
        (10, 23),
        (14, 28),
        (14, 31),
        (14, 32),
        // a number of the list becomes the customer
        (18, 10),
        (19, 10),
        (22, 20),
        (23, 20),
        (24, 20),
        (27, 30),
        (28, 30),
    ] {
        let mut model = sound.clone();
        let old = model.register.words()[index];
        check(&mut model, &[(&format!("poke register {index} {value}"), "done")]);
        assert!(!model.register.well_formed());
        let poked = model.clone();
        check(
            &mut model,
            &[
                ("file 9 0", "refused 2"),
                ("file 1 40 41", "refused 2"),
                ("withdraw 0 10", "refused 2"),
                ("clear 0", "refused 2"),
                ("judge 1 5 -", "refused 2"),
                ("keep 8 1 5 -", "refused 2"),
                ("rejudge", "refused 2"),
                ("write 131072", "refused 2"),
            ],
        );
        // as a snapshot: over sound tables, and over these, which stay
        let own = with(&file, &[(5 + index, value)]);
        assert_eq!(row(model.read(&own)), 2);
        assert!(same_words(&model, &poked));
        let mut other = small_tables();
        assert_eq!(row(other.read(&own)), 2);
        assert_eq!(row(other.read(&with(&own, &[(5 + 30, 9)]))), 2);
        assert_eq!(row(other.read(&own[..own.len() - 1])), 24);
        assert!(same_words(&other, &small_tables()));
        assert_eq!(row(other.read(&file)), 0);
        assert!(same_words(&other, &sound));
        // a read doesn't look at what the register was
        let mut read = poked.clone();
        assert_eq!(row(read.read(&file)), 0);
        assert!(same_words(&read, &sound));
        // mended
        check(
            &mut model,
            &[
                ("drop 7", "done"),
                (&format!("poke register {index} {old}"), "done"),
                ("rejudge", "changed 0"),
                ("file 1 40 41", "new"),
            ],
        );
    }
    // other words for these customers and lists are no fault
    for (index, value) in
        [(2, 10), (2, 13), (6, 17), (10, 24), (14, 29), (18, 8), (22, 21), (29, 33)]
    {
        let mut model = sound.clone();
        check(&mut model, &[(&format!("poke register {index} {value}"), "done")]);
        assert!(model.rejudge().is_ok(), "{index} {value}");
        let input = with(&file, &[(5 + index, value)]);
        assert_eq!(row(Model::new().read(&input)), 0, "{index} {value}");
    }
    // lists of 256, of two sources
    let mut model = Model::new();
    for (source, list) in [around(301, 0, 256), around(299, 255, 256)].iter().enumerate() {
        check(&mut model, &[(&format!("file {source} 300{}", words_of(list)), "new")]);
    }
    for (index, old) in [(10, 301), (10 + 511, 299)] {
        check(
            &mut model,
            &[
                (&format!("poke register {index} 300"), "done"),
                ("rejudge", "refused 2"),
                (&format!("poke register {index} {old}"), "done"),
                ("rejudge", "changed 0"),
            ],
        );
    }
}

#[test]
fn table_refusals_in_order() {
    run(&[
        // both lengths go before row 2
        ("poke register 0 4294967295", "done"),
        ("resize ledger 12801", "done"),
        ("keep 1 9 0 -", "refused 1"),
        ("rejudge", "refused 1"),
        ("drop 1", "refused 1"),
        ("judge 9 0 02", "refused 2"),
        ("file 9 0", "refused 2"),
        ("withdraw 9 0", "refused 2"),
        ("clear 9", "refused 2"),
        // both damaged: 2
        ("resize ledger 12802", "done"),
        ("poke ledger 12801 1", "done"),
        ("keep 1 9 0 -", "refused 2"),
        ("rejudge", "refused 2"),
        ("drop 1", "refused 3"),
        // the ledger alone
        ("poke register 0 0", "done"),
        ("keep 1 9 0 -", "refused 3"),
        ("rejudge", "refused 3"),
        ("judge 1 5 -", "Invalid ground 1"),
        ("file 0 1 2", "new"),
        ("clear 0", "cleared 1"),
        // the register's length does not touch a drop
        ("empty", "done"),
        ("keep 1 1 5 -", "Invalid ground 1"),
        ("resize register 0", "done"),
        ("words register", "0"),
        ("judge 1 5 -", "refused 1"),
        ("file 0 1 2", "refused 1"),
        ("withdraw 0 1", "refused 1"),
        ("clear 0", "refused 1"),
        ("keep 2 1 5 -", "refused 1"),
        ("rejudge", "refused 1"),
        ("drop 1", "done"),
        ("resize register 16384", "done"),
        ("judge 1 5 -", "refused 1"),
        ("words register", "16384"),
        ("resize register 16385", "error"),
        ("poke register 16384 0", "error"),
        ("resize register 12290", "done"),
        ("judge 1 5 -", "Invalid ground 1"),
    ]);
}

#[test]
fn a_poked_table_is_read_again() {
    let mut model = with_register_d();
    let g = format!("keep 4294967295 3 20 {}", in_hex(&[20, 10, 30]));
    let words = "1 3 4294967295 3 20 0 2 1 3 0 3 20 10 30";
    check(
        &mut model,
        &[
            (&g, "Unknown 1 3 gap 2"),
            ("ledger", words),
            // an untrue verdict is no damage
            ("poke ledger 6 0", "done"),
            ("poke ledger 7 512", "done"),
            ("poke ledger 8 512", "done"),
            ("drop 0", "refused 19"),
            ("ledger", "1 3 4294967295 3 20 0 0 512 512 0 3 20 10 30"),
            ("rejudge", "changed 1"),
            ("rejudge", "changed 0"),
            ("ledger", words),
            ("poke ledger 7 513", "done"),
            ("rejudge", "refused 3"),
            ("words ledger", "12802 1 3 4294967295 3 20 0 2 513 3 0 3 20 10 30"),
            ("poke ledger 7 1", "done"),
            // the provider 30 of 10 becomes 31, and the number 30 of the path 31 too
            ("poke register 27 31", "done"),
            ("poke ledger 13 31", "done"),
            ("rejudge", "changed 0"),
            (
                "register",
                "6 7 10 0 0 2 20 0 2 1 40 0 3 1 50 0 4 1 70 0 5 1 80 0 6 1 20 31 40 0 40 80 70",
            ),
            // shrinking takes words, growing gives zeros
            ("resize ledger 13", "done"),
            ("words ledger", "13 1 3 4294967295 3 20 0 2 1 3 0 3 20 10"),
            ("resize ledger 12802", "done"),
            ("words ledger", "12802 1 3 4294967295 3 20 0 2 1 3 0 3 20 10"),
            ("rejudge", "refused 3"),
            ("poke ledger 13 5", "done"),
            ("rejudge", "changed 0"),
        ],
    );
}

/// Each poke alone, on sound tables, is refused by the row, or is no damage.
#[test]
fn word_rules() {
    let mut sound = with_register_d();
    check(
        &mut sound,
        &[
            ("file 1 10 7", "new"),
            ("register", "7 8 10 0 0 2 10 1 2 1 20 0 3 1 40 0 4 1 50 0 5 1 70 0 6 1 80 0 7 1 20 30 7 40 0 40 80 70"),
            (&format!("keep 3 1 20 {}", in_hex(&[20, 10])), "Valid"),
            ("keep 5 4 9 -", "Invalid ground 1"),
            (&format!("keep 6 4 30 {}", in_hex(&[20, 10])), "Valid"),
            ("ledger", "3 4 3 1 20 0 0 0 0 0 2 5 4 9 1 1 0 0 2 0 6 4 30 0 0 0 0 2 2 20 10 20 10"),
        ],
    );
    let damaged = [
        // counts
        "register 0 8", "register 0 6", "register 0 1025", "register 0 4294967295", "register 1 7",
        "register 1 9", "register 1 8193", "register 1 4294967295",
        // customer, source, start, count
        "register 2 0", "register 2 11", "register 3 1", "register 3 2", "register 7 0",
        "register 7 8", "register 4 1", "register 8 1", "register 5 1", "register 5 0",
        "register 5 257", "register 5 4294967295", "register 9 0",
        // lists, zeros to the end
        "register 31 20", "register 31 19", "register 30 30", "register 38 1", "register 12289 1",
        // ledger
        "ledger 0 2", "ledger 0 4", "ledger 0 513", "ledger 0 4294967295", "ledger 1 3",
        "ledger 1 8193", "ledger 2 5", "ledger 2 6", "ledger 11 3", "ledger 3 0", "ledger 3 7",
        "ledger 4 0", "ledger 4 21", "ledger 13 0", "ledger 22 0", "ledger 5 1", "ledger 5 4",
        "ledger 14 0", "ledger 14 2", "ledger 14 4", "ledger 6 3", "ledger 15 0", "ledger 15 2",
        "ledger 16 1", "ledger 17 1", "ledger 7 513", "ledger 8 513", "ledger 9 1", "ledger 18 0",
        "ledger 18 1", "ledger 10 1", "ledger 10 0", "ledger 10 512", "ledger 10 513",
        "ledger 19 1", "ledger 29 21", "ledger 29 0", "ledger 30 0", "ledger 32 0", "ledger 33 1",
        "ledger 12801 1", "ledger 21 1", // equal neighbours
        "ledger 30 20", "ledger 31 10", "ledger 32 20",
    ];
    let harmless = [
        "register 2 1", "register 3 0", "register 26 4294967295", "register 32 0",
        "register 31 4294967295", "register 30 0", "register 34 3", "register 7 7", "ledger 2 0",
        "ledger 2 4", "ledger 20 4294967295", "ledger 6 2", "ledger 7 64", "ledger 7 65",
        "ledger 7 512", "ledger 8 65", "ledger 8 512", "ledger 13 1", "ledger 14 3", "ledger 12 1",
        "ledger 22 1", "ledger 31 1", "ledger 32 9", "ledger 30 21", "ledger 3 6", "ledger 3 4",
    ];
    for poke in damaged {
        let mut model = sound.clone();
        let row = if poke.starts_with("register") { "refused 2" } else { "refused 3" };
        check(&mut model, &[(&format!("poke {poke}"), "done"), ("rejudge", row)]);
        let words = model.clone();
        check(&mut model, &[("keep 1 1 1 -", row)]);
        assert_eq!(model.register.words(), words.register.words());
        assert_eq!(model.ledger.words(), words.ledger.words());
    }
    for poke in harmless {
        let mut model = sound.clone();
        check(&mut model, &[(&format!("poke {poke}"), "done")]);
        assert!(model.rejudge().is_ok(), "{poke}");
    }
}

fn with_seams() -> Model {
    let mut model = with_register_d();
    for (route, role, neighbour, path) in SEAMS {
        let line = format!("keep {route} {role} {neighbour} {}", in_hex(path));
        let answer = answer(&mut model, line.as_bytes());
        assert!(!answer.starts_with("refused"), "{answer}");
    }
    model
}

#[test]
fn equal_numbers_of_two_paths() {
    let mut model = with_seams();
    let file = written(&mut model);
    let words = model.ledger.used_words();
    assert_eq!(words[65..], [20, 10, 30, 40, 40, 20, 10, 50, 50, 10, 20, 20, 20, 20, 10, 40, 30]);
    model.ledger = Table::Words(model.ledger.words());
    assert!(model.ledger.well_formed());
    check(&mut model, &[("rejudge", "changed 0")]);
    let mut read = Model::new();
    assert_eq!(row(read.read(&file)), 0);
    assert!(same_words(&read, &model));
    // each route gone in turn
    for (route, ..) in SEAMS {
        let mut model = with_seams();
        check(&mut model, &[(&format!("drop {route}"), "done")]);
        model.ledger = Table::Words(model.ledger.words());
        check(&mut model, &[("rejudge", "changed 0")]);
    }
    // the first number of the first path is the word before it
    run(&[
        (&format!("keep 1 1 2 {}", in_hex(&[2, 3])), "Unknown 2 0"),
        ("poke ledger 12 4", "done"),
        ("rejudge", "changed 0"),
        ("ledger", "1 2 1 1 2 0 2 2 0 0 2 2 4"),
    ]);
}

/// Each poke makes two neighbours of one path equal, and breaks no other rule.
#[test]
fn a_ledger_with_equal_neighbours() {
    let sound = with_seams();
    let file = written(&mut sound.clone());
    let ledger_at = parts(&file)[0].len() + 5;
    for (index, value) in [
        // the first path: first pair, middle, last pair, from both sides
        (66, 20),
        (66, 30),
        (67, 10),
        (67, 40),
        (68, 30),
        // a middle one
        (70, 40),
        (70, 10),
        (71, 50),
        (72, 10),
        // from a route server, whose first number is free
        (73, 10),
        (74, 50),
        (74, 20),
        (75, 10),
        // the last one
        (79, 20),
        (79, 40),
        (80, 10),
        (80, 30),
        (81, 40),
    ] {
        let mut model = sound.clone();
        let old = model.ledger.words()[index];
        check(&mut model, &[(&format!("poke ledger {index} {value}"), "done")]);
        assert!(!model.ledger.well_formed());
        let poked = model.clone();
        check(
            &mut model,
            &[
                ("keep 9 9 0 02", "refused 3"),
                ("keep 12 1 5 -", "refused 3"),
                ("drop 5", "refused 3"),
                ("drop 99", "refused 3"),
                ("rejudge", "refused 3"),
                ("write 0", "refused 3"),
                ("write 131072", "refused 3"),
            ],
        );
        // as a snapshot: over sound tables, and over these, which stay
        let equal = with(&file, &[(ledger_at + index, value)]);
        assert_eq!(row(model.read(&equal)), 3);
        assert!(same_words(&model, &poked));
        let mut other = small_tables();
        assert_eq!(row(other.read(&equal)), 3);
        assert_eq!(row(other.read(&with(&equal, &[(5, 9)]))), 2);
        assert_eq!(row(other.read(&equal[..equal.len() - 1])), 24);
        assert!(same_words(&other, &small_tables()));
        assert_eq!(row(other.read(&file)), 0);
        assert!(same_words(&other, &sound));
        // a read doesn't look at what the ledger was
        let mut read = poked.clone();
        assert_eq!(row(read.read(&file)), 0);
        assert!(same_words(&read, &sound));
        // calls that are lent the register alone; then mended
        check(
            &mut model,
            &[
                ("file 1 60 61", "new"),
                ("judge 1 5 -", "Invalid ground 1"),
                ("withdraw 1 60", "done"),
                ("clear 1", "cleared 0"),
                (&format!("poke ledger {index} {old}"), "done"),
                ("rejudge", "changed 0"),
                ("drop 5", "done"),
            ],
        );
    }
    // other numbers, equal ones of two paths among them, are no fault
    for (index, value) in
        [(68, 20), (66, 40), (72, 20), (73, 40), (73, 20), (75, 50), (70, 30), (81, 1), (81, 276)]
    {
        let mut model = sound.clone();
        check(&mut model, &[(&format!("poke ledger {index} {value}"), "done")]);
        assert!(model.rejudge().is_ok(), "{index} {value}");
        let input = with(&file, &[(ledger_at + index, value)]);
        assert_eq!(row(Model::new().read(&input)), 0, "{index} {value}");
    }
}

/// Where one path ends and the next begins decides whose neighbours two numbers are.
#[test]
fn equal_neighbours_by_the_counts() {
    run(&[
        (&format!("keep 1 1 20 {}", in_hex(&[20, 10])), "Unknown 2 0"),
        (&format!("keep 2 4 5 {}", in_hex(&[10, 30])), "Unknown 2 0"),
        ("rejudge", "changed 0"),
        // the second path's first number goes to the first path
        ("poke ledger 10 3", "done"),
        ("poke ledger 18 3", "done"),
        ("poke ledger 19 1", "done"),
        ("rejudge", "refused 3"),
        ("words ledger", "12802 2 4 1 1 20 0 2 2 0 0 3 2 4 5 0 2 2 0 3 1 20 10 10 30"),
        // another number there, with which the next path begins too
        ("poke ledger 22 30", "done"),
        ("rejudge", "changed 1"),
        ("ledger", "2 4 1 1 20 0 2 2 0 0 3 2 4 5 0 0 0 0 3 1 20 10 30 30"),
        // both of them in the next path
        ("poke ledger 10 1", "done"),
        ("poke ledger 18 1", "done"),
        ("poke ledger 19 3", "done"),
        ("rejudge", "refused 3"),
        ("poke ledger 23 10", "done"),
        ("rejudge", "changed 2"),
        ("ledger", "2 4 1 1 20 0 0 0 0 0 1 2 4 5 0 2 2 0 1 3 20 10 30 10"),
    ]);
}

// Room

#[test]
fn room_in_the_register() {
    let mut model = Model::new();
    for customer in 1..=1_024 {
        let command = format!("file {} {customer} 3000", customer % 8);
        check(&mut model, &[(&command, "new")]);
    }
    check(
        &mut model,
        &[
            ("file 0 1025 5", "refused 8"),
            ("file 0 1025 1025", "refused 6"),
            ("file 0 1 5", "refused 8"),
            ("file 0 1 0 1", "refused 6"),
            ("file 1 1 5 6 7", "replaced"),
            ("file 1 1025", "refused 6"),
            ("withdraw 1 1", "done"),
            ("file 0 1025 5", "new"),
            ("file 1 1 5", "refused 8"),
            ("clear 3", "cleared 128"),
            ("clear 3", "cleared 0"),
            ("file 3 3 5", "new"),
        ],
    );
    let mut model = Model::new();
    let list = |n: usize| (100..).take(n).map(|i| format!(" {i}")).collect::<String>();
    for customer in 1..=32 {
        check(&mut model, &[(&format!("file 0 {customer}{}", list(256)), "new")]);
    }
    check(
        &mut model,
        &[
            ("file 0 33 5", "refused 8"),
            ("file 0 33 33", "refused 6"),
            (&format!("file 0 32{}", list(256)), "replaced"),
            (&format!("file 0 32 32{}", list(255)), "refused 6"),
            (&format!("file 0 32{}", list(255)), "replaced"),
            ("file 0 33 5 6", "refused 8"),
            ("file 0 33 5 33", "refused 6"),
            ("file 0 33 5", "new"),
            (&format!("file 0 32{}", list(256)), "refused 8"),
            ("withdraw 0 33", "done"),
            (&format!("file 0 32{}", list(256)), "replaced"),
        ],
    );
}

#[test]
fn room_in_the_ledger() {
    let mut model = Model::new();
    for route in 0..512 {
        check(&mut model, &[(&format!("keep {route} 1 5 -"), "Invalid ground 1")]);
    }
    let five = in_hex(&[5]);
    check(
        &mut model,
        &[
            ("keep 512 1 5 -", "refused 20"),
            (&format!("keep 512 1 5 {five}"), "refused 20"),
            (&format!("keep 511 1 5 {five}"), "refused 18"),
            ("drop 0", "done"),
            (&format!("keep 512 1 5 {five}"), "Valid"),
            ("keep 513 1 5 -", "refused 20"),
        ],
    );
}

/// 8,192 numbers, in paths of 64 and of 512.
#[test]
fn a_ledger_full_of_paths() {
    let [one, two, many] = [&upto(1), &upto(2), &upto(513)].map(|path| in_hex(path));
    for (length, routes, next, longer) in
        [(64, 128, [128, 129, 130], "refused 20"), (512, 16, [16, 17, 18], "refused 17")]
    {
        let mut model = Model::new();
        let path = in_hex(&upto(length));
        for route in 0..routes {
            check(&mut model, &[(&format!("keep {route} 1 1 {path}"), "Unknown 2 0")]);
        }
        let keep = |route: u32, attribute: &str| format!("keep {route} 1 1 {attribute}");
        check(
            &mut model,
            &[
                (&keep(next[0], &one), "refused 20"),
                (&keep(next[0], &many), "refused 17"),
                (&keep(3, &one), "refused 18"),
                // a ground needs no body word
                (&keep(next[1], "-"), "Invalid ground 1"),
                (&format!("keep {} 1 9 {path}", next[2]), "Invalid ground 2"),
                ("drop 3", "done"),
                (&keep(next[0], &one), "Valid"),
                (&keep(3, &path), "refused 20"),
                (&format!("drop {}", next[0]), "done"),
                (&keep(3, &many), "refused 17"),
                // the last number again, in a segment of its own, needs no body word
                (&keep(3, &format!("{path}{}", in_hex(&[length - 1]))), longer),
                (&keep(3, &format!("{path}{}", in_hex(&[length]))), "Unknown 2 0"),
                (&keep(next[0], &one), "refused 20"),
                // a number fewer is room for one
                ("drop 5", "done"),
                (&keep(5, &in_hex(&upto(length - 1))), "Unknown 2 0"),
                (&keep(next[0], &two), "refused 20"),
                (&keep(next[0], &one), "Valid"),
                // all but the one that hasn't this number, and the one of one number
                (&format!("file 0 {length} 7"), "new"),
                ("rejudge", &format!("changed {}", routes - 1)),
                ("rejudge", "changed 0"),
            ],
        );
        let words = model.ledger.words();
        assert_eq!(words[..2], [routes + 3, 8_192]);
        assert!(Routes::well_formed(&words));
        let mut read = Model::new();
        assert_eq!(read.read(&written(&mut model)), Ok(()));
        assert!(same_words(&read, &model));
    }
}

/// By pokes and as snapshots: places and counts of 512, and of one more.
#[test]
fn bounds_in_the_words() {
    let words = |count: u32, a: u32, b: u32| {
        [vec![1, count, 7, 3, 1, 0, 2, a, b, 0, count], upto(count)].concat()
    };
    for (count, a, b, expected) in [
        (1, 0, 512, 0),
        (64, 64, 65, 0),
        (65, 512, 512, 0),
        (511, 1, 511, 0),
        (512, 512, 512, 0),
        (512, 1, 513, 3),
        (512, 513, 512, 3),
        (513, 1, 512, 3),
        (8_192, 1, 512, 3),
    ] {
        let ledger = words(count, a, b);
        let mut read = small_tables();
        assert_eq!(row(read.read(&snapshot::file(&[0, 0], &ledger))), expected, "{count} {a} {b}");
        assert_eq!(read.ledger.used_words() == ledger, expected == 0);
        let mut poked = Model::new();
        for (index, word) in ledger.iter().enumerate() {
            assert!(poked.ledger.poke(index, *word));
        }
        assert_eq!(row(poked.rejudge()), expected, "{count} {a} {b}");
    }
}

// Re-judging

#[test]
fn rejudging_counts_changed_entries() {
    let two = in_hex(&[20, 10]);
    let j = in_hex(&[80, 70]);
    run(&[
        (&format!("keep 1 1 20 {two}"), "Unknown 2 0"),
        (&format!("keep 2 1 30 {two}"), "Invalid ground 2"),
        (&format!("keep 3 6 80 {j}"), "Valid gap 1"),
        ("file 0 10 20", "new"),
        ("rejudge", "changed 1"),
        ("rejudge", "changed 0"),
        ("file 0 70 80", "new"),
        // a changed gap alone is no change
        (&format!("judge 6 80 {j}"), "Valid gap 0"),
        ("rejudge", "changed 0"),
        ("file 0 10 30", "replaced"),
        ("rejudge", "changed 1"),
        ("ledger", "3 4 1 1 20 0 1 2 0 0 2 2 1 30 2 1 0 0 2 0 3 6 80 0 0 0 0 2 2 20 10 80 70"),
        // another source's list joins, it does not replace
        ("file 4 10 20", "new"),
        ("rejudge", "changed 1"),
        ("ledger", "3 4 1 1 20 0 0 0 0 0 2 2 1 30 2 1 0 0 2 0 3 6 80 0 0 0 0 2 2 20 10 80 70"),
    ]);
}

// Snapshots

/// Two records and two routes: 13 and 22 words, a file of 20 + 52 + 88 bytes.
const SMALL: [(&str, &str); 4] = [
    ("file 2 65010 65001 65002", "new"),
    ("file 0 65010 65003", "new"),
    ("keep 7 1 20 0202000000140000000a", "Unknown 2 0"),
    ("keep 9 4 5 -", "Invalid ground 1"),
];

fn small_tables() -> Model {
    let mut model = Model::new();
    check(&mut model, &SMALL);
    model
}

fn written(model: &mut Model) -> Vec<u8> {
    let mut output = vec![0; 131_072];
    let length = model.write(&mut output).unwrap();
    output.truncate(length);
    output
}

/// The row that refuses, 0 for none.
fn row<T>(result: Result<T, Refusal>) -> u8 {
    result.map_or_else(|refusal| refusal.row, |_| 0)
}

fn same_words(one: &Model, other: &Model) -> bool {
    one.register.words() == other.register.words()
        && one.overrides.words() == other.overrides.words()
        && one.ledger.words() == other.ledger.words()
}

#[test]
fn snapshots_by_hand() {
    let empty = "0000000100000014000000080000001c0000000800000000000000000000000000000000";
    run(&[
        ("write 0", "refused 21"),
        ("write 35", "refused 21"),
        ("write 36", &format!("written 36 {empty}")),
        ("write 37", &format!("written 36 {empty}")),
        ("write 131072", &format!("written 36 {empty}")),
        ("write 131073", "error"),
        (&format!("read {empty}"), "done"),
        ("words register", "12290"),
        ("words ledger", "12802"),
    ]);
    let contents = "00000001 00000014 00000034 00000048 00000058";
    let register = "00000002 00000003 0000fdf2 00000000 00000000 00000001 0000fdf2 00000002 \
                    00000001 00000002 0000fdeb 0000fde9 0000fdea";
    let ledger = "00000002 00000002 00000007 00000001 00000014 00000000 00000002 00000002 \
                  00000000 00000000 00000002 00000009 00000004 00000005 00000001 00000001 \
                  00000000 00000000 00000002 00000000 00000014 0000000a";
    let file = format!("{contents}{register}{ledger}").replace(' ', "");
    let mut model = small_tables();
    let after = model.clone();
    check(
        &mut model,
        &[
            ("write 159", "refused 21"),
            ("write 160", &format!("written 160 {file}")),
            ("write 161", &format!("written 160 {file}")),
            ("empty", "done"),
            (&format!("read {file}"), "done"),
        ],
    );
    assert!(same_words(&model, &after));
}

#[test]
fn writing_in_order() {
    let mut model = small_tables();
    check(
        &mut model,
        &[
            // both lengths go before row 2
            ("poke register 0 4294967295", "done"),
            ("resize ledger 12801", "done"),
            ("write 0", "refused 1"),
            ("write 131072", "refused 1"),
            ("resize ledger 12803", "done"),
            ("write 131072", "refused 1"),
            ("resize ledger 12802", "done"),
            ("poke ledger 0 4294967295", "done"),
            ("write 0", "refused 2"),
            ("poke register 0 2", "done"),
            ("write 0", "refused 3"),
            ("write 131072", "refused 3"),
            ("poke ledger 0 2", "done"),
            ("write 159", "refused 21"),
            ("resize register 12291", "done"),
            ("write 159", "refused 1"),
            ("resize register 12289", "done"),
            ("write 160", "refused 1"),
            ("resize register 12290", "done"),
        ],
    );
    let file = written(&mut small_tables());
    assert_eq!(written(&mut model), file);
    // a refused write leaves the output, an accepted one what is past the file
    for length in 0..170 {
        let mut output = vec![0xa5; length];
        if length < 160 {
            assert_eq!(model.write(&mut output), Err(Refusal::row(21)));
            assert_eq!(output, vec![0xa5; length]);
        } else {
            assert_eq!(model.write(&mut output), Ok(160));
            assert_eq!(output, [file.clone(), vec![0xa5; length - 160]].concat());
        }
    }
    for poke in ["register 12289 1", "ledger 12801 1"] {
        let mut model = small_tables();
        check(&mut model, &[(&format!("poke {poke}"), "done")]);
        let mut output = vec![0xa5; 200];
        assert!(model.write(&mut output).is_err());
        assert_eq!(output, vec![0xa5; 200]);
    }
    // other words, still well formed, are the ones written
    check(&mut model, &[("poke register 10 0", "done"), ("poke ledger 7 512", "done")]);
    assert_eq!(written(&mut model), with(&file, &[(15, 0), (25, 512)]));
}

/// Each row of a read given beside all those after it.
#[test]
fn reading_in_order() {
    let file = written(&mut small_tables());
    let mut model = Model::new();
    let mut expect = |input: &[u8], expected: u8| {
        let before = model.clone();
        assert_eq!(row(model.read(input)), expected, "{}", hex(input));
        assert!(expected == 0 || same_words(&model, &before));
    };
    for length in 0..20 {
        expect(&file[..length], 24);
        expect(&vec![0xff; length], 24);
        expect(&vec![0; length], 24);
    }
    for edition in [0, 2, 3, 256, 257, 65_537, 1 << 24, (1 << 24) + 1, u32::MAX] {
        let worse = with(&file, &[(0, edition), (1, 0), (4, 3), (5, 9), (18, 9)]);
        for input in [&with(&file, &[(0, edition)]), &worse, &worse[..20], &worse[..159]] {
            expect(input, 22);
        }
    }
    let both = with(&file, &[(5, 9), (18, 9)]);
    let wrong = with(&both, &[(4, 90)]);
    for input in [&wrong, &wrong[..20], &wrong[..159], &[&wrong[..], &[0]].concat()] {
        expect(input, 23);
    }
    for input in [&both[..20], &both[..156], &both[..159], &[&both[..], &[0]].concat()] {
        expect(input, 24);
    }
    for more in [1, 2, 3, 4, 20, 160] {
        expect(&[file.clone(), vec![0; more]].concat(), 24);
    }
    expect(&both, 2);
    expect(&with(&file, &[(18, 9)]), 3);
    expect(&file, 0);
    // row 1 goes before them all, and speaks of the lent tables alone
    for resize in [
        "resize register 12289", "resize register 12291", "resize register 0",
        "resize ledger 12801", "resize ledger 12803", "resize ledger 0",
    ] {
        let mut model = small_tables();
        check(
            &mut model,
            &[("poke register 0 9", "done"), (resize, "done"), ("read -", "refused 1")],
        );
        let before = model.clone();
        for input in [&file[..], &[], &both, &wrong, &with(&file, &[(0, 2)])] {
            assert_eq!(row(model.read(input)), 1, "{resize}");
            assert!(same_words(&model, &before));
        }
    }
}

#[test]
fn contents_of_a_snapshot() {
    let file = written(&mut small_tables());
    const TOP: u32 = u32::MAX;
    let one = |field: usize, values: &[u32], expected: u8| {
        values.iter().map(|v| (vec![(field, *v)], expected)).collect::<Vec<_>>()
    };
    // the register's length, with the second start to match or as near as four bytes come
    let longer = |values: &[u32], expected: u8| {
        let fields = |v: &u32| (vec![(2, *v), (3, v.wrapping_add(20))], expected);
        values.iter().map(fields).collect::<Vec<_>>()
    };
    let cases = [
        one(1, &[0, 8, 16, 19, 21, 24, 72, 20 << 24, TOP], 23),
        one(2, &[0, 4, 7, 8, 9, 48, 51, 53, 56, 49_160, 49_164, TOP], 23),
        one(3, &[0, 20, 68, 71, 73, 76, 72 << 24, TOP], 23),
        one(4, &[0, 4, 7, 9, 87, 89, 51_209, 51_212, 88 << 24, 1 << 31, TOP - 3, TOP], 23),
        one(4, &[8, 84, 92, 51_204, 51_208], 24),
        longer(&[0, 4, 7, 9, 51, 53, 49_161, 49_164, 1 << 31, TOP - 19, TOP - 7, TOP - 3, TOP], 23),
        longer(&[8, 48, 56, 49_156, 49_160], 24),
        // the two lengths make the file's whole, the seam is elsewhere
        vec![(vec![(2, 56), (3, 76), (4, 84)], 2), (vec![(2, 48), (3, 68), (4, 92)], 2)],
        vec![(vec![(2, 54), (3, 74), (4, 86)], 23), (vec![(2, 140), (3, 160), (4, 0)], 23)],
        // and so by sums that wrap round
        vec![
            (vec![(2, TOP - 3), (3, 16), (4, 144)], 23),
            (vec![(2, 144), (3, 164), (4, TOP - 3)], 23),
        ],
        // the ledger in front
        vec![(vec![(1, 108), (2, 52), (3, 20), (4, 88)], 23)],
    ];
    for (fields, expected) in cases.concat() {
        let input = with(&file, &fields);
        assert_eq!(row(Model::new().read(&input)), expected, "{fields:?}");
        // by the contents alone, whatever follows them
        let short = if expected == 23 { 23 } else { 24 };
        assert_eq!(row(Model::new().read(&input[..20])), short, "{fields:?}");
    }
    // a gap that the contents tell of is a wrong start
    let gap = [&with(&file, &[(3, 76)])[..72], &[0; 4], &file[72..]].concat();
    assert_eq!(row(Model::new().read(&gap)), 23);
    // low byte first, all of it or the bodies alone
    let low: Vec<u8> = file.chunks(4).flat_map(|n| n.iter().rev().copied()).collect();
    assert_eq!(row(Model::new().read(&low)), 22);
    assert_eq!(row(Model::new().read(&[&file[..20], &low[20..]].concat())), 2);
    assert_eq!(row(Model::new().read(&[&file[..72], &low[72..]].concat())), 3);
}

/// The file with other words of its register (part 0) or ledger (part 1).
fn with_part(file: &[u8], part: usize, words: &[u32]) -> Vec<u8> {
    let mut parts = parts(file);
    parts[part] = words.to_vec();
    snapshot::file(&parts[0], &parts[1])
}

#[test]
fn lengths_unlike_the_counts() {
    let mut model = small_tables();
    let file = written(&mut model);
    let tables = [model.register.used_words(), model.ledger.used_words()];
    for (part, damaged) in [(0, 2), (1, 3)] {
        let words = &tables[part];
        let expect = |words: &[u32], expected: u8| {
            let input = with_part(&file, part, words);
            assert_eq!(row(Model::new().read(&input)), expected, "{part} {words:?}");
        };
        expect(words, 0);
        // zeros that the table has too, but not among its used words
        expect(&[&words[..], &[0]].concat(), damaged);
        expect(&[&words[..], &[0; 100]].concat(), damaged);
        expect(&words[..words.len() - 1], damaged);
        expect(&words[..2], damaged);
        expect(&[0, 0], 0);
        expect(&[0, 0, 0], damaged);
        expect(&padded(vec![0, 0], [12_290, 12_802][part]), damaged);
        expect(&padded(words.clone(), [12_290, 12_802][part]), damaged);
        // used words that are zero, and so would be there without the file
        let zeros = [&[1, 1, 5, 0, 0, 1, 0][..], &[1, 0, 7, 4, 5, 1, 1, 0, 0, 0, 0]][part];
        expect(zeros, 0);
        for length in [6, 7][part]..zeros.len() {
            expect(&zeros[..length], damaged);
        }
        for counts in snapshot::WRAPPING_COUNTS {
            expect(&counts, damaged);
        }
    }
}

#[test]
fn snapshots_of_random_tables_are_read_back() {
    let mut random = Random::new(9);
    let mut earlier = Model::new();
    for _ in 0..300 {
        let mut model = Model {
            register: Table::Held(random_records_of(&mut random, 200, 60, 9)),
            overrides: Table::Held(random_records_of(&mut random, 9, 60, 9)),
            ledger: Table::Held(random_routes(&mut random)),
        };
        let file = written(&mut model);
        let used = model.register.used_words().len() + model.ledger.used_words().len();
        assert_eq!(file.len(), 20 + 4 * used);
        // into any tables of the right lengths, damaged ones too
        match random.below(4) {
            0 => {
                earlier.register.poke(random.below(12_290), random.draw() as u32);
                earlier.ledger.poke(random.below(12_802), random.draw() as u32);
            }
            1 => {
                earlier.register = Table::Words(vec![u32::MAX; 12_290]);
                earlier.ledger = Table::Words(vec![u32::MAX; 12_802]);
            }
            2 => earlier = Model::new(),
            _ => {}
        }
        // the overrides stay, of whatever length and words
        match random.below(4) {
            0 => earlier.overrides = model.overrides.clone(),
            1 => earlier.overrides.resize(random.below(13_000)),
            _ => {}
        }
        model.overrides = earlier.overrides.clone();
        assert_eq!(earlier.read(&file), Ok(()));
        assert!(same_words(&earlier, &model));
        assert_eq!(written(&mut earlier), file);
    }
}

#[test]
fn a_full_snapshot() {
    let list = |first: u32| (first..first + 8).map(AsNumber).collect::<Vec<_>>();
    let mut model = Model::new();
    for customer in 1..=1_024 {
        model.register.file(customer % 8, AsNumber(customer), &list(customer + 1)).unwrap();
    }
    for route in 0..512 {
        let path: Vec<u32> = (route + 1..=route + 16).collect();
        model.keep(RouteNumber(route), 1, AsNumber(route + 1), &sequence(&path)).unwrap();
    }
    let file = written(&mut model);
    assert_eq!(file.len(), 100_388);
    assert_eq!(&file[8..20], [[0, 0, 192, 8], [0, 0, 192, 28], [0, 0, 200, 8]].concat());
    assert_eq!(row(model.write(&mut vec![0; 100_387])), 21);
    let mut other = small_tables();
    assert_eq!(row(other.read(&file[..100_387])), 24);
    assert_eq!(row(other.read(&[&file[..], &[0]].concat())), 24);
    assert_eq!(row(other.read(&with(&file, &[(25_096, 0)]))), 3);
    assert_eq!(row(other.read(&with(&file, &[(12_294, 1)]))), 2);
    assert!(same_words(&other, &small_tables()));
    assert_eq!(other.read(&file), Ok(()));
    assert!(same_words(&other, &model));
}

/// A read leaves verdicts as the file has them, and a re-judging mends them.
#[test]
fn stale_verdicts_in_a_snapshot() {
    let mut model = small_tables();
    check(&mut model, &[("file 0 10 20", "new")]);
    let read = format!("read {}", hex(&written(&mut model)));
    let stale = "2 2 7 1 20 0 2 2 0 0 2 9 4 5 1 1 0 0 2 0 20 10";
    check(
        &mut model,
        &[
            ("empty", "done"),
            (&read, "done"),
            ("ledger", stale),
            ("rejudge", "changed 1"),
            ("ledger", "2 2 7 1 20 0 0 0 0 0 2 9 4 5 1 1 0 0 2 0 20 10"),
            ("rejudge", "changed 0"),
            (&read, "done"),
            ("ledger", stale),
            // the tables go on from there
            ("withdraw 0 10", "done"),
            ("withdraw 0 10", "refused 7"),
            ("rejudge", "changed 0"),
            ("keep 7 1 20 -", "refused 18"),
            ("drop 9", "done"),
        ],
    );
}

/// The rows of a read by another way: each by itself, and of those given the
/// first in the order of the calls.
fn rows_of_a_read(input: &[u8]) -> u8 {
    let number = |index: usize| -> i128 {
        let bytes = input.iter().skip(4 * index).take(4);
        bytes.fold(0, |high, low| high * 256 + i128::from(*low))
    };
    let (length, [first, second]) = (input.len() as i128, [number(2), number(4)]);
    let starts = number(1) == 20 && number(3) - number(2) == 20;
    let lengths = [first, second].iter().all(|n| *n > 7 && n & 3 == 0);
    let tables = first < 49_161 && second < 51_209;
    let part = |start: i128, length: i128, entry: i128, whole: usize| {
        let (start, words) = (start as usize / 4, length as usize / 4);
        let exact = number(start) * entry + number(start + 1) + 2 == words as i128;
        let words = (start..start + words).map(|index| number(index) as u32).collect();
        (exact, padded(words, whole))
    };
    let register = || {
        let (exact, words) = part(20, first, 4, 12_290);
        exact && register_by_rewriting(&words)
    };
    let ledger = || {
        let (exact, words) = part(20 + first, second, 9, 12_802);
        exact && ledger_by_rewriting(&words)
    };
    let rows: [(u8, &dyn Fn() -> bool); 6] = [
        (24, &|| length < 20),
        (22, &|| number(0) != 1),
        (23, &|| !(starts && lengths && tables)),
        (24, &|| length - first - second != 20),
        (2, &|| !register()),
        (3, &|| !ledger()),
    ];
    rows.iter().find(|(_, given)| given()).map_or(0, |(row, _)| *row)
}

fn damaged_snapshot(random: &mut Random, file: &[u8]) -> Vec<u8> {
    let mut file = file.to_vec();
    for _ in 0..random.pick(&[1, 1, 1, 2, 3]) {
        let length = file.len();
        match random.below(8) {
            0 if length > 0 => file[random.below(length)] = random.draw() as u8,
            1 if length > 0 => file.swap(random.below(length), random.below(length)),
            2 => file.truncate(random.below(length + 1)),
            3 => file.resize(length + random.pick(&[1, 2, 3, 4, 8]), 0),
            4 if length >= 20 => {
                let index = random.below(5);
                let steps = [1, 4, 1u32.wrapping_neg(), 4u32.wrapping_neg(), 1 << 31];
                let number = number_at(&file, index).wrapping_add(random.pick(&steps));
                file = with(&file, &[(index, number)]);
            }
            5 if length >= 24 => {
                let index = random.between(5, length / 4 - 1);
                let steps = [1, 1u32.wrapping_neg(), 2, 64];
                let number = number_at(&file, index).wrapping_add(random.pick(&steps));
                file = with(&file, &[(index, number)]);
            }
            6 if [0, 2, 3].contains(&rows_of_a_read(&file)) => {
                // one word more or less, and contents to match
                let part = random.below(2);
                let mut words = parts(&file)[part].clone();
                if random.percent(50) {
                    words.push(random.pick(&[0, 0, 1]));
                } else {
                    words.pop();
                }
                file = with_part(&file, part, &words);
            }
            _ => {}
        }
    }
    file
}

#[test]
fn damaged_snapshots_by_another_way() {
    let mut random = Random::new(10);
    let mut seen = std::collections::BTreeMap::new();
    let mut model = Model::new();
    for _ in 0..6_000 {
        let mut tables = Model {
            register: Table::Held(random_records_of(&mut random, 6, 6, 4)),
            ledger: Table::Held(random_routes(&mut random)),
            ..Model::new()
        };
        let mut file = written(&mut tables);
        if random.percent(95) {
            file = damaged_snapshot(&mut random, &file);
        }
        let before = model.clone();
        let row = row(model.read(&file));
        assert_eq!(row, rows_of_a_read(&file), "{}", hex(&file));
        if row == 0 {
            assert_eq!(written(&mut model), file);
        } else {
            assert!(same_words(&model, &before));
        }
        *seen.entry(row).or_insert(0) += 1;
    }
    for row in [0, 2, 3, 22, 23, 24] {
        assert!(seen[&row] > 100, "{seen:?}");
    }
}

// The overrides

#[test]
fn overrides_hide_public_records() {
    let mut model = with_register_d();
    let register = model.register.words();
    let b = format!("judge 1 40 {}", in_hex(&[40, 20, 10]));
    let c = format!("judge 1 50 {}", in_hex(&[50, 20, 10]));
    let e = format!("judge 1 30 {}", in_hex(&[30, 60]));
    let g = format!("judge 3 20 {}", in_hex(&[20, 10, 30]));
    check(
        &mut model,
        &[
            (&b, "Valid"),
            (&c, "Invalid 3 0 public -"),
            // 20 has one provider by the overrides, whatever their source
            ("dfile 7 20 50", "new"),
            ("drawer", "1 1 20 7 0 1 50"),
            (&b, "Invalid 3 0 drawer -"),
            (&c, "Valid"),
            ("dfile 0 20 40", "new"),
            ("drawer", "2 2 20 0 0 1 20 7 1 1 40 50"),
            (&b, "Valid"),
            (&c, "Valid"),
            ("dwithdraw 7 20", "done"),
            (&b, "Valid"),
            (&c, "Invalid 3 0 drawer -"),
            // nobody provides
            ("dfile 0 20 0", "replaced"),
            (&b, "Invalid 3 0 drawer -"),
            (&c, "Invalid 3 0 drawer -"),
            ("dwithdraw 0 20", "done"),
            ("dwithdraw 0 20", "refused 7"),
            (&b, "Valid"),
            (&c, "Invalid 3 0 public -"),
            // a customer that only the overrides have
            (&e, "Unknown 2 0"),
            ("dfile 3 60 30", "new"),
            (&e, "Valid"),
            ("dfile 3 60 0", "replaced"),
            (&e, "Invalid 2 0 drawer -"),
            ("dclear 3", "cleared 1"),
            (&e, "Unknown 2 0"),
            // M by an override
            (&g, "Unknown 1 3 gap 2"),
            ("dfile 0 30 0", "new"),
            (&g, "Invalid 2 2 drawer public gap 2"),
            ("drawer", "1 1 30 0 0 1 0"),
            ("words drawer", "12290 1 1 30 0 0 1"),
        ],
    );
    assert_eq!(model.register.words(), register);
}

#[test]
fn sides_of_named_hops() {
    // H: 40 is the first hop's customer, 20 the second's; 10 is provider in both
    let h = format!("judge 3 20 {}", in_hex(&[20, 10, 40]));
    let c = format!("judge 2 50 {}", in_hex(&[50, 20, 10]));
    let mut model = with_register_d();
    check(
        &mut model,
        &[
            (&h, "Invalid 2 2 public public gap 2"),
            ("dfile 0 10 20 30", "new"),
            (&h, "Invalid 2 2 public public gap 2"),
            ("dfile 0 40 0", "new"),
            (&h, "Invalid 2 2 drawer public gap 2"),
            ("dfile 5 20 40", "new"),
            (&h, "Invalid 2 2 drawer drawer gap 2"),
            ("dwithdraw 0 40", "done"),
            (&h, "Invalid 2 2 public drawer gap 2"),
            (&h.replace("judge 3", "judge 6"), "Invalid 2 2 public drawer gap 2"),
            (&h.replace("judge 3", "keep 1 3"), "Invalid 2 2 public drawer gap 2"),
            ("ledger", "1 3 1 3 20 0 1 2 2 0 3 20 10 40"),
            // one hop upstream, whose customer is 20
            (&c, "Invalid 3 0 drawer -"),
            ("dclear 5", "cleared 1"),
            ("dfile 0 50 40", "new"),
            (&c, "Invalid 3 0 public -"),
            (&c.replace("judge 2", "judge 1"), "Invalid 3 0 public -"),
            ("judge 1 5 -", "Invalid ground 1"),
        ],
    );
    // far apart: AS(1) to AS(4) are 1 to 4, AS(8) to AS(5) are 8 to 5
    let path = in_hex(&[8, 7, 6, 5, 4, 3, 2, 1]);
    let mut model = Model::new();
    for command in ["file 0 1 2", "file 0 2 9", "file 0 8 7", "file 0 7 9"] {
        check(&mut model, &[(command, "new")]);
    }
    for (command, answer, sides) in [
        ("dfile 0 3 9", "new", "public public"),
        ("dfile 0 6 9", "new", "public public"),
        ("dfile 0 2 9", "new", "drawer public"),
        ("dfile 0 7 9", "new", "drawer drawer"),
        ("dwithdraw 0 2", "done", "public drawer"),
    ] {
        let judged = format!("Invalid 3 6 {sides} gap 5");
        check(&mut model, &[(command, answer), (&format!("judge 3 8 {path}"), &judged)]);
    }
}

#[test]
fn a_hop_names_the_lowest_source() {
    run(&[
        ("hop 10 20", "none"),
        ("file 2 10 20", "new"),
        ("hop 10 20", "provider public 2"),
        // a lower source without 20
        ("file 0 10 30", "new"),
        ("hop 10 20", "provider public 2"),
        ("hop 10 30", "provider public 0"),
        ("hop 10 40", "other public"),
        ("file 7 10 20 40", "new"),
        ("hop 10 20", "provider public 2"),
        ("hop 10 40", "provider public 7"),
        ("file 1 10 20 30", "new"),
        ("hop 10 20", "provider public 1"),
        ("hop 10 30", "provider public 0"),
        // only the overrides count, though lower public sources list 20
        ("dfile 5 10 0", "new"),
        ("hop 10 20", "other drawer"),
        ("hop 10 30", "other drawer"),
        ("dfile 6 10 20", "new"),
        ("hop 10 20", "provider drawer 6"),
        ("hop 10 30", "other drawer"),
        ("dfile 3 10 20 40", "new"),
        ("hop 10 20", "provider drawer 3"),
        ("hop 10 40", "provider drawer 3"),
        ("dclear 3", "cleared 1"),
        ("hop 10 20", "provider drawer 6"),
        ("dwithdraw 6 10", "done"),
        ("hop 10 20", "other drawer"),
        ("dwithdraw 5 10", "done"),
        ("hop 10 20", "provider public 1"),
        // other customers
        ("hop 20 10", "none"),
        ("hop 9 20", "none"),
        ("hop 11 20", "none"),
        ("dfile 0 9 20", "new"),
        ("dfile 7 11 20", "new"),
        ("hop 10 20", "provider public 1"),
        ("hop 9 20", "provider drawer 0"),
        ("hop 11 20", "provider drawer 7"),
        ("hop 10 10", "other public"),
        ("hop 4294967295 4294967294", "none"),
        ("dfile 7 4294967295 4294967294", "new"),
        ("hop 4294967295 4294967294", "provider drawer 7"),
        ("hop 4294967294 4294967295", "none"),
        // AS 0 is nobody and can't be asked for
        ("hop 10 0", "error"),
        ("hop 0 10", "error"),
    ]);
}

#[test]
fn a_lookup_gives_one_list() {
    run(&[
        ("lookup 10 0", "list"),
        ("file 0 10 20 30", "new"),
        ("file 2 10 0 40", "new"),
        ("lookup 10 0", "list 20 30"),
        ("lookup 10 1", "list"),
        ("lookup 10 2", "list 0 40"),
        ("lookup 20 0", "list"),
        ("lookup 9 0", "list"),
        ("lookup 11 0", "list"),
        // rows 4 and 5
        ("lookup 10 8", "list"),
        ("lookup 10 4294967295", "list"),
        ("lookup 0 0", "list"),
        ("lookup 0 8", "list"),
        // any override hides the customer's public lists of every source
        ("dfile 1 10 50", "new"),
        ("lookup 10 0", "list"),
        ("lookup 10 1", "list 50"),
        ("lookup 10 2", "list"),
        ("dfile 2 10 0", "new"),
        ("lookup 10 2", "list 0"),
        ("lookup 10 0", "list"),
        ("dwithdraw 1 10", "done"),
        ("lookup 10 1", "list"),
        ("dclear 2", "cleared 1"),
        ("lookup 10 0", "list 20 30"),
        ("lookup 10 2", "list 0 40"),
        // of a customer beside it
        ("dfile 0 11 60", "new"),
        ("lookup 10 0", "list 20 30"),
        ("lookup 11 0", "list 60"),
        ("lookup 11 1", "list"),
        // a bad table gives none, also where the other would answer
        ("poke drawer 12289 1", "done"),
        ("lookup 10 0", "list"),
        ("lookup 11 0", "list"),
        ("poke drawer 12289 0", "done"),
        ("poke register 12289 1", "done"),
        ("lookup 10 0", "list"),
        ("lookup 11 0", "list"),
        ("poke register 12289 0", "done"),
        ("lookup 11 0", "list 60"),
        ("resize drawer 12291", "done"),
        ("lookup 10 0", "list"),
        ("resize drawer 12290", "done"),
        ("resize register 12289", "done"),
        ("lookup 11 0", "list"),
        ("resize register 12290", "done"),
        ("lookup 10 0", "list 20 30"),
        // it does not read the ledger
        ("resize ledger 0", "done"),
        ("lookup 10 0", "list 20 30"),
        ("hop 11 60", "provider drawer 0"),
    ]);
}

#[test]
fn the_registers_are_two() {
    run(&[
        ("file 2 10 20", "new"),
        ("dfile 2 10 30", "new"),
        ("file 2 10 40 50", "replaced"),
        ("dfile 2 10 60", "replaced"),
        ("dfile 0 10 70", "new"),
        ("register", "1 2 10 2 0 2 40 50"),
        ("drawer", "2 2 10 0 0 1 10 2 1 1 70 60"),
        ("withdraw 0 10", "refused 7"),
        ("withdraw 2 10", "done"),
        ("withdraw 2 10", "refused 7"),
        ("register", "0 0"),
        ("drawer", "2 2 10 0 0 1 10 2 1 1 70 60"),
        ("file 2 10 20", "new"),
        ("file 2 5 20", "new"),
        ("dclear 2", "cleared 1"),
        ("dclear 2", "cleared 0"),
        ("register", "2 2 5 2 0 1 10 2 1 1 20 20"),
        ("drawer", "1 1 10 0 0 1 70"),
        ("dfile 2 10 20", "new"),
        ("clear 2", "cleared 2"),
        ("drawer", "2 2 10 0 0 1 10 2 1 1 70 20"),
        ("clear 0", "cleared 0"),
        ("dwithdraw 2 10", "done"),
        ("dwithdraw 1 10", "refused 7"),
        ("drawer", "1 1 10 0 0 1 70"),
        ("words drawer", "12290 1 1 10 0 0 1 70"),
        ("words register", "12290"),
        // rows 4 to 6 as in the public register
        ("dfile 8 0", "refused 4"),
        ("dfile 7 0", "refused 5"),
        ("dfile 7 1", "refused 6"),
        ("dfile 7 1 2 2", "refused 6"),
        ("dfile 7 1 3 2", "refused 6"),
        ("dfile 7 3 2 3", "refused 6"),
        ("dwithdraw 8 0", "refused 4"),
        ("dwithdraw 7 0", "refused 5"),
        ("dclear 8", "refused 4"),
        // all three tables
        ("file 0 1 2", "new"),
        ("keep 1 1 5 -", "Invalid ground 1"),
        ("resize drawer 12", "done"),
        ("words drawer", "12 1 1 10 0 0 1 70"),
        ("empty", "done"),
        ("words register", "12290"),
        ("words drawer", "12290"),
        ("words ledger", "12802"),
        ("hop 10 70", "none"),
    ]);
}

#[test]
fn room_in_each_register() {
    let mut model = Model::new();
    for customer in 1..=1_024 {
        let command = format!("dfile {} {customer} 3000", customer % 8);
        check(&mut model, &[(&command, "new")]);
    }
    check(
        &mut model,
        &[
            ("dfile 0 1025 5", "refused 8"),
            ("dfile 0 1025 1025", "refused 6"),
            ("file 0 1025 5", "new"),
            ("dfile 1 1 5 6 7", "replaced"),
            ("hop 1024 3000", "provider drawer 0"),
            ("hop 1025 5", "provider public 0"),
            ("dwithdraw 1 1", "done"),
            ("dfile 0 1025 5", "new"),
            ("dfile 1 1 5", "refused 8"),
            ("file 1 1 5", "new"),
            ("dclear 3", "cleared 128"),
            ("dfile 1 1 5", "new"),
            ("register", "2 2 1 1 0 1 1025 0 1 1 5 5"),
        ],
    );
    let mut model = Model::new();
    let list = |n: usize| (100..).take(n).map(|i| format!(" {i}")).collect::<String>();
    for customer in 1..=32 {
        check(&mut model, &[(&format!("dfile 0 {customer}{}", list(256)), "new")]);
    }
    check(
        &mut model,
        &[
            ("dfile 0 33 5", "refused 8"),
            ("file 0 33 5", "new"),
            (&format!("file 0 32{}", list(256)), "new"),
            (&format!("dfile 0 32{}", list(255)), "replaced"),
            ("dfile 0 33 5 6", "refused 8"),
            ("dfile 0 33 5", "new"),
            (&format!("dfile 0 32{}", list(256)), "refused 8"),
            ("hop 33 5", "provider drawer 0"),
            ("lookup 32 0", &format!("list{}", list(255))),
            ("dwithdraw 0 32", "done"),
            ("lookup 32 0", &format!("list{}", list(256))),
        ],
    );
    // a full public register takes no room of the overrides
    let mut model = Model::new();
    for customer in 1..=32 {
        check(&mut model, &[(&format!("file 0 {customer}{}", list(256)), "new")]);
    }
    check(
        &mut model,
        &[("file 0 33 5", "refused 8"), ("dfile 0 33 5", "new"), ("dfile 0 1 5", "new")],
    );
}

#[test]
fn rejudging_reads_the_overrides() {
    let mut model = with_register_d();
    let b = format!("keep 1 1 40 {}", in_hex(&[40, 20, 10]));
    let c = format!("keep 2 1 50 {}", in_hex(&[50, 20, 10]));
    let h = format!("keep 3 3 20 {}", in_hex(&[20, 10, 40]));
    let paths = "40 20 10 50 20 10 20 10 40";
    let ledger = |b: &str, c: &str, h: &str| {
        format!("3 9 1 1 40 0 {b} 0 3 2 1 50 0 {c} 3 3 3 3 20 0 {h} 6 3 {paths}")
    };
    let public = ledger("0 0 0", "1 3 0", "1 2 2");
    check(
        &mut model,
        &[
            (&b, "Valid"),
            (&c, "Invalid 3 0 public -"),
            (&h, "Invalid 2 2 public public gap 2"),
            ("ledger", &public),
            ("rejudge", "changed 0"),
            // the sides alone are other ones: no change
            ("dfile 4 20 40", "new"),
            (&c.replace("keep 2", "judge"), "Invalid 3 0 drawer -"),
            (&h.replace("keep 3", "judge"), "Invalid 2 2 public drawer gap 2"),
            ("rejudge", "changed 0"),
            ("ledger", &public),
            // Valid becomes Invalid and Invalid Valid
            ("dfile 4 20 50", "replaced"),
            ("ledger", &public),
            ("rejudge", "changed 2"),
            ("ledger", &ledger("1 3 0", "0 0 0", "1 2 2")),
            ("rejudge", "changed 0"),
            // public filings for 20 are hidden
            ("withdraw 0 20", "done"),
            ("rejudge", "changed 0"),
            ("file 0 20 40", "new"),
            ("rejudge", "changed 0"),
            ("dwithdraw 4 20", "done"),
            ("rejudge", "changed 2"),
            ("ledger", &public),
            // H by 10's records too
            ("dfile 0 20 10", "new"),
            ("rejudge", "changed 2"),
            ("ledger", &ledger("1 3 0", "1 3 0", "0 0 0")),
            ("dclear 0", "cleared 1"),
            ("rejudge", "changed 2"),
            ("ledger", &public),
        ],
    );
}

/// What each call answers when tables are not as they should be.
#[test]
fn rows_with_three_tables() {
    let file = hex(&written(&mut small_tables()));
    let read = format!("read {file}");
    let calls = [
        "judge 9 0 02", "keep 1 9 0 02", "rejudge", "hop 10 20", "lookup 10 0", "file 9 0",
        "dfile 9 0", "withdraw 9 0", "dwithdraw 9 0", "clear 9", "dclear 9", "drop 77", "write 0",
        &read,
    ];
    // in the order of the calls: a row, or l for the list, e for an empty one, d for done
    for (changes, rows) in [
        (&[][..], "9 9 c h l 4 4 4 4 4 4 19 21 d"),
        (&["resize drawer 12289"], "1 1 1 1 e 4 1 4 1 4 1 19 21 d"),
        (&["resize drawer 12291"], "1 1 1 1 e 4 1 4 1 4 1 19 21 d"),
        (&["resize drawer 0"], "1 1 1 1 e 4 1 4 1 4 1 19 21 d"),
        (&["resize drawer 12802"], "1 1 1 1 e 4 1 4 1 4 1 19 21 d"),
        (&["poke drawer 12289 1"], "2 2 2 2 e 4 2 4 2 4 2 19 21 d"),
        (&["poke drawer 0 4294967295"], "2 2 2 2 e 4 2 4 2 4 2 19 21 d"),
        (&["poke register 12289 1"], "2 2 2 2 e 2 4 2 4 2 4 19 2 d"),
        (&["resize register 12291"], "1 1 1 1 e 1 4 1 4 1 4 19 1 1"),
        (&["poke register 0 9", "poke drawer 0 9"], "2 2 2 2 e 2 2 2 2 2 2 19 2 d"),
        (&["resize register 0", "resize drawer 0"], "1 1 1 1 e 1 1 1 1 1 1 19 1 1"),
        // row 1 of either before row 2 of the other
        (&["poke register 0 9", "resize drawer 12291"], "1 1 1 1 e 2 1 2 1 2 1 19 2 d"),
        (&["resize register 12291", "poke drawer 0 9"], "1 1 1 1 e 1 2 1 2 1 2 19 1 1"),
        // the ledger's length before row 2 of the overrides, and that before row 3
        (&["poke drawer 0 9", "resize ledger 12801"], "2 1 1 2 e 4 2 4 2 4 2 1 1 1"),
        (&["poke drawer 0 9", "poke ledger 0 9"], "2 2 2 2 e 4 2 4 2 4 2 3 3 d"),
        (&["resize drawer 1", "resize ledger 1"], "1 1 1 1 e 4 1 4 1 4 1 1 1 1"),
        (&["resize drawer 1", "poke ledger 0 9"], "1 1 1 1 e 4 1 4 1 4 1 3 3 d"),
        (&["poke ledger 0 9"], "9 3 3 h l 4 4 4 4 4 4 3 3 d"),
        (
            &["poke register 0 9", "poke drawer 0 9", "poke ledger 0 9"],
            "2 2 2 2 e 2 2 2 2 2 2 3 2 d",
        ),
    ] {
        let mut model = small_tables();
        check(&mut model, &[("dfile 0 10 20", "new"), ("rejudge", "changed 1")]);
        for change in changes {
            check(&mut model, &[(change, "done")]);
        }
        let before = model.clone();
        for (call, row) in calls.iter().zip(rows.split(' ')) {
            let expected = match row {
                "c" => "changed 0".to_string(),
                "h" => "provider drawer 0".to_string(),
                "l" => "list 20".to_string(),
                "e" => "list".to_string(),
                "d" => "done".to_string(),
                _ => format!("refused {row}"),
            };
            assert_eq!(answer(&mut model, call.as_bytes()), expected, "{call} {changes:?}");
            if row == "d" {
                assert_eq!(model.overrides.words(), before.overrides.words());
            } else {
                assert!(same_words(&model, &before), "{call} {changes:?}");
            }
        }
    }
}

/// A word that breaks a rule of the register breaks it in the overrides.
#[test]
fn word_rules_of_the_overrides() {
    for index in 0..33 {
        for value in [0, 1, 2, 7, 8, 10, 20, 256, 257, 1_025, 8_193, u32::MAX] {
            let mut model = Model::new();
            for command in REGISTER_D {
                check(&mut model, &[(command, "new"), (&format!("d{command}"), "new")]);
            }
            let mut other = model.clone();
            let poke = |table: &str| format!("poke {table} {index} {value}");
            check(&mut model, &[(&poke("register"), "done")]);
            check(&mut other, &[(&poke("drawer"), "done")]);
            assert_eq!(row(model.rejudge()), row(other.rejudge()), "{index} {value}");
            assert_eq!(row(model.register.clear(7)), row(other.overrides.clear(7)));
            assert_eq!(row(other.register.clear(7)), 0);
        }
    }
}

#[test]
fn snapshots_leave_the_overrides_out() {
    let mut model = small_tables();
    let file = written(&mut model);
    let read = format!("read {}", hex(&file));
    let write = format!("written 160 {}", hex(&file));
    let judge = "judge 1 20 0202000000140000000a";
    check(
        &mut model,
        &[
            ("dfile 3 10 30", "new"),
            ("dfile 4 65010 7", "new"),
            (judge, "Invalid 2 0 drawer -"),
            ("write 160", &write),
            ("lookup 65010 2", "list"),
            (&read, "done"),
            ("drawer", "2 2 10 3 0 1 65010 4 1 1 30 7"),
            (judge, "Invalid 2 0 drawer -"),
            ("hop 65010 65001", "other drawer"),
            ("lookup 65010 4", "list 7"),
            // as it was read, until a re-judging
            ("ledger", "2 2 7 1 20 0 2 2 0 0 2 9 4 5 1 1 0 0 2 0 20 10"),
            ("rejudge", "changed 1"),
            ("ledger", "2 2 7 1 20 0 1 2 0 0 2 9 4 5 1 1 0 0 2 0 20 10"),
            ("read -", "refused 24"),
            ("drawer", "2 2 10 3 0 1 65010 4 1 1 30 7"),
            // over an empty register, and over one that was malformed
            ("clear 2", "cleared 1"),
            (&read, "done"),
            ("register", "2 3 65010 0 0 1 65010 2 1 2 65003 65001 65002"),
            ("dclear 4", "cleared 1"),
            ("lookup 65010 2", "list 65001 65002"),
            ("poke register 0 9", "done"),
            ("poke drawer 0 9", "done"),
            (&read, "done"),
            (judge, "refused 2"),
            ("words drawer", "12290 9 1 10 3 0 1 30"),
            ("poke drawer 0 1", "done"),
            (judge, "Invalid 2 0 drawer -"),
            // the list's only number is lost
            ("resize drawer 6", "done"),
            (&read, "done"),
            ("write 160", &write),
            ("words drawer", "6 1 1 10 3 0 1"),
            ("resize drawer 12290", "done"),
            ("words drawer", "12290 1 1 10 3 0 1"),
            ("lookup 10 3", "list 0"),
        ],
    );
}

// Outcomes when records change

/// Routes over register D: role, path, and the answers before a change and after it. Kept ones
/// show how many of them a re-judging changes.
fn before_and_after(
    (change, done): (&str, &str),
    changed: &str,
    routes: &[(u32, &[u32], &str, &str)],
) -> Model {
    let mut model = with_register_d();
    let words = |role: &u32, path: &[u32]| format!("{role} {} {}", path[0], in_hex(path));
    for (nth, (role, path, before, _)) in routes.iter().enumerate() {
        let route = words(role, path);
        check(&mut model, &[(&format!("judge {route}"), before)]);
        check(&mut model, &[(&format!("keep {nth} {route}"), before)]);
    }
    check(&mut model, &[(change, done)]);
    for (role, path, _, after) in routes {
        check(&mut model, &[(&format!("judge {}", words(role, path)), after)]);
    }
    check(&mut model, &[("rejudge", changed), ("rejudge", "changed 0")]);
    model
}

/// 60 and 30 have no record in either register.
#[test]
fn a_first_record_keeps_valid_and_invalid() {
    for (letter, side) in [("", "public"), ("d", "drawer")] {
        // a place moves
        before_and_after(
            (&format!("{letter}file 1 60 10"), "new"),
            "changed 2",
            &[
                (1, &[50, 20, 60], "Invalid 3 0 public -", &format!("Invalid 2 0 {side} -")),
                (
                    3,
                    &[50, 20, 60],
                    "Unknown 1 3 gap 2",
                    &format!("Invalid 2 2 {side} public gap 2"),
                ),
            ],
        );
        // a gap moves, which is not kept
        before_and_after(
            (&format!("{letter}file 1 60 70"), "new"),
            "changed 0",
            &[(3, &[60, 70], "Valid gap 1", "Valid gap 0")],
        );
        // only Unknown may become another
        let e: &[u32] = &[30, 60];
        before_and_after(
            (&format!("{letter}file 0 60 30"), "new"),
            "changed 1",
            &[(1, e, "Unknown 2 0", "Valid"), (3, e, "Valid gap 1", "Valid gap 0")],
        );
        before_and_after(
            (&format!("{letter}file 0 60 20"), "new"),
            "changed 1",
            &[
                (1, e, "Unknown 2 0", &format!("Invalid 2 0 {side} -")),
                (3, e, "Valid gap 1", "Valid gap 1"),
            ],
        );
        let g: &[u32] = &[20, 10, 30];
        before_and_after(
            (&format!("{letter}file 0 30 10"), "new"),
            "changed 1",
            &[(3, g, "Unknown 1 3 gap 2", "Valid gap 0")],
        );
        before_and_after(
            (&format!("{letter}file 0 30 0"), "new"),
            "changed 1",
            &[(3, g, "Unknown 1 3 gap 2", &format!("Invalid 2 2 {side} public gap 2"))],
        );
    }
}

#[test]
fn further_records_of_a_number() {
    let b: (u32, &[u32]) = (1, &[40, 20, 10]);
    let c: (u32, &[u32]) = (1, &[50, 20, 10]);
    let c_before = "Invalid 3 0 public -";
    // N, and a longer list: Valid stays, Invalid need not
    for change in [("file 1 20 50", "new"), ("file 0 20 40 50", "replaced")] {
        before_and_after(
            change,
            "changed 1",
            &[(b.0, b.1, "Valid", "Valid"), (c.0, c.1, c_before, "Valid")],
        );
    }
    // a shorter list: Invalid stays, Valid need not
    before_and_after(
        ("file 0 10 30", "replaced"),
        "changed 2",
        &[
            (1, &[20, 10], "Valid", "Invalid 2 0 public -"),
            (1, &[30, 10], "Valid", "Valid"),
            (c.0, c.1, c_before, "Invalid 2 0 public -"),
        ],
    );
    // known providers from a second source: both stay
    before_and_after(
        ("file 7 10 0 30", "new"),
        "changed 0",
        &[(1, &[20, 10], "Valid", "Valid"), (c.0, c.1, c_before, c_before)],
    );
    // 0 is no provider, so a list in its place loses none
    before_and_after(
        ("file 0 40 50", "replaced"),
        "changed 1",
        &[
            (1, &[20, 10], "Valid", "Valid"),
            (b.0, b.1, "Valid", "Valid"),
            (3, &[50, 40, 20, 10], "Valid gap 0", "Valid gap -1"),
            (3, &[50, 20], "Valid gap 1", "Valid gap 1"),
            (6, &[80, 70], "Valid gap -1", "Valid gap -1"),
            (
                3,
                &[20, 10, 40],
                "Invalid 2 2 public public gap 2",
                "Invalid 2 2 public public gap 2",
            ),
            (1, &[50, 40, 20, 10], "Invalid 4 0 public -", "Valid"),
        ],
    );
}

#[test]
fn an_only_record_withdrawn() {
    before_and_after(
        ("withdraw 0 20", "done"),
        "changed 4",
        &[
            (1, &[40, 20, 10], "Valid", "Unknown 3 0"),
            (1, &[50, 20, 10], "Invalid 3 0 public -", "Unknown 3 0"),
            (3, &[30, 40, 20, 10], "Valid gap 1", "Unknown 2 4 gap 2"),
            (3, &[20, 10, 40], "Invalid 2 2 public public gap 2", "Unknown 1 3 gap 2"),
            (3, &[50, 40, 20, 10], "Valid gap 0", "Valid gap 1"),
        ],
    );
}

#[test]
fn a_first_override_may_change_any_outcome() {
    let (a, c): (&[u32], &[u32]) = (&[20, 10], &[50, 20, 10]);
    let mut model = before_and_after(
        ("dfile 0 10 30", "new"),
        "changed 2",
        &[
            (1, a, "Valid", "Invalid 2 0 drawer -"),
            (1, c, "Invalid 3 0 public -", "Invalid 2 0 drawer -"),
        ],
    );
    check(
        &mut model,
        &[
            ("dwithdraw 0 10", "done"),
            (&format!("judge 1 20 {}", in_hex(a)), "Valid"),
            (&format!("judge 1 50 {}", in_hex(c)), "Invalid 3 0 public -"),
            ("rejudge", "changed 2"),
        ],
    );
    before_and_after(
        ("dfile 0 20 50", "new"),
        "changed 2",
        &[
            (1, &[40, 20, 10], "Valid", "Invalid 3 0 drawer -"),
            (1, c, "Invalid 3 0 public -", "Valid"),
        ],
    );
}

#[test]
fn a_number_twice_on_a_path_has_one_list() {
    let ends: &[u32] = &[60, 10, 60, 10, 60];
    let other = "Invalid 2 0 public -";
    let others = "Invalid 2 4 public public gap 4";
    let (third, thirds) = ("Invalid 3 0 public -", "Invalid 3 3 public public gap 4");
    before_and_after(
        ("file 1 60 10", "new"),
        "changed 0",
        &[
            (1, &[10, 60, 10, 60, 10], other, other),
            (3, &[10, 60, 10, 60, 10], others, others),
            (1, ends, third, third),
            (3, ends, thirds, "Invalid 3 3 public public gap 2"),
        ],
    );
    before_and_after(
        ("file 1 60 20", "new"),
        "changed 2",
        &[(1, ends, third, other), (3, ends, thirds, others)],
    );
    // 90 has no record either
    let path: &[u32] = &[60, 90, 60, 90, 60];
    for (second, upstream, downstream) in [
        ("file 0 90 60", "Valid", "Valid gap -4"),
        ("file 0 90 0", "Invalid 3 0 public -", "Invalid 3 3 public public gap 2"),
    ] {
        let mut model = before_and_after(
            ("file 1 60 90", "new"),
            "changed 2",
            &[
                (1, path, "Unknown 2 0", "Unknown 3 0"),
                (3, path, "Unknown 1 5 gap 4", "Unknown 2 4 gap 2"),
            ],
        );
        check(
            &mut model,
            &[
                (second, "new"),
                (&format!("judge 1 60 {}", in_hex(path)), upstream),
                (&format!("judge 3 60 {}", in_hex(path)), downstream),
                ("rejudge", "changed 2"),
            ],
        );
    }
}

// The console's errors

#[test]
fn no_commands() {
    let mut model = with_register_d();
    let before = model.clone();
    for line in [
        "", " ", "hello", "FILE 0 1 2", "file", "file 0", "file  0 1 2", " file 0 1 2",
        "file 0 1 2 ", "file 00 1 2", "file 0 01 2", "file 0 1 02", "file +0 1 2", "file -1 1 2",
        "file 0 1 x", "file 0 1 4294967296", "file 0 1 99999999999999999999999", "file 0 1 2.0",
        "file 0\t1 2", "file 8 0 x", "withdraw 0", "withdraw 0 10 20", "withdraw 0 a", "clear",
        "clear 0 0", "clear -", "judge 1 20", "judge 1 20 0", "judge 1 20 020", "judge 1 20 0A",
        "judge 1 20 0g", "judge 1 20 --", "judge 1 20 - -", "judge 1 20 ", "judge 9 0 0",
        "judge 1 4294967296 -", "judge 1 20 é", "keep 1 1 20", "keep x 1 20 -", "keep 1 1 20 0x",
        "drop", "drop 1 2", "drop x", "rejudge x", "register register", "ledger 0",
        "poke register 12290 0", "poke ledger 12802 0", "poke table 0 0", "poke register 0",
        "poke register 0 0 0", "poke register 4294967295 1", "resize register",
        "resize register 16385", "resize x 1", "resize register -1", "words", "words x",
        "words register x", "empty x", "empty ", "file 0 1 2\r", "write", "write x", "write -",
        "write 131073", "write 4294967296", "write 036", "write 36 36", "read", "read 0",
        "read 0A", "read 000", "read - -", "read 00 00", "read ", "dfile", "dfile 0",
        "dfile 0 01 2", "dfile 0 1 2 ", "dfile 0 1 x", "Dfile 0 1 2", "d file 0 1 2",
        "dwithdraw 0", "dwithdraw 0 1 2", "dwithdraw x 1", "dclear", "dclear 0 0", "dclear 00",
        "ddrop 1", "dkeep 1 1 5 -", "djudge 1 5 -", "drawer 0", "drawers", "dregister",
        "overrides", "public", "lookup", "lookup 10", "lookup 10 0 0", "lookup 010 0",
        "lookup 10 x", "lookup 10 4294967296", "lookup 10 0 ", "hop", "hop 10", "hop 10 20 30",
        "hop 0 10", "hop 10 0", "hop 0 0", "hop 10 020", "hop 10 -", "hop 10 4294967296",
        "hop 10  20", "poke drawer 12290 0", "poke drawer 0", "poke drawer 0 0 0",
        "poke overrides 0 0", "resize drawer 16385", "resize drawer", "words drawer x",
        "words overrides",
    ] {
        check(&mut model, &[(line, "error")]);
    }
    assert!(same_words(&model, &before));
}

// The verdicts against the slow ones

fn compare_verdicts(path: &[AsNumber], hop: impl Fn(AsNumber, AsNumber) -> Hop) {
    for role in 1..=6 {
        let (verdict, gap) = judge::verdict(role, path, &hop);
        let (word, a, b) = verdict.words();
        assert_eq!(word, slow::word(role, path, &hop), "role {role} {path:?}");
        assert_eq!(word, slow::steps(role, path, &hop), "role {role} {path:?}");
        assert_eq!((a, b, gap), slow::places(role, word, path, &hop), "role {role} {path:?}");
        if let Verdict::Invalid(Cause::Hops { a: named, b: other }) = verdict {
            let sides = (Some(named.side), other.map(|other| other.side));
            assert_eq!(sides, slow::sides(a, b, path, &hop), "role {role} {path:?}");
        }
        if let Some(gap) = gap {
            assert!((-511..=511).contains(&gap));
        }
    }
}

const PROVIDER: Hop = Hop::Provider { side: Side::Public, source: 0 };

const HOPS: [Hop; 4] = [
    Hop::NoAttestation,
    PROVIDER,
    Hop::NotProvider { side: Side::Public },
    Hop::NotProvider { side: Side::Overrides },
];

/// Every hop function on up to five different numbers.
#[test]
fn every_short_path() {
    for n in 1..=5usize {
        let path: Vec<AsNumber> = (0..n as u32).map(AsNumber).collect();
        for choice in 0..4usize.pow(2 * (n as u32 - 1)) {
            // One digit of the choice for each neighbouring pair and direction
            let hop = |x: AsNumber, y: AsNumber| {
                let digit = 2 * x.0.min(y.0) + u32::from(x > y);
                HOPS[choice / 4usize.pow(digit) % 4]
            };
            compare_verdicts(&path, hop);
        }
    }
}

#[test]
fn random_paths_and_hops() {
    let mut random = Random::new(5);
    for nth in 0..6_000 {
        let numbers = random.between(1, 12);
        let providers = random.pick(&[20, 60, 90, 100]);
        let table: Vec<Hop> = (0..numbers * numbers)
            .map(|_| match random.percent(providers) {
                true => PROVIDER,
                false => random.pick(&HOPS),
            })
            .collect();
        // few of the longest, for which the slow ones take long
        let length = if nth % 300 == 0 { 512 } else { random.pick(&[1, 2, 3, 4, 6, 9, 20, 64]) };
        let path: Vec<AsNumber> =
            (0..length).map(|_| AsNumber(random.below(numbers) as u32)).collect();
        let hop = |x: AsNumber, y: AsNumber| table[x.0 as usize * numbers + y.0 as usize];
        compare_verdicts(&path, hop);
    }
}

#[test]
fn random_records() {
    let mut random = Random::new(6);
    let mut sides = [0; 2];
    for _ in 0..1_500 {
        let public = random_records_of(&mut random, 30, 6, 4);
        let most = random.pick(&[0, 2, 6, 30]);
        let overrides = random_records_of(&mut random, most, 6, 4);
        let registers = Registers { public: &public, overrides: &overrides };
        let length = random.between(1, 10);
        let path: Vec<AsNumber> =
            (0..length).map(|_| AsNumber(random.between(1, 7) as u32)).collect();
        // One register with the records that count, and the hop from its united lists
        let has = |x: AsNumber| overrides.keys().any(|(customer, _)| *customer == x);
        let mut counting = public.clone();
        counting.retain(|(customer, _), _| !has(*customer));
        counting.extend(overrides.clone());
        let united = |x: AsNumber, y: AsNumber| {
            let lists = || counting.iter().filter(|((c, _), _)| *c == x);
            let list: Vec<AsNumber> = lists().flat_map(|(_, l)| l.clone()).collect();
            let side = if has(x) { Side::Overrides } else { Side::Public };
            let sources = lists().filter(|(_, l)| l.contains(&y)).map(|((_, source), _)| *source);
            // No list is empty, so an empty union means no record.
            if list.is_empty() {
                Hop::NoAttestation
            } else if list.contains(&y) {
                Hop::Provider { side, source: sources.min().unwrap() }
            } else {
                Hop::NotProvider { side }
            }
        };
        for pair in path.windows(2) {
            assert_eq!(registers.hop(pair[0], pair[1]), united(pair[0], pair[1]));
            sides[usize::from(has(pair[0]))] += 1;
        }
        for (customer, source) in (0..9).flat_map(|c| (0..9).map(move |s| (AsNumber(c), s))) {
            let list = counting.get(&(customer, source)).map(|list| &list[..]);
            assert_eq!(registers.list(customer, source), list);
        }
        compare_verdicts(&path, |x, y| registers.hop(x, y));
    }
    assert!(sides[0] > 1_000 && sides[1] > 1_000, "{sides:?}");
}

// Tables

fn random_records_of(
    random: &mut Random,
    most: usize,
    customers: usize,
    longest: usize,
) -> Records {
    let mut records = Records::new();
    for _ in 0..random.between(0, most) {
        let mut list: Vec<AsNumber> =
            (0..random.between(1, longest)).map(|_| AsNumber(random.below(9) as u32)).collect();
        let customer = AsNumber(random.between(1, customers) as u32);
        list.iter_mut().filter(|provider| **provider == customer).for_each(|own| own.0 = 0);
        list.sort();
        list.dedup();
        records.insert((customer, random.below(8) as u32), list);
    }
    records
}

/// No two equal numbers side by side.
fn random_path(random: &mut Random, count: usize) -> Vec<AsNumber> {
    let mut path = Vec::new();
    while path.len() < count {
        let number = AsNumber(random.between(1, 5) as u32);
        if path.last() != Some(&number) {
            path.push(number);
        }
    }
    path
}

fn random_routes(random: &mut Random) -> Routes {
    let mut routes = Routes::new();
    for _ in 0..random.below(20) {
        let role = random.between(1, 6) as u32;
        let ground = random.pick(&[0, 0, 0, 1, 2, 3]);
        let ground = if ground == 2 && role == 4 { 3 } else { ground };
        let count = if ground == 0 { random.pick(&[1, 2, 3, 64, 512]) } else { 0 };
        let path = random_path(random, count);
        let neighbour = path.first().copied().unwrap_or(AsNumber(3));
        let mut place = || if ground == 0 { random.pick(&[0, 1, 64, 512]) } else { 0 };
        let (place_a, place_b) = (place(), place());
        let verdict = if ground == 0 { random.below(3) as u32 } else { 1 };
        let route = Route { role, neighbour, ground, verdict, place_a, place_b, path };
        routes.insert(RouteNumber(random.below(40) as u32), route);
    }
    routes
}

#[test]
fn written_tables_are_read_back() {
    let mut random = Random::new(7);
    for _ in 0..300 {
        let records = random_records_of(&mut random, 200, 60, 9);
        let words = padded(records.write(), Records::LENGTH);
        assert!(Records::well_formed(&words));
        assert_eq!(Records::read(&words), records);
        let routes = random_routes(&mut random);
        let words = padded(routes.write(), Routes::LENGTH);
        assert!(Routes::well_formed(&words));
        assert_eq!(Routes::read(&words), routes);
    }
}

/// The rules again, by another way: read what the counts claim, test each
/// entry alone, and write it out; order, starts, sums and zeros are right
/// exactly if that gives the same words.
fn register_by_rewriting(words: &[u32]) -> bool {
    let (n, b) = (words[0] as usize, words[1] as usize);
    if n > 1_024 || b > 8_192 {
        return false;
    }
    let mut records = Records::new();
    let mut at = 2 + 4 * n;
    for i in 0..n {
        let entry = &words[2 + 4 * i..6 + 4 * i];
        let count = entry[3] as usize;
        let Some(list) = at.checked_add(count).and_then(|end| words.get(at..end)) else {
            return false;
        };
        let mut sorted = list.to_vec();
        sorted.retain(|provider| *provider != entry[0]);
        sorted.sort();
        sorted.dedup();
        if entry[0] == 0 || entry[1] > 7 || count == 0 || count > 256 || sorted != list {
            return false;
        }
        let list = list.iter().map(|w| AsNumber(*w)).collect();
        records.insert((AsNumber(entry[0]), entry[1]), list);
        at += count;
    }
    padded(records.write(), words.len().max(20_000))[..words.len()] == *words
}

fn ledger_by_rewriting(words: &[u32]) -> bool {
    let (n, b) = (words[0] as usize, words[1] as usize);
    if n > 512 || b > 8_192 {
        return false;
    }
    let mut routes = Routes::new();
    let mut at = 2 + 9 * n;
    for i in 0..n {
        let e = &words[2 + 9 * i..11 + 9 * i];
        let count = e[8] as usize;
        let Some(path) = at.checked_add(count).and_then(|end| words.get(at..end)) else {
            return false;
        };
        if e[1] == 0 || e[1] > 6 || e[2] == 0 || e[4] > 2 || e[5] > 512 || e[6] > 512 {
            return false;
        }
        let mut merged = path.to_vec();
        merged.retain(|number| *number != 0);
        merged.dedup();
        let fits = match e[3] {
            0 => count > 0 && count < 513 && merged == path && (e[1] == 4 || e[2] == path[0]),
            1 | 3 => count == 0 && e[4..7] == [1, 0, 0],
            2 => e[1] != 4 && count == 0 && e[4..7] == [1, 0, 0],
            _ => false,
        };
        if !fits {
            return false;
        }
        let route = Route {
            role: e[1],
            neighbour: AsNumber(e[2]),
            ground: e[3],
            verdict: e[4],
            place_a: e[5],
            place_b: e[6],
            path: path.iter().map(|w| AsNumber(*w)).collect(),
        };
        routes.insert(RouteNumber(e[0]), route);
        at += count;
    }
    padded(routes.write(), words.len().max(20_000))[..words.len()] == *words
}

fn pokes(random: &mut Random, words: &mut [u32], used: usize) {
    for _ in 0..random.between(1, 2) {
        let index = match random.below(10) {
            0 => random.below(2),
            1 => random.below(words.len()),
            2 => words.len() - 1,
            _ => random.below(used + 2),
        };
        let old = words[index];
        words[index] = random.pick(&[
            old.wrapping_add(1),
            old.wrapping_sub(1),
            0,
            1,
            2,
            3,
            4,
            7,
            8,
            65,
            256,
            257,
            512,
            513,
            u32::MAX,
        ]);
    }
}

#[test]
fn word_rules_by_another_way() {
    let mut random = Random::new(8);
    let (mut sound, mut damaged) = (0, 0);
    for _ in 0..6_000 {
        let written = random_records_of(&mut random, 12, 6, 4).write();
        let mut words = padded(written.clone(), Records::LENGTH);
        pokes(&mut random, &mut words, written.len());
        let expected = register_by_rewriting(&words);
        assert_eq!(Records::well_formed(&words), expected, "{:?}", &words[..written.len() + 4]);
        let written = random_routes(&mut random).write();
        let mut words = padded(written.clone(), Routes::LENGTH);
        pokes(&mut random, &mut words, written.len());
        let too = ledger_by_rewriting(&words);
        assert_eq!(Routes::well_formed(&words), too, "{:?}", &words[..written.len() + 4]);
        for well in [expected, too] {
            *(if well { &mut sound } else { &mut damaged }) += 1;
        }
    }
    assert!(sound > 1_000 && damaged > 1_000, "{sound} {damaged}");
}
