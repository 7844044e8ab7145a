//! Snapshots of full tables, written and read by the library and in plain Rust, which checks the same.
use crate::cases::{hash, time, Call, Timed, CHANGED};
use crate::plain::{check, is_ledger, is_register, RECORD, ROUTE};
use crate::work::Random;
use aspa_filter::{
    Ledger, Refusal, Register, Tables, LEDGER_WORDS, REGISTER_WORDS, SNAPSHOT_BYTES,
};
use std::hint::black_box;

const CONTENTS: usize = 20;

/// The bytes of a table up to the last word that its counts lead to.
fn used(words: &[u32], width: usize) -> usize {
    4 * (2 + words[0] as usize * width + words[1] as usize)
}

fn put(words: &[u32], into: &mut [u8]) {
    for (word, bytes) in words.iter().zip(into.chunks_exact_mut(4)) {
        bytes.copy_from_slice(&word.to_be_bytes());
    }
}

fn get(bytes: &[u8], into: &mut [u32]) {
    for (bytes, word) in bytes.as_chunks().0.iter().zip(into) {
        *word = u32::from_be_bytes(*bytes);
    }
}

/// The refusal's number, or the length of the snapshot.
fn write(reg: &[u32], ledger: &[u32], output: &mut [u8]) -> Result<usize, u32> {
    check(&[reg], ledger)?;
    let (first, second) = (used(reg, RECORD), used(ledger, ROUTE));
    let next = CONTENTS + first;
    let output = output.get_mut(..next + second).ok_or(21u32)?;
    let contents = [1, CONTENTS, first, next, second].map(|number| number as u32);
    put(&contents, &mut output[..CONTENTS]);
    put(&reg[..first / 4], &mut output[CONTENTS..next]);
    put(&ledger[..second / 4], &mut output[next..]);
    Ok(output.len())
}

/// The refusal's number, or nothing.
fn read(file: &[u8], reg: &mut [u32], ledger: &mut [u32]) -> Result<(), u32> {
    if reg.len() != REGISTER_WORDS || ledger.len() != LEDGER_WORDS {
        return Err(1);
    }
    let (contents, bodies) = file.split_at_checked(CONTENTS).ok_or(24u32)?;
    let mut words = [0; 5];
    get(contents, &mut words);
    let [edition, start, first, next, second] = words.map(|word| word as usize);
    if edition != 1 {
        return Err(22);
    }
    let fits =
        |length: usize, most: usize| (8..=4 * most).contains(&length) && length.is_multiple_of(4);
    if start != CONTENTS
        || next != CONTENTS + first
        || !fits(first, REGISTER_WORDS)
        || !fits(second, LEDGER_WORDS)
    {
        return Err(23);
    }
    if bodies.len() != first + second {
        return Err(24);
    }
    // The lent tables stay until both are checked.
    let (mut records, mut routes) = ([0; REGISTER_WORDS], [0; LEDGER_WORDS]);
    get(&bodies[..first], &mut records);
    if !is_register(&records) || used(&records, RECORD) != first {
        return Err(2);
    }
    get(&bodies[first..], &mut routes);
    if !is_ledger(&routes) || used(&routes, ROUTE) != second {
        return Err(3);
    }
    reg.copy_from_slice(&records);
    ledger.copy_from_slice(&routes);
    Ok(())
}

/// What a call changes is written before the clock starts, so that no page is new to it.
fn output() -> Vec<u8> {
    vec![0xA5; SNAPSHOT_BYTES]
}

fn other() -> Tables {
    Tables {
        register: Register::from_words(vec![u32::MAX; REGISTER_WORDS]),
        ledger: Ledger::from_words(vec![u32::MAX; LEDGER_WORDS]),
    }
}

pub fn calls(register: &Register, ledger: &Ledger) -> [Call; 2] {
    let full = Tables {
        register: register.clone(),
        ledger: ledger.clone(),
    };
    let mut file = output();
    assert_eq!(full.write(&mut file), Ok(SNAPSHOT_BYTES), "full tables");
    let checked = |nanoseconds, length, output: Vec<u8>| {
        assert_eq!(length, SNAPSHOT_BYTES);
        let check = hash(output);
        Timed { nanoseconds, check }
    };
    let write_library = {
        let full = full.clone();
        move |_| {
            let mut output = output();
            let (nanoseconds, r) = time(|| black_box(&full).write(black_box(&mut output)));
            checked(nanoseconds, r.expect("written"), output)
        }
    };
    let write_plain = {
        let Tables { register, ledger } = full;
        move |_| {
            let mut output = output();
            let (reg, led) = (register.words(), ledger.words());
            let (nanoseconds, r) =
                time(|| write(black_box(reg), black_box(led), black_box(&mut output)));
            checked(nanoseconds, r.expect("written"), output)
        }
    };
    let read_library = {
        let file = file.clone();
        move |_| {
            let mut tables = other();
            let (nanoseconds, r) = time(|| black_box(&mut tables).read(black_box(&file)));
            r.expect("read");
            let check = hash((tables.register.words(), tables.ledger.words()));
            Timed { nanoseconds, check }
        }
    };
    let read_plain = move |_| {
        let (mut reg, mut led) = (vec![u32::MAX; REGISTER_WORDS], vec![u32::MAX; LEDGER_WORDS]);
        let (nanoseconds, r) =
            time(|| read(black_box(&file), black_box(&mut reg), black_box(&mut led)));
        r.expect("read");
        let check = hash((&reg[..], &led[..]));
        Timed { nanoseconds, check }
    };
    [
        Call {
            name: "write a snapshot of full tables",
            run: Box::new(write_library),
            plain: Some(Box::new(write_plain)),
        },
        Call {
            name: "read a snapshot of full tables",
            run: Box::new(read_library),
            plain: Some(Box::new(read_plain)),
        },
    ]
}

/// The library and plain Rust must write the same of the main tables and of changed ones, and read the same of their snapshot and of
/// changed ones. Answers how many were refused.
pub fn compare(register: &Register, ledger: &Ledger, random: &mut Random) -> usize {
    let full = Tables {
        register: register.clone(),
        ledger: ledger.clone(),
    };
    let mut file = output();
    full.write(&mut file).expect("written");
    let mut refused = 0;
    for i in 0..=CHANGED {
        let (mut reg, mut led) = (register.words().to_vec(), ledger.words().to_vec());
        let mut changed = file.clone();
        let mut capacity = SNAPSHOT_BYTES;
        if i > 0 {
            let words = if i % 2 == 0 { &mut reg } else { &mut led };
            let at = random.below(words.len());
            words[at] = match i % 3 {
                0 => random.next(),
                1 => random.below(12) as u32,
                _ => words[at].wrapping_add(1),
            };
            // The contents and the counts more often than the rest.
            let at = if i % 4 == 0 {
                random.below(CONTENTS + 8)
            } else {
                random.below(changed.len())
            };
            changed[at] ^= 1 << random.below(8);
            match i % 7 {
                0 => changed.truncate(random.below(SNAPSHOT_BYTES)),
                1 => capacity -= random.below(3),
                _ => {}
            }
        }
        let (mut one, mut two) = (vec![0xA5; capacity], vec![0xA5; capacity]);
        let tables = Tables {
            register: Register::from_words(reg.clone()),
            ledger: Ledger::from_words(led.clone()),
        };
        let answer = tables.write(&mut one).map_err(Refusal::number);
        let same = write(&reg, &led, &mut two) == answer && one == two;
        assert!(same, "the library and Rust write differently, {i}");
        refused += answer.is_err() as usize;

        let mut tables = full.clone();
        let answer = tables.read(&changed).map_err(Refusal::number);
        let (mut reg, mut led) = (register.words().to_vec(), ledger.words().to_vec());
        let same = read(&changed, &mut reg, &mut led) == answer
            && (&reg[..], &led[..]) == (tables.register.words(), tables.ledger.words());
        assert!(same, "the library and Rust read differently, {i}");
        refused += answer.is_err() as usize;
    }
    refused
}
