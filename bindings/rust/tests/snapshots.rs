//! Snapshots: what they hold, files and streams, and what damage leads to.
use aspa_filter::{
    sequence, AsNumber, Ledger, Refusal, Register, Role, RouteNumber, SnapshotError, Tables,
    LEDGER_WORDS, MOST_PATH, MOST_PATH_WORDS, MOST_PROVIDERS, MOST_RECORDS, MOST_ROUTES,
    REGISTER_WORDS, SNAPSHOT_BYTES,
};
use std::error::Error;
use std::fs;
use std::io::{self, Read, Write};
use std::path::{Path, PathBuf};

/// A directory of a test's own, gone at its end.
struct Directory(PathBuf);

impl Directory {
    fn new(test: &str) -> Directory {
        let name = format!("aspa-filter-{}-{test}", std::process::id());
        let path = std::env::temp_dir().join(name);
        // Left by a process of the same number that did not come to its end.
        let _ = fs::remove_dir_all(&path);
        fs::create_dir(&path).unwrap();
        Directory(path)
    }

    fn file(&self) -> PathBuf {
        self.0.join("tables")
    }

    /// The names in it.
    fn names(&self) -> Vec<String> {
        let entries = fs::read_dir(&self.0).unwrap();
        let mut names: Vec<String> = entries
            .map(|entry| entry.unwrap().file_name().into_string().unwrap())
            .collect();
        names.sort();
        names
    }
}

impl Drop for Directory {
    fn drop(&mut self) {
        let _ = fs::remove_dir_all(&self.0);
    }
}

/// One record, and a route over two numbers.
fn small() -> Tables {
    let mut tables = Tables::new();
    let Tables { register, ledger } = &mut tables;
    register.file(0, AsNumber(10), &[AsNumber(20)]).unwrap();
    let path = sequence(&[20, 10].map(AsNumber)).unwrap();
    ledger
        .keep(
            register,
            &Register::new(),
            RouteNumber(7),
            Role::Customer,
            AsNumber(20),
            &path,
        )
        .unwrap();
    tables
}

/// The words of its snapshot.
const SMALL: [u32; 25] = [
    1, 20, 28, 48, 52, // contents
    1, 1, 10, 0, 0, 1, 20, // register
    1, 2, 7, 1, 20, 0, 0, 0, 0, 0, 2, 20, 10, // ledger
];

fn bytes(words: &[u32]) -> Vec<u8> {
    words.iter().flat_map(|word| word.to_be_bytes()).collect()
}

/// All counts at their limits.
fn full() -> Tables {
    let (mut tables, none) = (Tables::new(), Register::new());
    let Tables { register, ledger } = &mut tables;
    for i in 0..MOST_RECORDS as u32 {
        let providers: Vec<AsNumber> = (0..8).map(|j| AsNumber((i << 20) + j)).collect();
        let customer = AsNumber(u32::MAX - i);
        register.file(i % 8, customer, &providers).unwrap();
    }
    for i in 0..MOST_ROUTES as u32 {
        let path: Vec<AsNumber> = (1..=16).map(|j| AsNumber((i << 22) + j)).collect();
        let role = Role::ALL[i as usize % 6];
        let bytes = sequence(&path).unwrap();
        ledger
            .keep(register, &none, RouteNumber(7 * i), role, path[0], &bytes)
            .unwrap();
    }
    tables
}

fn written(tables: &Tables) -> Vec<u8> {
    let mut output = vec![0xA5; SNAPSHOT_BYTES + 5];
    let length = tables.write(&mut output).unwrap();
    assert!(output[length..].iter().all(|byte| *byte == 0xA5));
    output.truncate(length);
    output
}

/// Other words than any snapshot has.
fn other() -> Tables {
    Tables {
        register: Register::from_words(vec![u32::MAX; REGISTER_WORDS]),
        ledger: Ledger::from_words(vec![u32::MAX; LEDGER_WORDS]),
    }
}

fn refusal<T: std::fmt::Debug>(result: Result<T, SnapshotError>) -> Refusal {
    match result {
        Err(SnapshotError::Refused(refusal)) => refusal,
        result => panic!("no refusal: {result:?}"),
    }
}

fn io_error<T: std::fmt::Debug>(result: Result<T, SnapshotError>) -> io::Error {
    match result {
        Err(SnapshotError::Io(error)) => error,
        result => panic!("no error of input or output: {result:?}"),
    }
}

#[test]
fn bytes_of_a_snapshot() {
    assert_eq!(written(&small()), bytes(&SMALL));
    let empty = bytes(&[1, 20, 8, 28, 8, 0, 0, 0, 0]);
    assert_eq!(written(&Tables::new()), empty);
    assert_eq!(SNAPSHOT_BYTES, 100_388);
    let full = written(&full());
    assert_eq!(full.len(), SNAPSHOT_BYTES);
    let ends = [[0, 0, 0xC0, 8], [0, 0, 0xC0, 28], [0, 0, 0xC8, 8]];
    assert_eq!(full[8..20], ends.concat());
}

#[test]
fn round_trips() {
    let (mut long, none) = (Tables::new(), Register::new());
    let providers: Vec<AsNumber> = (1..=MOST_PROVIDERS as u32).map(AsNumber).collect();
    for customer in 1001..=1032 {
        let customer = AsNumber(customer);
        long.register.file(7, customer, &providers).unwrap();
    }
    let path: Vec<AsNumber> = (1..=MOST_PATH as u32).map(AsNumber).collect();
    let bytes = sequence(&path).unwrap();
    for number in 1..=16 {
        let (number, role) = (RouteNumber(number), Role::Provider);
        long.ledger
            .keep(&long.register, &none, number, role, path[0], &bytes)
            .unwrap();
    }
    assert_eq!(long.ledger.words()[1] as usize, MOST_PATH_WORDS);
    for tables in [Tables::new(), small(), long, full()] {
        let file = written(&tables);
        let mut exact = vec![0; file.len()];
        assert_eq!(tables.write(&mut exact), Ok(file.len()));
        assert_eq!(exact, file);
        let short = &mut exact[1..];
        assert_eq!(tables.write(short), Err(Refusal::OutputLength));
        assert_eq!(exact, file, "a refused writing leaves every byte");

        let mut read = other();
        assert_eq!(read.read(&file), Ok(()));
        assert!(read == tables);
        let mut piped = Vec::new();
        tables.write_to(&mut piped).unwrap();
        assert_eq!(piped, file);
        assert!(Tables::read_from(&file[..]).unwrap() == tables);
    }
}

/// Every bit, one at a time: it is refused, and the tables stay, or the snapshot says something else and is written so again.
#[test]
fn damaged_bits() {
    let file = bytes(&SMALL);
    let (mut accepted, mut rows) = (0, [0; 25]);
    for bit in 0..8 * file.len() {
        let mut damaged = file.clone();
        damaged[bit / 8] ^= 1 << (bit % 8);
        let mut tables = other();
        match tables.read(&damaged) {
            Ok(()) => {
                assert!(tables != small());
                assert_eq!(written(&tables), damaged);
                accepted += 1;
            }
            Err(refusal) => {
                assert!(tables == other(), "bit {bit}");
                rows[refusal.number() as usize] += 1;
            }
        }
    }
    assert!(accepted > 100);
    let given: Vec<usize> = (0..25).filter(|row| rows[*row] > 0).collect();
    assert_eq!(given, [2, 3, 22, 23, 24]);
}

/// A snapshot that was cut, one to which something was added, and noise.
#[test]
fn damaged_lengths() {
    let file = written(&full());
    let mut tables = other();
    for length in (0..200).chain([file.len() / 2, file.len() - 4, file.len() - 1]) {
        let cut = tables.read(&file[..length]);
        assert_eq!(cut, Err(Refusal::SnapshotLength), "{length}");
    }
    for more in [1, 4, 5000] {
        let longer = [&file[..], &vec![0; more]].concat();
        assert_eq!(tables.read(&longer), Err(Refusal::SnapshotLength));
        let read = Tables::read_from(&longer[..]);
        assert_eq!(refusal(read), Refusal::SnapshotLength);
    }
    assert_eq!(tables.read(&[0x5A; 5000]), Err(Refusal::Edition));
    assert!(tables == other());
}

/// A list that holds its own customer, by a change of either, in a file as in bytes.
#[test]
fn own_customer() {
    let directory = Directory::new("own-customer");
    for (index, value) in [(7, 20), (11, 10)] {
        let mut words = SMALL;
        words[index] = value;
        let damaged = bytes(&words);
        for before in [Tables::new(), small(), full(), other()] {
            let mut tables = before.clone();
            let read = tables.read(&damaged);
            assert_eq!(read, Err(Refusal::RegisterMalformed));
            assert!(tables == before, "both tables stay");
        }
        let read = Tables::read_from(&damaged[..]);
        assert_eq!(refusal(read), Refusal::RegisterMalformed);
        fs::write(directory.file(), &damaged).unwrap();
        let loaded = Tables::load(directory.file());
        assert_eq!(refusal(loaded), Refusal::RegisterMalformed);
        // One more, and it is another's number.
        words[index] += 1;
        let mut tables = other();
        assert_eq!(tables.read(&bytes(&words)), Ok(()));
        assert_eq!(written(&tables), bytes(&words));
    }
}

/// Two equal numbers side by side on a path: the origin becomes the neighbour, and vector O as a version before 0.5.0 kept it.
#[test]
fn equal_neighbours() {
    let directory = Directory::new("equal-neighbours");
    let mut words = SMALL;
    words[24] = 20;
    let [contents, register] = [&SMALL[..4], &SMALL[5..12]];
    let with_ledger = |ledger: &[u32]| {
        let length = 4 * ledger.len() as u32;
        bytes(&[contents, &[length], register, ledger].concat())
    };
    let unmerged = with_ledger(&[1, 3, 13, 1, 20, 0, 1, 3, 0, 0, 3, 20, 20, 10]);
    for damaged in [bytes(&words), unmerged] {
        for before in [Tables::new(), small(), full(), other()] {
            let mut tables = before.clone();
            let read = tables.read(&damaged);
            assert_eq!(read, Err(Refusal::LedgerMalformed));
            assert!(tables == before, "both tables stay");
        }
        let read = Tables::read_from(&damaged[..]);
        assert_eq!(refusal(read), Refusal::LedgerMalformed);
        fs::write(directory.file(), &damaged).unwrap();
        let loaded = Tables::load(directory.file());
        assert_eq!(refusal(loaded), Refusal::LedgerMalformed);
    }
    // One more, and it is another number.
    words[24] = 21;
    let mut tables = other();
    assert_eq!(tables.read(&bytes(&words)), Ok(()));
    assert_eq!(written(&tables), bytes(&words));
    // The path merged: the file is read, and its verdict judged anew.
    let merged = with_ledger(&[1, 2, 13, 1, 20, 0, 1, 3, 0, 0, 2, 20, 10]);
    fs::write(directory.file(), &merged).unwrap();
    let mut tables = Tables::load(directory.file()).unwrap();
    assert_eq!(written(&tables), merged);
    assert_eq!(tables.rejudge(&Register::new()), Ok(1));
    let route = tables.ledger.routes().next().unwrap();
    assert_eq!(route.verdict.to_string(), "Valid");
}

/// One path ends with the number that begins the next.
#[test]
fn equal_ends() {
    let mut tables = small();
    let Tables { register, ledger } = &mut tables;
    let path = sequence(&[10, 30].map(AsNumber)).unwrap();
    let (number, role) = (RouteNumber(8), Role::RouteServer);
    ledger
        .keep(
            register,
            &Register::new(),
            number,
            role,
            AsNumber(99),
            &path,
        )
        .unwrap();
    let file = written(&tables);
    assert_eq!(file[file.len() - 16..], bytes(&[20, 10, 10, 30]));
    let mut read = other();
    assert_eq!(read.read(&file), Ok(()));
    assert!(read == tables);
}

/// A stored verdict that is not true is read as it stands, and a re-judging puts it right.
#[test]
fn verdicts_are_judged_anew() {
    let mut words = SMALL;
    words[18..21].copy_from_slice(&[1, 2, 0]);
    let mut tables = Tables::read_from(&bytes(&words)[..]).unwrap();
    let route = tables.ledger.routes().next().unwrap();
    assert_eq!(route.verdict.to_string(), "Invalid 2 0");
    assert_eq!(tables.rejudge(&Register::new()), Ok(1));
    assert!(tables == small());
}

/// The overrides are in no snapshot: they count for the tables that are read as for those that were written, and in the place of a
/// register make one of their own.
#[test]
fn overrides() {
    let mut overrides = Register::new();
    overrides.file(3, AsNumber(10), &[AsNumber(30)]).unwrap();
    let mut tables = small();
    assert_eq!(tables.rejudge(&overrides), Ok(1));
    assert_eq!(written(&tables).len(), bytes(&SMALL).len());
    let mut read = other();
    assert_eq!(read.read(&written(&tables)), Ok(()));
    assert!(read == tables);
    assert_eq!(read.rejudge(&overrides), Ok(0));
    assert_eq!(read.rejudge(&Register::new()), Ok(1));
    assert!(read == small());

    let damaged = Register::from_words(vec![u32::MAX; REGISTER_WORDS]);
    let refused = read.rejudge(&damaged);
    assert_eq!(refused, Err(Refusal::RegisterMalformed));
    assert!(read == small());

    let own = Tables {
        register: overrides.clone(),
        ledger: Ledger::new(),
    };
    let read = Tables::read_from(&written(&own)[..]).unwrap();
    assert_eq!(read.register, overrides);
}

#[test]
fn saved_and_loaded() {
    let directory = Directory::new("saved");
    let file = directory.file();
    for tables in [small(), full(), Tables::new()] {
        tables.save(&file).unwrap();
        assert!(Tables::load(&file).unwrap() == tables);
        assert_eq!(fs::read(&file).unwrap(), written(&tables));
        assert_eq!(directory.names(), ["tables"], "nothing else is left");
    }
}

/// Without a directory in the path it is saved in the current one.
#[test]
fn saved_by_a_name_alone() {
    let name = format!("aspa-filter-{}-name", std::process::id());
    let saved = small().save(&name);
    let loaded = Tables::load(&name);
    fs::remove_file(&name).unwrap();
    saved.unwrap();
    assert!(loaded.unwrap() == small());
}

/// What is refused, or fails, leaves the file that was there, and nothing beside it.
#[test]
fn not_saved() {
    let directory = Directory::new("not-saved");
    let file = directory.file();
    small().save(&file).unwrap();
    let before = fs::read(&file).unwrap();
    let mut damaged = full();
    damaged.ledger = other().ledger;
    assert_eq!(refusal(damaged.save(&file)), Refusal::LedgerMalformed);
    damaged.register = Register::from_words([]);
    assert_eq!(refusal(damaged.save(&file)), Refusal::TableLength);
    assert_eq!(fs::read(&file).unwrap(), before);

    let inside = directory.0.join("inside");
    fs::create_dir(&inside).unwrap();
    fs::write(inside.join("x"), "x").unwrap();
    io_error(full().save(&inside));
    io_error(full().save(directory.0.join("none").join("tables")));
    io_error(full().save(file.join("tables")));
    for nowhere in ["", "/", ".."] {
        let error = io_error(full().save(Path::new(nowhere)));
        assert_eq!(error.kind(), io::ErrorKind::InvalidInput);
    }
    assert_eq!(directory.names(), ["inside", "tables"]);
    assert_eq!(fs::read(&file).unwrap(), before);
    assert_eq!(fs::read(inside.join("x")).unwrap(), b"x");
}

/// A link is replaced, and what it leads to stays.
#[test]
fn saved_over_a_link() {
    let directory = Directory::new("link");
    let target = directory.0.join("target");
    fs::write(&target, "target").unwrap();
    std::os::unix::fs::symlink(&target, directory.file()).unwrap();
    small().save(directory.file()).unwrap();
    assert!(Tables::load(directory.file()).unwrap() == small());
    assert_eq!(fs::read(&target).unwrap(), b"target");
}

/// Who loads while others save finds a whole snapshot of one of them.
#[test]
fn saved_by_many() {
    let directory = Directory::new("many");
    let file = directory.file();
    let all = [Tables::new(), small(), full()];
    all[0].save(&file).unwrap();
    std::thread::scope(|scope| {
        for tables in &all {
            let file = &file;
            scope.spawn(move || (0..20).for_each(|_| tables.save(file).unwrap()));
        }
        for _ in 0..100 {
            let loaded = Tables::load(&file).unwrap();
            assert!(all.contains(&loaded));
        }
    });
    assert_eq!(directory.names(), ["tables"]);
}

#[test]
fn not_loaded() {
    let directory = Directory::new("not-loaded");
    let file = directory.file();
    let error = io_error(Tables::load(&file));
    assert_eq!(error.kind(), io::ErrorKind::NotFound);
    io_error(Tables::load(&directory.0));
    let small = bytes(&SMALL);
    let mut malformed = small.clone();
    malformed[20..24].fill(0xFF);
    for (content, row) in [
        (&[][..], Refusal::SnapshotLength),
        (&small[..99], Refusal::SnapshotLength),
        (&[0; 100], Refusal::Edition),
        (&malformed, Refusal::RegisterMalformed),
    ] {
        fs::write(&file, content).unwrap();
        assert_eq!(refusal(Tables::load(&file)), row);
        assert_eq!(fs::read(&file).unwrap(), content);
    }
}

/// Some bytes, then zeros without end; counts what is taken.
struct Endless<'a> {
    first: &'a [u8],
    taken: usize,
}

impl Read for &mut Endless<'_> {
    fn read(&mut self, buffer: &mut [u8]) -> io::Result<usize> {
        let n = self.first.read(buffer)?;
        buffer[n..].fill(0);
        self.taken += buffer.len();
        Ok(buffer.len())
    }
}

/// What never ends is refused all the same, by the row that its first bytes say.
#[test]
fn longer_than_any() {
    let (full, mut contents) = (written(&full()), bytes(&SMALL));
    contents[19] = 1;
    for (first, row) in [
        (&full[..], Refusal::SnapshotLength),
        (&contents, Refusal::Contents),
        (&[], Refusal::Edition),
    ] {
        let mut endless = Endless { first, taken: 0 };
        assert_eq!(refusal(Tables::read_from(&mut endless)), row);
        assert!(endless.taken <= SNAPSHOT_BYTES + 1);
    }
}

/// Fails after some bytes.
struct Failing(usize);

impl Failing {
    fn go_on(&mut self, n: usize) -> io::Result<usize> {
        let n = n.min(self.0);
        self.0 -= n;
        if n == 0 {
            return Err(io::ErrorKind::BrokenPipe.into());
        }
        Ok(n)
    }
}

impl Read for Failing {
    fn read(&mut self, buffer: &mut [u8]) -> io::Result<usize> {
        self.go_on(buffer.len())
    }
}

impl Write for Failing {
    fn write(&mut self, bytes: &[u8]) -> io::Result<usize> {
        self.go_on(bytes.len())
    }

    fn flush(&mut self) -> io::Result<()> {
        Ok(())
    }
}

#[test]
fn errors() {
    let error = io_error(Tables::read_from(Failing(30)));
    assert_eq!(error.kind(), io::ErrorKind::BrokenPipe);
    let error = io_error(small().write_to(Failing(99)));
    assert_eq!(error.kind(), io::ErrorKind::BrokenPipe);
    small().write_to(Failing(100)).unwrap();
    // Nothing is written where it is refused.
    let mut nothing = Vec::new();
    let refused = other().write_to(&mut nothing);
    assert_eq!(refusal(refused), Refusal::RegisterMalformed);
    assert!(nothing.is_empty());

    let refused = SnapshotError::from(Refusal::Edition);
    assert_eq!(refused.to_string(), Refusal::Edition.to_string());
    let inner = SnapshotError::from(io::Error::other(Refusal::Contents));
    assert_eq!(inner.to_string(), Refusal::Contents.to_string());
    let boxed: [Box<dyn Error + Send + Sync>; 2] = [Box::new(refused), Box::new(inner)];
    assert!(boxed.iter().all(|error| error.source().is_none()));
}
