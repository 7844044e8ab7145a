// What the tests and the streams both begin with.

/// The filings of the published vectors' register.
pub const REGISTER_D: [&str; 6] = [
    "file 0 10 20 30", "file 0 20 40", "file 0 40 0", "file 0 50 40", "file 0 70 80",
    "file 0 80 70",
];

/// Paths that end with the number that the next one begins with, over an entry
/// without a path too, and two of one number.
pub const SEAMS: [(u32, u32, u32, &[u32]); 7] = [
    (5, 1, 20, &[20, 10, 30, 40]),
    (6, 3, 40, &[40, 20, 10, 50]),
    (7, 4, 9, &[]),
    (8, 4, 99, &[50, 10, 20]),
    (9, 2, 20, &[20]),
    (10, 5, 20, &[20]),
    (11, 6, 20, &[20, 10, 40, 30]),
];

/// 1 to `last`.
pub fn upto(last: u32) -> Vec<u32> {
    (1..=last).collect()
}

/// 1 to `last`, those up to `twice` two times each.
pub fn doubled(last: u32, twice: u32) -> Vec<u32> {
    (1..=last).flat_map(|n| vec![n; if n <= twice { 2 } else { 1 }]).collect()
}

/// `count` numbers, 1 to `last` in runs about as long as each other.
pub fn spread(last: usize, count: usize) -> Vec<u32> {
    (0..count).map(|i| 1 + (i * last / count) as u32).collect()
}

/// Filings, in their order, by which each of 1 to `last` lists the numbers beside it.
pub fn chain(last: u32) -> Vec<String> {
    let beside = |n: u32| [n - 1, n + 1].into_iter().filter(|n| (1..=last).contains(n));
    let list = |n: u32| beside(n).map(|n| format!(" {n}")).collect::<String>();
    (1..=last).map(|n| format!("file 3 {n}{}", list(n))).collect()
}
