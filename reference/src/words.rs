//! Registers and ledger as words: their rules, reading, writing out.

use crate::{
    check_list, AsNumber, Records, Route, RouteNumber, Routes, GREATEST_SOURCE, LONGEST_PATH,
    MOST_BODY_WORDS, MOST_RECORDS, MOST_ROUTES,
};

/// What a map needs to stand for a table.
pub trait Form: Default {
    /// Words of the whole table.
    const LENGTH: usize;
    /// Words of an entry.
    const ENTRY: usize;
    /// The row that refuses a damaged table.
    const DAMAGED: u8;
    /// By the word rules; the length is right.
    fn well_formed(words: &[u32]) -> bool;
    /// From well-formed words.
    fn read(words: &[u32]) -> Self;
    /// Up to the last body word.
    fn write(&self) -> Vec<u32>;

    /// How many words the two counts make used, which in a table that breaks
    /// the rules may be more than it has.
    fn used(words: &[u32]) -> u64 {
        let count = |index: usize| u64::from(words.get(index).copied().unwrap_or(0));
        2 + Self::ENTRY as u64 * count(0) + count(1)
    }
}

pub fn padded(mut words: Vec<u32>, length: usize) -> Vec<u32> {
    words.resize(length, 0);
    words
}

/// The rules that all tables share: counts bounded before they are used,
/// each start the sum of the counts before, their sum the body's length,
/// zeros to the end. Gives each entry with its body.
fn entries<const ENTRY: usize>(
    words: &[u32],
    most: usize,
    start_at: usize,
) -> Option<Vec<(&[u32], &[u32])>> {
    let (count, body_words) = (words[0] as usize, words[1] as usize);
    if count > most || body_words > MOST_BODY_WORDS {
        return None;
    }
    let (contents, rest) = words[2..].split_at(ENTRY * count);
    let (body, rest) = rest.split_at(body_words);
    if rest.iter().any(|w| *w != 0) {
        return None;
    }
    let mut sum: u64 = 0;
    let mut found = Vec::new();
    for entry in contents.chunks(ENTRY) {
        let (start, length) = (u64::from(entry[start_at]), u64::from(entry[start_at + 1]));
        if start != sum || sum + length > body.len() as u64 {
            return None;
        }
        found.push((entry, &body[sum as usize..(sum + length) as usize]));
        sum += length;
    }
    if sum != body.len() as u64 {
        return None;
    }
    Some(found)
}

fn numbers(words: &[u32]) -> Vec<AsNumber> {
    words.iter().map(|w| AsNumber(*w)).collect()
}

const RECORD_WORDS: usize = 4;

impl Form for Records {
    const LENGTH: usize = 2 + RECORD_WORDS * MOST_RECORDS + MOST_BODY_WORDS;
    const ENTRY: usize = RECORD_WORDS;
    const DAMAGED: u8 = 2;

    fn well_formed(words: &[u32]) -> bool {
        let Some(entries) = entries::<RECORD_WORDS>(words, MOST_RECORDS, 2) else {
            return false;
        };
        let each = entries.iter().all(|(entry, list)| {
            entry[0] >= 1
                && entry[1] <= GREATEST_SOURCE
                && check_list(AsNumber(entry[0]), &numbers(list)).is_ok()
        });
        each && entries.windows(2).all(|pair| {
            let (before, after) = (pair[0].0, pair[1].0);
            (before[0], before[1]) < (after[0], after[1])
        })
    }

    fn read(words: &[u32]) -> Records {
        let count = words[0] as usize;
        let mut body = &words[2 + RECORD_WORDS * count..];
        let mut records = Records::new();
        for entry in words[2..].chunks(RECORD_WORDS).take(count) {
            let (list, rest) = body.split_at(entry[3] as usize);
            records.insert((AsNumber(entry[0]), entry[1]), numbers(list));
            body = rest;
        }
        records
    }

    fn write(&self) -> Vec<u32> {
        let mut contents = Vec::new();
        let mut body = Vec::new();
        for ((customer, source), list) in self {
            contents.extend([customer.0, *source, body.len() as u32, list.len() as u32]);
            body.extend(list.iter().map(|provider| provider.0));
        }
        joined(self.len(), contents, body)
    }
}

const ROUTE_WORDS: usize = 9;
const ROUTE_SERVER: u32 = 4;

impl Form for Routes {
    const LENGTH: usize = 2 + ROUTE_WORDS * MOST_ROUTES + MOST_BODY_WORDS;
    const ENTRY: usize = ROUTE_WORDS;
    const DAMAGED: u8 = 3;

    fn well_formed(words: &[u32]) -> bool {
        let Some(entries) = entries::<ROUTE_WORDS>(words, MOST_ROUTES, 7) else {
            return false;
        };
        let each = entries.iter().all(|(entry, path)| {
            let (role, neighbour, ground) = (entry[1], entry[2], entry[3]);
            let (verdict, a, b) = (entry[4], entry[5], entry[6]);
            let place = 0..=LONGEST_PATH as u32;
            (1..=6).contains(&role)
                && neighbour >= 1
                && verdict <= 2
                && place.contains(&a)
                && place.contains(&b)
                && match ground {
                    0 => {
                        (1..=LONGEST_PATH).contains(&path.len())
                            && path.iter().all(|number| *number != 0)
                            // A merged path; the next entry's may begin with its last number.
                            && path.windows(2).all(|pair| pair[0] != pair[1])
                            && (role == ROUTE_SERVER || path[0] == neighbour)
                    }
                    1..=3 => {
                        path.is_empty()
                            && (verdict, a, b) == (1, 0, 0)
                            && !(ground == 2 && role == ROUTE_SERVER)
                    }
                    _ => false,
                }
        });
        each && entries.windows(2).all(|pair| pair[0].0[0] < pair[1].0[0])
    }

    fn read(words: &[u32]) -> Routes {
        let count = words[0] as usize;
        let mut body = &words[2 + ROUTE_WORDS * count..];
        let mut routes = Routes::new();
        for entry in words[2..].chunks(ROUTE_WORDS).take(count) {
            let (path, rest) = body.split_at(entry[8] as usize);
            let route = Route {
                role: entry[1],
                neighbour: AsNumber(entry[2]),
                ground: entry[3],
                verdict: entry[4],
                place_a: entry[5],
                place_b: entry[6],
                path: numbers(path),
            };
            routes.insert(RouteNumber(entry[0]), route);
            body = rest;
        }
        routes
    }

    fn write(&self) -> Vec<u32> {
        let mut contents = Vec::new();
        let mut body = Vec::new();
        for (number, route) in self {
            contents.extend([number.0, route.role, route.neighbour.0, route.ground]);
            contents.extend([route.verdict, route.place_a, route.place_b]);
            contents.extend([body.len() as u32, route.path.len() as u32]);
            body.extend(route.path.iter().map(|number| number.0));
        }
        joined(self.len(), contents, body)
    }
}

fn joined(count: usize, contents: Vec<u32>, body: Vec<u32>) -> Vec<u32> {
    let mut words = vec![count as u32, body.len() as u32];
    words.extend(contents);
    words.extend(body);
    words
}
