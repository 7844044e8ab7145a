//! The console's commands: one line in, one answer out.

use crate::attributes::hex;
use crate::judge::{Cause, Hop, Judgement, Named, Side, Verdict};
use crate::words::Form;
use crate::{AsNumber, Filed, Model, Records, Refusal, RouteNumber, Table};

/// In bytes, the newline not counted.
pub const LONGEST_LINE: usize = 262_144;
pub const LONGEST_TABLE: u32 = 16_384;
/// Of `write`, in bytes.
pub const LONGEST_OUTPUT: u32 = 131_072;

const ERROR: &str = "error";
const DONE: &str = "done";

/// The answer to one line, given without its newline; neither has one.
pub fn answer(model: &mut Model, line: &[u8]) -> String {
    if line.len() > LONGEST_LINE {
        return ERROR.to_string();
    }
    // Two spaces, or one at an end, make an empty word, which nothing accepts.
    let words: Option<Vec<&str>> =
        line.split(|b| *b == b' ').map(|w| std::str::from_utf8(w).ok()).collect();
    words.and_then(|words| run(model, &words)).unwrap_or_else(|| ERROR.to_string())
}

/// None for what is no command.
fn run(model: &mut Model, words: &[&str]) -> Option<String> {
    let answer = match words {
        ["file" | "dfile", source, customer, list @ ..] => {
            let (source, customer) = (number(source)?, as_number(customer)?);
            let list: Option<Vec<AsNumber>> = list.iter().map(|w| as_number(w)).collect();
            register(model, words[0]).file(source, customer, &list?).map(|filed| match filed {
                Filed::New => "new".to_string(),
                Filed::Replaced => "replaced".to_string(),
            })
        }
        ["withdraw" | "dwithdraw", source, customer] => {
            let (source, customer) = (number(source)?, as_number(customer)?);
            register(model, words[0]).withdraw(source, customer).map(done)
        }
        ["clear" | "dclear", source] => {
            let source = number(source)?;
            register(model, words[0]).clear(source).map(|n| format!("cleared {n}"))
        }
        ["lookup", customer, source] => {
            let list = model.lookup(as_number(customer)?, number(source)?);
            Ok(list.iter().fold("list".to_string(), |line, n| format!("{line} {}", n.0)))
        }
        ["hop", x, y] => {
            let asked = |word: &str| as_number(word).filter(|number| number.0 > 0);
            model.hop(asked(x)?, asked(y)?).map(hopped)
        }
        ["judge", role, neighbour, hex] => {
            model.judge(number(role)?, as_number(neighbour)?, &bytes(hex)?).map(judged)
        }
        ["keep", route, role, neighbour, hex] => model
            .keep(RouteNumber(number(route)?), number(role)?, as_number(neighbour)?, &bytes(hex)?)
            .map(judged),
        ["drop", route] => model.drop(RouteNumber(number(route)?)).map(done),
        ["rejudge"] => model.rejudge().map(|n| format!("changed {n}")),
        ["write", capacity] => {
            let capacity = number(capacity).filter(|bytes| *bytes <= LONGEST_OUTPUT)?;
            let mut output = vec![0; capacity as usize];
            model
                .write(&mut output)
                .map(|length| format!("written {length} {}", hex(&output[..length])))
        }
        ["read", hex] => model.read(&bytes(hex)?).map(done),
        ["register"] => Ok(joined(&model.register.used_words())),
        ["drawer"] => Ok(joined(&model.overrides.used_words())),
        ["ledger"] => Ok(joined(&model.ledger.used_words())),
        ["poke", table, index, value] => {
            let (index, value) = (number(index)? as usize, number(value)?);
            let inside = match *table {
                "register" => model.register.poke(index, value),
                "drawer" => model.overrides.poke(index, value),
                "ledger" => model.ledger.poke(index, value),
                _ => return None,
            };
            if !inside {
                return None;
            }
            Ok(DONE.to_string())
        }
        ["resize", table, length] => {
            let length = number(length).filter(|length| *length <= LONGEST_TABLE)? as usize;
            match *table {
                "register" => model.register.resize(length),
                "drawer" => model.overrides.resize(length),
                "ledger" => model.ledger.resize(length),
                _ => return None,
            }
            Ok(DONE.to_string())
        }
        ["words", "register"] => Ok(all_words(&model.register)),
        ["words", "drawer"] => Ok(all_words(&model.overrides)),
        ["words", "ledger"] => Ok(all_words(&model.ledger)),
        ["empty"] => {
            *model = Model::new();
            Ok(DONE.to_string())
        }
        _ => return None,
    };
    Some(answer.unwrap_or_else(refused))
}

/// What a command works on: with a d before it, the overrides.
fn register<'a>(model: &'a mut Model, command: &str) -> &'a mut Table<Records> {
    match command {
        "dfile" | "dwithdraw" | "dclear" => &mut model.overrides,
        _ => &mut model.register,
    }
}

/// Decimal, without sign or leading zeros, below 2^32.
fn number(word: &str) -> Option<u32> {
    let digits = !word.is_empty() && word.bytes().all(|b| b.is_ascii_digit());
    if !digits || (word.len() > 1 && word.starts_with('0')) {
        return None;
    }
    word.parse().ok()
}

fn as_number(word: &str) -> Option<AsNumber> {
    number(word).map(AsNumber)
}

/// Lowercase hex, two digits a byte; `-` for none.
pub fn bytes(word: &str) -> Option<Vec<u8>> {
    if word == "-" {
        return Some(Vec::new());
    }
    if word.is_empty() || word.len() % 2 == 1 {
        return None;
    }
    let digit = |b: u8| match b {
        b'0'..=b'9' => Some(b - b'0'),
        b'a'..=b'f' => Some(b - b'a' + 10),
        _ => None,
    };
    word.as_bytes().chunks(2).map(|pair| Some(digit(pair[0])? * 16 + digit(pair[1])?)).collect()
}

fn done(_: ()) -> String {
    DONE.to_string()
}

fn judged(judgement: Judgement) -> String {
    let verdict = match judgement.verdict {
        Verdict::Valid => "Valid".to_string(),
        Verdict::Invalid(Cause::Ground(ground)) => format!("Invalid ground {}", ground as u32),
        Verdict::Invalid(Cause::Hops { a, b }) => {
            let (place, other) = match b {
                Some(Named { place, side: other }) => (place, side(other)),
                None => (0, "-"),
            };
            format!("Invalid {} {place} {} {other}", a.place, side(a.side))
        }
        Verdict::Unknown { a, b } => format!("Unknown {a} {b}"),
    };
    match judgement.gap {
        Some(gap) => format!("{verdict} gap {gap}"),
        None => verdict,
    }
}

fn side(side: Side) -> &'static str {
    match side {
        Side::Overrides => "drawer",
        Side::Public => "public",
    }
}

fn hopped(hop: Hop) -> String {
    match hop {
        Hop::NoAttestation => "none".to_string(),
        Hop::Provider { side: of, source } => format!("provider {} {source}", side(of)),
        Hop::NotProvider { side: of } => format!("other {}", side(of)),
    }
}

fn refused(refusal: Refusal) -> String {
    match refusal.place {
        Some(place) => format!("refused {} at {place}", refusal.row),
        None => format!("refused {}", refusal.row),
    }
}

fn joined(words: &[u32]) -> String {
    let words: Vec<String> = words.iter().map(u32::to_string).collect();
    words.join(" ")
}

/// The length, then the words up to the last that isn't zero.
fn all_words<T: Form>(table: &Table<T>) -> String {
    let words = table.words();
    let used = words.iter().rposition(|w| *w != 0).map_or(0, |last| last + 1);
    let mut answer = vec![words.len() as u32];
    answer.extend(&words[..used]);
    joined(&answer)
}
