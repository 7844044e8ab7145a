//! Verdicts with their causes, and what a judging answers.
use crate::limits::{answer, MOST_PATH};
use crate::numbers::decimal;
use crate::{ffi, NamedHop, Origin, Refusal};
use std::error::Error;
use std::fmt;
use std::str::FromStr;

/// Why a route is Invalid before any hop is looked at. Its text is a short sentence.
#[derive(Clone, Copy, Debug, PartialEq, Eq, PartialOrd, Ord, Hash)]
#[repr(u32)]
pub enum Ground {
    /// The attribute has no bytes.
    Empty = 1,
    /// The first number is not the neighbour. Never with [`Role::RouteServer`](crate::Role::RouteServer).
    NotNeighbour = 2,
    /// A segment is a set.
    AsSet = 3,
}

impl Ground {
    const ALL: [Ground; 3] = [Ground::Empty, Ground::NotNeighbour, Ground::AsSet];

    /// The ground's number, 1 to 3.
    pub const fn number(self) -> u32 {
        self as u32
    }

    fn from_number(number: u32) -> Option<Ground> {
        Ground::ALL.into_iter().find(|g| g.number() == number)
    }
}

impl fmt::Display for Ground {
    fn fmt(&self, f: &mut fmt::Formatter<'_>) -> fmt::Result {
        f.pad(match self {
            Ground::Empty => "the path is empty",
            Ground::NotNeighbour => "the first number is not the neighbour",
            Ground::AsSet => "a segment is a set",
        })
    }
}

/// Why a route is Invalid.
#[derive(Clone, Copy, Debug, PartialEq, Eq, Hash)]
pub enum Cause {
    /// Something about the path as a whole; no record was looked up.
    Ground(Ground),
    /// Hops that are Not Provider+: their customer has records, and none of its lists holds the next number. Each has the register that
    /// counts for its customer.
    Hops {
        /// The lowest place u whose hop from AS(u-1) to AS(u) is Not Provider+. The customer is AS(u-1).
        a: NamedHop,
        /// Downstream the highest place v whose hop from AS(v+1) to AS(v) is Not Provider+, which is `a` or above. The customer is
        /// AS(v+1). Upstream there is none.
        b: Option<NamedHop>,
    },
}

/// Whether a path keeps to the records.
///
/// A place counts the merged path from the origin: AS(1) is the origin, the path's right end, and AS(N) is the left end. A run of one
/// number has one place, over the ends of segments too. In the `path` of a kept [`Route`](crate::Route) AS(u) is `path[path.len() - u]`.
///
/// The text is that of the console, and is read back. An Invalid by hops has both places and then both origins, 0 and `-` for a hop that is
/// not named:
///
/// ```
/// use aspa_filter::{Cause, Ground, NamedHop, Origin, Verdict};
///
/// let a = NamedHop { place: 3, origin: Origin::Public };
/// let b = NamedHop { place: 5, origin: Origin::Overrides };
/// for (verdict, text) in [
///     (Verdict::Valid, "Valid"),
///     (Verdict::Invalid(Cause::Ground(Ground::NotNeighbour)), "Invalid ground 2"),
///     (Verdict::Invalid(Cause::Hops { a, b: None }), "Invalid 3 0 public -"),
///     (Verdict::Invalid(Cause::Hops { a, b: Some(b) }), "Invalid 3 5 public drawer"),
///     (Verdict::Unknown { a: 1, b: 3 }, "Unknown 1 3"),
/// ] {
///     assert_eq!(verdict.to_string(), text);
///     assert_eq!(text.parse(), Ok(verdict));
/// }
/// ```
#[derive(Clone, Copy, Debug, PartialEq, Eq, Hash)]
pub enum Verdict {
    /// Every hop that has to be attested is.
    Valid,
    /// The path breaks the records, or has a ground.
    Invalid(Cause),
    /// The records do not say enough.
    Unknown {
        /// Upstream the lowest place u whose hop from AS(u-1) to AS(u) has no attestation: AS(u-1) has no record. Downstream K, the
        /// highest place that is reached from the origin by attested hops upward.
        a: u32,
        /// Upstream 0. Downstream L, the lowest place that is reached from the left end by attested hops from AS(j) to AS(j-1).
        b: u32,
    },
}

impl fmt::Display for Verdict {
    fn fmt(&self, f: &mut fmt::Formatter<'_>) -> fmt::Result {
        KeptVerdict::from(*self).fmt(f)?;
        match self {
            Verdict::Invalid(Cause::Hops { a, b: Some(b) }) => {
                write!(f, " {} {}", a.origin, b.origin)
            }
            Verdict::Invalid(Cause::Hops { a, b: None }) => write!(f, " {} -", a.origin),
            _ => Ok(()),
        }
    }
}

impl FromStr for Verdict {
    type Err = ParseVerdictError;

    fn from_str(text: &str) -> Result<Verdict, ParseVerdictError> {
        let words: Vec<&str> = text.split(' ').collect();
        // The two origins of an Invalid by hops, as an answer's words, 0 for none.
        let (kept, a, b) = match words[..] {
            ["Invalid", _, _, a, b] => {
                let number = |origin| Origin::from_name(origin).map(|origin| origin as u32);
                let b = if b == "-" { Some(0) } else { number(b) };
                (words[..3].join(" "), number(a), b)
            }
            _ => (text.into(), Some(0), Some(0)),
        };
        let verdict = kept.parse::<KeptVerdict>()?;
        let origins = a.zip(b).ok_or(ParseVerdictError(()))?;
        verdict.named(origins).ok_or(ParseVerdictError(()))
    }
}

/// The verdict of a kept route: that of its keeping or of the last re-judging, without the registers of its hops, which a ledger does not
/// hold. The text is the ledger's too, and is read back.
///
/// ```
/// use aspa_filter::{Cause, KeptCause, KeptVerdict, NamedHop, Origin, Verdict};
///
/// let a = NamedHop { place: 3, origin: Origin::Public };
/// let kept = KeptVerdict::from(Verdict::Invalid(Cause::Hops { a, b: None }));
/// assert_eq!(kept, KeptVerdict::Invalid(KeptCause::Hops { a: 3, b: 0 }));
/// assert_eq!(kept.to_string(), "Invalid 3 0");
/// assert_eq!("Invalid 3 0".parse(), Ok(kept));
/// ```
#[derive(Clone, Copy, Debug, PartialEq, Eq, Hash)]
pub enum KeptVerdict {
    /// [`Verdict::Valid`].
    Valid,
    /// [`Verdict::Invalid`].
    Invalid(KeptCause),
    /// [`Verdict::Unknown`].
    Unknown {
        /// The first place.
        a: u32,
        /// The second.
        b: u32,
    },
}

/// Why a kept route is Invalid.
#[derive(Clone, Copy, Debug, PartialEq, Eq, Hash)]
pub enum KeptCause {
    /// [`Cause::Ground`].
    Ground(Ground),
    /// [`Cause::Hops`].
    Hops {
        /// The place of the first hop.
        a: u32,
        /// The place of the second, 0 where only one is named.
        b: u32,
    },
}

impl KeptVerdict {
    /// A verdict by the word rules of a ledger: they tie places to a ground, and not to Valid. `None` where a word means nothing.
    pub(crate) fn from_words(verdict: u32, ground: u32, a: u32, b: u32) -> Option<KeptVerdict> {
        if a.max(b) as usize > MOST_PATH {
            return None;
        }
        match (verdict, ground) {
            (0, 0) => Some(KeptVerdict::Valid),
            (1, 0) => Some(KeptVerdict::Invalid(KeptCause::Hops { a, b })),
            (2, 0) => Some(KeptVerdict::Unknown { a, b }),
            (1, ground) if (a, b) == (0, 0) => Ground::from_number(ground)
                .map(|ground| KeptVerdict::Invalid(KeptCause::Ground(ground))),
            _ => None,
        }
    }

    /// With the origins of an answer, 0 for none. `None` where a hop that is named has none, or one has no hop.
    fn named(self, origins: (u32, u32)) -> Option<Verdict> {
        match self {
            KeptVerdict::Invalid(KeptCause::Hops { a, b }) => {
                let (a, b) = (
                    NamedHop::told(a, origins.0)??,
                    NamedHop::told(b, origins.1)?,
                );
                Some(Verdict::Invalid(Cause::Hops { a, b }))
            }
            _ if origins != (0, 0) => None,
            KeptVerdict::Invalid(KeptCause::Ground(ground)) => {
                Some(Verdict::Invalid(Cause::Ground(ground)))
            }
            KeptVerdict::Valid => Some(Verdict::Valid),
            KeptVerdict::Unknown { a, b } => Some(Verdict::Unknown { a, b }),
        }
    }
}

impl From<Verdict> for KeptVerdict {
    fn from(verdict: Verdict) -> KeptVerdict {
        match verdict {
            Verdict::Valid => KeptVerdict::Valid,
            Verdict::Invalid(Cause::Ground(ground)) => {
                KeptVerdict::Invalid(KeptCause::Ground(ground))
            }
            Verdict::Invalid(Cause::Hops { a, b }) => KeptVerdict::Invalid(KeptCause::Hops {
                a: a.place,
                b: b.map_or(0, |b| b.place),
            }),
            Verdict::Unknown { a, b } => KeptVerdict::Unknown { a, b },
        }
    }
}

impl fmt::Display for KeptVerdict {
    fn fmt(&self, f: &mut fmt::Formatter<'_>) -> fmt::Result {
        match self {
            KeptVerdict::Valid => f.write_str("Valid"),
            KeptVerdict::Invalid(KeptCause::Ground(ground)) => {
                write!(f, "Invalid ground {}", ground.number())
            }
            KeptVerdict::Invalid(KeptCause::Hops { a, b }) => write!(f, "Invalid {a} {b}"),
            KeptVerdict::Unknown { a, b } => write!(f, "Unknown {a} {b}"),
        }
    }
}

impl FromStr for KeptVerdict {
    type Err = ParseVerdictError;

    fn from_str(text: &str) -> Result<KeptVerdict, ParseVerdictError> {
        let number = |word| decimal(word).ok_or(ParseVerdictError(()));
        let words: Vec<&str> = text.split(' ').collect();
        match words[..] {
            ["Valid"] => Ok(KeptVerdict::Valid),
            ["Invalid", "ground", ground] => Ground::from_number(number(ground)?)
                .map(|ground| KeptVerdict::Invalid(KeptCause::Ground(ground)))
                .ok_or(ParseVerdictError(())),
            ["Invalid", a, b] => Ok(KeptVerdict::Invalid(KeptCause::Hops {
                a: number(a)?,
                b: number(b)?,
            })),
            ["Unknown", a, b] => Ok(KeptVerdict::Unknown {
                a: number(a)?,
                b: number(b)?,
            }),
            _ => Err(ParseVerdictError(())),
        }
    }
}

/// A text that is no verdict's.
#[derive(Clone, Copy, Debug, PartialEq, Eq, Hash)]
pub struct ParseVerdictError(());

impl fmt::Display for ParseVerdictError {
    fn fmt(&self, f: &mut fmt::Formatter<'_>) -> fmt::Result {
        f.write_str(
            "no verdict: it is `Valid`, `Invalid ground G`, `Invalid A B` \
             (of an answer with two origins behind it) or `Unknown A B`",
        )
    }
}

impl Error for ParseVerdictError {}

/// What a judging answers. Its text is that of the verdict, and ` gap -1` after it where a gap is given.
#[derive(Clone, Copy, Debug, PartialEq, Eq, Hash)]
pub struct Answer {
    /// The verdict, with its cause or places.
    pub verdict: Verdict,
    /// Of a route that is judged downstream and has no ground: L - K, of absolute value below [`MOST_PATH`]. It is 1 or less if the
    /// route is Valid; negative where the two ramps overlap.
    pub gap: Option<i32>,
}

impl Answer {
    /// What the library's result says. Words that are no answer are an error, and never Valid.
    pub(crate) fn told((row, out, gap): ffi::Judged) -> Result<Answer, Refusal> {
        Refusal::told(row, out[answer::REFUSAL_PLACE])?;
        let (a, b) = (out[answer::PLACE_A], out[answer::PLACE_B]);
        let origins = (out[answer::ORIGIN_A], out[answer::ORIGIN_B]);
        let verdict = KeptVerdict::from_words(out[answer::VERDICT], out[answer::GROUND], a, b)
            .filter(|verdict| *verdict != KeptVerdict::Valid || (a, b) == (0, 0))
            .and_then(|verdict| verdict.named(origins));
        let gap = match out[answer::HAS_GAP] {
            0 => Some(None),
            1 if (gap.unsigned_abs() as usize) < MOST_PATH => Some(Some(gap)),
            _ => None,
        };
        match (verdict, gap) {
            (Some(verdict), Some(gap)) => Ok(Answer { verdict, gap }),
            _ => Err(Refusal::NoAnswer { number: row }),
        }
    }
}

impl fmt::Display for Answer {
    fn fmt(&self, f: &mut fmt::Formatter<'_>) -> fmt::Result {
        self.verdict.fmt(f)?;
        match self.gap {
            Some(gap) => write!(f, " gap {gap}"),
            None => Ok(()),
        }
    }
}

#[cfg(test)]
mod tests {
    use super::*;
    use crate::limits::REGISTER_WORDS;

    const TOP: u32 = u32::MAX;

    /// The typed calls cannot pass a number that is no role's, so the library is asked itself.
    #[test]
    fn a_role_that_is_none() {
        let register = [0; REGISTER_WORDS];
        for role in [0, 7, TOP] {
            let told = ffi::judge(&register, &register, role, 0, &[]);
            assert_eq!(Answer::told(told), Err(Refusal::Role), "before row 10");
        }
    }

    /// Of a refusal's words only the place counts, and only where the row has one.
    #[test]
    fn words_of_a_refusal() {
        for words in [[0; 5], [3, 0, 0, 0, 0], [TOP; 5], [1, 2, 0, 0, 1]] {
            let [verdict, ground, a, b, has_gap] = words;
            for row in 1..=24 {
                let told = (row, [verdict, ground, a, b, has_gap, 77, b, 2], 5);
                let refusal = Answer::told(told).expect_err("refused");
                assert_eq!(refusal.number(), row);
                let place = (12..=16).contains(&row).then_some(77);
                assert_eq!(refusal.place(), place, "{row}");
            }
        }
    }

    /// A result that is no row, and words that are no answer.
    #[test]
    fn no_answer() {
        for row in [25, TOP] {
            let refusal = Answer::told((row, [0; answer::WORDS], 0)).expect_err("no row");
            assert_eq!(refusal, Refusal::NoAnswer { number: row });
            assert_eq!((refusal.number(), refusal.place()), (row, None));
        }
        for words in [
            [3, 0, 0, 0, 0, 0, 0, 0],
            [ffi::UNWRITTEN; 8],
            [0, 1, 0, 0, 0, 0, 0, 0],
            [0, 0, 1, 0, 0, 0, 0, 0],
            [0, 0, 0, 1, 0, 0, 0, 0],
            [0, 0, 0, 0, 2, 0, 0, 0],
            [0, 0, 0, 0, TOP, 0, 0, 0],
            [1, 4, 0, 0, 0, 0, 0, 0],
            [1, 1, 2, 0, 0, 0, 0, 0],
            [1, 0, 513, 0, 0, 0, 1, 0],
            [2, 1, 0, 0, 0, 0, 0, 0],
            [2, 0, 1, 513, 0, 0, 0, 0],
            // A hop without a register, and a register without a hop.
            [1, 0, 2, 0, 0, 0, 0, 0],
            [1, 0, 2, 0, 0, 0, 3, 0],
            [1, 0, 2, 0, 0, 0, 1, 2],
            [1, 0, 2, 3, 1, 0, 1, 0],
            [1, 0, 2, 3, 1, 0, 0, 2],
            [1, 0, 2, 3, 1, 0, 1, TOP],
            [1, 0, 0, 3, 1, 0, 0, 1],
            [1, 0, 0, 0, 0, 0, 0, 0],
            [1, 0, 0, 0, 0, 0, 1, 0],
            [1, 1, 0, 0, 0, 0, 1, 0],
            [0, 0, 0, 0, 0, 0, 1, 0],
            [0, 0, 0, 0, 1, 0, 0, 2],
            [2, 0, 2, 0, 0, 0, 1, 0],
            [2, 0, 1, 3, 1, 0, 2, 1],
        ] {
            let refusal = Answer::told((0, words, 0)).expect_err("no answer");
            assert_eq!(refusal, Refusal::NoAnswer { number: 0 }, "{words:?}");
            assert_eq!(
                refusal.to_string(),
                "no answer: the library returned 0 and words that mean nothing here"
            );
        }
        for gap in [512, -512, i32::MIN] {
            let refusal = text([0, 0, 0, 0, 1, 0, 0, 0], gap);
            assert_eq!(refusal, Err(Refusal::NoAnswer { number: 0 }));
        }
    }

    fn text(words: [u32; answer::WORDS], gap: i32) -> Result<String, Refusal> {
        Answer::told((0, words, gap)).map(|answer| answer.to_string())
    }

    /// The farthest places and the widest gaps; a gap that is not given does not count.
    #[test]
    fn farthest_answers() {
        for (words, gap, told) in [
            ([0, 0, 0, 0, 0, 0, 0, 0], 512, "Valid"),
            ([0, 0, 0, 0, 1, 0, 0, 0], -511, "Valid gap -511"),
            ([1, 0, 512, 0, 0, 0, 1, 0], 0, "Invalid 512 0 public -"),
            ([1, 0, 2, 0, 0, 0, 2, 0], 0, "Invalid 2 0 drawer -"),
            (
                [1, 0, 512, 512, 1, 0, 2, 1],
                511,
                "Invalid 512 512 drawer public gap 511",
            ),
            ([2, 0, 1, 512, 1, 0, 0, 0], 511, "Unknown 1 512 gap 511"),
        ] {
            assert_eq!(text(words, gap), Ok(told.into()));
        }
    }
}
