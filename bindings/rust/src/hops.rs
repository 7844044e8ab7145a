//! Hops, and the register that one is read from.
use crate::limits::{GREATEST_SOURCE, NO_SOURCE};
use crate::{ffi, Refusal};
use std::fmt;

/// The register that counts for a hop's customer: the overrides if they hold any record of it, from whichever source, otherwise the public
/// one. Its text is the console's.
#[derive(Clone, Copy, Debug, PartialEq, Eq, PartialOrd, Ord, Hash)]
#[repr(u32)]
pub enum Origin {
    /// The public register: `public`.
    Public = 1,
    /// The operator's own: `drawer`.
    Overrides = 2,
}

impl Origin {
    const ALL: [Origin; 2] = [Origin::Public, Origin::Overrides];

    /// Of a word of an answer; 0 is none.
    pub(crate) fn from_word(word: u32) -> Option<Origin> {
        let mut all = Origin::ALL.into_iter();
        all.find(|origin| *origin as u32 == word)
    }

    pub(crate) fn from_name(name: &str) -> Option<Origin> {
        let mut all = Origin::ALL.into_iter();
        all.find(|origin| origin.name() == name)
    }

    const fn name(self) -> &'static str {
        match self {
            Origin::Public => "public",
            Origin::Overrides => "drawer",
        }
    }
}

impl fmt::Display for Origin {
    fn fmt(&self, f: &mut fmt::Formatter<'_>) -> fmt::Result {
        f.pad(self.name())
    }
}

/// What a hop from one network, the customer, to another is: see [`Register::hop`](crate::Register::hop). Its text is the console's.
#[derive(Clone, Copy, Debug, PartialEq, Eq, Hash)]
pub enum Hop {
    /// Neither register has a record of the customer: `none`.
    NoAttestation,
    /// A list of the customer holds the other: `provider public 0`.
    ProviderPlus {
        /// The register that counts for the customer.
        origin: Origin,
        /// The lowest source there whose list holds the other.
        source: u32,
    },
    /// The customer has records, and none of its lists holds the other: `other drawer`.
    NotProviderPlus {
        /// The register that counts for the customer.
        origin: Origin,
    },
}

impl Hop {
    /// What the library's result says. Words that are no answer are an error.
    pub(crate) fn told((row, [kind, origin, source]): ffi::Hopped) -> Result<Hop, Refusal> {
        Refusal::told(row, 0)?;
        match (kind, Origin::from_word(origin), source) {
            (0, None, NO_SOURCE) if origin == 0 => Ok(Hop::NoAttestation),
            (1, Some(origin), 0..=GREATEST_SOURCE) => Ok(Hop::ProviderPlus { origin, source }),
            (2, Some(origin), NO_SOURCE) => Ok(Hop::NotProviderPlus { origin }),
            _ => Err(Refusal::NoAnswer { number: row }),
        }
    }
}

impl fmt::Display for Hop {
    fn fmt(&self, f: &mut fmt::Formatter<'_>) -> fmt::Result {
        match self {
            Hop::NoAttestation => f.write_str("none"),
            Hop::ProviderPlus { origin, source } => write!(f, "provider {origin} {source}"),
            Hop::NotProviderPlus { origin } => write!(f, "other {origin}"),
        }
    }
}

/// A hop that an Invalid names.
#[derive(Clone, Copy, Debug, PartialEq, Eq, Hash)]
pub struct NamedHop {
    /// Where on the path the hop leads to.
    pub place: u32,
    /// The register that counts for its customer.
    pub origin: Origin,
}

impl NamedHop {
    /// Place 0 is of no hop, and has no origin. `None` where there is one without the other.
    pub(crate) fn told(place: u32, origin: u32) -> Option<Option<NamedHop>> {
        match (place, Origin::from_word(origin)) {
            (0, None) if origin == 0 => Some(None),
            (1.., Some(origin)) => Some(Some(NamedHop { place, origin })),
            _ => None,
        }
    }
}

#[cfg(test)]
mod tests {
    use super::*;
    use crate::ffi::UNWRITTEN;

    #[test]
    fn answers() {
        let (public, overrides) = (Origin::Public, Origin::Overrides);
        for (words, hop, text) in [
            ([0, 0, 8], Hop::NoAttestation, "none"),
            (
                [1, 1, 0],
                Hop::ProviderPlus {
                    origin: public,
                    source: 0,
                },
                "provider public 0",
            ),
            (
                [1, 2, 7],
                Hop::ProviderPlus {
                    origin: overrides,
                    source: 7,
                },
                "provider drawer 7",
            ),
            (
                [2, 1, 8],
                Hop::NotProviderPlus { origin: public },
                "other public",
            ),
            (
                [2, 2, 8],
                Hop::NotProviderPlus { origin: overrides },
                "other drawer",
            ),
        ] {
            assert_eq!(Hop::told((0, words)), Ok(hop));
            assert_eq!(hop.to_string(), text);
        }
    }

    /// Every other word of each answer, and the words of a refusal.
    #[test]
    fn no_answer() {
        let none = Err(Refusal::NoAnswer { number: 0 });
        let mut answers = 0;
        let any = [0, 1, 2, 3, 7, 8, 9, UNWRITTEN];
        for kind in any {
            for origin in any {
                for source in any {
                    match Hop::told((0, [kind, origin, source])) {
                        Ok(_) => answers += 1,
                        told => assert_eq!(told, none),
                    }
                    let told = Hop::told((2, [kind, origin, source]));
                    assert_eq!(told, Err(Refusal::RegisterMalformed));
                }
            }
        }
        // No attestation; of two registers, a provider of sources 0, 1, 2, 3 and 7, and no provider.
        assert_eq!(answers, 1 + 2 * 5 + 2);
        assert_eq!(
            Hop::told((25, [0, 0, 8])),
            Err(Refusal::NoAnswer { number: 25 })
        );
    }

    #[test]
    fn named() {
        let hop = |place, origin| Some(Some(NamedHop { place, origin }));
        assert_eq!(NamedHop::told(0, 0), Some(None));
        assert_eq!(NamedHop::told(2, 1), hop(2, Origin::Public));
        assert_eq!(NamedHop::told(512, 2), hop(512, Origin::Overrides));
        for (place, origin) in [(0, 1), (0, 2), (2, 0), (2, 3), (0, 3), (2, UNWRITTEN)] {
            assert_eq!(NamedHop::told(place, origin), None, "{place} {origin}");
        }
    }

    #[test]
    fn names() {
        for origin in Origin::ALL {
            assert_eq!(Origin::from_name(&origin.to_string()), Some(origin));
        }
        assert_eq!(format!("{:>8}|", Origin::Overrides), "  drawer|");
        for name in ["", "-", "overrides", "Public", "drawer "] {
            assert_eq!(Origin::from_name(name), None);
        }
    }
}
