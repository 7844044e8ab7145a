//! Why a call is refused.
use crate::limits::{
    GREATEST_SOURCE, LEDGER_WORDS, MOST_ATTRIBUTE_BYTES, MOST_PATH, MOST_PATH_WORDS,
    MOST_PROVIDERS, MOST_PROVIDER_WORDS, MOST_RECORDS, MOST_ROUTES, REGISTER_WORDS,
};
use crate::{Role, RoleNumberError};
use std::error::Error;
use std::fmt;

/// Why a call was refused. A refused call gives no verdict and changes no table.
///
/// Each call tests the rows that concern its own tables and arguments, lowest number first and each for all tables before the next, but 12
/// to 16 go by place, and [`Tables::read`](crate::Tables::read) has an order of its own. The `place` of a refusal is the index of the attribute's byte where the
/// fault begins.
///
/// ```
/// use aspa_filter::{AsNumber, Refusal, Register, Role};
///
/// let (public, overrides) = (Register::new(), Register::new());
/// let refusal = public.judge(&overrides, Role::Peer, AsNumber(20), &[2]).unwrap_err();
/// assert_eq!(refusal, Refusal::CutShort { place: 0 });
/// assert_eq!(refusal.number(), 12);
/// assert_eq!(refusal.to_string(), "refused by 12: a segment is cut short (byte 0)");
/// ```
#[non_exhaustive]
#[derive(Clone, Copy, Debug, PartialEq, Eq, Hash)]
pub enum Refusal {
    /// 1: a table has the wrong length. A register has [`REGISTER_WORDS`] words, a ledger [`LEDGER_WORDS`].
    TableLength,
    /// 2: a register breaks its word rules, whichever of the two it is; of a snapshot that is read, the register in it.
    RegisterMalformed,
    /// 3: the ledger breaks its word rules; of a snapshot that is read, the ledger in it.
    LedgerMalformed,
    /// 4: the source is above [`GREATEST_SOURCE`].
    Source,
    /// 5: the customer is 0.
    Customer,
    /// 6: the list is empty, longer than [`MOST_PROVIDERS`] or not strictly ascending, or holds its own customer.
    Providers,
    /// 7: this source has no record for this customer to withdraw.
    NoRecord,
    /// 8: the register would hold more than [`MOST_RECORDS`] records or [`MOST_PROVIDER_WORDS`] provider numbers.
    RegisterFull,
    /// 9: the number is no role's. A [`Role`] always has one, so only [`RoleNumberError`] becomes this.
    Role,
    /// 10: the neighbour is 0.
    Neighbour,
    /// 11: the attribute is longer than [`MOST_ATTRIBUTE_BYTES`].
    AttributeLength,
    /// 12: a segment is cut short.
    CutShort {
        /// The segment's first byte.
        place: u32,
    },
    /// 13: a segment's type is 0 or above 4.
    SegmentType {
        /// The segment's first byte.
        place: u32,
    },
    /// 14: a segment is of a confederation, type 3 or 4.
    Confederation {
        /// The segment's first byte.
        place: u32,
    },
    /// 15: a segment has no numbers.
    SegmentEmpty {
        /// The segment's first byte.
        place: u32,
    },
    /// 16: an AS number is 0.
    AsZero {
        /// The number's first byte.
        place: u32,
    },
    /// 17: the merged path has more than [`MOST_PATH`] numbers.
    PathLength,
    /// 18: the ledger has a route of this number already.
    RouteTaken,
    /// 19: the ledger has no route of this number to drop.
    NoRoute,
    /// 20: the ledger would hold more than [`MOST_ROUTES`] routes or [`MOST_PATH_WORDS`] path numbers.
    LedgerFull,
    /// 21: the output is shorter than the snapshot.
    OutputLength,
    /// 22: the snapshot is of an edition that is not known.
    Edition,
    /// 23: the snapshot's contents are wrong: a start, or a length that no table has.
    Contents,
    /// 24: the snapshot is cut short, or longer than its contents say.
    SnapshotLength,
    /// No row: what the library told means nothing to this binding. The library that the package is made for never does this; one of
    /// another version might.
    NoAnswer {
        /// What the call returned.
        number: u32,
    },
}

impl Refusal {
    /// The number of the row, 1 to 24; of [`NoAnswer`](Refusal::NoAnswer) what the call returned.
    pub const fn number(self) -> u32 {
        match self {
            Refusal::TableLength => 1,
            Refusal::RegisterMalformed => 2,
            Refusal::LedgerMalformed => 3,
            Refusal::Source => 4,
            Refusal::Customer => 5,
            Refusal::Providers => 6,
            Refusal::NoRecord => 7,
            Refusal::RegisterFull => 8,
            Refusal::Role => 9,
            Refusal::Neighbour => 10,
            Refusal::AttributeLength => 11,
            Refusal::CutShort { .. } => 12,
            Refusal::SegmentType { .. } => 13,
            Refusal::Confederation { .. } => 14,
            Refusal::SegmentEmpty { .. } => 15,
            Refusal::AsZero { .. } => 16,
            Refusal::PathLength => 17,
            Refusal::RouteTaken => 18,
            Refusal::NoRoute => 19,
            Refusal::LedgerFull => 20,
            Refusal::OutputLength => 21,
            Refusal::Edition => 22,
            Refusal::Contents => 23,
            Refusal::SnapshotLength => 24,
            Refusal::NoAnswer { number } => number,
        }
    }

    /// For rows 12 to 16 the index of the attribute's byte where the fault begins.
    pub const fn place(self) -> Option<u32> {
        match self {
            Refusal::CutShort { place }
            | Refusal::SegmentType { place }
            | Refusal::Confederation { place }
            | Refusal::SegmentEmpty { place }
            | Refusal::AsZero { place } => Some(place),
            _ => None,
        }
    }

    /// Every row, with this place where it has one.
    const fn rows(place: u32) -> [Refusal; 24] {
        [
            Refusal::TableLength,
            Refusal::RegisterMalformed,
            Refusal::LedgerMalformed,
            Refusal::Source,
            Refusal::Customer,
            Refusal::Providers,
            Refusal::NoRecord,
            Refusal::RegisterFull,
            Refusal::Role,
            Refusal::Neighbour,
            Refusal::AttributeLength,
            Refusal::CutShort { place },
            Refusal::SegmentType { place },
            Refusal::Confederation { place },
            Refusal::SegmentEmpty { place },
            Refusal::AsZero { place },
            Refusal::PathLength,
            Refusal::RouteTaken,
            Refusal::NoRoute,
            Refusal::LedgerFull,
            Refusal::OutputLength,
            Refusal::Edition,
            Refusal::Contents,
            Refusal::SnapshotLength,
        ]
    }

    /// What a call's result says: 0 is no refusal. Of the words that were told, only the place counts, and only for rows 12 to 16.
    pub(crate) fn told(number: u32, place: u32) -> Result<(), Refusal> {
        if number == 0 {
            return Ok(());
        }
        let row = Refusal::rows(place)
            .into_iter()
            .find(|row| row.number() == number);
        Err(row.unwrap_or(Refusal::NoAnswer { number }))
    }
}

impl fmt::Display for Refusal {
    fn fmt(&self, f: &mut fmt::Formatter<'_>) -> fmt::Result {
        match self {
            Refusal::NoAnswer { .. } => f.write_str("no answer: ")?,
            _ => write!(f, "refused by {}: ", self.number())?,
        }
        match self {
            Refusal::TableLength => write!(
                f,
                "a table has the wrong length: \
                 a register has {REGISTER_WORDS} words, a ledger {LEDGER_WORDS}"
            ),
            Refusal::RegisterMalformed => f.write_str("a register is malformed"),
            Refusal::LedgerMalformed => f.write_str("the ledger is malformed"),
            Refusal::Source => write!(f, "the source is above {GREATEST_SOURCE}"),
            Refusal::Customer => f.write_str("the customer is 0"),
            Refusal::Providers => write!(
                f,
                "the provider list is empty, longer than {MOST_PROVIDERS} \
                 or not strictly ascending, or holds its own customer"
            ),
            Refusal::NoRecord => f.write_str("there is no such record"),
            Refusal::RegisterFull => write!(
                f,
                "the register would hold more than {MOST_RECORDS} records \
                 or {MOST_PROVIDER_WORDS} provider numbers"
            ),
            Refusal::Role => write!(f, "the role is not 1 to {}", Role::ALL.len()),
            Refusal::Neighbour => f.write_str("the neighbour is 0"),
            Refusal::AttributeLength => write!(
                f,
                "the attribute is longer than {MOST_ATTRIBUTE_BYTES} bytes"
            ),
            Refusal::CutShort { .. } => f.write_str("a segment is cut short"),
            Refusal::SegmentType { .. } => f.write_str("a segment has an unknown type"),
            Refusal::Confederation { .. } => f.write_str("a segment is of a confederation"),
            Refusal::SegmentEmpty { .. } => f.write_str("a segment has no numbers"),
            Refusal::AsZero { .. } => f.write_str("an AS number is 0"),
            Refusal::PathLength => {
                write!(f, "the merged path has more than {MOST_PATH} numbers")
            }
            Refusal::RouteTaken => f.write_str("the route number is taken"),
            Refusal::NoRoute => f.write_str("there is no such route"),
            Refusal::LedgerFull => write!(
                f,
                "the ledger would hold more than {MOST_ROUTES} routes \
                 or {MOST_PATH_WORDS} path numbers"
            ),
            Refusal::OutputLength => f.write_str("the output is shorter than the snapshot"),
            Refusal::Edition => f.write_str("the snapshot's edition is unknown"),
            Refusal::Contents => f.write_str("the snapshot's contents are wrong"),
            Refusal::SnapshotLength => {
                f.write_str("the snapshot is cut short, or longer than its contents say")
            }
            Refusal::NoAnswer { number } => write!(
                f,
                "the library returned {number} and words that mean nothing here"
            ),
        }?;
        match self.place() {
            Some(place) => write!(f, " (byte {place})"),
            None => Ok(()),
        }
    }
}

impl Error for Refusal {}

impl From<RoleNumberError> for Refusal {
    fn from(_: RoleNumberError) -> Refusal {
        Refusal::Role
    }
}
