//! The limits, and how a table's words lie.

/// The most records of a register.
pub const MOST_RECORDS: usize = 1024;
/// The most provider numbers of all lists of a register together.
pub const MOST_PROVIDER_WORDS: usize = 8192;
/// The most providers of one list.
pub const MOST_PROVIDERS: usize = 256;
/// Sources are numbered from 0 to this.
pub const GREATEST_SOURCE: u32 = 7;
/// The most routes of a ledger.
pub const MOST_ROUTES: usize = 512;
/// The most numbers of all paths of a ledger together.
pub const MOST_PATH_WORDS: usize = 8192;
/// The most bytes of an attribute. Before version 0.6.0 they were 1,024.
pub const MOST_ATTRIBUTE_BYTES: usize = 4096;
/// The most numbers of a merged path, which is also the farthest place. Before version 0.6.0 it was 64: such a version refuses a ledger,
/// and a snapshot, with a longer path or a place above that.
pub const MOST_PATH: usize = 512;

/// The words of a register.
pub const REGISTER_WORDS: usize =
    counters::WORDS + MOST_RECORDS * record::WORDS + MOST_PROVIDER_WORDS;
/// The words of a ledger.
pub const LEDGER_WORDS: usize = counters::WORDS + MOST_ROUTES * route::WORDS + MOST_PATH_WORDS;

/// The most bytes of a snapshot: contents of five words, and all words of both tables.
pub const SNAPSHOT_BYTES: usize = 4 * (5 + REGISTER_WORDS + LEDGER_WORDS);

/// The least: the contents, and two counters of each table.
pub(crate) const SHORTEST_SNAPSHOT: usize = 4 * (5 + 2 * counters::WORDS);

/// The two numbers that a table begins with.
pub(crate) mod counters {
    pub const ENTRIES: usize = 0;
    pub const BODY_WORDS: usize = 1;
    pub const WORDS: usize = BODY_WORDS + 1;
}

/// The words of a record's slot.
pub(crate) mod record {
    pub const CUSTOMER: usize = 0;
    pub const SOURCE: usize = 1;
    pub const START: usize = 2;
    pub const COUNT: usize = 3;
    pub const WORDS: usize = COUNT + 1;
}

/// The words of a route's slot.
pub(crate) mod route {
    pub const NUMBER: usize = 0;
    pub const ROLE: usize = 1;
    pub const NEIGHBOUR: usize = 2;
    pub const GROUND: usize = 3;
    pub const VERDICT: usize = 4;
    pub const PLACE_A: usize = 5;
    pub const PLACE_B: usize = 6;
    pub const START: usize = 7;
    pub const COUNT: usize = 8;
    pub const WORDS: usize = COUNT + 1;
}

/// In place of a source where a hop names none.
pub(crate) const NO_SOURCE: u32 = GREATEST_SOURCE + 1;

/// The words of an answer to Judge and Keep.
pub(crate) mod answer {
    pub const VERDICT: usize = 0;
    pub const GROUND: usize = 1;
    pub const PLACE_A: usize = 2;
    pub const PLACE_B: usize = 3;
    pub const HAS_GAP: usize = 4;
    pub const REFUSAL_PLACE: usize = 5;
    pub const ORIGIN_A: usize = 6;
    pub const ORIGIN_B: usize = 7;
    pub const WORDS: usize = ORIGIN_B + 1;
}
