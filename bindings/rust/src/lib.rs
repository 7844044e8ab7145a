//! Safe Rust over the proved ASPA path filter.
//!
//! Networks register which providers carry their routes (ASPA records). The filter reads a route's AS_PATH, looks the records up and says
//! Valid, Invalid or Unknown, with the hops that decided it. Its calls are proved to answer by the rules, for every input; this package
//! wraps them in Rust types and links them as a static library. It has no dependencies.
//!
//! # A first judging
//!
//! A [`Register`] holds the records. To judge a route takes two registers, what the neighbour that sent it is ([`Role`]), the neighbour's
//! number, and the value of its AS_PATH attribute as bytes. A router has these bytes; [`PathBuilder`] makes them from numbers, and
//! [`sequence`] does so in one call. The first register has the public records, the second the operator's own, which may be none.
//!
//! ```
//! use aspa_filter::{sequence, AsNumber, Cause, NamedHop, Origin, PathBuilder, Register, Role, Verdict};
//!
//! # fn main() -> Result<(), Box<dyn std::error::Error>> {
//! let (mut public, overrides) = (Register::new(), Register::new());
//! // Source 0 attests that AS64496 has the providers AS64500 and AS64501, and AS64500 none: 0 stands for nobody.
//! public.file(0, "AS64496".parse()?, &[64500, 64501].map(AsNumber))?;
//! public.file(0, AsNumber(64500), &[AsNumber(0)])?;
//!
//! // From our customer AS64500, which has it from its own customer.
//! let path = sequence(&[64500, 64496].map(AsNumber))?;
//! let answer = public.judge(&overrides, Role::Customer, AsNumber(64500), &path)?;
//! assert_eq!(answer.verdict, Verdict::Valid);
//!
//! // From our customer AS64511, which is no provider of AS64500: the hop to the third number from the origin is a leak.
//! let path = PathBuilder::new()
//!     .sequence(&[64511, 64500, 64496].map(AsNumber))?;
//! let answer = public.judge(&overrides, Role::Customer, AsNumber(64511), path.bytes())?;
//! let a = NamedHop { place: 3, origin: Origin::Public };
//! assert_eq!(answer.verdict, Verdict::Invalid(Cause::Hops { a, b: None }));
//! assert_eq!(answer.to_string(), "Invalid 3 0 public -");
//! # Ok(())
//! # }
//! ```
//!
//! # Overrides
//!
//! Who knows that a public record is wrong files another in a second register, the overrides. Where they hold any record of a customer,
//! only they count for it; every other customer is left to the public register. An answer says of each hop that makes a route Invalid
//! from which of the two it was read ([`Origin`]). [`Register::hop`] says of one hop what it is and why, and [`Register::lookup`] gives
//! the list that counts.
//!
//! ```
//! use aspa_filter::{sequence, AsNumber, Hop, Origin, Register, Role, Verdict};
//!
//! # fn main() -> Result<(), Box<dyn std::error::Error>> {
//! let (mut public, mut overrides) = (Register::new(), Register::new());
//! let path = sequence(&[20, 10].map(AsNumber))?;
//! let judge = |public: &Register, overrides: &Register| {
//!     public.judge(overrides, Role::Customer, AsNumber(20), &path)
//! };
//! public.file(0, AsNumber(10), &[AsNumber(30)])?;
//! assert_eq!(judge(&public, &overrides)?.to_string(), "Invalid 2 0 public -");
//!
//! overrides.file(0, AsNumber(10), &[AsNumber(20)])?;
//! assert_eq!(judge(&public, &overrides)?.verdict, Verdict::Valid);
//! let hop = public.hop(&overrides, AsNumber(10), AsNumber(20))?;
//! assert_eq!(hop, Hop::ProviderPlus { origin: Origin::Overrides, source: 0 });
//! assert_eq!(public.lookup(&overrides, 0, AsNumber(10)), [AsNumber(20)]);
//!
//! // The public record has stayed, and counts again without the override.
//! overrides.withdraw(0, AsNumber(10))?;
//! assert_eq!(judge(&public, &overrides)?.to_string(), "Invalid 2 0 public -");
//! # Ok(())
//! # }
//! ```
//!
//! # What to do with an answer
//!
//! * [`Verdict::Valid`]: every hop that has to be attested is, whatever the networks without a record may yet publish. Use the route.
//! * [`Verdict::Invalid`]: the path breaks the records, or is one that no route should have ([`Ground`]). Do not use the route. If it is
//!   kept, a change for a network that has a record may make it good again; a network's first record cannot.
//! * [`Verdict::Unknown`]: it lies with networks on the path that have no record. Use the route as you would without the filter.
//! * [`Refusal`], the error of every call: no verdict was given and no table has changed. It says which row of the rules was given, and of
//!   a malformed attribute at which byte the fault begins. A route that is refused has not been judged: treat it as malformed, and not as
//!   Valid. [`TableLength`](Refusal::TableLength), [`RegisterMalformed`](Refusal::RegisterMalformed) and
//!   [`LedgerMalformed`](Refusal::LedgerMalformed) say nothing of the route, but that words given to `from_words` are no table.
//!
//! # Keeping routes
//!
//! [`Register::judge`] needs no ledger. Who wants verdicts to follow the records keeps routes in a [`Ledger`], each under a number of its
//! own, and calls [`Ledger::rejudge`] when records have changed.
//!
//! ```
//! use aspa_filter::{sequence, AsNumber, KeptVerdict, Ledger, Register, Role, RouteNumber, Verdict};
//!
//! # fn main() -> Result<(), Box<dyn std::error::Error>> {
//! let (mut public, overrides, mut ledger) = (Register::new(), Register::new(), Ledger::new());
//! let path = sequence(&[20, 10].map(AsNumber))?;
//! let answer = ledger.keep(&public, &overrides, RouteNumber(1), Role::Customer, AsNumber(20), &path)?;
//! assert_eq!(answer.verdict, Verdict::Unknown { a: 2, b: 0 });
//!
//! public.file(0, AsNumber(10), &[AsNumber(20)])?;
//! assert_eq!(ledger.rejudge(&public, &overrides)?, 1);
//! for route in ledger.routes() {
//!     println!("{}: {}", route.number, route.verdict);
//! }
//! # assert_eq!(ledger.routes().next().unwrap().verdict, KeptVerdict::Valid);
//! # Ok(())
//! # }
//! ```
//!
//! # Saving and loading
//!
//! [`Tables`] is the public register and a ledger together. It saves them as one file, a snapshot, and loads it again. The overrides stay
//! with the operator: who wants them stored saves them apart.
//!
//! ```
//! use aspa_filter::{AsNumber, Ledger, Register, Tables};
//!
//! # fn main() -> Result<(), Box<dyn std::error::Error>> {
//! # let directory = std::env::temp_dir().join(format!("aspa-filter-lib-{}", std::process::id()));
//! # std::fs::create_dir_all(&directory)?;
//! # let path = directory.join("tables");
//! let mut tables = Tables::new();
//! tables.register.file(0, AsNumber(64496), &[AsNumber(64500)])?;
//! tables.save(&path)?;
//!
//! let mut loaded = Tables::load(&path)?;
//! assert_eq!(loaded, tables);
//! // The verdicts of a snapshot are as old as it is.
//! let mut overrides = Register::new();
//! loaded.rejudge(&overrides)?;
//!
//! // Overrides are saved in the place of a public register.
//! overrides.file(0, AsNumber(64496), &[AsNumber(64501)])?;
//! # let other_path = directory.join("overrides");
//! Tables { register: overrides.clone(), ledger: Ledger::new() }.save(&other_path)?;
//! assert_eq!(Tables::load(&other_path)?.register, overrides);
//! # std::fs::remove_dir_all(directory)?;
//! # Ok(())
//! # }
//! ```
//!
//! # When a table is full
//!
//! Tables do not grow. A register holds [`MOST_RECORDS`] records and [`MOST_PROVIDER_WORDS`] provider numbers, a ledger [`MOST_ROUTES`]
//! routes and [`MOST_PATH_WORDS`] path numbers. What would go beyond is refused by [`RegisterFull`](Refusal::RegisterFull) or
//! [`LedgerFull`](Refusal::LedgerFull), and the table stays as it was. Room that a withdrawal, a drop or a shorter list gives up is used
//! again. A route for which a ledger has no room can still be judged. Each of the two registers has room of its own.
//!
//! # What calls cost
//!
//! Every call checks the tables that it is lent, from the first word to the last. By the figures of docs/BENCHMARKS.md a judging of a
//! short path takes some 5 µs over a full public register without overrides, 7 µs over two full registers and 2 µs over empty ones; a hop
//! or a lookup takes as long, a filing or withdrawal some 6 µs, a re-judging of 512 routes of 16 numbers without overrides 0.12 ms, and a
//! snapshot of full tables some 13 µs to write and 17 µs to read. Nothing is kept between calls, and only new tables and the calls of
//! [`Tables`] on files and streams allocate: tables may be sent to other threads, and several threads may judge by the same registers at
//! once.
//!
//! # Rules
//!
//! docs/RULES.md of the repository has them in full. The library is for x86-64 Linux; README.md of the package says how to build it.
#![deny(missing_docs)]
#![deny(unsafe_code)]
#![deny(unsafe_op_in_unsafe_fn)]
#![warn(clippy::missing_errors_doc)]
#![warn(clippy::undocumented_unsafe_blocks)]

mod ffi;
mod hops;
mod limits;
mod numbers;
mod path;
mod refusals;
mod snapshots;
mod tables;
mod verdicts;

pub use hops::{Hop, NamedHop, Origin};
pub use limits::{
    GREATEST_SOURCE, LEDGER_WORDS, MOST_ATTRIBUTE_BYTES, MOST_PATH, MOST_PATH_WORDS,
    MOST_PROVIDERS, MOST_PROVIDER_WORDS, MOST_RECORDS, MOST_ROUTES, REGISTER_WORDS, SNAPSHOT_BYTES,
};
pub use numbers::{
    AsNumber, ParseAsNumberError, ParseRoleError, Role, RoleNumberError, RouteNumber,
};
pub use path::{sequence, PathBuilder, SegmentLengthError, MOST_SEGMENT};
pub use refusals::Refusal;
pub use snapshots::{SnapshotError, Tables};
pub use tables::{Filed, Ledger, Record, Records, Register, Route, Routes};
pub use verdicts::{Answer, Cause, Ground, KeptCause, KeptVerdict, ParseVerdictError, Verdict};

/// The README's examples are tests.
#[cfg(doctest)]
#[doc = include_str!("../README.md")]
struct Readme;
