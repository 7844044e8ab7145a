//! The library's calls whose signatures are not those of every version, by the words that all versions tell. The first two are told with the
//! nanoseconds that they took.
//!
//! Before 0.7.0 there were no overrides. Such a library is called by the signatures of its day, and the overrides are empty.
use aspa_filter::{AsNumber, Ledger, Register, Role, RouteNumber};

/// The verdict, the ground and both places, as words, and the gap; or the refusal's number.
pub type Judged = Result<([u32; 4], Option<i32>), u32>;

/// Keeps a route by empty registers.
pub fn keep(
    ledger: &mut Ledger,
    number: RouteNumber,
    role: Role,
    neighbour: u32,
    attribute: &[u8],
) -> Result<(), u32> {
    ways::keep(ledger, number, role, AsNumber(neighbour), attribute)
}

/// Re-judges a copy, which is made before the clock starts, and gives it too.
pub fn rejudge(
    public: &Register,
    overrides: &Register,
    stale: &Ledger,
) -> (u64, Result<u32, u32>, Ledger) {
    ways::rejudge(public, overrides, stale)
}

pub fn judge(
    public: &Register,
    overrides: &Register,
    role: Role,
    neighbour: AsNumber,
    attribute: &[u8],
) -> (u64, Judged) {
    ways::judge(public, overrides, role, neighbour, attribute)
}

#[cfg(feature = "overrides")]
pub use ways::{compare_reads, hop};

/// Through the binding.
#[cfg(feature = "overrides")]
mod ways {
    use super::Judged;
    use crate::cases::time;
    use crate::plain;
    use crate::work::Random;
    use aspa_filter::{
        AsNumber, Hop, KeptCause, KeptVerdict, Ledger, Refusal, Register, Role, RouteNumber,
    };
    use std::hint::black_box;

    pub fn keep(
        ledger: &mut Ledger,
        number: RouteNumber,
        role: Role,
        neighbour: AsNumber,
        attribute: &[u8],
    ) -> Result<(), u32> {
        let none = Register::new();
        let kept = ledger.keep(&none, &none, number, role, neighbour, attribute);
        kept.map(|_| ()).map_err(Refusal::number)
    }

    pub fn rejudge(
        public: &Register,
        overrides: &Register,
        stale: &Ledger,
    ) -> (u64, Result<u32, u32>, Ledger) {
        let mut ledger = stale.clone();
        let (nanoseconds, r) =
            time(|| black_box(&mut ledger).rejudge(black_box(public), black_box(overrides)));
        (nanoseconds, r.map_err(Refusal::number), ledger)
    }

    pub fn judge(
        public: &Register,
        overrides: &Register,
        role: Role,
        neighbour: AsNumber,
        attribute: &[u8],
    ) -> (u64, Judged) {
        let (nanoseconds, r) = time(|| {
            black_box(public).judge(black_box(overrides), role, neighbour, black_box(attribute))
        });
        let told = r.map(|answer| {
            let words = match KeptVerdict::from(answer.verdict) {
                KeptVerdict::Valid => [0; 4],
                KeptVerdict::Invalid(KeptCause::Ground(ground)) => [1, ground.number(), 0, 0],
                KeptVerdict::Invalid(KeptCause::Hops { a, b }) => [1, 0, a, b],
                KeptVerdict::Unknown { a, b } => [2, 0, a, b],
            };
            (words, answer.gap)
        });
        (nanoseconds, told.map_err(Refusal::number))
    }

    /// As the library's words.
    pub fn hop(
        public: &Register,
        overrides: &Register,
        x: AsNumber,
        y: AsNumber,
    ) -> Result<[u32; 3], u32> {
        let told = public.hop(overrides, x, y).map_err(Refusal::number)?;
        Ok(match told {
            Hop::NoAttestation => [0, 0, 8],
            Hop::ProviderPlus { origin, source } => [1, origin as u32, source],
            Hop::NotProviderPlus { origin } => [2, origin as u32, 8],
        })
    }

    /// Some hops and lookups, which must be those of plain Rust.
    pub fn compare_reads(public: &Register, overrides: &Register, random: &mut Random) {
        // What the words say, damaged or not.
        let words = [public.words(), overrides.words()][random.below(2)];
        let slot = 2 + 4 * random.below(1024);
        let list = 2 + 4 * 1024 + random.below(8192);
        for (x, y) in [(words[slot], words[list]), (words[slot] ^ 1, words[list])] {
            let answer = hop(public, overrides, AsNumber(x), AsNumber(y));
            let plainly = plain::hop_words(public.words(), overrides.words(), x, y);
            assert_eq!(answer, plainly, "a hop from {x} to {y}");
            let source = words[slot + 1];
            let found = public.lookup(overrides, source, AsNumber(x));
            let plainly = plain::lookup(public.words(), overrides.words(), source, x);
            let found: Vec<u32> = found.iter().map(|number| number.0).collect();
            assert_eq!(found, plainly, "the list of {source} for {x}");
        }
    }
}

/// By the signatures from before overrides: one register, and six words of an answer.
#[cfg(not(feature = "overrides"))]
#[allow(unsafe_code)]
mod ways {
    use super::Judged;
    use crate::cases::time;
    use aspa_filter::{AsNumber, Ledger, Register, Role, RouteNumber};
    use std::hint::black_box;

    extern "C" {
        fn aspa_judge(
            reg: *const u32,
            reg_len: usize,
            role: u32,
            neighbour: u32,
            attribute: *const u8,
            attribute_len: usize,
            out: *mut [u32; 6],
            gap: *mut i32,
        ) -> u32;
        fn aspa_keep(
            reg: *const u32,
            reg_len: usize,
            ledger: *mut u32,
            ledger_len: usize,
            route: u32,
            role: u32,
            neighbour: u32,
            attribute: *const u8,
            attribute_len: usize,
            out: *mut [u32; 6],
            gap: *mut i32,
        ) -> u32;
        fn aspa_rejudge(
            reg: *const u32,
            reg_len: usize,
            ledger: *mut u32,
            ledger_len: usize,
            out: *mut [u32; 1],
        ) -> u32;
    }

    fn told<T>(row: u32, answer: T) -> Result<T, u32> {
        match row {
            0 => Ok(answer),
            row => Err(row),
        }
    }

    pub fn keep(
        ledger: &mut Ledger,
        number: RouteNumber,
        role: Role,
        neighbour: AsNumber,
        attribute: &[u8],
    ) -> Result<(), u32> {
        let (register, mut words) = (Register::new(), ledger.words().to_vec());
        let (mut out, mut gap) = ([u32::MAX; 6], 0);
        // SAFETY: each pointer and length is of one slice; what is written, words, out and gap, is borrowed mutably.
        let row = unsafe {
            aspa_keep(
                register.words().as_ptr(),
                register.words().len(),
                words.as_mut_ptr(),
                words.len(),
                number.0,
                role.number(),
                neighbour.0,
                attribute.as_ptr(),
                attribute.len(),
                &mut out,
                &mut gap,
            )
        };
        *ledger = Ledger::from_words(words);
        told(row, ())
    }

    pub fn rejudge(
        public: &Register,
        overrides: &Register,
        stale: &Ledger,
    ) -> (u64, Result<u32, u32>, Ledger) {
        assert_eq!(overrides.words()[0], 0, "no overrides");
        let mut words = stale.words().to_vec();
        let (nanoseconds, r) = time(|| {
            let (reg, ledger) = (black_box(public.words()), black_box(&mut words));
            let mut out = [u32::MAX];
            // SAFETY: each pointer and length is of one slice; what is written, ledger and out, is borrowed mutably.
            let row = unsafe {
                aspa_rejudge(
                    reg.as_ptr(),
                    reg.len(),
                    ledger.as_mut_ptr(),
                    ledger.len(),
                    &mut out,
                )
            };
            told(row, out[0])
        });
        (nanoseconds, r, Ledger::from_words(words))
    }

    pub fn judge(
        public: &Register,
        overrides: &Register,
        role: Role,
        neighbour: AsNumber,
        attribute: &[u8],
    ) -> (u64, Judged) {
        assert_eq!(overrides.words()[0], 0, "no overrides");
        time(|| {
            let (reg, attribute) = (black_box(public.words()), black_box(attribute));
            let (mut out, mut gap) = ([u32::MAX; 6], 0);
            // SAFETY: each pointer and length is of one slice; what is written, out and gap, is borrowed mutably.
            let row = unsafe {
                aspa_judge(
                    reg.as_ptr(),
                    reg.len(),
                    role.number(),
                    neighbour.0,
                    attribute.as_ptr(),
                    attribute.len(),
                    &mut out,
                    &mut gap,
                )
            };
            let [verdict, ground, a, b, has_gap, _] = out;
            told(
                row,
                ([verdict, ground, a, b], (has_gap == 1).then_some(gap)),
            )
        })
    }
}
