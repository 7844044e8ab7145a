//! The calls of the static library on slices. What include/aspa_filter.h asks of pointers is kept here, and only here.
//!
//! A slice's pointer is aligned and not null, also where the slice is empty; its elements have been written before and stay to be read
//! while it is borrowed. What is borrowed mutably overlaps nothing else, and no other thread touches it.
#![allow(unsafe_code)]

use crate::limits::answer;

/// What stands in an answer until the library has written it: no verdict, no count, no filing.
pub const UNWRITTEN: u32 = u32::MAX;

/// The result of a judging: the row or 0, the words of the answer, the gap.
pub type Judged = (u32, [u32; answer::WORDS], i32);

/// The result of a hop: the row or 0; what it is, the register and the source.
pub type Hopped = (u32, [u32; 3]);

// A slice passes as a pointer and its length.
extern "C" {
    fn aspa_file(
        reg: *mut u32,
        reg_len: usize,
        source: u32,
        customer: u32,
        providers: *const u32,
        providers_len: usize,
        out: *mut [u32; 1],
    ) -> u32;
    fn aspa_withdraw(reg: *mut u32, reg_len: usize, source: u32, customer: u32) -> u32;
    fn aspa_clear(reg: *mut u32, reg_len: usize, source: u32, out: *mut [u32; 1]) -> u32;
    fn aspa_hop(
        public: *const u32,
        public_len: usize,
        overrides: *const u32,
        overrides_len: usize,
        x: u32,
        y: u32,
        out: *mut [u32; 3],
    ) -> u32;
    fn aspa_lookup(
        public: *const u32,
        public_len: usize,
        overrides: *const u32,
        overrides_len: usize,
        source: u32,
        customer: u32,
        out: *mut [u32; 3],
    );
    fn aspa_judge(
        public: *const u32,
        public_len: usize,
        overrides: *const u32,
        overrides_len: usize,
        role: u32,
        neighbour: u32,
        attribute: *const u8,
        attribute_len: usize,
        out: *mut [u32; answer::WORDS],
        gap: *mut i32,
    ) -> u32;
    fn aspa_keep(
        public: *const u32,
        public_len: usize,
        overrides: *const u32,
        overrides_len: usize,
        ledger: *mut u32,
        ledger_len: usize,
        route: u32,
        role: u32,
        neighbour: u32,
        attribute: *const u8,
        attribute_len: usize,
        out: *mut [u32; answer::WORDS],
        gap: *mut i32,
    ) -> u32;
    fn aspa_drop(ledger: *mut u32, ledger_len: usize, route: u32) -> u32;
    fn aspa_rejudge(
        public: *const u32,
        public_len: usize,
        overrides: *const u32,
        overrides_len: usize,
        ledger: *mut u32,
        ledger_len: usize,
        out: *mut [u32; 1],
    ) -> u32;
    fn aspa_write(
        reg: *const u32,
        reg_len: usize,
        ledger: *const u32,
        ledger_len: usize,
        output: *mut u8,
        output_len: usize,
        out: *mut [u32; 1],
    ) -> u32;
    fn aspa_read(
        file: *const u8,
        file_len: usize,
        reg: *mut u32,
        reg_len: usize,
        ledger: *mut u32,
        ledger_len: usize,
    ) -> u32;
}

pub fn file(register: &mut [u32], source: u32, customer: u32, providers: &[u32]) -> (u32, u32) {
    let mut out = [UNWRITTEN];
    // SAFETY: each pointer and length is of one borrowed slice; what is written, register and out, is borrowed mutably.
    let row = unsafe {
        aspa_file(
            register.as_mut_ptr(),
            register.len(),
            source,
            customer,
            providers.as_ptr(),
            providers.len(),
            &mut out,
        )
    };
    (row, out[0])
}

pub fn withdraw(register: &mut [u32], source: u32, customer: u32) -> u32 {
    // SAFETY: the pointer and the length are of one slice, borrowed mutably.
    unsafe { aspa_withdraw(register.as_mut_ptr(), register.len(), source, customer) }
}

pub fn clear(register: &mut [u32], source: u32) -> (u32, u32) {
    let mut out = [UNWRITTEN];
    // SAFETY: the pointer and the length are of one borrowed slice; what is written, register and out, is borrowed mutably.
    let row = unsafe { aspa_clear(register.as_mut_ptr(), register.len(), source, &mut out) };
    (row, out[0])
}

pub fn hop(public: &[u32], overrides: &[u32], x: u32, y: u32) -> Hopped {
    let mut out = [UNWRITTEN; 3];
    // SAFETY: each pointer and length is of one borrowed slice; what is written, out, is borrowed mutably.
    let row = unsafe {
        aspa_hop(
            public.as_ptr(),
            public.len(),
            overrides.as_ptr(),
            overrides.len(),
            x,
            y,
            &mut out,
        )
    };
    (row, out)
}

/// The register, the list's first word there, and how many it has.
pub fn lookup(public: &[u32], overrides: &[u32], source: u32, customer: u32) -> [u32; 3] {
    let mut out = [UNWRITTEN; 3];
    // SAFETY: each pointer and length is of one borrowed slice; what is written, out, is borrowed mutably.
    unsafe {
        aspa_lookup(
            public.as_ptr(),
            public.len(),
            overrides.as_ptr(),
            overrides.len(),
            source,
            customer,
            &mut out,
        );
    }
    out
}

pub fn judge(
    public: &[u32],
    overrides: &[u32],
    role: u32,
    neighbour: u32,
    attribute: &[u8],
) -> Judged {
    let (mut out, mut gap) = ([UNWRITTEN; answer::WORDS], 0);
    // SAFETY: each pointer and length is of one borrowed slice; what is written, out and gap, is borrowed mutably.
    let row = unsafe {
        aspa_judge(
            public.as_ptr(),
            public.len(),
            overrides.as_ptr(),
            overrides.len(),
            role,
            neighbour,
            attribute.as_ptr(),
            attribute.len(),
            &mut out,
            &mut gap,
        )
    };
    (row, out, gap)
}

pub fn keep(
    public: &[u32],
    overrides: &[u32],
    ledger: &mut [u32],
    route: u32,
    role: u32,
    neighbour: u32,
    attribute: &[u8],
) -> Judged {
    let (mut out, mut gap) = ([UNWRITTEN; answer::WORDS], 0);
    // SAFETY: each pointer and length is of one borrowed slice; what is written, ledger, out and gap, is borrowed mutably.
    let row = unsafe {
        aspa_keep(
            public.as_ptr(),
            public.len(),
            overrides.as_ptr(),
            overrides.len(),
            ledger.as_mut_ptr(),
            ledger.len(),
            route,
            role,
            neighbour,
            attribute.as_ptr(),
            attribute.len(),
            &mut out,
            &mut gap,
        )
    };
    (row, out, gap)
}

pub fn drop_route(ledger: &mut [u32], route: u32) -> u32 {
    // SAFETY: the pointer and the length are of one slice, borrowed mutably.
    unsafe { aspa_drop(ledger.as_mut_ptr(), ledger.len(), route) }
}

pub fn rejudge(public: &[u32], overrides: &[u32], ledger: &mut [u32]) -> (u32, u32) {
    let mut out = [UNWRITTEN];
    // SAFETY: each pointer and length is of one borrowed slice; what is written, ledger and out, is borrowed mutably.
    let row = unsafe {
        aspa_rejudge(
            public.as_ptr(),
            public.len(),
            overrides.as_ptr(),
            overrides.len(),
            ledger.as_mut_ptr(),
            ledger.len(),
            &mut out,
        )
    };
    (row, out[0])
}

pub fn write(register: &[u32], ledger: &[u32], output: &mut [u8]) -> (u32, u32) {
    let mut out = [UNWRITTEN];
    // SAFETY: each pointer and length is of one borrowed slice; what is written, output and out, is borrowed mutably.
    let row = unsafe {
        aspa_write(
            register.as_ptr(),
            register.len(),
            ledger.as_ptr(),
            ledger.len(),
            output.as_mut_ptr(),
            output.len(),
            &mut out,
        )
    };
    (row, out[0])
}

pub fn read(file: &[u8], register: &mut [u32], ledger: &mut [u32]) -> u32 {
    // SAFETY: each pointer and length is of one borrowed slice; what is written, register and ledger, is borrowed mutably.
    unsafe {
        aspa_read(
            file.as_ptr(),
            file.len(),
            register.as_mut_ptr(),
            register.len(),
            ledger.as_mut_ptr(),
            ledger.len(),
        )
    }
}
