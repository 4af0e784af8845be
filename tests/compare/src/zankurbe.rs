//! The compiled library, called safely: a slice passes as a pointer and a count of elements, a reference
//! to an array as a pointer alone.

use independent::answer::Answer;

/// The numbers of a posting: ten rows of 48.
pub const POSTED_NUMBERS: usize = 480;

#[repr(C)]
struct RawAnswer {
    refusal: u32,
    kw: u64,
    passes: u64,
}

impl RawAnswer {
    fn plain(self) -> Answer {
        Answer {
            refusal: self.refusal,
            kw: self.kw,
            passes: self.passes,
        }
    }
}

#[repr(C)]
struct RawVerdict {
    refusal: u32,
    same: bool,
    kw: u64,
    passes: u64,
}

extern "C" {
    fn zankurbe_version() -> u32;
    fn zankurbe_share_out(
        pool: u64,
        claims: *const u64,
        claims_len: usize,
        weights: *const u64,
        weights_len: usize,
        output: *mut u64,
        output_len: usize,
    ) -> RawAnswer;
    fn zankurbe_sheet_refusal(sheet: *const u8, sheet_len: usize) -> u32;
    fn zankurbe_state_refusal(state: *const u32, state_len: usize) -> u32;
    fn zankurbe_open(
        sheet: *const u8,
        sheet_len: usize,
        state: *mut u32,
        state_len: usize,
    ) -> RawAnswer;
    fn zankurbe_trade(
        state: *mut u32,
        state_len: usize,
        seller: u32,
        buyer: u32,
        kw: u64,
    ) -> RawAnswer;
    fn zankurbe_request(
        state: *mut u32,
        state_len: usize,
        holder: u32,
        intertie: u32,
        kw: u64,
    ) -> RawAnswer;
    fn zankurbe_move(
        state: *mut u32,
        state_len: usize,
        giver: u32,
        taker: u32,
        intertie: u32,
        kw: u64,
    ) -> RawAnswer;
    fn zankurbe_lock(
        state: *mut u32,
        state_len: usize,
        holder: u32,
        intertie: u32,
        kw: u64,
        term: u32,
    ) -> RawAnswer;
    fn zankurbe_take(
        state: *mut u32,
        state_len: usize,
        holder: u32,
        intertie: u32,
        kw: u64,
        day: u32,
    ) -> RawAnswer;
    fn zankurbe_close(
        state: *mut u32,
        state_len: usize,
        grants: *mut u32,
        grants_len: usize,
    ) -> RawAnswer;
    fn zankurbe_run_calls(
        calls: *const u32,
        calls_len: usize,
        state: *mut u32,
        state_len: usize,
        grants: *mut u32,
        grants_len: usize,
        answers: *mut u64,
        answers_len: usize,
    ) -> bool;
    fn zankurbe_carry(
        sheet: *const u8,
        sheet_len: usize,
        state: *const u32,
        state_len: usize,
        output: *mut u8,
        output_len: usize,
    ) -> RawAnswer;
    fn zankurbe_post(
        sheet: *const u8,
        sheet_len: usize,
        lines: *mut [u64; POSTED_NUMBERS],
    ) -> RawAnswer;
    fn zankurbe_same(
        first: *const u8,
        first_len: usize,
        second: *const u8,
        second_len: usize,
    ) -> RawVerdict;
}

/// 10,000 · major + 100 · minor + patch.
pub fn version() -> u32 {
    unsafe { zankurbe_version() }
}

pub fn share_out(pool: u64, claims: &[u64], weights: &[u64], output: &mut [u64]) -> Answer {
    unsafe {
        zankurbe_share_out(
            pool,
            claims.as_ptr(),
            claims.len(),
            weights.as_ptr(),
            weights.len(),
            output.as_mut_ptr(),
            output.len(),
        )
    }
    .plain()
}

pub fn sheet_refusal(sheet: &[u8]) -> u32 {
    unsafe { zankurbe_sheet_refusal(sheet.as_ptr(), sheet.len()) }
}

pub fn state_refusal(state: &[u32]) -> u32 {
    unsafe { zankurbe_state_refusal(state.as_ptr(), state.len()) }
}

pub fn open(sheet: &[u8], state: &mut [u32]) -> Answer {
    unsafe { zankurbe_open(sheet.as_ptr(), sheet.len(), state.as_mut_ptr(), state.len()) }.plain()
}

pub fn trade(state: &mut [u32], seller: u32, buyer: u32, kw: u64) -> Answer {
    unsafe { zankurbe_trade(state.as_mut_ptr(), state.len(), seller, buyer, kw) }.plain()
}

pub fn request(state: &mut [u32], holder: u32, intertie: u32, kw: u64) -> Answer {
    unsafe { zankurbe_request(state.as_mut_ptr(), state.len(), holder, intertie, kw) }.plain()
}

pub fn move_kw(state: &mut [u32], giver: u32, taker: u32, intertie: u32, kw: u64) -> Answer {
    unsafe { zankurbe_move(state.as_mut_ptr(), state.len(), giver, taker, intertie, kw) }.plain()
}

pub fn lock(state: &mut [u32], holder: u32, intertie: u32, kw: u64, term: u32) -> Answer {
    unsafe { zankurbe_lock(state.as_mut_ptr(), state.len(), holder, intertie, kw, term) }.plain()
}

pub fn take(state: &mut [u32], holder: u32, intertie: u32, kw: u64, day: u32) -> Answer {
    unsafe { zankurbe_take(state.as_mut_ptr(), state.len(), holder, intertie, kw, day) }.plain()
}

pub fn close(state: &mut [u32], grants: &mut [u32]) -> Answer {
    unsafe {
        zankurbe_close(
            state.as_mut_ptr(),
            state.len(),
            grants.as_mut_ptr(),
            grants.len(),
        )
    }
    .plain()
}

pub fn run_calls(
    calls: &[u32],
    state: &mut [u32],
    grants: &mut [u32],
    answers: &mut [u64],
) -> bool {
    unsafe {
        zankurbe_run_calls(
            calls.as_ptr(),
            calls.len(),
            state.as_mut_ptr(),
            state.len(),
            grants.as_mut_ptr(),
            grants.len(),
            answers.as_mut_ptr(),
            answers.len(),
        )
    }
}

pub fn carry(sheet: &[u8], state: &[u32], output: &mut [u8]) -> Answer {
    unsafe {
        zankurbe_carry(
            sheet.as_ptr(),
            sheet.len(),
            state.as_ptr(),
            state.len(),
            output.as_mut_ptr(),
            output.len(),
        )
    }
    .plain()
}

pub fn post(sheet: &[u8], lines: &mut [u64; POSTED_NUMBERS]) -> Answer {
    unsafe { zankurbe_post(sheet.as_ptr(), sheet.len(), lines) }.plain()
}

/// The answer, and yes or no.
pub fn same(first: &[u8], second: &[u8]) -> (Answer, bool) {
    let verdict =
        unsafe { zankurbe_same(first.as_ptr(), first.len(), second.as_ptr(), second.len()) };
    let RawVerdict {
        refusal,
        same,
        kw,
        passes,
    } = verdict;
    (
        Answer {
            refusal,
            kw,
            passes,
        },
        same,
    )
}
