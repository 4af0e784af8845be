//! What is compared with the independent program: the compiled library, each call on lent memory, and the programs
//! (see programs.rs). In a planted case one fault is in what they leave.

use crate::faults::{Part, Plant};
use crate::lent::Lent;
use crate::programs::Folder;
use crate::zankurbe;
use independent::answer::Answer;

/// The library and the programs, as a case meets them.
pub struct Ours<'a> {
    pub folder: &'a Folder,
    pub plant: Plant,
}

impl Ours<'_> {
    pub fn share_out(
        &self,
        pool: u64,
        claims: &mut Lent<u64>,
        weights: &mut Lent<u64>,
        output: &mut Lent<u64>,
    ) -> Answer {
        let answer = zankurbe::share_out(pool, claims.lent(), weights.lent(), output.lent_mut());
        let lent: &mut [Part] = &mut [("claims", claims), ("weights", weights), ("output", output)];
        self.plant.answer("share_out", answer, lent)
    }

    pub fn sheet_refusal(&self, sheet: &mut Lent<u8>) -> u32 {
        let answer = Answer::refused(zankurbe::sheet_refusal(sheet.lent()));
        let lent: &mut [Part] = &mut [("sheet", sheet)];
        self.plant.answer("sheet_refusal", answer, lent).refusal
    }

    pub fn state_refusal(&self, state: &mut Lent<u32>) -> u32 {
        let answer = Answer::refused(zankurbe::state_refusal(state.lent()));
        let lent: &mut [Part] = &mut [("state", state)];
        self.plant.answer("state_refusal", answer, lent).refusal
    }

    pub fn open(&self, sheet: &mut Lent<u8>, state: &mut Lent<u32>) -> Answer {
        let answer = zankurbe::open(sheet.lent(), state.lent_mut());
        let lent: &mut [Part] = &mut [("sheet", sheet), ("state", state)];
        self.plant.answer("open", answer, lent)
    }

    pub fn trade(&self, state: &mut Lent<u32>, seller: u32, buyer: u32, kw: u64) -> Answer {
        let answer = zankurbe::trade(state.lent_mut(), seller, buyer, kw);
        self.plant.answer("trade", answer, &mut [("state", state)])
    }

    pub fn request(&self, state: &mut Lent<u32>, holder: u32, intertie: u32, kw: u64) -> Answer {
        let answer = zankurbe::request(state.lent_mut(), holder, intertie, kw);
        self.plant
            .answer("request", answer, &mut [("state", state)])
    }

    pub fn move_kw(
        &self,
        state: &mut Lent<u32>,
        giver: u32,
        taker: u32,
        intertie: u32,
        kw: u64,
    ) -> Answer {
        let answer = zankurbe::move_kw(state.lent_mut(), giver, taker, intertie, kw);
        self.plant.answer("move", answer, &mut [("state", state)])
    }

    pub fn lock(
        &self,
        state: &mut Lent<u32>,
        holder: u32,
        intertie: u32,
        kw: u64,
        term: u32,
    ) -> Answer {
        let answer = zankurbe::lock(state.lent_mut(), holder, intertie, kw, term);
        self.plant.answer("lock", answer, &mut [("state", state)])
    }

    pub fn take(
        &self,
        state: &mut Lent<u32>,
        holder: u32,
        intertie: u32,
        kw: u64,
        day: u32,
    ) -> Answer {
        let answer = zankurbe::take(state.lent_mut(), holder, intertie, kw, day);
        self.plant.answer("take", answer, &mut [("state", state)])
    }

    pub fn close(&self, state: &mut Lent<u32>, grants: &mut Lent<u32>) -> Answer {
        let answer = zankurbe::close(state.lent_mut(), grants.lent_mut());
        let lent: &mut [Part] = &mut [("state", state), ("grants", grants)];
        self.plant.answer("close", answer, lent)
    }

    pub fn run_calls(
        &self,
        calls: &mut Lent<u32>,
        state: &mut Lent<u32>,
        grants: &mut Lent<u32>,
        answers: &mut Lent<u64>,
    ) -> bool {
        let done = zankurbe::run_calls(
            calls.lent(),
            state.lent_mut(),
            grants.lent_mut(),
            answers.lent_mut(),
        );
        let lent: &mut [Part] = &mut [
            ("calls", calls),
            ("state", state),
            ("grants", grants),
            ("answers", answers),
        ];
        self.plant.memory("run_calls", done, lent);
        self.plant.verdict("run_calls", done)
    }

    pub fn carry(
        &self,
        sheet: &mut Lent<u8>,
        state: &mut Lent<u32>,
        output: &mut Lent<u8>,
    ) -> Answer {
        let answer = zankurbe::carry(sheet.lent(), state.lent(), output.lent_mut());
        let lent: &mut [Part] = &mut [("sheet", sheet), ("state", state), ("output", output)];
        self.plant.answer("carry", answer, lent)
    }

    /// The posting of a sheet; `lines` has 480 numbers.
    pub fn post(&self, sheet: &mut Lent<u8>, lines: &mut Lent<u64>) -> Answer {
        let numbers = lines.lent_mut().try_into().expect("480 numbers");
        let answer = zankurbe::post(sheet.lent(), numbers);
        let lent: &mut [Part] = &mut [("sheet", sheet), ("lines", lines)];
        self.plant.answer("post", answer, lent)
    }

    /// The answer, and yes or no. Without a second sheet the first is lent twice.
    pub fn same(&self, first: &mut Lent<u8>, second: Option<&mut Lent<u8>>) -> (Answer, bool) {
        let lent_second = second.as_ref().map_or(first.lent(), |sheet| sheet.lent());
        let (answer, yes) = zankurbe::same(first.lent(), lent_second);
        let mut lent: Vec<Part> = vec![("first", first)];
        if let Some(second) = second {
            lent.push(("second", second));
        }
        let yes = self.plant.verdict("same", yes);
        (self.plant.answer("same", answer, &mut lent), yes)
    }
}
