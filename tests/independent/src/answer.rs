//! What every call answers.

/// The answer of a call. `refusal` is 0 when the call is granted; a refusal
/// has 0 kW and 0 passes.
#[derive(Clone, Copy, Debug, PartialEq, Eq)]
pub struct Answer {
    pub refusal: u32,
    pub kw: u64,
    pub passes: u64,
}

impl Answer {
    /// A granted call with its kW and its passes.
    #[inline]
    pub const fn granted(kw: u64, passes: u64) -> Self {
        Answer {
            refusal: 0,
            kw,
            passes,
        }
    }

    /// A refused call with its number.
    #[inline]
    pub const fn refused(number: u32) -> Self {
        Answer {
            refusal: number,
            kw: 0,
            passes: 0,
        }
    }
}
