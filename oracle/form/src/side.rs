//! The two ends of a comparison: what plays the calls, and what hears of them while the Rust runs.

use crate::{Call, Hand, Opening, Told};

/// What every byte of block and image buffer is before the opening.
pub const FILLED: u8 = 165;

/// What a stream shows after a call. Absent flags and totals: the Rust does not show them at that call.
#[derive(Clone, Debug)]
pub struct Shown {
    pub hand: Hand,
    pub out: u64,
    pub flags: Option<[bool; 2]>,
    pub totals: Option<[u64; 8]>,
    pub states: Vec<u8>,
    pub queue: Vec<u64>,
}

/// How many numbers a question has: the function, then its arguments, the rest 0.
pub const FUNCTION_NUMBERS: usize = 15;

/// A question to a function beside the calls.
pub type Question = [u64; FUNCTION_NUMBERS];

/// The function's numbers, or the refusal's number and value (0 where it has none). Absent numbers are not compared.
pub type Figures = Result<Vec<Option<u64>>, (u64, u64)>;

/// Plays runs call by call, on a block and an image buffer of its own: the library, or the paper's own player.
pub trait Side {
    /// Opens, with an image buffer that is as long as the opening says.
    fn open(&mut self, opening: &Opening) -> Told;
    fn call(&mut self, call: &Call) -> Told;
    /// The whole image buffer.
    fn image(&self) -> &[u8];
    fn block(&self) -> &[u8];
    /// None where this side has no such function.
    fn ask(&mut self, question: &Question) -> Option<Figures>;
}

/// Hears of a run while the Rust plays it: each call with its answer, what the Rust then shows, and its block.
pub trait Listener {
    fn opened(&mut self, opening: &Opening, told: &Told, shown: &Shown, block: &[u8]);
    fn called(&mut self, call: &Call, told: &Told, shown: &Shown, block: &[u8]);
    /// The last call was the last of an operation: now the Rust shows its flags and totals.
    fn full(&mut self, flags: [bool; 2], totals: [u64; 8]);
    fn ended(&mut self);
}
