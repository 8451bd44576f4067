//! What a run is, what its calls give and show, and the form in which runs are written down (docs/RUNS.md).

mod answer;
mod image;
mod lines;
mod runs;
mod side;

pub use answer::{Answer, Hand, Told, UNUSED};
pub use image::{image_of, image_size, FLAGS_AT, SETUP_AT, STATES_AT};
pub use lines::{checksum, push_number, push_numbers, Line};
pub use runs::{Bad, Call, Item, Opening, Reader, Writer, BLOCK_LIMIT, IMAGE_ROOM, LIST_LIMIT};
pub use side::{Figures, Listener, Question, Shown, Side, FILLED, FUNCTION_NUMBERS};

/// The kinds of calls, by their numbers.
pub mod kind {
    pub const TURN: u64 = 0;
    pub const COMMIT: u64 = 1;
    pub const COMMIT_FULL: u64 = 2;
    pub const COMMIT_PACKETS: u64 = 3;
    pub const ACCEPTED: u64 = 4;
    pub const SUBMITTED_ERRNO: u64 = 5;
    pub const REAPED_ERRNO: u64 = 6;
    pub const REAPED_ADDRESS: u64 = 7;
    pub const GIVE_BACK: u64 = 8;
    pub const START: u64 = 9;
    pub const STOP: u64 = 10;
    pub const FINISH: u64 = 11;
    pub const END: u64 = 12;
    /// No call: what stands in the image's buffer, and how much of it is lent.
    pub const IMAGE: u64 = 13;
}

/// The functions beside the calls, by their numbers.
pub mod function {
    pub const LAYOUT: u64 = 0;
    pub const FROM_RAW: u64 = 1;
    pub const FROM_DEVICE_PROBE: u64 = 2;
    pub const PACKET_INTERVAL_US: u64 = 3;
    pub const BYTES_PER_INTERVAL: u64 = 4;
    pub const DERIVE: u64 = 5;
    pub const PLAN: u64 = 6;
    pub const FROM_ERRNO: u64 = 7;
    pub const BUILD: u64 = 8;
    pub const NAMES: [&str; 9] = [
        "layout",
        "from_raw",
        "from_device_probe",
        "packet_interval_us",
        "bytes_per_interval",
        "derive",
        "plan",
        "from_errno",
        "build",
    ];
}

/// Seeded numbers (splitmix64), so that a run can be made again.
#[derive(Clone)]
pub struct Rng(u64);

impl Rng {
    pub fn new(seed: u64) -> Rng {
        Rng(seed)
    }

    /// Any 64 bits.
    pub fn any(&mut self) -> u64 {
        self.0 = self.0.wrapping_add(0x9e37_79b9_7f4a_7c15);
        let a = (self.0 ^ (self.0 >> 30)).wrapping_mul(0xbf58_476d_1ce4_e5b9);
        let b = (a ^ (a >> 27)).wrapping_mul(0x94d0_49bb_1331_11eb);
        b ^ (b >> 31)
    }

    /// A number below `bound`, which is not 0.
    pub fn below(&mut self, bound: u64) -> u64 {
        self.any() % bound
    }

    /// True in `percent` of a hundred cases.
    pub fn percent(&mut self, percent: u64) -> bool {
        self.below(100) < percent
    }

    pub fn pick<T: Copy>(&mut self, from: &[T]) -> T {
        from[self.below(from.len() as u64) as usize]
    }
}
