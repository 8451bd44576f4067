//! Opening, and what the ledger holds.

use std::collections::VecDeque;

use form::{Hand, Opening, Shown};

use super::block::{layout, refuses_frame, Block, Layout};
use super::wrong::Wrong;

#[derive(Clone, Copy, PartialEq)]
pub enum Mark {
    Home,
    Out,
    Discarded,
}

/// Places in the totals, in IsoStats order.
pub mod total {
    pub const SUBMITTED: usize = 0;
    pub const COMPLETED: usize = 1;
    pub const BYTES_SUBMITTED: usize = 2;
    pub const TRANSFERRED: usize = 3;
    pub const SHORT: usize = 4;
    pub const PACKET_ERRORS: usize = 5;
    pub const URB_ERRORS: usize = 6;
    pub const UNDERRUNS: usize = 7;
}

pub struct Ledger {
    pub opening: Opening,
    pub layout: Layout,
    pub hand: Hand,
    pub queue: VecDeque<u64>,
    pub marks: Vec<Mark>,
    pub started: bool,
    pub armed: bool,
    pub totals: [u64; 8],
    pub wrong: Wrong,
}

/// Only the low 56 bits compare where addresses carry a tag.
pub fn masked(address: u64, tagged: u64) -> u64 {
    if tagged == 1 {
        address & ((1 << 56) - 1)
    } else {
        address
    }
}

/// The order of opening's refusals behind 1, 2 and 3.
fn order(wrong: Wrong) -> [u64; 4] {
    match wrong {
        Wrong::FrameSizeBeforeTooLarge => [33, 5, 6, 7],
        Wrong::FrameSizeAfterTheBlock => [5, 6, 33, 7],
        _ => [5, 33, 6, 7],
    }
}

/// The layout of values that opening takes, with a block of that length if one is given; else the refusal's number.
pub fn admitted(o: &Opening, block_len: Option<u64>, wrong: Wrong) -> Result<Layout, u64> {
    // Where things lie does not depend on the frame size.
    let total = match layout(o.n, o.p, o.b, 1, wrong) {
        Err(number @ 1..=3) => return Err(number),
        // A layout that is too large has 5.
        laid => laid.map_or(0, |l| l.total),
    };
    let room: u128 = if o.tagged == 1 { 1 << 56 } else { 1 << 64 };
    let end = u128::from(masked(o.base, o.tagged)) + u128::from(total);
    let met = |number: &u64| match number {
        5 => o.n > 256 || o.b > 49_152,
        33 => refuses_frame(o.frame, o.b, wrong),
        6 => block_len.is_some_and(|length| length != total),
        _ => o.base % 64 != 0 || end > room,
    };
    match order(wrong).into_iter().find(met) {
        Some(number) => Err(number),
        None => layout(o.n, o.p, o.b, o.frame, wrong),
    }
}

impl Ledger {
    /// Refused in order, block untouched: 1, 2, 3; 5; 33; 6; 7.
    pub fn open(o: &Opening, bytes: &mut [u8], wrong: Wrong) -> Result<Ledger, u64> {
        let layout = admitted(o, Some(bytes.len() as u64), wrong)?;
        Block { bytes, layout, p: o.p }.open(o, wrong);
        Ok(Ledger {
            opening: *o,
            layout,
            hand: Hand::Idle,
            queue: (0..o.n).collect(),
            marks: vec![Mark::Home; o.n as usize],
            started: false,
            armed: false,
            totals: [0; 8],
            wrong,
        })
    }

    /// How many slots are out.
    pub fn out(&self) -> u64 {
        let counts = |m: &&Mark| match m {
            Mark::Home => false,
            Mark::Out => true,
            Mark::Discarded => self.wrong != Wrong::DiscardLowersOut,
        };
        self.marks.iter().filter(counts).count() as u64
    }

    /// "Return" puts a slot at the queue's end as Free.
    pub fn give(&mut self, i: u64) {
        self.marks[i as usize] = Mark::Home;
        if self.wrong == Wrong::ReturnedToTheFront {
            self.queue.push_front(i);
        } else {
            self.queue.push_back(i);
        }
    }

    /// Counters add modulo 2^64.
    pub fn add(&mut self, total: usize, more: u64) {
        self.totals[total] = self.totals[total].wrapping_add(more);
    }

    fn state(&self, i: u64) -> u8 {
        match (self.hand, self.marks[i as usize]) {
            (Hand::Held(j) | Hand::Sending(j) | Hand::Silent(j, _), _) if i == j => 1,
            (_, Mark::Home) => 0,
            (_, Mark::Out) => 2,
            (_, Mark::Discarded) => 3,
        }
    }

    pub fn shown(&self) -> Shown {
        Shown {
            hand: self.hand,
            out: self.out(),
            flags: Some([self.started, self.armed]),
            totals: Some(self.totals),
            states: (0..self.opening.n).map(|i| self.state(i)).collect(),
            queue: self.queue.iter().copied().collect(),
        }
    }
}
