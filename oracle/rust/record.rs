//! Makes the list of our calls while the Rust runs, and tells the listener what came of each.
//!
//! One operation of the Rust is several of our calls. A call is open from the moment that its arguments are known until
//! the Rust shows what came of it: by its next ioctl, by looking at the clock, or by returning.

use std::cell::RefCell;

use form::{kind, Answer, Call, Hand, Listener, Opening, Rng, Shown};

use crate::error::ErrnoContext;
use crate::kernel::Rates;
use crate::numbers::refusal;
use crate::ring::{look, queue, states, Completion};
use crate::Error;

/// The call whose outcome the Rust has not shown yet.
#[derive(Clone, Copy, PartialEq)]
pub(crate) enum Open {
    No,
    Turn,
    Commit,
    Submitted,
    ReapedErrno(i32),
    ReapedAddress,
    Stop,
}

/// Which operation of the Rust is running.
#[derive(Clone, Copy, PartialEq)]
pub(crate) enum Operation {
    NextSlot,
    Commit,
    Stop,
    /// Between runs: nothing is recorded.
    Closing,
}

pub(crate) struct Player {
    pub rng: Rng,
    pub rates: Rates,
    pub opening: Opening,
    pub stride: u64,
    pub operation: Operation,
    pub clock: u64,
    /// Slots in the order in which the kernel took them.
    pub accepted: Vec<u64>,
    pub discards: Vec<u64>,
    pub open: Open,
    writes: Vec<(u64, u32)>,
    completion: Option<Completion>,
    silent: u64,
    /// The call that is open; none while the opening is.
    pending: Option<Call>,
    last: Option<Shown>,
    listener: Box<dyn Listener>,
}

thread_local! {
    static PLAYER: RefCell<Option<Player>> = const { RefCell::new(None) };
}

pub(crate) fn with<T>(f: impl FnOnce(&mut Player) -> T) -> T {
    PLAYER.with(|p| f(p.borrow_mut().as_mut().expect("no run is played")))
}

/// The published ring has completed a slot.
pub(crate) fn completed(completion: Completion) {
    with(|p| p.completion = Some(completion));
}

impl Player {
    pub(crate) fn begin_run(rng: Rng, rates: Rates, opening: Opening, stride: u64, listener: Box<dyn Listener>) {
        let player = Player {
            rng,
            rates,
            opening,
            stride,
            operation: Operation::Closing,
            clock: 0,
            accepted: Vec::new(),
            discards: Vec::new(),
            open: Open::No,
            writes: Vec::new(),
            completion: None,
            silent: 0,
            pending: None,
            last: None,
            listener,
        };
        PLAYER.with(|p| *p.borrow_mut() = Some(player));
    }

    /// Hands the listener back.
    pub(crate) fn end_run() -> Box<dyn Listener> {
        let mut player = PLAYER.with(|p| p.borrow_mut().take()).expect("no run is played");
        player.listener.ended();
        player.listener
    }

    fn place(&self) -> *mut [u8] {
        std::ptr::slice_from_raw_parts_mut(self.opening.base as *mut u8, self.opening.block_len as usize)
    }

    fn block(&self) -> &[u8] {
        // SAFETY: the scripted allocation, which lives as long as the program; the Rust waits or is not running.
        unsafe { &*self.place() }
    }

    /// The kernel, or the host in a slot that it holds, writes four bytes before the next call.
    pub(crate) fn write(&mut self, offset: u64, value: u32) {
        if offset + 4 <= self.opening.block_len {
            // SAFETY: as in `block`, and nothing else refers to it now.
            let block = unsafe { &mut *self.place() };
            block[offset as usize..][..4].copy_from_slice(&value.to_le_bytes());
            self.writes.push((offset, value));
        }
    }

    pub(crate) fn field(&self, offset: u64) -> u32 {
        let bytes = &self.block()[offset as usize..][..4];
        u32::from_le_bytes(bytes.try_into().expect("four bytes"))
    }

    /// One of our calls begins, with what was written into the block before it.
    pub(crate) fn call(&mut self, kind: u64, argument: u64, lent: u64, lengths: &[u64]) {
        let writes = std::mem::take(&mut self.writes);
        let lengths = lengths.to_vec();
        assert!(self.pending.is_none(), "the call before it is still open");
        self.pending = Some(Call { kind, argument, lent, writes, lengths });
    }

    pub(crate) fn begin(&mut self, kind: u64, argument: u64, lengths: &[u64], open: Open) {
        self.call(kind, argument, self.opening.block_len, lengths);
        self.open = open;
        if open == Open::Turn {
            self.silent = 0;
        }
    }

    /// The open call has ended: this is its answer, and what is shown after it.
    fn tell(&mut self, answer: &Answer, shown: Shown) {
        // SAFETY: as in `block`; the listener has no other way to it.
        let block = unsafe { &*self.place() };
        match self.pending.take() {
            None => self.listener.opened(&self.opening, &answer.told(0), &shown, block),
            Some(call) => self.listener.called(&call, &answer.told(call.places()), &shown, block),
        }
        self.last = Some(shown);
    }

    /// A call has ended, as the Rust stands now.
    pub(crate) fn shown(&mut self, answer: Answer, hand: Hand) {
        self.open = Open::No;
        let (out, states, queue) = look(|r| (r.in_flight() as u64, states(r), queue(r)));
        self.tell(&answer, Shown { hand, out, flags: None, totals: None, states, queue });
    }

    /// A call of which the paper says that nothing differs, and which the Rust doesn't have.
    pub(crate) fn unchanged(&mut self, answer: Answer) {
        let shown = self.last().clone();
        self.tell(&answer, shown);
    }

    /// Now and then a call that wants another hand: 9, and nothing differs.
    pub(crate) fn wrong_hand(&mut self, kinds: &[u64]) {
        if self.rng.percent(3) {
            let kind = self.rng.pick(kinds);
            self.call(kind, 0, self.opening.block_len, &[]);
            self.unchanged(Answer::Refused(9, None));
        }
    }

    /// After the operation: the flags and totals that go with its last call.
    pub(crate) fn full(&mut self, flags: [bool; 2], totals: [u64; 8]) {
        if let Some(shown) = &mut self.last {
            (shown.flags, shown.totals) = (Some(flags), Some(totals));
            self.listener.full(flags, totals);
        }
    }

    /// What was shown last.
    pub(crate) fn last(&self) -> &Shown {
        self.last.as_ref().expect("the opening shows something")
    }

    /// What reaped answered, when the Rust goes on after an address.
    pub(crate) fn show_reaped(&mut self) {
        if self.open == Open::ReapedAddress {
            let answer = match self.completion.take() {
                None => Answer::Foreign,
                Some(c) => Answer::Completion(
                    i64::from(c.status),
                    [
                        c.actual_bytes as u64,
                        c.requested_bytes as u64,
                        c.short_bytes as u64,
                        u64::from(c.packet_errors),
                        u64::from(c.was_discarded),
                    ],
                ),
            };
            self.shown(answer, Hand::Idle);
        }
    }

    /// The Rust is about to submit slot i: the call before it answered Submit.
    pub(crate) fn show_submit(&mut self, i: u64) {
        let hand = match self.open {
            Open::Commit => Hand::Sending(i),
            _ => Hand::Silent(i, 1u64.saturating_sub(self.silent)),
        };
        self.silent += 1;
        self.shown(Answer::Submit(i), hand);
    }

    /// The Rust looks at the clock: a turn found nothing, or stop has asked for every discard.
    pub(crate) fn show_clock(&mut self) {
        match self.open {
            Open::Turn | Open::Submitted => self.shown(Answer::Nothing, Hand::Idle),
            Open::Stop => {
                let list = std::mem::take(&mut self.discards);
                self.shown(Answer::Stopped(list), Hand::Idle);
            }
            _ => {}
        }
    }

    /// The operation returned an error: that of the open call. With none open, it came from waiting.
    pub(crate) fn show_error(&mut self, e: &Error) {
        self.completion = None;
        if self.open != Open::No {
            let (number, value) = refusal(e);
            self.shown(Answer::Refused(number, value), Hand::Idle);
        }
    }

    /// stop returned Ok or Disconnected: what it swallowed is shown, then finish says what is left.
    pub(crate) fn show_stopped(&mut self, gone: bool) {
        self.show_clock();
        self.show_reaped();
        if let Open::ReapedErrno(errno) = self.open {
            self.show_error(&Error::from_errno(errno, ErrnoContext::Other));
        }
        self.begin(kind::FINISH, 0, &[], Open::No);
        let answer = if gone { Answer::Refused(13, None) } else { Answer::Yes };
        self.shown(answer, Hand::Idle);
    }
}
