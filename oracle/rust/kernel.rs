//! The scripted machine: what the kernel, poll and the clock answer, by seeded chance.

use std::ffi::c_void;

use form::{kind, Answer, Hand, Rng};
use script::Ready;

use crate::record::{self, Open, Operation, Player};
use crate::ring::{look, SlotState};
use crate::sys;

/// How often, of a hundred replies, this run's kernel does what.
#[derive(Clone, Copy)]
pub(crate) struct Rates {
    pub nothing: u64,
    pub foreign: u64,
    pub cookie: u64,
    pub reap_errno: u64,
    pub submit_errno: u64,
    pub odd_figures: u64,
    pub scribbles: u64,
    pub out_of_order: u64,
    /// Looks at the clock after which every deadline has passed.
    pub late: u64,
}

impl Rates {
    pub(crate) fn drawn(rng: &mut Rng) -> Rates {
        let mut rate = |most: u64| if rng.percent(40) { 0 } else { rng.below(most + 1) };
        Rates {
            nothing: 30 + rate(68),
            foreign: rate(15),
            cookie: rate(10),
            reap_errno: rate(6),
            submit_errno: rate(15),
            odd_figures: rate(40),
            scribbles: rate(10),
            out_of_order: rate(100),
            late: rate(50),
        }
    }
}

/// Every kind of errno: gone, memory, permission, not implemented, others.
const ERRNOS: [i32; 12] = [19, 108, 12, 13, 1, 25, 11, 22, 0, 5, 32, i32::MAX];

/// The calls that want another hand than Sending and Silent.
const NOT_SENDING: [u64; 10] = [
    kind::TURN,
    kind::COMMIT,
    kind::COMMIT_FULL,
    kind::COMMIT_PACKETS,
    kind::REAPED_ERRNO,
    kind::REAPED_ADDRESS,
    kind::GIVE_BACK,
    kind::START,
    kind::STOP,
    kind::FINISH,
];

pub(crate) fn machine() -> script::Machine {
    script::Machine { ioctl, poll, clock, block }
}

fn block(_bytes: usize) -> *mut u8 {
    record::with(|p| p.opening.base as *mut u8)
}

fn clock() -> u64 {
    record::with(|p| {
        p.show_clock();
        p.clock += if p.rng.percent(p.rates.late) { 1_000_000 } else { 1 + p.rng.below(8000) };
        p.clock
    })
}

fn poll() -> Result<Ready, i32> {
    record::with(|p| match p.rng.below(100) {
        0 => Ok(Ready::HungUp),
        1 => Err(p.rng.pick(&ERRNOS)),
        2..5 => Err(4),
        5..30 => Ok(Ready::No),
        _ => Ok(Ready::Yes),
    })
}

fn ioctl(request: u32, argument: *mut c_void) -> Result<i32, i32> {
    record::with(|p| {
        if p.operation == Operation::Closing {
            return Err(libc::ENODEV);
        }
        let slot = (argument as u64).wrapping_sub(p.opening.base) / p.stride;
        match request {
            sys::SUBMITURB => p.submit(slot),
            sys::DISCARDURB => {
                p.discards.push(slot);
                if p.rng.percent(20) {
                    return Err(libc::EINVAL);
                }
                Ok(0)
            }
            sys::REAPURBNDELAY => {
                let address = p.reap()?;
                // SAFETY: the caller passes a place for one URB address.
                unsafe { *argument.cast::<u64>() = address };
                Ok(0)
            }
            _ => Err(libc::ENOTTY),
        }
    })
}

fn is_out(i: u64) -> bool {
    look(|r| matches!(r.state(i as usize), SlotState::InFlight | SlotState::Discarding))
}

impl Player {
    fn submit(&mut self, slot: u64) -> Result<i32, i32> {
        self.show_submit(slot);
        self.wrong_hand(&NOT_SENDING);
        let header = slot * self.stride;
        if self.rng.percent(self.rates.odd_figures / 4) {
            let length = self.odd_number();
            self.write(header + 24, length);
        }
        self.scribble();
        if self.rng.percent(self.rates.submit_errno) {
            let errno = self.errno();
            self.begin(kind::SUBMITTED_ERRNO, errno as u64, &[], Open::Submitted);
            return Err(errno);
        }
        self.begin(kind::ACCEPTED, 0, &[], Open::Submitted);
        self.accepted.push(slot);
        Ok(0)
    }

    fn reap(&mut self) -> Result<u64, i32> {
        self.show_reaped();
        self.scribble();
        let rates = self.rates;
        let roll = self.rng.below(100);
        let mut reply = Err(libc::EAGAIN);
        if roll < rates.reap_errno {
            reply = Err(self.errno());
        } else if roll < rates.reap_errno + rates.foreign {
            reply = Ok(self.foreign());
        } else if !self.rng.percent(rates.nothing) {
            reply = self.returning().map(|i| self.notice(i)).ok_or(libc::EAGAIN);
        }
        // A notice for a slot that is free would be stray: comparing ends there, so none is made.
        let stray = reply.is_ok_and(|address| {
            look(|r| r.slot_of_urb(address as *mut sys::Urb).is_some_and(|i| r.state(i) == SlotState::Free))
        });
        match reply {
            Ok(address) if !stray => {
                self.begin(kind::REAPED_ADDRESS, address, &[], Open::ReapedAddress);
                Ok(address)
            }
            Ok(_) | Err(libc::EAGAIN) => {
                self.begin(kind::REAPED_ERRNO, libc::EAGAIN as u64, &[], Open::No);
                self.shown(Answer::Nothing, Hand::Idle);
                if self.operation == Operation::NextSlot {
                    self.begin(kind::TURN, 0, &[], Open::Turn);
                }
                Err(libc::EAGAIN)
            }
            Err(errno) => {
                self.begin(kind::REAPED_ERRNO, errno as u64, &[], Open::ReapedErrno(errno));
                Err(errno)
            }
        }
    }

    fn errno(&mut self) -> i32 {
        if self.rng.percent(5) {
            return self.rng.below(1 << 31) as i32;
        }
        self.rng.pick(&ERRNOS)
    }

    /// A slot that is out: the one accepted first, or another.
    fn returning(&mut self) -> Option<u64> {
        self.accepted.retain(|&i| is_out(i));
        if self.accepted.is_empty() {
            return None;
        }
        let mut at = 0;
        if self.rng.percent(self.rates.out_of_order) {
            at = self.rng.below(self.accepted.len() as u64) as usize;
        }
        Some(self.accepted[at])
    }
}
