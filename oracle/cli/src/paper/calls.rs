//! The calls and their ledger, in the paper's order.

use form::{kind, Answer, Call, Hand};

use super::block::{positive, Block};
use super::ledger::{masked, total, Ledger, Mark};
use super::wrong::Wrong;

/// Done, or the answer of a refusal.
pub type Outcome = Result<Answer, Answer>;

pub fn refused(number: u64) -> Answer {
    Answer::Refused(number, None)
}

impl Ledger {
    /// One call. What it refuses it answers like any other.
    pub fn call(&mut self, c: &Call, lent: &mut [u8]) -> Answer {
        let takes_block = c.kind <= kind::REAPED_ADDRESS;
        if takes_block && lent.len() as u64 != self.layout.total {
            return refused(6);
        }
        let mut block = Block { bytes: lent, layout: self.layout, p: self.opening.p };
        let outcome = match c.kind {
            kind::TURN => self.idle().and_then(|()| self.turn(&mut block)),
            kind::COMMIT => self.held().and_then(|i| self.commit(i, c.argument, &mut block)),
            kind::COMMIT_FULL => self.held().and_then(|i| self.commit(i, self.layout.capacity, &mut block)),
            kind::COMMIT_PACKETS => self.held().and_then(|i| self.commit_packets(i, &c.lengths, &mut block)),
            kind::ACCEPTED => self.accepted(&mut block),
            kind::SUBMITTED_ERRNO => self.submit_failed(c.argument),
            kind::REAPED_ERRNO => self.idle().and_then(|()| self.reaped_errno(c.argument)),
            kind::REAPED_ADDRESS => self.idle().and_then(|()| self.reaped(c.argument, &block)),
            kind::GIVE_BACK => self.held().map(|i| self.put_back(i, Answer::Done)),
            kind::START => self.idle().map(|()| self.start()),
            kind::STOP => self.idle().and_then(|()| self.stop(c.argument)),
            _ => self.idle().map(|()| self.finish()),
        };
        outcome.unwrap_or_else(|answer| answer)
    }

    fn idle(&self) -> Result<(), Answer> {
        if self.hand == Hand::Idle {
            Ok(())
        } else {
            Err(refused(9))
        }
    }

    fn held(&self) -> Result<u64, Answer> {
        if let Hand::Held(i) = self.hand {
            Ok(i)
        } else {
            Err(refused(9))
        }
    }

    /// The hand's slot is returned, Idle.
    pub fn put_back(&mut self, i: u64, answer: Answer) -> Answer {
        self.hand = Hand::Idle;
        self.give(i);
        answer
    }

    fn turn(&mut self, block: &mut Block) -> Outcome {
        let discarding = self.marks.iter().filter(|&&m| m == Mark::Discarded).count() as u64;
        let out = self.out() - if self.wrong == Wrong::DiscardingNotOut { discarding } else { 0 };
        if self.started && self.armed && out == 0 {
            self.armed = self.wrong == Wrong::UnderrunKeepsArmed;
            self.add(total::UNDERRUNS, 1);
            match self.opening.policy {
                2 => return Err(Answer::Refused(19, Some(self.totals[total::UNDERRUNS]))),
                1 => return Ok(self.silence_front(1, block)),
                _ if self.wrong == Wrong::UnderrunTakesNothing => return Ok(Answer::Nothing),
                _ => {}
            }
        }
        Ok(self.take_front())
    }

    fn take_front(&mut self) -> Answer {
        match self.queue.pop_front() {
            Some(i) => {
                self.hand = Hand::Held(i);
                Answer::Slot(i)
            }
            None => {
                self.hand = Hand::Idle;
                Answer::Nothing
            }
        }
    }

    fn accepted(&mut self, block: &mut Block) -> Outcome {
        let (i, left) = match self.hand {
            Hand::Sending(i) => (i, None),
            Hand::Silent(i, left) => (i, Some(left)),
            _ => return Err(refused(9)),
        };
        self.hand = Hand::Idle;
        self.marks[i as usize] = Mark::Out;
        self.add(total::SUBMITTED, 1);
        let mut bytes = block.buffer_length(i);
        if self.wrong == Wrong::BytesFromTheCapacity {
            bytes = self.layout.capacity;
        }
        self.add(total::BYTES_SUBMITTED, bytes);
        if self.started || self.wrong != Wrong::AcceptedArmsOnlyWhenStarted {
            self.armed = true;
        }
        Ok(match left {
            None => Answer::Done,
            Some(1) => self.silence_front(0, block),
            Some(_) => self.take_front(),
        })
    }

    fn submit_failed(&mut self, errno: u64) -> Outcome {
        let (Hand::Sending(i) | Hand::Silent(i, _)) = self.hand else {
            return Err(refused(9));
        };
        let mut memory = self.opening.n * self.opening.p * self.opening.b;
        if self.wrong == Wrong::MemoryOfTheCapacity {
            memory = self.opening.n * self.layout.capacity;
        }
        Err(self.put_back(i, from_errno(errno, Some(memory))))
    }

    fn reaped_errno(&mut self, errno: u64) -> Outcome {
        if errno == 11 {
            return Ok(Answer::Nothing);
        }
        let memory = (self.wrong == Wrong::ReapedMemoryIs14).then_some(0);
        Err(from_errno(errno, memory))
    }

    /// The slot whose header is at the address, if the cookie there is its index.
    fn named(&self, address: u64, block: &Block) -> Option<u64> {
        let tagged = if self.wrong == Wrong::TagCompared { 0 } else { self.opening.tagged };
        let offset = masked(address, tagged).checked_sub(masked(self.opening.base, tagged))?;
        let i = offset / self.layout.stride;
        if i >= self.opening.n || offset % self.layout.stride != 0 {
            return None;
        }
        let mine = match self.wrong {
            Wrong::CookieNotCompared => true,
            Wrong::CookieHalfCompared => block.cookie(i) as u32 == i as u32,
            _ => block.cookie(i) == i,
        };
        mine.then_some(i)
    }

    fn reaped(&mut self, address: u64, block: &Block) -> Outcome {
        let Some(i) = self.named(address, block) else {
            return Ok(Answer::Foreign);
        };
        let mark = self.marks[i as usize];
        if mark == Mark::Home {
            return Err(refused(18));
        }
        self.give(i);
        let discarded = mark == Mark::Discarded;
        let status = block.status(i);
        let gone = status == -19 || status == -108;
        let packets = block.packets(i);
        let requested: u64 = packets.iter().map(|&(length, _)| length).sum();
        let mut short = packets.iter().map(|&(length, actual)| length.saturating_sub(actual)).sum();
        if self.wrong == Wrong::ShortOfTheSums {
            let actual: u64 = packets.iter().map(|&(_, actual)| actual).sum();
            short = requested.saturating_sub(actual);
        }
        let mut errors = positive(block.error_count(i));
        if self.wrong == Wrong::NegativeErrorsCounted {
            errors = u64::from(block.error_count(i));
        }
        let actual = block.actual_length(i);
        if !discarded || self.wrong == Wrong::DiscardedCounted {
            self.add(total::COMPLETED, 1);
            self.add(total::TRANSFERRED, actual);
            self.add(total::SHORT, short);
            self.add(total::PACKET_ERRORS, errors);
            self.add(total::URB_ERRORS, u64::from(status != 0));
        }
        if gone && (!discarded || self.wrong == Wrong::DiscardedReportedGone) {
            return Err(refused(13));
        }
        let figures = [actual, requested, short, errors, u64::from(discarded)];
        Ok(Answer::Completion(i64::from(status), figures))
    }

    fn start(&mut self) -> Answer {
        if !self.started || self.wrong == Wrong::StartClearsArmed {
            self.armed = self.armed && self.wrong == Wrong::StartKeepsArmed;
        }
        self.started = true;
        Answer::Done
    }

    fn stop(&mut self, places: u64) -> Outcome {
        let n = self.opening.n;
        let list: Vec<u64> = (0..n).filter(|&i| self.marks[i as usize] == Mark::Out).collect();
        if (list.len() as u64) > places {
            return Err(refused(20));
        }
        self.started = self.started && self.wrong == Wrong::StopKeepsStarted;
        self.armed = false;
        for &i in &list {
            self.marks[i as usize] = Mark::Discarded;
        }
        Ok(Answer::Stopped(list))
    }

    fn finish(&self) -> Answer {
        if self.out() == 0 {
            Answer::Yes
        } else {
            refused(13)
        }
    }
}

/// 13 to 17 by the errno; 14 only where a submission asked for memory.
pub fn from_errno(errno: u64, memory: Option<u64>) -> Answer {
    match (errno, memory) {
        (19 | 108, _) => refused(13),
        (12, Some(bytes)) => Answer::Refused(14, Some(bytes)),
        (13 | 1, _) => refused(15),
        (25, _) => refused(16),
        _ => Answer::Refused(17, Some(errno)),
    }
}
