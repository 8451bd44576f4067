//! The commits and silence: what a slot gets before it is submitted.

use form::{Answer, Hand};

use super::block::Block;
use super::calls::{refused, Outcome};
use super::ledger::Ledger;
use super::wrong::Wrong;

impl Ledger {
    /// p × b.
    fn payload(&self) -> u64 {
        self.opening.p * self.opening.b
    }

    /// The front slot gets its capacity filled with the silence byte, and all that commit_full writes.
    pub fn silence_front(&mut self, left: u64, block: &mut Block) -> Answer {
        let Some(i) = self.queue.pop_front() else {
            self.hand = Hand::Idle;
            return Answer::Nothing;
        };
        let bytes = match self.wrong {
            Wrong::SilenceFillsTheStride => self.layout.data_stride,
            Wrong::SilenceFillsThePayload => self.payload(),
            _ => self.layout.capacity,
        };
        block.silence(i, bytes, self.opening.silence as u8);
        let mut lengths = self.shares(self.layout.capacity);
        if self.wrong == Wrong::SilenceSendsThePayload {
            lengths.fill(self.opening.b);
        }
        self.write_lengths(i, &lengths, block);
        self.hand = Hand::Silent(i, if self.wrong == Wrong::OneSilentBuffer { 0 } else { left });
        Answer::Submit(i)
    }

    /// Each packet gets min(rest, fill), the fill being the largest multiple of the frame size not above b.
    fn shares(&self, bytes: u64) -> Vec<u64> {
        let fill = if self.wrong == Wrong::CommitSplitsFrames { self.opening.b } else { self.layout.fill };
        let mut rest = bytes;
        let share = |_| {
            let length = rest.min(fill);
            rest -= length;
            length
        };
        (0..self.opening.p).map(share).collect()
    }

    fn write_lengths(&self, i: u64, lengths: &[u64], block: &mut Block) {
        let keep = match self.wrong {
            Wrong::CommitKeepsStatus => Some(Block::KEEP_STATUS),
            Wrong::CommitKeepsBufferLength => Some(Block::KEEP_BUFFER_LENGTH),
            _ => None,
        };
        block.commit(i, lengths, keep);
    }

    /// The slot is returned, Idle (Slot's Drop).
    fn refuse_commit(&mut self, i: u64, number: u64) -> Answer {
        match self.wrong {
            Wrong::RefusedCommitToTheFront => {
                self.hand = Hand::Idle;
                self.queue.push_front(i);
                refused(number)
            }
            Wrong::RefusedCommitKeptInHand => refused(number),
            _ => self.put_back(i, refused(number)),
        }
    }

    pub fn commit(&mut self, i: u64, bytes: u64, block: &mut Block) -> Outcome {
        let too_long = match self.wrong {
            Wrong::CommitLimitOfThePayload => bytes > self.payload(),
            Wrong::RaggedCommitRefused => bytes > self.layout.capacity || bytes % self.opening.frame != 0,
            _ => bytes > self.layout.capacity,
        };
        if too_long {
            return Err(self.refuse_commit(i, 10));
        }
        self.write_lengths(i, &self.shares(bytes), block);
        self.hand = Hand::Sending(i);
        Ok(Answer::Submit(i))
    }

    /// Takes its list as it is: b is a packet's limit, and there is none for the sum.
    pub fn commit_packets(&mut self, i: u64, lengths: &[u64], block: &mut Block) -> Outcome {
        let most = if self.wrong == Wrong::CommitPacketsByTheFrame { self.layout.fill } else { self.opening.b };
        let miscounted = lengths.len() as u64 != self.opening.p;
        let too_long = lengths.iter().any(|&l| l > most);
        if too_long && (!miscounted || self.wrong == Wrong::LongPacketBeforeCount) {
            return Err(self.refuse_commit(i, 12));
        }
        if miscounted {
            return Err(self.refuse_commit(i, 11));
        }
        if self.wrong == Wrong::CommitPacketsHas10 && lengths.iter().sum::<u64>() > self.layout.capacity {
            return Err(self.refuse_commit(i, 10));
        }
        self.write_lengths(i, lengths, block);
        self.hand = Hand::Sending(i);
        Ok(Answer::Submit(i))
    }
}
