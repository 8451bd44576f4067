//! The ledger with a block and an image of its own, as one side of a comparison.

use form::{kind, Answer, Call, Figures, Opening, Question, Shown, Side, Told, FILLED, IMAGE_ROOM};

use super::ledger::Ledger;
use super::wrong::Wrong;
use super::{functions, image};

pub struct Paper {
    wrong: Wrong,
    block: Vec<u8>,
    image: Vec<u8>,
    /// What the bytes of the image that are lent show.
    ledger: Option<Ledger>,
}

fn not_an_image() -> Answer {
    Answer::Refused(31, None)
}

impl Paper {
    pub fn new(wrong: Wrong) -> Paper {
        Paper { wrong, block: Vec::new(), image: Vec::new(), ledger: None }
    }

    /// 31 for a policy or tag that names none; opening's own; 31 for an image buffer too short.
    pub fn opened(&mut self, o: &Opening) -> Answer {
        self.block.clear();
        self.block.resize(o.block_len as usize, FILLED);
        self.image.clear();
        self.image.resize(IMAGE_ROOM as usize, FILLED);
        self.ledger = None;
        if o.policy > 2 || o.tagged > 1 {
            return not_an_image();
        }
        let mut block = self.block.clone();
        match Ledger::open(o, &mut block, self.wrong) {
            Err(number) => Answer::Refused(number, None),
            Ok(_) if o.image_len < form::image_size(o.n) => not_an_image(),
            Ok(ledger) => {
                self.block = block;
                image::write(&ledger, &mut self.image);
                self.ledger = Some(ledger);
                Answer::Done
            }
        }
    }

    /// Puts the bytes into the image's buffer, of which so many are lent from here on.
    pub fn rewrite(&mut self, writes: &[(u64, u32)], lent: u64) {
        for &(offset, value) in writes {
            self.image[offset as usize..][..4].copy_from_slice(&value.to_le_bytes());
        }
        self.ledger = image::read(&self.image[..lent as usize], self.wrong);
    }

    pub fn called(&mut self, call: &Call) -> Answer {
        for &(offset, value) in &call.writes {
            self.block[offset as usize..][..4].copy_from_slice(&value.to_le_bytes());
        }
        let Some(ledger) = &mut self.ledger else {
            return not_an_image();
        };
        let answer = ledger.call(call, &mut self.block[..call.lent as usize]);
        image::write(ledger, &mut self.image);
        answer
    }

    /// None where there is no record.
    pub fn shown(&self) -> Option<Shown> {
        self.ledger.as_ref().map(Ledger::shown)
    }
}

impl Side for Paper {
    fn open(&mut self, opening: &Opening) -> Told {
        self.opened(opening).told(0)
    }

    fn call(&mut self, call: &Call) -> Told {
        debug_assert!(call.kind < kind::END);
        self.called(call).told(call.places())
    }

    fn image(&self) -> &[u8] {
        &self.image
    }

    fn block(&self) -> &[u8] {
        &self.block
    }

    fn ask(&mut self, question: &Question) -> Option<Figures> {
        Some(functions::ask(question, self.wrong))
    }
}
