//! Runs and questions as text: numbers with spaces, commas or line ends between them, `#` for a comment.

use crate::kind;

/// A list of lengths is at most that long.
pub const LIST_LIMIT: u64 = 256;
/// A block is at most that long.
pub const BLOCK_LIMIT: u64 = 524_288;
/// The bytes of the image's buffer in a written run.
pub const IMAGE_ROOM: u64 = 1536;

const RUN: u64 = 1;
const QUESTION: u64 = 2;
const WIDE: u64 = u32::MAX as u64;

/// Opening's values in the paper's order, then the lengths of the block and of the image buffer that are lent.
#[derive(Clone, Copy, Debug, Default)]
pub struct Opening {
    pub n: u64,
    pub p: u64,
    pub b: u64,
    pub endpoint: u64,
    pub policy: u64,
    pub silence: u64,
    pub base: u64,
    pub tagged: u64,
    /// The bytes of a frame.
    pub frame: u64,
    pub block_len: u64,
    pub image_len: u64,
}

/// One call: its kind and argument, how many bytes of the block are lent, what is written into the block before it,
/// and the lengths of commit_packets.
#[derive(Clone, Debug, Default)]
pub struct Call {
    pub kind: u64,
    pub argument: u64,
    pub lent: u64,
    pub writes: Vec<(u64, u32)>,
    pub lengths: Vec<u64>,
}

impl Call {
    /// How many places of stop's list are lent.
    pub fn places(&self) -> u64 {
        if self.kind == kind::STOP {
            self.argument
        } else {
            0
        }
    }
}

/// The C functions that a written question can ask: the name, and the most that each argument may be.
const ASKED: [(&str, &[u64]); 4] = [
    ("layout", &[u64::MAX, u64::MAX, u64::MAX, u64::MAX]),
    ("derive", &[WIDE, 255, u64::MAX, u64::MAX, WIDE, u64::MAX]),
    ("plan", &[WIDE, 255, 65_535, 255, u64::MAX, WIDE, u64::MAX]),
    ("stretch", &[SOUND_LIMIT, SOUND_LIMIT, WIDE, u64::MAX, u64::MAX, u64::MAX]),
];

/// The most bytes that a programme or a message of a question has.
const SOUND_LIMIT: u64 = 65_536;

pub enum Item {
    Run(Opening),
    /// The function's name and its arguments.
    Question(&'static str, Vec<u64>),
}

/// The input is not in this form, or was cut off.
#[derive(Debug)]
pub struct Bad;

/// Writes a run.
#[derive(Default)]
pub struct Writer {
    pub text: String,
}

impl Writer {
    fn line(&mut self, numbers: &[u64]) {
        let words: Vec<String> = numbers.iter().map(u64::to_string).collect();
        self.text.push_str(&words.join(" "));
        self.text.push('\n');
    }

    pub fn run(&mut self, o: &Opening) {
        let first = [RUN, o.n, o.p, o.b, o.endpoint, o.policy, o.silence, o.base, o.tagged, o.frame];
        self.line(&[&first[..], &[o.block_len, o.image_len]].concat());
    }

    pub fn call(&mut self, c: &Call) {
        let (writes, lengths) = (c.writes.len() as u64, c.lengths.len() as u64);
        let written = c.writes.iter().flat_map(|&(offset, value)| [offset, u64::from(value)]);
        let mut numbers = vec![c.kind, c.argument, c.lent, writes, lengths];
        numbers.extend(written);
        numbers.extend_from_slice(&c.lengths);
        self.line(&numbers);
    }

    pub fn end(&mut self) {
        self.line(&[kind::END]);
    }
}

pub struct Reader<'a> {
    words: Box<dyn Iterator<Item = &'a str> + 'a>,
}

fn value(word: &str) -> Result<u64, Bad> {
    let (digits, base) = match word.strip_prefix("0x") {
        Some(hex) => (hex, 16),
        None => (word, 10),
    };
    if digits.starts_with('+') {
        return Err(Bad);
    }
    u64::from_str_radix(digits, base).map_err(|_| Bad)
}

impl<'a> Reader<'a> {
    pub fn new(text: &'a str) -> Reader<'a> {
        let lines = text.lines().map(|line| line.split('#').next().unwrap_or_default());
        let words = lines.flat_map(|line| line.split([' ', ',', '\t', '\r'])).filter(|word| !word.is_empty());
        Reader { words: Box::new(words) }
    }

    fn at_most(&mut self, limit: u64) -> Result<u64, Bad> {
        let value = value(self.words.next().ok_or(Bad)?)?;
        if value > limit {
            return Err(Bad);
        }
        Ok(value)
    }

    fn number(&mut self) -> Result<u64, Bad> {
        self.at_most(u64::MAX)
    }

    /// The next run's opening or the next question; None where the input ends between two of them.
    pub fn item(&mut self) -> Result<Option<Item>, Bad> {
        let Some(mark) = self.words.next() else {
            return Ok(None);
        };
        match value(mark)? {
            RUN => Ok(Some(Item::Run(self.opening()?))),
            QUESTION => {
                let (name, limits) = ASKED[self.at_most(ASKED.len() as u64 - 1)? as usize];
                let arguments: Result<Vec<u64>, Bad> = limits.iter().map(|&limit| self.at_most(limit)).collect();
                Ok(Some(Item::Question(name, arguments?)))
            }
            _ => Err(Bad),
        }
    }

    fn opening(&mut self) -> Result<Opening, Bad> {
        Ok(Opening {
            n: self.number()?,
            p: self.number()?,
            b: self.number()?,
            endpoint: self.at_most(255)?,
            policy: self.number()?,
            silence: self.at_most(255)?,
            base: self.number()?,
            tagged: self.number()?,
            frame: self.number()?,
            block_len: self.at_most(BLOCK_LIMIT)?,
            image_len: self.at_most(IMAGE_ROOM)?,
        })
    }

    /// The next call of a run with a block of that length; None at the end.
    pub fn call(&mut self, block_len: u64) -> Result<Option<Call>, Bad> {
        let kind = self.at_most(kind::IMAGE)?;
        if kind == kind::END {
            return Ok(None);
        }
        let argument = self.at_most(match kind {
            kind::SUBMITTED_ERRNO | kind::REAPED_ERRNO => WIDE,
            kind::STOP => LIST_LIMIT,
            kind::IMAGE => IMAGE_ROOM,
            _ => u64::MAX,
        })?;
        let lent = self.at_most(block_len)?;
        let writes = self.number()?;
        let lengths = self.at_most(LIST_LIMIT)?;
        let mut call = Call { kind, argument, lent, ..Call::default() };
        let written = if kind == kind::IMAGE { IMAGE_ROOM } else { block_len };
        for _ in 0..writes {
            let offset = self.at_most(written.checked_sub(4).ok_or(Bad)?)?;
            call.writes.push((offset, self.at_most(WIDE)? as u32));
        }
        for _ in 0..lengths {
            call.lengths.push(self.number()?);
        }
        Ok(Some(call))
    }
}
