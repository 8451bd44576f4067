//! Makes the calls of a run on the other side while the Rust plays it, and compares all that both give.

use std::cell::RefCell;
use std::io::{self, Write};
use std::rc::Rc;

use form::{function, image_of, Call, Figures, Listener, Opening, Question, Shown, Side, Told};
use form::{FILLED, FLAGS_AT, IMAGE_ROOM, STATES_AT};

use crate::paper::{Paper, Wrong};

/// How many mismatches are printed.
const SHOWN: u64 = 5;

/// Which runs to play.
#[derive(Clone, Copy)]
pub struct Runs {
    pub count: u64,
    pub seed: u64,
    pub longest_block: u64,
}

/// What was compared so far.
#[derive(Default)]
pub struct Counts {
    pub runs: u64,
    pub calls: u64,
    pub mismatches: u64,
    /// Openings and calls at which the Rust shows its flags and counters too.
    pub full: u64,
    /// The first mismatches, in words.
    pub report: Vec<String>,
}

impl Counts {
    fn mismatch(&mut self, text: String) {
        self.mismatches += 1;
        if self.mismatches <= SHOWN {
            self.report.push(text);
        }
    }
}

/// One side beside the Rust, and beside the paper's own player where the Rust shows no flags and counters.
struct Comparison {
    side: Box<dyn Side>,
    paper: Paper,
    counts: Rc<RefCell<Counts>>,
    seed: u64,
    opening: Opening,
    /// The call in the run; 0 is the opening.
    number: u64,
    /// Whether that call agrees so far: one that doesn't is counted once.
    agrees: bool,
}

impl Comparison {
    fn differs(&mut self, what: &str, rust: impl std::fmt::Debug, other: impl std::fmt::Debug) {
        if std::mem::replace(&mut self.agrees, false) {
            let place = format!("run of seed {}, call {}", self.seed, self.number);
            self.counts.borrow_mut().mismatch(format!("{place}: {what}\n  the Rust: {rust:?}\n  the other: {other:?}"));
        }
    }

    /// The bytes of the flags and of the counters.
    fn hidden(&self) -> [std::ops::Range<usize>; 2] {
        let counters = STATES_AT + 5 * self.opening.n as usize;
        [FLAGS_AT..STATES_AT, counters..counters + 64]
    }

    /// The image buffer that shows this, with what the Rust does not show as the paper's own player has it.
    fn expected_image(&self, shown: &Shown) -> Vec<u8> {
        let mut image = image_of(&self.opening, shown);
        if shown.flags.is_none() {
            for part in self.hidden() {
                image[part.clone()].copy_from_slice(&self.paper.image()[part]);
            }
        }
        image.resize(IMAGE_ROOM as usize, FILLED);
        image
    }

    fn compare(&mut self, rust: &Told, other: &Told, shown: &Shown, block: &[u8]) {
        self.agrees = true;
        if rust != other {
            self.differs("what the call tells", rust, other);
        }
        let out = shown.states.iter().filter(|&&state| state >= 2).count() as u64;
        if out != shown.out {
            self.differs("the Rust's out count and its states", shown.out, out);
        }
        let image = self.expected_image(shown);
        if let Some(at) = first_difference(&image, self.side.image()) {
            self.differs("the image, first at", at, (image.get(at).copied(), self.side.image().get(at).copied()));
        }
        if let Some(at) = first_difference(block, self.side.block()) {
            self.differs("the block, first at", at, (block.get(at).copied(), self.side.block().get(at).copied()));
        }
    }
}

fn first_difference(a: &[u8], b: &[u8]) -> Option<usize> {
    if a == b {
        return None;
    }
    a.iter().zip(b).position(|(x, y)| x != y).or(Some(a.len().min(b.len())))
}

impl Listener for Comparison {
    fn opened(&mut self, opening: &Opening, told: &Told, shown: &Shown, block: &[u8]) {
        self.opening = *opening;
        self.number = 0;
        self.paper.open(opening);
        let other = self.side.open(opening);
        self.compare(told, &other, shown, block);
    }

    fn called(&mut self, call: &Call, told: &Told, shown: &Shown, block: &[u8]) {
        self.number += 1;
        self.counts.borrow_mut().calls += 1;
        self.counts.borrow_mut().full += u64::from(shown.flags.is_some());
        self.paper.call(call);
        let other = self.side.call(call);
        self.compare(told, &other, shown, block);
    }

    fn full(&mut self, flags: [bool; 2], totals: [u64; 8]) {
        self.counts.borrow_mut().full += 1;
        let flags = flags.iter().flat_map(|&flag| u64::from(flag).to_le_bytes()).collect::<Vec<u8>>();
        let totals = totals.iter().flat_map(|total| total.to_le_bytes()).collect::<Vec<u8>>();
        for (part, rust) in self.hidden().into_iter().zip([flags, totals]) {
            // The paper's own player too, since it stands in for the Rust where that shows nothing.
            let images = [self.side.image(), self.paper.image()];
            let other = images.iter().map(|image| &image[part.clone()]).find(|&bytes| bytes != rust);
            if let Some(other) = other.map(<[u8]>::to_vec) {
                self.differs("the flags or the counters", rust, other);
            }
        }
    }

    fn ended(&mut self) {
        self.counts.borrow_mut().runs += 1;
    }
}

/// Plays the run of a seed on the Rust, with this listener: one in four on the build whose addresses carry a tag.
pub fn play(seed: u64, longest_block: u64, listener: Box<dyn Listener>) -> Box<dyn Listener> {
    match seed % 4 {
        0 => usbfs_iso_tagged::play(seed, longest_block, listener),
        _ => usbfs_iso_plain::play(seed, longest_block, listener),
    }
}

/// Compares that side with the Rust on these runs.
pub fn compare_runs(runs: Runs, mut side: impl FnMut() -> Box<dyn Side>) -> Counts {
    let counts = Rc::new(RefCell::new(Counts::default()));
    for k in 0..runs.count {
        // Each run has a seed of its own, so that it can be made again alone.
        let seed = runs.seed.wrapping_add(k);
        let comparison = Comparison {
            side: side(),
            paper: Paper::new(Wrong::None),
            counts: counts.clone(),
            seed,
            opening: Opening::default(),
            number: 0,
            agrees: true,
        };
        play(seed, runs.longest_block, Box::new(comparison));
    }
    counts.take()
}

/// What was asked, and how much of it the side has.
#[derive(Default)]
struct Asked {
    questions: u64,
    not_had: u64,
    /// Numbers of results, and those among them that one of the two does not have.
    numbers: u64,
    absent: u64,
    counts: Counts,
}

impl Asked {
    fn compare(&mut self, q: &Question, rust: &Figures, other: &Figures) {
        self.questions += 1;
        let agree = match (rust, other) {
            (Ok(rust), Ok(other)) if rust.len() == other.len() => {
                let absent = rust.iter().zip(other).filter(|(r, o)| r.is_none() || o.is_none()).count();
                self.numbers += rust.len() as u64;
                self.absent += absent as u64;
                rust.iter().zip(other).all(|(r, o)| r.is_none() || o.is_none() || r == o)
            }
            (Err(rust), Err(other)) => rust == other,
            _ => false,
        };
        if !agree {
            let name = function::NAMES[q[0] as usize];
            self.counts.mismatch(format!("{name} {:?}\n  the Rust: {rust:?}\n  the other: {other:?}", &q[1..]));
        }
    }
}

/// Asks both for every input of the functions. Whether all agree, and there were any.
pub fn compare_functions(side: &mut dyn Side, out: &mut impl Write) -> io::Result<bool> {
    let mut asked = Asked::default();
    usbfs_iso_plain::inputs(&mut |q| {
        let Some(rust) = usbfs_iso_plain::expected(&q) else {
            return;
        };
        match side.ask(&q) {
            Some(other) => asked.compare(&q, &rust, &other),
            None => asked.not_had += 1,
        }
    });
    let Asked { questions, not_had, numbers, absent, counts } = asked;
    counts.report.iter().try_for_each(|line| writeln!(out, "{line}"))?;
    write!(out, "{questions} questions, {} mismatches; {not_had} others not asked here; ", counts.mismatches)?;
    writeln!(out, "{absent} of {numbers} numbers not compared")?;
    Ok(questions > 0 && counts.mismatches == 0)
}

/// Prints what was compared. Whether all agree, and there was anything.
pub fn tell(counts: &Counts, out: &mut impl Write) -> io::Result<bool> {
    counts.report.iter().try_for_each(|line| writeln!(out, "{line}"))?;
    let Counts { runs, calls, mismatches, full, .. } = counts;
    let both = runs + calls;
    let hidden = both - full;
    write!(out, "{runs} runs, {calls} calls, {mismatches} mismatches; ")?;
    writeln!(out, "flags and counters are the Rust's at {full} of {both} openings and calls, the paper's at {hidden}")?;
    if *calls == 0 {
        writeln!(out, "nothing was compared")?;
    }
    Ok(*calls > 0 && *mismatches == 0)
}
