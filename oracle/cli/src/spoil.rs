//! Shows that the comparison can fail: one thing in what the library gives is spoilt, and it must be noticed.

use std::cell::RefCell;
use std::io::{self, Write};
use std::rc::Rc;

use form::{kind, Call, Figures, Listener, Opening, Question, Shown, Side, Told, IMAGE_ROOM};
use library::Library;

use crate::compare::{compare_functions, compare_runs, play, Runs};

/// What is spoilt.
#[derive(Clone, Copy, Debug, PartialEq)]
enum What {
    Returned,
    Number(usize),
    List(usize),
    Image(usize),
    Block(usize),
    /// The call is not made: what the one before it told is told again.
    LeftOut,
    Twice,
    /// One more call, of which nothing is told.
    OneMore,
    Figure,
}

/// The library, with one thing spoilt at one call of the run. Call 0 is the opening.
struct Spoilt {
    library: Library,
    what: What,
    at: u64,
    number: u64,
    told: Option<Told>,
    image: Vec<u8>,
    block: Vec<u8>,
}

impl Spoilt {
    fn new(what: What, at: u64) -> Spoilt {
        let library = Library::default();
        Spoilt { library, what, at, number: 0, told: None, image: Vec::new(), block: Vec::new() }
    }

    /// What is shown after a call: the library's own, but for what is spoilt.
    fn show(&mut self, mut told: Told) -> Told {
        self.image = self.library.image().to_vec();
        self.block = self.library.block().to_vec();
        if self.number == self.at {
            match self.what {
                What::Returned => told.returned += 1,
                What::Number(k) => told.numbers[k] ^= 1,
                What::List(k) => told.list[k] ^= 1,
                What::Image(k) => self.image[k] ^= 1,
                What::Block(k) => self.block[k] ^= 1,
                _ => {}
            }
        }
        self.told = Some(told.clone());
        told
    }
}

impl Side for Spoilt {
    fn open(&mut self, opening: &Opening) -> Told {
        self.number = 0;
        let told = self.library.open(opening);
        if self.at == 0 && self.what == What::OneMore {
            self.library.call(&Call { kind: kind::START, ..Call::default() });
        }
        self.show(told)
    }

    fn call(&mut self, call: &Call) -> Told {
        self.number += 1;
        let here = self.number == self.at;
        let told = match (self.what, &self.told) {
            (What::LeftOut, Some(before)) if here => before.clone(),
            (What::Twice, _) if here => {
                self.library.call(call);
                self.library.call(call)
            }
            _ => self.library.call(call),
        };
        self.show(told)
    }

    fn image(&self) -> &[u8] {
        &self.image
    }

    fn block(&self) -> &[u8] {
        &self.block
    }

    fn ask(&mut self, question: &Question) -> Option<Figures> {
        let mut figures = self.library.ask(question)?;
        self.number += 1;
        if self.what == What::Figure && self.number == self.at {
            match &mut figures {
                Ok(numbers) => numbers[0] = numbers[0].map(|number| number ^ 1),
                Err((number, _)) => *number ^= 1,
            }
        }
        Some(figures)
    }
}

/// Which calls a run has: the first turn that gives a slot, the first stop that has a list, the first call at which the Rust
/// shows no flags and counters, and the last call.
#[derive(Default)]
struct Found {
    calls: u64,
    hidden: Option<u64>,
    block_len: u64,
    turn: Option<u64>,
    stop: Option<(u64, u64)>,
    /// Whether the last call was one at which the Rust shows all.
    is_full: bool,
}

struct Finder(Rc<RefCell<Found>>);

impl Listener for Finder {
    fn opened(&mut self, opening: &Opening, _told: &Told, _shown: &Shown, _block: &[u8]) {
        self.0.borrow_mut().block_len = opening.block_len;
    }

    fn called(&mut self, call: &Call, told: &Told, shown: &Shown, _block: &[u8]) {
        let mut found = self.0.borrow_mut();
        found.calls += 1;
        let number = found.calls;
        if !found.is_full {
            found.hidden.get_or_insert(number - 1);
        }
        found.is_full = shown.flags.is_some();
        if call.kind == kind::TURN && told.numbers[0] == 3 {
            found.turn.get_or_insert(number);
        }
        if call.kind == kind::STOP && call.argument > 0 {
            found.stop.get_or_insert((number, call.argument));
        }
    }

    fn full(&mut self, _flags: [bool; 2], _totals: [u64; 8]) {
        self.0.borrow_mut().is_full = true;
    }

    fn ended(&mut self) {}
}

/// Everything that can be spoilt in a run, and at which call: the opening, a call at which the Rust hides flags and counters,
/// and the last.
fn spoils(found: &Found) -> Vec<(What, u64)> {
    let mut all = vec![(What::OneMore, 0)];
    for at in [0, found.hidden.unwrap_or(0), found.calls] {
        all.push((What::Returned, at));
        all.extend((0..8).map(|k| (What::Number(k), at)));
        all.extend((0..IMAGE_ROOM as usize).map(|k| (What::Image(k), at)));
        all.extend((0..found.block_len as usize).map(|k| (What::Block(k), at)));
    }
    if let Some(turn) = found.turn {
        all.extend([(What::LeftOut, turn), (What::Twice, turn)]);
    }
    if let Some((stop, places)) = found.stop {
        all.extend((0..places as usize).map(|k| (What::List(k), stop)));
    }
    all
}

/// Spoils one thing after the other in the run of this seed. Whether every one was noticed.
pub fn spoil_all(runs: Runs, out: &mut impl Write) -> io::Result<bool> {
    let found = Rc::new(RefCell::new(Found::default()));
    play(runs.seed, runs.longest_block, Box::new(Finder(found.clone())));
    let found = found.take();
    let all = spoils(&found);
    let one = Runs { count: 1, ..runs };
    let mut noticed = 0;
    for &(what, at) in &all {
        let counts = compare_runs(one, || Box::new(Spoilt::new(what, at)));
        if counts.mismatches > 0 {
            noticed += 1;
        } else {
            writeln!(out, "missed: {what:?} at call {at}")?;
        }
    }
    let figure = !compare_functions(&mut Spoilt::new(What::Figure, 1000), &mut io::sink())?;
    let complete = found.turn.is_some() && found.stop.is_some() && found.hidden.is_some();
    let (noticed, count) = (noticed + usize::from(figure), all.len() + 1);
    writeln!(out, "{noticed} of {count} spoilt outcomes noticed, in the run of seed {}", runs.seed)?;
    Ok(noticed == count && complete)
}
