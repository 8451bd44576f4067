//! Runs beside the Rust: docs/RUNS.md says what is compared and what written runs look like.

mod compare;
mod paper;
mod spoil;

use std::io::{self, stdin, stdout, BufWriter, Write};
use std::process::ExitCode;

use compare::Runs;
use form::{Call, Listener, Opening, Shown, Side, Told, Writer, BLOCK_LIMIT};
use library::Library;
use paper::{Paper, Wrong};

/// The block of the smallest ring.
const SHORTEST: u64 = 320;

const USAGE: &str = "\
oracle compare --runs N [--seed S] [--block BYTES]    plays N runs on the Rust and on the library
oracle compare --functions                            asks both for every input of the functions
oracle spoil [--seed S] [--block BYTES]               spoils what the library gives: each must be noticed
oracle record --runs N [--seed S] [--block BYTES]     writes N runs as text, with --frames in frames of 1 to b bytes
oracle play                                           the paper's own player: reads runs, prints lines
oracle wrong                                          prints the names of its deliberate mistakes
With --paper [--wrong NAME] the paper's own player is compared instead, or plays with that mistake. Blocks are at most
BYTES long (524288).";

struct Options {
    runs: Runs,
    functions: bool,
    frames: bool,
    paper: bool,
    wrong: Wrong,
}

fn options(mut words: impl Iterator<Item = String>) -> Option<Options> {
    let runs = Runs { count: 0, seed: 1, longest_block: BLOCK_LIMIT };
    let mut o = Options { runs, functions: false, frames: false, paper: false, wrong: Wrong::None };
    while let Some(word) = words.next() {
        match word.as_str() {
            "--functions" => o.functions = true,
            "--frames" => o.frames = true,
            "--paper" => o.paper = true,
            "--runs" => o.runs.count = words.next()?.parse().ok()?,
            "--seed" => o.runs.seed = words.next()?.parse().ok()?,
            "--block" => {
                o.runs.longest_block = words.next()?.parse().ok().filter(|b| (SHORTEST..=BLOCK_LIMIT).contains(b))?
            }
            "--wrong" => o.wrong = Wrong::named(&words.next()?)?,
            _ => return None,
        }
    }
    // A mistake is the paper's own player's.
    (o.paper || o.wrong == Wrong::None).then_some(o)
}

fn side(o: &Options) -> Box<dyn Side> {
    if o.paper {
        Box::new(Paper::new(o.wrong))
    } else {
        Box::new(Library::default())
    }
}

fn compared(o: &Options, out: &mut impl Write) -> io::Result<bool> {
    if o.functions {
        return compare::compare_functions(&mut *side(o), out);
    }
    let counts = compare::compare_runs(o.runs, || side(o));
    compare::tell(&counts, out)
}

/// Writes the runs that it hears of; where a frame is chosen, in frames of that many bytes more than 1, modulo b.
#[derive(Default)]
struct Recorder {
    writer: Writer,
    frame: u64,
}

impl Listener for Recorder {
    fn opened(&mut self, opening: &Opening, _told: &Told, _shown: &Shown, _block: &[u8]) {
        self.writer.run(&Opening { frame: 1 + self.frame % opening.b, ..*opening });
    }

    fn called(&mut self, call: &Call, _told: &Told, _shown: &Shown, _block: &[u8]) {
        self.writer.call(call);
    }

    fn full(&mut self, _flags: [bool; 2], _totals: [u64; 8]) {}

    fn ended(&mut self) {
        self.writer.end();
        print!("{}", std::mem::take(&mut self.writer.text));
    }
}

fn recorded(runs: Runs, frames: bool) -> io::Result<bool> {
    for k in 0..runs.count {
        let seed = runs.seed.wrapping_add(k);
        let frame = if frames { seed.wrapping_mul(7919) } else { 0 };
        compare::play(seed, runs.longest_block, Box::new(Recorder { frame, ..Recorder::default() }));
    }
    Ok(true)
}

fn main() -> ExitCode {
    let mut words = std::env::args().skip(1);
    let command = words.next().unwrap_or_default();
    let Some(o) = options(words) else {
        eprintln!("{USAGE}");
        return ExitCode::from(2);
    };
    let mut out = BufWriter::with_capacity(1 << 16, stdout());
    let done = match command.as_str() {
        "compare" => compared(&o, &mut out),
        "spoil" => spoil::spoil_all(o.runs, &mut out),
        "record" => recorded(o.runs, o.frames),
        "play" => io::read_to_string(stdin()).and_then(|text| paper::play(&text, o.wrong, &mut out)),
        "wrong" => Wrong::ALL.iter().try_for_each(|w| writeln!(out, "{}", w.0)).map(|()| true),
        _ => {
            eprintln!("{USAGE}");
            return ExitCode::from(2);
        }
    };
    match done.and_then(|fine| out.flush().map(|()| fine)) {
        Ok(true) => ExitCode::SUCCESS,
        Ok(false) => ExitCode::FAILURE,
        Err(e) => {
            eprintln!("oracle: {e}");
            ExitCode::from(2)
        }
    }
}
