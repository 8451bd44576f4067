//! The hot cycle (reaped of the oldest, reaped Nothing, turn, commit_full, submitted Accepted) of the proved calls and of the
//! published Rust, in one run and in the same block: nanoseconds a cycle, and the ratio.
//!
//! bench                                      the table
//! bench SIDE SLOTS PACKETS BYTES CYCLES      the cycles of one side alone (rust, value, lent, c), for an instruction count

use std::sync::OnceLock;
use std::time::Instant;

use bench::{cycles, ring_bytes};

const SLOTS: [usize; 4] = [2, 8, 64, 256];
const PACKETS: [usize; 3] = [1, 8, 128];
const BYTES: usize = 192;
/// The fastest of that many goes counts, since a machine is never quite still.
const GOES: usize = 7;

extern "C" {
    fn usbfs_iso_cycles(
        p: usize,
        b: usize,
        base: usize,
        at: *const usize,
        n: usize,
        rounds: usize,
        block: *mut u8,
        len: usize,
    ) -> u64;
    fn usbfs_iso_lent_cycles(
        p: usize,
        b: usize,
        base: usize,
        at: *const usize,
        n: usize,
        rounds: usize,
        block: *mut u8,
        len: usize,
    ) -> u64;
    fn usbfs_iso_c_cycles(
        p: usize,
        b: usize,
        base: usize,
        at: *const usize,
        n: usize,
        rounds: usize,
        block: *mut u8,
        len: usize,
    ) -> u64;
}

type Cycles = unsafe extern "C" fn(usize, usize, usize, *const usize, usize, usize, *mut u8, usize) -> u64;

fn nanoseconds() -> u64 {
    static START: OnceLock<Instant> = OnceLock::new();
    START.get_or_init(Instant::now).elapsed().as_nanos() as u64
}

/// A ring's size and a block for it.
struct Ring {
    n: usize,
    p: usize,
    b: usize,
    stride: usize,
    block: Vec<[u64; 8]>,
    start: usize,
    len: usize,
}

impl Ring {
    fn new(n: usize, p: usize, b: usize) -> Ring {
        let (len, stride) = ring_bytes(n, p, b);
        let block = vec![[0u64; 8]; len / 64 + 1];
        let start = (64 - block.as_ptr() as usize % 64) % 64;
        Ring { n, p, b, stride, block, start, len }
    }

    fn at(&mut self) -> *mut u8 {
        self.block.as_mut_ptr().cast::<u8>().wrapping_add(self.start)
    }

    /// Cycles of the Rust: nanoseconds.
    fn rust(&mut self, count: usize) -> u64 {
        let at = self.at();
        let (done, took) = cycles(self.n, self.p, self.b, at, count, nanoseconds);
        assert_eq!(done, count as u64);
        took
    }

    /// Cycles of the proved calls: nanoseconds, opening and first sending included.
    fn proved(&mut self, cycles: Cycles, count: usize) -> u64 {
        let at = self.at();
        let base = at as usize;
        let addresses: Vec<usize> = (0..self.n).map(|i| base + i * self.stride).collect();
        // The first n rounds send each slot for the first time.
        let rounds = self.n + count;
        let start = nanoseconds();
        // SAFETY: the addresses and the block are live, and the block has that length.
        let done = unsafe { cycles(self.p, self.b, base, addresses.as_ptr(), self.n, rounds, at, self.len) };
        let took = nanoseconds() - start;
        assert_eq!(done, count as u64);
        took
    }

    /// Nanoseconds a cycle, without opening and first sending.
    fn proved_cycle(&mut self, cycles: Cycles, count: usize) -> f64 {
        let whole = (0..GOES).map(|_| self.proved(cycles, count)).min().expect("goes");
        let start = (0..GOES).map(|_| self.proved(cycles, 0)).min().expect("goes");
        whole.saturating_sub(start) as f64 / count as f64
    }
}

fn table() {
    println!("slots packets |   Rust ns | by value ns  ratio |   lent ns  ratio | from C ns  ratio  to lent");
    for n in SLOTS {
        for p in PACKETS {
            let mut ring = Ring::new(n, p, BYTES);
            let count = 4_000_000 / (n + p + 20);
            let rust = (0..GOES).map(|_| ring.rust(count)).min().expect("goes") as f64 / count as f64;
            let value = ring.proved_cycle(usbfs_iso_cycles, count);
            let lent = ring.proved_cycle(usbfs_iso_lent_cycles, count);
            let c = ring.proved_cycle(usbfs_iso_c_cycles, count);
            let (by_value, by_lent, by_c, to_lent) = (value / rust, lent / rust, c / rust, c / lent);
            print!("{n:5} {p:7} | {rust:9.1} | {value:11.1} {by_value:6.2} | {lent:9.1} {by_lent:6.2} | ");
            println!("{c:9.1} {by_c:6.2} {to_lent:8.2}");
        }
    }
}

fn one(words: &[String]) -> Option<()> {
    let [side, rest @ ..] = words else { return None };
    let numbers: Vec<usize> = rest.iter().map(|word| word.parse().ok()).collect::<Option<_>>()?;
    let [n, p, b, count] = numbers[..] else { return None };
    let mut ring = Ring::new(n, p, b);
    match side.as_str() {
        "rust" => ring.rust(count),
        "value" => ring.proved(usbfs_iso_cycles, count),
        "lent" => ring.proved(usbfs_iso_lent_cycles, count),
        "c" => ring.proved(usbfs_iso_c_cycles, count),
        _ => return None,
    };
    Some(())
}

fn main() {
    let words: Vec<String> = std::env::args().skip(1).collect();
    if words.is_empty() {
        return table();
    }
    if one(&words).is_none() {
        eprintln!("bench [rust|value|lent SLOTS PACKETS BYTES CYCLES]");
        std::process::exit(2);
    }
}
