//! Plays one seeded run on the published IsoOut.

use std::time::Duration;

use form::{image_size, kind, Answer, Hand, Listener, Opening, Rng};

use crate::device::UsbFsDevice;
use crate::iso::{IsoOut, Slot, Underrun};
use crate::kernel::{machine, Rates};
use crate::record::{self, Open, Operation, Player};
use crate::ring::{look, RingLayout};
use crate::schedule::Depth;
use crate::Speed;

/// Plays the run of this seed, and tells the listener of every call. Its block is at most that long.
pub fn play(seed: u64, longest_block: u64, listener: Box<dyn Listener>) -> Box<dyn Listener> {
    let mut rng = Rng::new(seed);
    let rates = Rates::drawn(&mut rng);
    let (opening, stride) = draw_opening(&mut rng, longest_block);
    // A few runs are long enough to go round the whole ring.
    let operations = if rng.percent(3) { 3 * opening.n } else { 5 + rng.below(60) };
    script::install(machine());
    Player::begin_run(rng, rates, opening, stride, listener);
    // SAFETY: a descriptor is only passed on to the scripted calls.
    let device = unsafe { UsbFsDevice::from_borrowed_fd(0) };
    let mut out = open(&device, &opening);
    let shown = format!("{out:?}");
    record::with(|p| {
        p.shown(Answer::Done, Hand::Idle);
        p.full(flags(&shown), totals(&shown));
    });
    for _ in 0..operations {
        operate(&mut out);
        let shown = format!("{out:?}");
        record::with(|p| {
            p.full(flags(&shown), totals(&shown));
            beside_the_rust(p);
        });
    }
    record::with(|p| p.operation = Operation::Closing);
    drop(out);
    Player::end_run()
}

/// Small rings mostly, the largest now and then; lengths of all sizes, odd ones too.
fn draw_opening(rng: &mut Rng, longest_block: u64) -> (Opening, u64) {
    loop {
        let n = 2 + count(rng, 7, 255);
        let p = 1 + count(rng, 8, 128);
        let b = match rng.below(20) {
            0 => 49_152 - rng.below(2),
            1..4 => 1 + rng.below(1024),
            4..8 => 1,
            _ => 1 + rng.below(200),
        };
        let layout = RingLayout::new(n as usize, p as usize, b as usize).expect("within the limits");
        let block_len = layout.total_bytes as u64;
        // Long blocks are rare, since every call compares the whole block.
        if block_len > longest_block || block_len > 16_384 && !rng.percent(8) {
            continue;
        }
        let opening = Opening {
            n,
            p,
            b,
            endpoint: rng.below(128),
            policy: rng.below(3),
            silence: rng.below(256),
            base: script::arena() + 64 * rng.below(1024),
            tagged: u64::from(cfg!(target_arch = "aarch64")),
            // The Rust fills a packet whatever a frame is.
            frame: 1,
            block_len,
            // A little more than the image takes.
            image_len: image_size(n) + 8,
        };
        return (opening, layout.slot_stride as u64);
    }
}

/// Mostly below `few`, else below `all`, the last one more often.
fn count(rng: &mut Rng, few: u64, all: u64) -> u64 {
    match rng.below(20) {
        0 => all - 1,
        1..3 => rng.below(all),
        _ => rng.below(few),
    }
}

fn open<'d>(device: &'d UsbFsDevice, o: &Opening) -> IsoOut<'d> {
    let policy = [Underrun::Continue, Underrun::FillSilence, Underrun::Error][o.policy as usize];
    IsoOut::builder(device, o.endpoint as u8)
        .speed(Speed::High)
        .interval(1)
        .max_packet_size(o.b as usize)
        .packets_per_urb(o.p as usize)
        .depth(Depth::Urbs(o.n as usize))
        .on_underrun(policy)
        .silence_byte(o.silence as u8)
        .build()
        .expect("the values are within the limits")
}

fn operate(out: &mut IsoOut) {
    match record::with(|p| p.rng.below(100)) {
        0..8 => {
            record::with(|p| p.begin(kind::START, 0, &[], Open::No));
            let started = out.start();
            record::with(|p| match started {
                Ok(()) => p.shown(Answer::Done, Hand::Idle),
                Err(e) => p.show_error(&e),
            });
        }
        8..12 => stop(out),
        _ => next_slot(out),
    }
}

fn stop(out: &mut IsoOut) {
    record::with(|p| {
        p.operation = Operation::Stop;
        p.begin(kind::STOP, 256, &[], Open::Stop);
    });
    let stopped = out.stop();
    record::with(|p| match stopped {
        Ok(()) => p.show_stopped(false),
        Err(crate::Error::Disconnected) => p.show_stopped(true),
        Err(e) => p.show_error(&e),
    });
}

fn next_slot(out: &mut IsoOut) {
    let wait = record::with(|p| {
        p.operation = Operation::NextSlot;
        p.rng.below(20)
    });
    match out.next_slot(Duration::from_millis(wait)) {
        Ok(None) => {}
        Err(e) => record::with(|p| p.show_error(&e)),
        Ok(Some(slot)) => {
            let shown = format!("{slot:?}");
            let i = number(&shown, "idx: ");
            record::with(|p| {
                p.shown(Answer::Slot(i), Hand::Held(i));
                p.full(flags(&shown), totals(&shown));
                p.wrong_hand(&NOT_HELD);
                fill(p, i);
            });
            use_slot(slot);
        }
    }
}

/// The calls that want another hand than Held.
const NOT_HELD: [u64; 8] = [
    kind::TURN,
    kind::ACCEPTED,
    kind::SUBMITTED_ERRNO,
    kind::REAPED_ERRNO,
    kind::REAPED_ADDRESS,
    kind::START,
    kind::STOP,
    kind::FINISH,
];

/// The host writes a little of the payload.
fn fill(p: &mut Player, i: u64) {
    let (at, capacity) = look(|r| {
        let at = r.data_ptr(i as usize) as u64;
        (at, r.layout().slot_capacity() as u64)
    });
    for _ in 0..p.rng.below(3) {
        let offset = at - p.opening.base + p.rng.below(capacity);
        let value = p.rng.any() as u32;
        p.write(offset, value);
    }
    p.scribble();
}

/// Drops the slot or commits it in one of the three ways, now and then with what must be refused.
fn use_slot(slot: Slot) {
    let (capacity, b) = (slot.capacity() as u64, slot.packet_bytes() as u64);
    let packets = capacity / b;
    record::with(|p| p.operation = Operation::Commit);
    let begin = |kind, argument, lengths: &[u64]| {
        record::with(|p| p.begin(kind, argument, lengths, Open::Commit));
    };
    let ended = match record::with(|p| p.rng.below(20)) {
        0..2 => {
            begin(kind::GIVE_BACK, 0, &[]);
            drop(slot);
            record::with(|p| p.shown(Answer::Done, Hand::Idle));
            return;
        }
        2..9 => {
            begin(kind::COMMIT_FULL, 0, &[]);
            slot.commit_full()
        }
        9..14 => {
            let bytes = record::with(|p| match p.rng.below(8) {
                0 => capacity + 1,
                1 => p.rng.any(),
                2 => capacity,
                3 => 0,
                _ => p.rng.below(capacity + 1),
            });
            begin(kind::COMMIT, bytes, &[]);
            slot.commit(bytes as usize)
        }
        _ => {
            let lengths = record::with(|p| draw_lengths(&mut p.rng, packets, b));
            begin(kind::COMMIT_PACKETS, 0, &lengths);
            let lengths: Vec<usize> = lengths.iter().map(|&l| l as usize).collect();
            slot.commit_packets(&lengths)
        }
    };
    record::with(|p| match ended {
        Ok(()) => p.shown(Answer::Done, Hand::Idle),
        Err(e) => p.show_error(&e),
    });
}

/// p lengths up to b; now and then one too many or too few, or one too long, or both.
fn draw_lengths(rng: &mut Rng, packets: u64, b: u64) -> Vec<u64> {
    let mut count = packets;
    if rng.percent(10) {
        count = rng.pick(&[packets + 1, packets - 1, 0]);
    }
    let mut lengths: Vec<u64> = (0..count).map(|_| rng.below(b + 1)).collect();
    if count > 0 && rng.percent(10) {
        let at = rng.below(count) as usize;
        lengths[at] = rng.pick(&[b + 1, 1 << 40, u64::MAX]);
    }
    lengths
}

/// Now and then a call that the Rust doesn't have, of which the paper says that nothing differs.
fn beside_the_rust(p: &mut Player) {
    if !p.rng.percent(10) {
        return;
    }
    let shown = p.last();
    let out = shown.out;
    let in_flight = shown.states.iter().filter(|&&s| s == 2).count() as u64;
    let free = shown.queue.first().copied();
    let total = p.opening.block_len;
    let wrong = kind::GIVE_BACK;
    let (kind, argument, lent, answer) = match p.rng.below(6) {
        0 => (p.rng.pick(&[kind::COMMIT, kind::COMMIT_FULL, wrong]), 0, total, Answer::Refused(9, None)),
        1 => (kind::ACCEPTED, 0, total, Answer::Refused(9, None)),
        2 => (p.rng.pick(&[kind::TURN, kind::COMMIT, kind::ACCEPTED]), 0, total - 1, Answer::Refused(6, None)),
        3 if in_flight > 0 => (kind::STOP, in_flight - 1, total, Answer::Refused(20, None)),
        4 => match free {
            Some(i) if sound_cookie(p, i) => {
                let address = p.opening.base + i * p.stride;
                (kind::REAPED_ADDRESS, address, total, Answer::Refused(18, None))
            }
            _ => return,
        },
        _ if out == 0 => (kind::FINISH, 0, total, Answer::Yes),
        _ => (kind::FINISH, 0, total, Answer::Refused(13, None)),
    };
    p.call(kind, argument, lent, &[]);
    p.unchanged(answer);
}

fn sound_cookie(p: &Player, i: u64) -> bool {
    let cookie = i * p.stride + 48;
    p.field(cookie) == i as u32 && p.field(cookie + 4) == 0
}

/// The number after a name in what Debug prints of a stream or slot.
fn number(shown: &str, name: &str) -> u64 {
    let at = shown.rfind(name).expect("the field is shown") + name.len();
    let digits = shown[at..].bytes().take_while(u8::is_ascii_digit);
    digits.fold(0, |v, d| v * 10 + u64::from(d - b'0'))
}

fn flags(shown: &str) -> [bool; 2] {
    ["started: true", "armed: true"].map(|set| shown.contains(set))
}

fn totals(shown: &str) -> [u64; 8] {
    [
        "urbs_submitted: ",
        "urbs_completed: ",
        "bytes_submitted: ",
        "bytes_transferred: ",
        "short_bytes: ",
        "packet_errors: ",
        "urb_errors: ",
        "underruns: ",
    ]
    .map(|name| number(shown, name))
}
