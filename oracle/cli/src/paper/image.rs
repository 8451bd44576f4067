//! Images: the ledger that one shows, and the deliberately wrong ones.

use std::collections::VecDeque;

use form::{image_of, image_size, Hand, Opening, FLAGS_AT, SETUP_AT, STATES_AT};

use super::block::{refuses_frame, Layout};
use super::ledger::{admitted, Ledger, Mark};
use super::wrong::Wrong;

const TAG_AT: usize = SETUP_AT + 56;
const FRAME_AT: usize = SETUP_AT + 64;

fn number(bytes: &[u8], at: usize, width: usize) -> u64 {
    bytes[at..at + width].iter().rev().fold(0, |value, &byte| value << 8 | u64::from(byte))
}

/// Opening's values in a setup, and the layout that they have. None where opening would refuse them.
fn opening(setup: &[u64], wrong: Wrong) -> Option<(Opening, Layout)> {
    let [n, p, b, endpoint, policy, silence, base, tagged, frame] = setup[..9].try_into().expect("nine");
    let opening = Opening { n, p, b, endpoint, policy, silence, base, tagged, frame, ..Opening::default() };
    let mut judged = opening;
    if wrong == Wrong::FrameSizeNotIn8 && refuses_frame(frame, b, wrong) {
        judged.frame = 1;
    }
    let layout = admitted(&judged, None, wrong).ok()?;
    (endpoint <= 255 && policy <= 2 && silence <= 255 && tagged <= 1).then_some((opening, layout))
}

/// The ledger whose image the bytes begin with. None where they are not the image of a sound record: 31.
pub fn read(bytes: &[u8], wrong: Wrong) -> Option<Ledger> {
    if (bytes.len() as u64) < image_size(2) {
        return None;
    }
    let setup: Vec<u64> = (0..14).map(|k| number(bytes, SETUP_AT + 8 * k, 8)).collect();
    let (opening, layout) = opening(&setup, wrong)?;
    let n = opening.n;
    if (bytes.len() as u64) < image_size(n) {
        return None;
    }
    let hand = hand(setup[9], setup[10], setup[11], n)?;
    let queued = number(bytes, 4, 4);
    if queued > n || setup[12] > 1 || setup[13] > 1 {
        return None;
    }
    let counters_at = STATES_AT + 5 * n as usize;
    let mut totals = [0; 8];
    for (k, total) in totals.iter_mut().enumerate() {
        *total = number(bytes, counters_at + 8 * k, 8);
    }
    let ledger = Ledger {
        opening,
        layout,
        hand,
        queue: queue(bytes, n, queued)?,
        marks: marks(&bytes[STATES_AT..STATES_AT + n as usize], hand)?,
        started: setup[12] == 1,
        armed: setup[13] == 1,
        totals,
        wrong,
    };
    // Header, states of the slots in hand and unused places are those of the ledger's own image.
    let own = image_of(&ledger.opening, &ledger.shown());
    (bytes.starts_with(&own) && queue_is_true(&ledger)).then_some(ledger)
}

fn hand(kind: u64, slot: u64, left: u64, n: u64) -> Option<Hand> {
    let hand = match kind {
        0 => Hand::Idle,
        1 => Hand::Held(slot),
        2 => Hand::Sending(slot),
        3 => Hand::Silent(slot, left),
        _ => return None,
    };
    (slot < n && left <= 1 && hand.numbers() == [kind, slot, left]).then_some(hand)
}

/// The hand's slot is Filling and no other is.
fn marks(states: &[u8], hand: Hand) -> Option<Vec<Mark>> {
    let [kind, slot, _] = hand.numbers();
    let mark = |(i, &state): (usize, &u8)| match state {
        0 => Some(Mark::Home),
        1 if kind != 0 && slot == i as u64 => Some(Mark::Home),
        2 => Some(Mark::Out),
        3 => Some(Mark::Discarded),
        _ => None,
    };
    let filling = states.iter().filter(|&&state| state == 1).count();
    if filling != usize::from(kind != 0) {
        return None;
    }
    states.iter().enumerate().map(mark).collect()
}

fn queue(bytes: &[u8], n: u64, queued: u64) -> Option<VecDeque<u64>> {
    let place = |k: u64| number(bytes, STATES_AT + (n + 4 * k) as usize, 4);
    (0..queued).map(|k| Some(place(k)).filter(|&slot| slot < n)).collect()
}

/// Each Free slot is once in the queue, and no other slot is there.
fn queue_is_true(ledger: &Ledger) -> bool {
    let shown = ledger.shown();
    let times = |i: u64| shown.queue.iter().filter(|&&slot| slot == i).count();
    shown.states.iter().enumerate().all(|(i, &state)| times(i as u64) == usize::from(state == 0))
}

/// Writes the ledger's image over the bytes that stood there before.
pub fn write(ledger: &Ledger, bytes: &mut [u8]) {
    let mut shown = ledger.shown();
    let n = ledger.opening.n as usize;
    let queued = shown.queue.len();
    match ledger.wrong {
        Wrong::ImageQueueFromTheBack => shown.queue.reverse(),
        Wrong::ImageArmedAsStarted => shown.flags = Some([ledger.started; 2]),
        Wrong::ImageDiscardingAsInFlight => shown.states.iter_mut().for_each(|state| *state = (*state).min(2)),
        Wrong::ImageCountersInAnotherOrder => shown.totals = Some(swapped(ledger.totals)),
        Wrong::ImageLeftForgotten => {
            if let Hand::Silent(i, _) = shown.hand {
                shown.hand = Hand::Silent(i, 0);
            }
        }
        _ => {}
    }
    let mut image = image_of(&ledger.opening, &shown);
    let unused = STATES_AT + n + 4 * queued..STATES_AT + 5 * n;
    match ledger.wrong {
        Wrong::ImageUnusedPlacesKept => image[unused.clone()].copy_from_slice(&bytes[unused]),
        Wrong::ImageQueueLengthOfTheRing => image[4..8].copy_from_slice(&(n as u32).to_le_bytes()),
        Wrong::ImageTagLost => image[TAG_AT] = 0,
        Wrong::ImageFrameBeforeTheTag => image[TAG_AT..FRAME_AT + 8].rotate_left(8),
        Wrong::ImageFrameLost => image[FRAME_AT..FRAME_AT + 8].copy_from_slice(&1u64.to_le_bytes()),
        // Where an image stood before.
        Wrong::ImageFlagsKept if bytes[..4] == image[..4] => {
            image[FLAGS_AT..STATES_AT].copy_from_slice(&bytes[FLAGS_AT..STATES_AT]);
        }
        Wrong::ImageWrittenPastItsEnd => image.push(0),
        _ => {}
    }
    bytes[..image.len()].copy_from_slice(&image);
}

/// Short bytes and packet errors in each other's places.
fn swapped(mut totals: [u64; 8]) -> [u64; 8] {
    totals.swap(4, 5);
    totals
}
