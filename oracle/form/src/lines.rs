//! One line a call, as docs/RUNS.md has it.

use crate::{Answer, Hand, Shown};

/// What stands on a line. Without what is shown it is the short one, of a refusal after which there is no record.
pub struct Line<'a> {
    pub number: u64,
    pub answer: &'a Answer,
    pub shown: Option<Shown>,
    pub image: &'a [u8],
    pub block: &'a [u8],
}

pub fn push_number(to: &mut Vec<u8>, value: u64) {
    to.extend_from_slice(value.to_string().as_bytes());
}

/// Numbers with commas between them.
pub fn push_numbers(to: &mut Vec<u8>, values: &[u64]) {
    for (k, &value) in values.iter().enumerate() {
        if k > 0 {
            to.push(b',');
        }
        push_number(to, value);
    }
}

fn push_named(to: &mut Vec<u8>, name: &str, values: &[u64]) {
    to.extend_from_slice(name.as_bytes());
    if !values.is_empty() {
        to.push(b':');
        push_numbers(to, values);
    }
}

impl Answer {
    pub fn push(&self, to: &mut Vec<u8>) {
        match self {
            Answer::Done => push_named(to, "Done", &[]),
            Answer::Stopped(list) => {
                push_named(to, "Done", &[list.len() as u64]);
                if !list.is_empty() {
                    to.push(b',');
                    push_numbers(to, list);
                }
            }
            Answer::Nothing => push_named(to, "Nothing", &[]),
            Answer::Slot(i) => push_named(to, "Slot", &[*i]),
            Answer::Submit(i) => push_named(to, "Submit", &[*i]),
            Answer::Completion(status, rest) => {
                to.extend_from_slice(format!("Completion:{status},").as_bytes());
                push_numbers(to, rest);
            }
            Answer::Foreign => push_named(to, "Foreign", &[]),
            Answer::Yes => push_named(to, "Yes", &[]),
            Answer::Refused(number, None) => push_named(to, "Refused", &[*number]),
            Answer::Refused(number, Some(v)) => push_named(to, "Refused", &[*number, *v]),
        }
    }
}

impl Hand {
    fn push(self, to: &mut Vec<u8>) {
        match self {
            Hand::Idle => push_named(to, "Idle", &[]),
            Hand::Held(i) => push_named(to, "Held", &[i]),
            Hand::Sending(i) => push_named(to, "Sending", &[i]),
            Hand::Silent(i, left) => push_named(to, "Silent", &[i, left]),
        }
    }
}

impl Shown {
    fn push(&self, to: &mut Vec<u8>) {
        self.hand.push(to);
        to.push(b' ');
        push_number(to, self.out);
        to.push(b' ');
        to.extend(self.flags.unwrap_or_default().map(|f| b'0' + u8::from(f)));
        to.push(b' ');
        push_numbers(to, &self.totals.unwrap_or_default());
        to.push(b' ');
        to.extend(self.states.iter().map(|s| b'0' + s));
        to.push(b' ');
        if self.queue.is_empty() {
            to.push(b'-');
        }
        push_numbers(to, &self.queue);
        to.push(b' ');
    }
}

impl Line<'_> {
    pub fn push(&self, to: &mut Vec<u8>) {
        push_number(to, self.number);
        to.push(b' ');
        self.answer.push(to);
        to.push(b' ');
        if let Some(shown) = &self.shown {
            shown.push(to);
        }
        push_number(to, checksum(self.image));
        to.push(b' ');
        push_number(to, checksum(self.block));
        to.push(b'\n');
    }
}

/// From 0: for each byte, the sum so far times 16777619, and the byte, modulo 2^32.
pub fn checksum(bytes: &[u8]) -> u64 {
    let sum = |sum: u32, &byte: &u8| sum.wrapping_mul(16_777_619).wrapping_add(u32::from(byte));
    u64::from(bytes.iter().fold(0, sum))
}
