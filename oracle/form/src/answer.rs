//! A call's answer, and the numbers that C is told of it.

/// A call's answer.
#[derive(Clone, Debug, PartialEq)]
pub enum Answer {
    Done,
    /// stop's Done, with the list.
    Stopped(Vec<u64>),
    Nothing,
    Slot(u64),
    Submit(u64),
    /// Status, then actual, requested and short bytes, packet errors, discarded (1 or 0).
    Completion(i64, [u64; 5]),
    Foreign,
    Yes,
    /// The refusal's number, and the value of those that carry one.
    Refused(u64, Option<u64>),
}

#[derive(Clone, Copy, Debug, PartialEq)]
pub enum Hand {
    Idle,
    Held(u64),
    Sending(u64),
    Silent(u64, u64),
}

/// What a place of stop's list holds before the call.
pub const UNUSED: u64 = 0xa5a5_a5a5_a5a5_a5a5;

/// What a call tells C: the returned number, the eight numbers, and every place of stop's list.
#[derive(Clone, Debug, PartialEq)]
pub struct Told {
    pub returned: u64,
    pub numbers: [u64; 8],
    pub list: Vec<u64>,
}

impl Answer {
    /// The refusal's number and its value, 0 where it has none; (0, 0) for an answer that is no refusal.
    pub fn refusal(&self) -> (u64, u64) {
        match self {
            Answer::Refused(number, value) => (*number, value.unwrap_or(0)),
            _ => (0, 0),
        }
    }

    /// What C is told. `places`: of stop's list; 0 for other calls.
    pub fn told(&self, places: u64) -> Told {
        let mut returned = 0;
        let mut list = Vec::new();
        let numbers = match self {
            Answer::Refused(..) => {
                let (number, value) = self.refusal();
                returned = number;
                [0, value, 0, 0, 0, 0, 0, 0]
            }
            Answer::Done => [1, 0, 0, 0, 0, 0, 0, 0],
            Answer::Stopped(listed) => {
                list.extend_from_slice(listed);
                [1, listed.len() as u64, 0, 0, 0, 0, 0, 0]
            }
            Answer::Nothing => [2, 0, 0, 0, 0, 0, 0, 0],
            Answer::Slot(i) => [3, *i, 0, 0, 0, 0, 0, 0],
            Answer::Submit(i) => [4, *i, 0, 0, 0, 0, 0, 0],
            Answer::Completion(status, [actual, requested, short, errors, discarded]) => {
                [5, *status as u64, *actual, *requested, *short, *errors, *discarded, 0]
            }
            Answer::Foreign => [6, 0, 0, 0, 0, 0, 0, 0],
            Answer::Yes => [7, 0, 0, 0, 0, 0, 0, 0],
        };
        list.resize(places as usize, UNUSED);
        Told { returned, numbers, list }
    }
}

impl Hand {
    /// Kind, slot, silent slots left; unused ones 0.
    pub fn numbers(self) -> [u64; 3] {
        match self {
            Hand::Idle => [0, 0, 0],
            Hand::Held(i) => [1, i, 0],
            Hand::Sending(i) => [2, i, 0],
            Hand::Silent(i, left) => [3, i, left],
        }
    }
}
