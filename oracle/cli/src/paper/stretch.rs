//! The next stretch of programme or message.

use super::wrong::Wrong;

/// Which buffer (0 programme, 1 message), offset, length and the next positions; or 34. Lengths and positions are those of
/// programme and message, in this order.
pub fn stretch(lengths: [u64; 2], flag: u64, capacity: u64, at: [u64; 2], wrong: Wrong) -> Result<Vec<u64>, u64> {
    let used_up = at[1] >= lengths[1] && wrong != Wrong::MessageThoughUsedUp;
    let from = usize::from(flag != 0 && !used_up);
    let beyond = |k: usize| at[k] > lengths[k] && (k == from || wrong != Wrong::BeyondOfTheChosenAlone);
    if beyond(0) || beyond(1) {
        return Err(34);
    }
    let capacity = capacity.saturating_add(u64::from(wrong == Wrong::StretchPastTheCapacity));
    let length = capacity.min(lengths[from] - at[from]);
    let mut next = at;
    next[from] += length;
    if wrong == Wrong::BothPositionsMoved {
        next[1 - from] += length;
    }
    Ok(vec![from as u64, at[from], length, next[0], next[1]])
}
