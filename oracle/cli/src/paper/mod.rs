//! A player written from the requirements alone, with nothing of the Rust, the Rattle or the C in it.

mod block;
mod calls;
mod commits;
mod functions;
mod image;
mod ledger;
mod player;
mod stretch;
mod text;
mod wrong;

pub use player::Paper;
pub use text::play;
pub use wrong::Wrong;
