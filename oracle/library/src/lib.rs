//! The proved library, called as C calls it.

mod c;
mod questions;

use form::{kind, Call, Figures, Opening, Question, Side, Told, FILLED, IMAGE_ROOM, UNUSED};

/// Slices of one stream: the block, the image's buffer, and how much of that is lent.
#[derive(Default)]
pub struct Library {
    block: Vec<u8>,
    image: Vec<u8>,
    image_len: usize,
}

/// The eight numbers and one more place, which no call is lent.
struct Out([u64; 9]);

const OUT_LEN: usize = 64;

impl Library {
    fn told(returned: u32, out: &Out, list: Vec<u64>) -> Told {
        assert_eq!(out.0[8], UNUSED, "a number was written behind the eight");
        Told { returned: u64::from(returned), numbers: out.0[..8].try_into().expect("eight"), list }
    }
}

impl Side for Library {
    fn open(&mut self, o: &Opening) -> Told {
        self.block.clear();
        self.block.resize(o.block_len as usize, FILLED);
        self.image.clear();
        self.image.resize(IMAGE_ROOM as usize, FILLED);
        self.image_len = o.image_len as usize;
        let mut out = Out([UNUSED; 9]);
        // SAFETY: each pointer is to as many bytes as the length after it says, and no two of them overlap.
        let returned = unsafe {
            c::usbfs_iso_open(
                o.n,
                o.p,
                o.b,
                o.endpoint as u8,
                o.policy,
                o.silence as u8,
                o.base,
                o.tagged,
                o.frame,
                self.block.as_mut_ptr(),
                self.block.len(),
                self.image.as_mut_ptr(),
                self.image_len,
                out.0.as_mut_ptr(),
                OUT_LEN,
            )
        };
        Library::told(returned, &out, Vec::new())
    }

    fn call(&mut self, call: &Call) -> Told {
        for &(offset, value) in &call.writes {
            self.block[offset as usize..][..4].copy_from_slice(&value.to_le_bytes());
        }
        let mut out = Out([UNUSED; 9]);
        let mut list = vec![UNUSED; call.places() as usize];
        let (i, il) = (self.image.as_mut_ptr(), self.image_len);
        let (b, bl) = (self.block[..call.lent as usize].as_mut_ptr(), call.lent as usize);
        let (o, ol) = (out.0.as_mut_ptr(), OUT_LEN);
        let (lengths, lengths_len) = (call.lengths.as_ptr(), 8 * call.lengths.len());
        // SAFETY: as in `open`.
        let returned = unsafe {
            match call.kind {
                kind::TURN => c::usbfs_iso_turn(i, il, b, bl, o, ol),
                kind::COMMIT => c::usbfs_iso_commit(i, il, call.argument, b, bl, o, ol),
                kind::COMMIT_FULL => c::usbfs_iso_commit_full(i, il, b, bl, o, ol),
                kind::COMMIT_PACKETS => c::usbfs_iso_commit_packets(i, il, lengths, lengths_len, b, bl, o, ol),
                kind::ACCEPTED => c::usbfs_iso_submitted_accepted(i, il, b, bl, o, ol),
                kind::SUBMITTED_ERRNO => c::usbfs_iso_submitted_errno(i, il, call.argument as u32, b, bl, o, ol),
                kind::REAPED_ERRNO => c::usbfs_iso_reaped_errno(i, il, call.argument as u32, b, bl, o, ol),
                kind::REAPED_ADDRESS => c::usbfs_iso_reaped_address(i, il, call.argument, b, bl, o, ol),
                kind::GIVE_BACK => c::usbfs_iso_give_back(i, il, o, ol),
                kind::START => c::usbfs_iso_start(i, il, o, ol),
                kind::STOP => c::usbfs_iso_stop(i, il, list.as_mut_ptr(), 8 * list.len(), o, ol),
                _ => c::usbfs_iso_finish(i, il, o, ol),
            }
        };
        Library::told(returned, &out, list)
    }

    fn image(&self) -> &[u8] {
        &self.image
    }

    fn block(&self) -> &[u8] {
        &self.block
    }

    fn ask(&mut self, question: &Question) -> Option<Figures> {
        questions::ask(question)
    }
}
