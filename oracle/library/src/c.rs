//! The functions of include/usbfs_iso.h, with a slice as its pointer and its length.

extern "C" {
    pub fn usbfs_iso_layout(
        slots: u64,
        packets_per_urb: u64,
        packet_bytes: u64,
        frame_bytes: u64,
        out: *mut u64,
        out_len: usize,
    ) -> u32;
    pub fn usbfs_iso_open(
        slots: u64,
        packets_per_urb: u64,
        packet_bytes: u64,
        endpoint: u8,
        policy: u64,
        silence_byte: u8,
        base: u64,
        tag: u64,
        frame_bytes: u64,
        block: *mut u8,
        block_len: usize,
        image: *mut u8,
        image_len: usize,
        out: *mut u64,
        out_len: usize,
    ) -> u32;
    pub fn usbfs_iso_derive(
        speed: i32,
        b_interval: u8,
        packet_bytes: u64,
        urbs: u64,
        depth_us: u32,
        packets_per_urb: u64,
        out: *mut u64,
        out_len: usize,
    ) -> u32;
    pub fn usbfs_iso_plan(
        speed: i32,
        attributes: u8,
        max_packet_size: u16,
        b_interval: u8,
        urbs: u64,
        depth_us: u32,
        packets_per_urb: u64,
        out: *mut u64,
        out_len: usize,
    ) -> u32;
}

/// The calls: each is lent the image first and the slice for the eight numbers last.
macro_rules! calls {
    ($($name:ident($($between:ty),*);)*) => {
        extern "C" {
            $(pub fn $name(image: *mut u8, image_len: usize $(, _: $between)*, out: *mut u64, out_len: usize) -> u32;)*
        }
    };
}

calls! {
    usbfs_iso_turn(*mut u8, usize);
    usbfs_iso_commit(u64, *mut u8, usize);
    usbfs_iso_commit_full(*mut u8, usize);
    usbfs_iso_commit_packets(*const u64, usize, *mut u8, usize);
    usbfs_iso_submitted_accepted(*mut u8, usize);
    usbfs_iso_submitted_errno(u32, *mut u8, usize);
    usbfs_iso_reaped_errno(u32, *const u8, usize);
    usbfs_iso_reaped_address(u64, *const u8, usize);
    usbfs_iso_give_back();
    usbfs_iso_start();
    usbfs_iso_stop(*mut u64, usize);
    usbfs_iso_finish();
}
