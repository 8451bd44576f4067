//! The names that the Rust takes from libc, with ioctl and poll answered by the script.
#![allow(non_camel_case_types)]
#![allow(clippy::missing_safety_doc)]

pub use std::ffi::{c_char, c_int, c_uchar, c_uint, c_ulong, c_void};

pub type off_t = i64;
pub type nfds_t = c_ulong;

pub const EPERM: c_int = 1;
pub const EINTR: c_int = 4;
pub const EIO: c_int = 5;
pub const EAGAIN: c_int = 11;
pub const EWOULDBLOCK: c_int = EAGAIN;
pub const ENOMEM: c_int = 12;
pub const EACCES: c_int = 13;
pub const EBUSY: c_int = 16;
pub const ENODEV: c_int = 19;
pub const EINVAL: c_int = 22;
pub const ENOTTY: c_int = 25;
pub const EPIPE: c_int = 32;
pub const ENODATA: c_int = 61;
pub const ESHUTDOWN: c_int = 108;

pub const O_RDWR: c_int = 2;
pub const O_CLOEXEC: c_int = 0o2000000;
pub const POLLOUT: i16 = 4;
pub const POLLHUP: i16 = 16;

#[repr(C)]
pub struct pollfd {
    pub fd: c_int,
    pub events: i16,
    pub revents: i16,
}

extern "C" {
    fn __errno_location() -> *mut c_int;
}

fn failed(errno: c_int) -> c_int {
    // SAFETY: the C library's own place for this thread's errno.
    unsafe { *__errno_location() = errno };
    -1
}

pub unsafe fn ioctl<T>(_fd: c_int, request: c_ulong, argument: *mut T) -> c_int {
    match (script::machine().ioctl)(request as u32, argument.cast()) {
        Ok(value) => value,
        Err(errno) => failed(errno),
    }
}

pub unsafe fn poll(fds: *mut pollfd, _count: nfds_t, _ms: c_int) -> c_int {
    let revents = match (script::machine().poll)() {
        Ok(script::Ready::No) => 0,
        Ok(script::Ready::Yes) => POLLOUT,
        Ok(script::Ready::HungUp) => POLLHUP,
        Err(errno) => return failed(errno),
    };
    // SAFETY: the caller passes one live pollfd.
    unsafe { (*fds).revents = revents };
    c_int::from(revents != 0)
}

/// No device is opened here.
pub unsafe fn open(_path: *const c_char, _flags: c_int) -> c_int {
    failed(ENODEV)
}

/// No descriptor is read here.
pub unsafe fn pread(_fd: c_int, _to: *mut c_void, _count: usize, _at: off_t) -> isize {
    failed(ENODEV) as isize
}

pub unsafe fn close(_fd: c_int) -> c_int {
    0
}
