//! The paper's number, and value where it has one, for each error of the Rust that a run can meet.

use crate::Error;

pub(crate) fn refusal(e: &Error) -> (u64, Option<u64>) {
    match e {
        Error::Config("a ring needs at least 2 slots") => (1, None),
        Error::Config("packets_per_urb and packet_bytes must be non-zero") => (2, None),
        Error::TooManyPackets { .. } => (3, None),
        Error::Config("commit larger than the slot") => (10, None),
        Error::Config("packet length plan does not match packets_per_urb") => (11, None),
        Error::Config("a packet is larger than packet_bytes") => (12, None),
        Error::Disconnected => (13, None),
        Error::UsbfsMemory { requested_bytes } => (14, Some(*requested_bytes as u64)),
        Error::PermissionDenied => (15, None),
        Error::Unsupported(_) => (16, None),
        Error::Io(e) => (17, e.raw_os_error().map(|errno| errno as u32 as u64)),
        Error::Underrun { count } => (19, Some(*count)),
        Error::UnsupportedSpeed(_) => (21, None),
        Error::InvalidInterval(_) => (22, None),
        Error::Config("packet_bytes must be non-zero") => (23, None),
        Error::Config("packets_per_urb must be non-zero") => (24, None),
        Error::InvalidEndpoint(_) => (26, None),
        Error::Config("bInterval unknown: set it or call from_descriptors") => (27, None),
        Error::Config("wMaxPacketSize unknown: set it or call from_descriptors") => (28, None),
        Error::Config("packet_bytes exceeds the endpoint's wMaxPacketSize") => (29, None),
        // The layout's overflows, each with a text of its own.
        Error::Config(_) => (4, None),
        _ => (0, None),
    }
}
