//! Live streams: sockets, RTCP, and what is sent and received by them.

pub mod address;
pub mod feedback;
pub mod live;
pub mod rtcp;
pub mod sink;
pub mod sockets;
pub mod transmission;
