// Made from crates/h26x_handles/src/lib.rt by tools/to-rust.

//! What stands behind a handle of the C library that is of a stream: a packetizer with the packets of
//! its last call, or a depacketizer, or a receiver of packets with their sequence numbers, each with
//! what its last packet completed and had no room for in the caller's memory; or a receiver of access
//! units, of packets or of datagrams, with the one that had no room.
pub mod access_units;
mod every_unit;
pub mod payloads;
pub mod push_all;
pub mod receive_all;
pub mod receiving;
pub mod rtp_receiver;
pub mod sending;
pub mod sequenced;
pub mod settings;
mod unit_list;
