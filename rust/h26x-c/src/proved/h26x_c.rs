// Made from crates/h26x_c/src/lib.rt by tools/to-rust.

//! The C library. `bindings/include/h26x.h` declares its calls, and says what a caller owes.
//!
//! A handle is a struct of one pointer to an `Endpoint` of `h26x_endpoint`, a packetizer, a
//! depacketizer, a receiver of packets with their sequence numbers or one of access units, of packets
//! or of datagrams, of one codec, or a sender of datagrams. Each call states what it answers in the
//! words of the payload formats.
mod access_units;
mod const_handle;
mod copied;
mod every_unit;
pub mod exports;
mod handle;
mod paci;
mod packets;
mod parts;
mod place;
mod profiles;
mod push_all;
mod receive_all;
mod receiving;
mod repair;
mod rtcp;
mod rtp;
mod rtp_map;
mod rtp_receiver;
mod rtp_sender;
mod sdp;
mod sending;
mod sequenced;
mod shown;
mod so_far;
mod streams;
mod units;
