//! What is read: captures of the file formats, and the packets of RTP that are in them.

pub mod capture;
pub mod connections;
pub mod fragments;
pub mod frames;
pub mod headers;
pub mod input;
pub mod interface;
pub mod interleaved;
pub mod ip;
pub mod layers;
pub mod link;
pub mod order;
pub mod packed;
pub mod packets;
pub mod pcap;
pub mod pcapng;
pub mod pending;
pub mod rtp;
pub mod seen;
pub mod segments;
pub mod tunnels;
