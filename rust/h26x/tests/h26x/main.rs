//! Runs the program `h26x` on streams, and on captures that are built here byte by byte, from the RFCs
//! and the descriptions of the file formats.

mod against_tshark;
mod broken;
mod build;
mod choice;
mod formats;
mod fragments;
mod inspected;
mod layers;
mod lengths;
mod live;
mod losses;
mod numbers;
mod odd;
mod outputs;
mod padding;
mod peers;
mod pictures;
mod pipes;
mod program;
mod rates;
mod received;
mod recordings;
mod resent;
mod rtsp;
mod sdp;
mod sdp_peers;
mod session;
mod sessions;
mod signals;
mod there_and_back;
mod tunnels;
mod written;
