// Made from crates/h26x_endpoint/src/endpoint.rt by tools/to-rust.

//! What stands behind a handle.

use crate::proved::h26x_handles::access_units::AccessUnitEndpoint;
use crate::proved::h26x_handles::receiving::ReceivingEndpoint;
use crate::proved::h26x_handles::rtp_receiver::RtpReceiverEndpoint;
use crate::proved::h26x_handles::sending::SendingEndpoint;
use crate::proved::h26x_handles::sequenced::SequencedEndpoint;
use crate::proved::h26x_rtp_sender::RtpSender;
use crate::proved::h26x_sdp_handles::sdp::SdpEndpoint;

/// One endpoint of a stream.
pub enum Endpoint {
    /// It sends.
    Sending(SendingEndpoint),
    /// It receives.
    Receiving(ReceivingEndpoint),
    /// It receives packets with their sequence numbers.
    Sequenced(SequencedEndpoint),
    /// It receives access units, of packets as a network brings them.
    AccessUnits(AccessUnitEndpoint),
    /// It receives access units, of datagrams as a socket brings them.
    RtpReceiver(RtpReceiverEndpoint),
    /// It sends access units, as datagrams.
    RtpSender(RtpSender),
    /// Format parameters of SDP.
    Sdp(SdpEndpoint),
}
