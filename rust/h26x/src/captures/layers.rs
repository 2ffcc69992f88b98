//! The datagrams that frames hold, through all layers below RTP.

use crate::captures::capture::Frame;
use crate::captures::connections::Connections;
use crate::captures::fragments::Fragments;
use crate::captures::ip::{self, Datagram, Payload};
use crate::captures::link::Inside;
use crate::captures::seen::{PassedOver, Seen};
use crate::captures::tunnels::{VXLAN_PORTS, gre, vxlan};
use crate::errors::Failure;
use std::ops::ControlFlow;

/// Whether to go on.
pub type Flow = Result<ControlFlow<()>, Failure>;
/// What takes datagrams.
type Out<'a> = dyn FnMut(&Datagram<'_>) -> Flow + 'a;

/// So many headers of IP may stand in one another.
const DEEPEST: u8 = 8;
const GO_ON: Flow = Ok(ControlFlow::Continue(()));

#[derive(Default)]
pub struct Layers {
    fragments: Fragments,
    connections: Connections,
    seen: Seen,
}

/// When a packet was captured, and how many packets it stands in.
#[derive(Clone, Copy)]
struct Place {
    time: u64,
    depth: u8,
}

impl Layers {
    /// Gives out the datagrams that are whole with a frame.
    pub fn add(&mut self, frame: &Frame<'_>, out: &mut Out<'_>) -> Flow {
        self.seen.frames += 1;
        let place = Place {
            time: frame.time,
            depth: 0,
        };
        self.add_inside(frame.link.inside(frame.bytes), place, out)
    }

    /// Gives out what was waited for up to the end of the capture.
    pub fn finish(mut self, out: &mut Out<'_>) -> Result<PassedOver, Failure> {
        let _ = self.connections.finish(out)?;
        Ok(PassedOver::new(self.seen, &self.fragments))
    }

    fn add_inside(&mut self, inside: Inside<'_>, place: Place, out: &mut Out<'_>) -> Flow {
        match inside {
            Inside::Ip(packet) => self.add_packet(packet, place, out),
            Inside::Other(ether_type) => {
                self.seen.other_ether_type(ether_type);
                GO_ON
            }
            Inside::Nothing => GO_ON,
        }
    }

    fn add_packet(&mut self, packet: &[u8], place: Place, out: &mut Out<'_>) -> Flow {
        let Some(payload) = ip::payload(packet).filter(|_| place.depth < DEEPEST) else {
            return GO_ON;
        };
        let Some(fragment) = payload.fragment else {
            return self.add_payload(&payload, place, out);
        };
        let Some((protocol, bytes)) = self.fragments.add(&payload, &fragment, place.time) else {
            return GO_ON;
        };
        let mut whole = Payload {
            protocol,
            fragment: None,
            bytes: &bytes,
            ..payload
        };
        match whole.to.is_ipv4() || whole.pass_headers().is_some() {
            true => self.add_payload(&whole, place, out),
            false => GO_ON,
        }
    }

    fn add_payload(&mut self, payload: &Payload<'_>, place: Place, out: &mut Out<'_>) -> Flow {
        let below = Place {
            depth: place.depth + 1,
            ..place
        };
        match payload.protocol {
            ip::UDP => self.add_datagram(payload, below, out),
            ip::TCP => self.add_segment(payload, out),
            ip::GRE => self.add_inside(gre(payload.bytes), below, out),
            ip::IPV4_IN_IP | ip::IPV6_IN_IP => self.add_packet(payload.bytes, below, out),
            other => {
                self.seen.other_protocol(other);
                GO_ON
            }
        }
    }

    fn add_datagram(&mut self, payload: &Payload<'_>, below: Place, out: &mut Out<'_>) -> Flow {
        let Some(datagram) = ip::udp(payload) else {
            return GO_ON;
        };
        let is_to_vxlan = VXLAN_PORTS.contains(&datagram.to.1);
        match is_to_vxlan.then(|| vxlan(datagram.bytes)).flatten() {
            Some(inside) => self.add_inside(inside, below, out),
            None => {
                self.seen.udp += 1;
                out(&datagram)
            }
        }
    }

    fn add_segment(&mut self, payload: &Payload<'_>, out: &mut Out<'_>) -> Flow {
        let (is_rtsp, flow) = self.connections.add(payload, out)?;
        match is_rtsp {
            true => self.seen.rtsp += 1,
            false => self.seen.tcp += 1,
        }
        self.seen.cut += u64::from(is_rtsp && !payload.is_whole);
        Ok(flow)
    }
}
