//! The address of a live stream, as `udp://HOST:PORT`.

use crate::errors::Failure;
use crate::output::printing::shown;
use std::net::{IpAddr, Ipv6Addr, SocketAddr, ToSocketAddrs};
use std::path::Path;

const SCHEME: &str = "udp://";

/// Whether what stands where a file may is such an address.
pub fn is_address(path: &Path) -> bool {
    path.to_str().is_some_and(|it| it.starts_with(SCHEME))
}

/// Where packets are received: `udp://:5004` on all addresses, `udp://239.1.1.1:5004` of a group.
pub fn to_listen(path: &Path) -> Result<SocketAddr, Failure> {
    match host_and_port(path)? {
        ("", port) => Ok((Ipv6Addr::UNSPECIFIED, port).into()),
        (host, port) => resolved(path, host, port),
    }
}

/// Where packets are sent.
pub fn to_send(path: &Path) -> Result<SocketAddr, Failure> {
    match host_and_port(path)? {
        ("", port) => {
            let what = format!("{}: name a host, as in udp://127.0.0.1:{port}", shown(path));
            Err(Failure::usage(what))
        }
        (host, port) => resolved(path, host, port),
    }
}

/// The host, without the brackets of IPv6, and the port, which leaves room for RTCP's behind it.
fn host_and_port(path: &Path) -> Result<(&str, u16), Failure> {
    let text = path.to_str().and_then(|it| it.strip_prefix(SCHEME));
    let parts = text.and_then(|it| it.trim_end_matches('/').rsplit_once(':'));
    let (host, port) = parts.unwrap_or_default();
    let bare = host.strip_prefix('[').and_then(|it| it.strip_suffix(']'));
    match port.parse() {
        Ok(port @ 1..=65534) if bare.is_some() || !host.contains([':', '[', ']', '/', '@']) => {
            Ok((bare.unwrap_or(host), port))
        }
        _ => Err(Failure::usage(format!(
            "{}: give a live stream as udp://127.0.0.1:5004, udp://[::1]:5004 or udp://:5004, with a \
             port from 1 to 65534",
            shown(path)
        ))),
    }
}

fn resolved(path: &Path, host: &str, port: u16) -> Result<SocketAddr, Failure> {
    let found = (host, port).to_socket_addrs().map(|mut it| it.next());
    match found {
        Ok(Some(address)) => Ok(address),
        Ok(None) => Err(Failure::of(
            path,
            "this host has no address; check its name",
        )),
        Err(error) => Err(Failure::of(path, format!("this host isn't known: {error}"))),
    }
}

/// An address of IPv4 that stands within IPv6 is one of IPv4.
pub fn canonical(address: SocketAddr) -> (IpAddr, u16) {
    (address.ip().to_canonical(), address.port())
}
