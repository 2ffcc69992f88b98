//! The sockets of a live stream: one of RTP, and one of RTCP on the next port (RFC 3550, 11).

use std::ffi::CString;
use std::io;
use std::mem::size_of;
use std::net::{IpAddr, Ipv4Addr, Ipv6Addr, SocketAddr, UdpSocket};
use std::os::fd::AsRawFd;

/// How many bytes wait in the kernel, where it allows so many.
const WAITING: libc::c_int = 4 << 20;
/// So many pairs of ports are tried.
const TRIES: usize = 32;

pub struct Sockets {
    pub rtp: UdpSocket,
    pub rtcp: UdpSocket,
}

impl Sockets {
    /// Sockets on which a stream comes to this address; a group is joined.
    pub fn to_listen(to: SocketAddr, interface: Option<&str>) -> io::Result<Self> {
        let to = scoped(to, interface)?;
        let of_port = |port: u16| -> io::Result<UdpSocket> {
            let mut to = to;
            to.set_port(port);
            let socket = bound(to)?;
            join(&socket, to.ip(), interface)?;
            socket.set_nonblocking(true)?;
            set(&socket, libc::SOL_SOCKET, libc::SO_RCVBUF, &WAITING)?;
            Ok(socket)
        };
        Ok(Sockets {
            rtp: of_port(to.port())?,
            rtcp: of_port(to.port().wrapping_add(1))?,
        })
    }

    /// Sockets from which a stream goes to this address.
    pub fn to_send(to: SocketAddr, interface: Option<&str>) -> io::Result<Self> {
        let any: IpAddr = match to {
            SocketAddr::V4(_) => Ipv4Addr::UNSPECIFIED.into(),
            SocketAddr::V6(_) => Ipv6Addr::UNSPECIFIED.into(),
        };
        let mut failed = io::Error::from(io::ErrorKind::AddrInUse);
        for _ in 0..TRIES {
            let rtp = UdpSocket::bind((any, 0))?;
            let port = rtp.local_addr()?.port();
            match port.checked_add(1).map(|next| UdpSocket::bind((any, next))) {
                Some(Ok(rtcp)) => {
                    rtcp.set_nonblocking(true)?;
                    for socket in [&rtp, &rtcp] {
                        leave_by(socket, to.ip(), interface)?;
                    }
                    return Ok(Sockets { rtp, rtcp });
                }
                Some(Err(error)) => failed = error,
                None => {}
            }
        }
        Err(failed)
    }

    /// Waits until something comes, for so many milliseconds at most.
    pub fn wait(&self, millis: libc::c_int) {
        let of = |socket: &UdpSocket| libc::pollfd {
            fd: socket.as_raw_fd(),
            events: libc::POLLIN,
            revents: 0,
        };
        let mut both = [of(&self.rtp), of(&self.rtcp)];
        // SAFETY: both are descriptors that are open, in an array of two.
        unsafe { libc::poll(both.as_mut_ptr(), 2, millis) };
    }
}

/// An address of IPv6 with the interface on which it is.
pub fn scoped(address: SocketAddr, interface: Option<&str>) -> io::Result<SocketAddr> {
    let index = index_of(interface)?;
    Ok(match address {
        SocketAddr::V6(mut it) if index > 0 => {
            it.set_scope_id(index);
            it.into()
        }
        other => other,
    })
}

/// A socket of this address; where there is no IPv6, `::` is all of IPv4.
fn bound(to: SocketAddr) -> io::Result<UdpSocket> {
    let socket = UdpSocket::bind(to);
    match (&socket, to.ip()) {
        (Err(error), IpAddr::V6(Ipv6Addr::UNSPECIFIED))
            if error.kind() != io::ErrorKind::AddrInUse =>
        {
            UdpSocket::bind((Ipv4Addr::UNSPECIFIED, to.port()))
        }
        _ => socket,
    }
}

fn index_of(interface: Option<&str>) -> io::Result<u32> {
    let Some(name) = interface else {
        return Ok(0);
    };
    let name = CString::new(name).map_err(|_| io::ErrorKind::InvalidInput)?;
    // SAFETY: the name ends with a zero, and lives meanwhile.
    match unsafe { libc::if_nametoindex(name.as_ptr()) } {
        0 => Err(io::Error::last_os_error()),
        index => Ok(index),
    }
}

/// Joins a group, on an interface or where routes say.
fn join(socket: &UdpSocket, group: IpAddr, interface: Option<&str>) -> io::Result<()> {
    let index = index_of(interface)?;
    match group {
        IpAddr::V4(group) if group.is_multicast() => {
            let wanted = of_group(group, index);
            set(socket, libc::IPPROTO_IP, libc::IP_ADD_MEMBERSHIP, &wanted)
        }
        IpAddr::V6(group) if group.is_multicast() => socket.join_multicast_v6(&group, index),
        _ => Ok(()),
    }
}

/// Has packets to a group leave by this interface.
fn leave_by(socket: &UdpSocket, group: IpAddr, interface: Option<&str>) -> io::Result<()> {
    let index = index_of(interface)?;
    match group {
        _ if interface.is_none() => Ok(()),
        IpAddr::V4(group) => {
            let wanted = of_group(group, index);
            set(socket, libc::IPPROTO_IP, libc::IP_MULTICAST_IF, &wanted)
        }
        IpAddr::V6(_) => set(socket, libc::IPPROTO_IPV6, libc::IPV6_MULTICAST_IF, &index),
    }
}

fn of_group(group: Ipv4Addr, index: u32) -> libc::ip_mreqn {
    libc::ip_mreqn {
        imr_multiaddr: libc::in_addr {
            s_addr: u32::from_ne_bytes(group.octets()),
        },
        imr_address: libc::in_addr { s_addr: 0 },
        imr_ifindex: index as libc::c_int,
    }
}

fn set<T>(socket: &UdpSocket, level: i32, name: i32, value: &T) -> io::Result<()> {
    let len = size_of::<T>() as libc::socklen_t;
    let value = std::ptr::from_ref(value).cast();
    // SAFETY: the socket is open, and the value lives meanwhile and has that length.
    match unsafe { libc::setsockopt(socket.as_raw_fd(), level, name, value, len) } {
        0 => Ok(()),
        _ => Err(io::Error::last_os_error()),
    }
}
