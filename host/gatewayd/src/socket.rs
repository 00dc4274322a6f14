//! The socket. std gives one datagram a call and tells neither which of our addresses it came to nor
//! how many the system dropped, so the system's own calls are declared here, for Linux. They are
//! few, and fewer than a crate for them would bring in.

use crate::way::{self, Way};
use std::ffi::c_void;
use std::io;
use std::mem::size_of;
use std::net::{IpAddr, Ipv4Addr, Ipv6Addr, SocketAddr, SocketAddrV6, UdpSocket};
use std::os::fd::{AsRawFd, FromRawFd, RawFd};
use std::sync::atomic::{AtomicU32, Ordering};
use std::sync::Arc;
use std::time::Duration;

pub struct Socket {
    socket: UdpSocket,
    version_6: bool,
    /// How many the system had dropped since the socket was made, modulo 2^32, when it was last counted.
    counted: Arc<AtomicU32>,
    /// Of these, those before this start, if no predecessor of ours has counted them.
    pub before: u32,
}

#[derive(Debug)]
pub struct Datagram {
    pub way: Way,
    pub bytes: Vec<u8>,
}

/// Longer datagrams are cut to this, and are refused 1 all the same.
const LARGEST: usize = 2048;
/// Datagrams in one call.
pub const BATCH: usize = 64;
/// What the system should hold for us each way; it may give less (net.core.rmem_max, wmem_max) unless we are root.
const BUFFER: i32 = 8 << 20;
/// A call that waits comes back after this, so that somebody can ask for the end.
const WAIT: Duration = Duration::from_millis(50);
/// Where the first socket that was handed over is, by the convention of systemd; the others follow.
const HANDED_OVER: RawFd = 3;
/// How many dropped ones were counted before they were, of each.
const COUNTED: &str = "GATEWAYD_COUNTED";

impl Socket {
    /// A new one.
    pub fn bind(address: SocketAddr) -> io::Result<Socket> {
        Socket::over(UdpSocket::bind(address)?, None)
    }

    fn over(socket: UdpSocket, counted: Option<u32>) -> io::Result<Socket> {
        let version_6 = socket.local_addr()?.is_ipv6();
        let mut socket = Socket { socket, version_6, counted: Arc::default(), before: 0 };
        socket.prepare()?;
        if counted.is_none() {
            socket.before = socket.drops();
        }
        socket.counted.store(counted.unwrap_or(socket.before), Ordering::Relaxed);
        Ok(socket)
    }

    /// How many the system has dropped more than at the last call, as it says now.
    pub fn newly_dropped(&self, now: u32) -> u32 {
        now.wrapping_sub(self.counted.swap(now, Ordering::Relaxed))
    }

    /// How many the system has dropped so far, as it says of itself.
    fn drops(&self) -> u32 {
        let mut values = [0_u32; 9];
        let (to, mut size) = ((&raw mut values).cast(), size_of::<[u32; 9]>() as u32);
        let done = unsafe { getsockopt(self.fd(), SOL_SOCKET, SO_MEMINFO, to, &raw mut size) };
        if done == 0 {
            values[8]
        } else {
            0
        }
    }

    pub fn address(&self) -> io::Result<SocketAddr> {
        self.socket.local_addr()
    }

    pub fn try_clone(&self) -> io::Result<Socket> {
        let (socket, counted) = (self.socket.try_clone()?, self.counted.clone());
        Ok(Socket { socket, version_6: self.version_6, counted, before: self.before })
    }

    /// How much the system holds for us, in its own count, which is some times the bytes.
    pub fn buffer(&self) -> io::Result<i32> {
        let (mut value, mut size) = (0_i32, size_of::<i32>() as u32);
        let to = (&raw mut value).cast();
        let done = unsafe { getsockopt(self.fd(), SOL_SOCKET, SO_RCVBUF, to, &raw mut size) };
        check(done as isize).map(|_| value)
    }

    fn fd(&self) -> RawFd {
        self.socket.as_raw_fd()
    }

    fn prepare(&self) -> io::Result<()> {
        // systemd's sockets do not wait.
        self.socket.set_nonblocking(false)?;
        self.socket.set_read_timeout(Some(WAIT))?;
        for (with_rights, without) in [(SO_RCVBUFFORCE, SO_RCVBUF), (SO_SNDBUFFORCE, SO_SNDBUF)] {
            if self.set(SOL_SOCKET, with_rights, BUFFER).is_err() {
                self.set(SOL_SOCKET, without, BUFFER)?;
            }
        }
        self.set(SOL_SOCKET, SO_RXQ_OVFL, 1)?;
        match self.version_6 {
            true => self.set(IPPROTO_IPV6, IPV6_RECVPKTINFO, 1),
            false => self.set(IPPROTO_IP, IP_PKTINFO, 1),
        }
    }

    fn set(&self, level: i32, name: i32, value: i32) -> io::Result<()> {
        let from = (&raw const value).cast();
        let done = unsafe { setsockopt(self.fd(), level, name, from, size_of::<i32>() as u32) };
        check(done as isize).map(|_| ())
    }

    /// Sends a datagram back the way that one came. Where the system has no room for it, it is not waited for.
    pub fn send(&self, way: Way, bytes: &[u8]) -> io::Result<()> {
        let mut name = Name::of(way.sender, self.version_6);
        let mut control = Control::default();
        let mut part = Part { base: bytes.as_ptr().cast_mut().cast(), size: bytes.len() };
        let control_size = way.ours.map_or(0, |ours| control.put(ours, self.version_6));
        let message = Message {
            name: (&raw mut name).cast(),
            name_size: name.size,
            parts: &raw mut part,
            part_count: 1,
            control: if control_size == 0 {
                std::ptr::null_mut()
            } else {
                (&raw mut control).cast()
            },
            control_size,
            flags: 0,
        };
        check(unsafe { sendmsg(self.fd(), &raw const message, MSG_DONTWAIT) }).map(|_| ())
    }
}

/// Hands sockets over to the program that takes this one's place. What arrives meanwhile waits in them.
pub fn hand_over(sockets: Vec<Socket>, command: &mut std::process::Command) -> io::Result<()> {
    let count = sockets.len() as RawFd;
    // Away from the places first: one may stand in the place of another.
    let away = sockets.iter().map(|socket| {
        let free = HANDED_OVER + count;
        check(unsafe { fcntl(socket.fd(), F_DUPFD_CLOEXEC, free) } as isize).map(|fd| fd as RawFd)
    });
    let away = away.collect::<io::Result<Vec<RawFd>>>()?;
    for (place, fd) in (HANDED_OVER..).zip(away) {
        check(unsafe { dup2(fd, place) } as isize)?;
    }
    let counted = sockets.iter().map(|socket| socket.counted.load(Ordering::Relaxed).to_string());
    command.env(COUNTED, counted.collect::<Vec<_>>().join(","));
    command.env("LISTEN_FDS", count.to_string());
    command.env("LISTEN_PID", std::process::id().to_string());
    // Whatever their numbers were, others have them now.
    sockets.into_iter().for_each(std::mem::forget);
    Ok(())
}

/// Those that were handed over to us, by LISTEN_FDS and LISTEN_PID, as systemd does it; so many at most.
pub fn handed_over(most: u32) -> io::Result<Vec<Socket>> {
    let number = |name| std::env::var(name).ok().and_then(|text| text.parse::<u32>().ok());
    if number("LISTEN_PID") != Some(std::process::id()) {
        return Ok(Vec::new());
    }
    let count = number("LISTEN_FDS").unwrap_or(0);
    if count > most {
        let what = format!("{count} sockets were handed over, and {most} asked for");
        return Err(io::Error::other(what));
    }
    let counted = std::env::var(COUNTED).unwrap_or_default();
    let mut counted = counted.split(',').map(|text| text.parse().ok());
    let places = HANDED_OVER..HANDED_OVER + count as RawFd;
    places.map(|fd| Socket::over(given(fd)?, counted.next().flatten())).collect()
}

/// The socket for datagrams in this place.
fn given(fd: RawFd) -> io::Result<UdpSocket> {
    check(unsafe { fcntl(fd, F_SETFD, FD_CLOEXEC) } as isize)?;
    let socket = unsafe { UdpSocket::from_raw_fd(fd) };
    let (mut kind, mut size) = (0_i32, size_of::<i32>() as u32);
    let to = (&raw mut kind).cast();
    check(unsafe { getsockopt(fd, SOL_SOCKET, SO_TYPE, to, &raw mut size) } as isize)?;
    match kind {
        SOCK_DGRAM => Ok(socket),
        _ => Err(io::Error::other("what was handed over is no socket for datagrams")),
    }
}

/// Room for the datagrams of one call. Its parts do not move, since the system is told where they
/// are once.
pub struct Batch {
    bytes: Box<[[u8; LARGEST]; BATCH]>,
    names: Box<[Name; BATCH]>,
    controls: Box<[Control; BATCH]>,
    _parts: Box<[Part; BATCH]>,
    messages: Box<[Arrived; BATCH]>,
    /// How many the system has dropped since the socket was made, modulo 2^32.
    pub dropped: Option<u32>,
}

impl Default for Batch {
    fn default() -> Batch {
        let mut bytes = Box::new([[0; LARGEST]; BATCH]);
        let mut names = Box::new([Name::default(); BATCH]);
        let mut controls = Box::new([Control::default(); BATCH]);
        let mut parts =
            Box::new([const { Part { base: std::ptr::null_mut(), size: LARGEST } }; BATCH]);
        let mut messages = Box::new([const { Arrived::EMPTY }; BATCH]);
        for place in 0..BATCH {
            parts[place].base = bytes[place].as_mut_ptr().cast();
            let message = &mut messages[place].message;
            message.name = (&raw mut names[place]).cast();
            message.parts = &raw mut parts[place];
            message.part_count = 1;
            message.control = (&raw mut controls[place]).cast();
        }
        Batch { bytes, names, controls, _parts: parts, messages, dropped: None }
    }
}

impl Batch {
    /// The datagrams that have arrived; waits for the first.
    pub fn receive(&mut self, socket: &Socket) -> io::Result<Vec<Datagram>> {
        for arrived in self.messages.iter_mut() {
            arrived.message.name_size = NAME as u32;
            arrived.message.control_size = size_of::<Control>();
        }
        let (to, most) = (self.messages.as_mut_ptr(), BATCH as u32);
        let count =
            check(
                unsafe { recvmmsg(socket.fd(), to, most, MSG_WAITFORONE, std::ptr::null_mut()) }
                    as isize,
            )?;
        let mut datagrams = Vec::with_capacity(count);
        for (place, arrived) in self.messages[..count].iter().enumerate() {
            let told = self.controls[place].read(arrived.message.control_size);
            self.dropped = told.dropped.or(self.dropped);
            let Some(sender) = self.names[place].address() else { continue };
            let bytes = self.bytes[place][..(arrived.size as usize).min(LARGEST)].to_vec();
            datagrams.push(Datagram { way: Way { sender, ours: told.ours }, bytes });
        }
        Ok(datagrams)
    }
}

/// A socket's address as the system has it. Only its bytes are the system's.
#[derive(Clone, Copy, Default)]
#[repr(C, align(8))]
struct Name {
    bytes: [u8; NAME],
    size: u32,
}

const NAME: usize = 28;

impl Name {
    /// 192.0.2.7 is ::ffff:192.0.2.7 for a socket of version 6.
    fn of(address: SocketAddr, version_6: bool) -> Name {
        let mut name = Name::default();
        let address = match (address, version_6) {
            (SocketAddr::V4(v4), true) => {
                SocketAddrV6::new(v4.ip().to_ipv6_mapped(), v4.port(), 0, 0).into()
            }
            _ => address,
        };
        name.bytes[2..4].copy_from_slice(&address.port().to_be_bytes());
        match address {
            SocketAddr::V4(v4) => {
                name.bytes[..2].copy_from_slice(&AF_INET.to_ne_bytes());
                name.bytes[4..8].copy_from_slice(&v4.ip().octets());
                name.size = 16;
            }
            SocketAddr::V6(v6) => {
                name.bytes[..2].copy_from_slice(&AF_INET6.to_ne_bytes());
                name.bytes[8..24].copy_from_slice(&v6.ip().octets());
                name.bytes[24..28].copy_from_slice(&v6.scope_id().to_ne_bytes());
                name.size = 28;
            }
        }
        name
    }

    fn address(&self) -> Option<SocketAddr> {
        let port = u16::from_be_bytes([self.bytes[2], self.bytes[3]]);
        match u16::from_ne_bytes([self.bytes[0], self.bytes[1]]) {
            AF_INET => {
                let ip: [u8; 4] = self.bytes[4..8].try_into().ok()?;
                Some((ip, port).into())
            }
            AF_INET6 => {
                let ip: [u8; 16] = self.bytes[8..24].try_into().ok()?;
                let scope = u32::from_ne_bytes(self.bytes[24..28].try_into().ok()?);
                Some(way::plain(SocketAddrV6::new(ip.into(), port, 0, scope).into()))
            }
            _ => None,
        }
    }
}

/// What the system tells beside a datagram, or is told: entries of a head (size 8, level 4, kind 4)
/// and bytes, each at a multiple of 8.
#[derive(Clone, Copy)]
#[repr(C, align(8))]
struct Control([u8; 128]);

#[derive(Default)]
struct Told {
    ours: Option<IpAddr>,
    dropped: Option<u32>,
}

const HEAD: usize = 16;

impl Default for Control {
    fn default() -> Control {
        Control([0; 128])
    }
}

impl Control {
    /// From which of our addresses a datagram is to go; gives the size of the entry.
    fn put(&mut self, ours: IpAddr, version_6: bool) -> usize {
        let (level, kind, bytes) = match (ours, version_6) {
            (IpAddr::V4(ip), false) => {
                let bytes = [&[0; 4], &ip.octets()[..], &[0; 4]].concat();
                (IPPROTO_IP, IP_PKTINFO, bytes)
            }
            (ip, true) => {
                let ip = match ip {
                    IpAddr::V4(ip) => ip.to_ipv6_mapped(),
                    IpAddr::V6(ip) => ip,
                };
                (IPPROTO_IPV6, IPV6_PKTINFO, [&ip.octets()[..], &[0; 4]].concat())
            }
            (IpAddr::V6(_), false) => return 0,
        };
        let size = HEAD + bytes.len();
        self.0[..8].copy_from_slice(&size.to_ne_bytes());
        self.0[8..12].copy_from_slice(&level.to_ne_bytes());
        self.0[12..16].copy_from_slice(&kind.to_ne_bytes());
        self.0[HEAD..size].copy_from_slice(&bytes);
        size.next_multiple_of(8)
    }

    fn read(&self, size: usize) -> Told {
        let mut told = Told::default();
        let mut left = &self.0[..size.min(self.0.len())];
        while let Some((head, _)) = left.split_at_checked(HEAD) {
            let entry = usize::from_ne_bytes(head[..8].try_into().unwrap_or_default());
            let level = i32::from_ne_bytes(head[8..12].try_into().unwrap_or_default());
            let kind = i32::from_ne_bytes(head[12..16].try_into().unwrap_or_default());
            let Some(bytes) = left.get(HEAD..entry) else { break };
            match (level, kind) {
                (IPPROTO_IP, IP_PKTINFO) => {
                    let ip = bytes.get(4..8).and_then(|ip| <[u8; 4]>::try_from(ip).ok());
                    told.ours = ip.map(|ip| Ipv4Addr::from(ip).into());
                }
                (IPPROTO_IPV6, IPV6_PKTINFO) => {
                    let ip = bytes.get(..16).and_then(|ip| <[u8; 16]>::try_from(ip).ok());
                    told.ours = ip.map(|ip| IpAddr::from(Ipv6Addr::from(ip)).to_canonical());
                }
                (SOL_SOCKET, SO_RXQ_OVFL) => {
                    told.dropped = bytes.try_into().ok().map(u32::from_ne_bytes);
                }
                _ => {}
            }
            left = left.get(entry.next_multiple_of(8)..).unwrap_or_default();
        }
        told
    }
}

const AF_INET: u16 = 2;
const AF_INET6: u16 = 10;
const SOCK_DGRAM: i32 = 2;
const SOL_SOCKET: i32 = 1;
const SO_TYPE: i32 = 3;
const SO_SNDBUF: i32 = 7;
const SO_RCVBUF: i32 = 8;
const SO_SNDBUFFORCE: i32 = 32;
const SO_RCVBUFFORCE: i32 = 33;
const SO_RXQ_OVFL: i32 = 40;
const SO_MEMINFO: i32 = 55;
const IPPROTO_IP: i32 = 0;
const IP_PKTINFO: i32 = 8;
const IPPROTO_IPV6: i32 = 41;
const IPV6_RECVPKTINFO: i32 = 49;
const IPV6_PKTINFO: i32 = 50;
const MSG_DONTWAIT: i32 = 0x40;
const MSG_WAITFORONE: i32 = 0x10000;
const F_SETFD: i32 = 2;
const F_DUPFD_CLOEXEC: i32 = 1030;
const FD_CLOEXEC: i32 = 1;

#[repr(C)]
struct Part {
    base: *mut c_void,
    size: usize,
}

#[repr(C)]
struct Message {
    name: *mut c_void,
    name_size: u32,
    parts: *mut Part,
    part_count: usize,
    control: *mut c_void,
    control_size: usize,
    flags: i32,
}

#[repr(C)]
struct Arrived {
    message: Message,
    size: u32,
}

impl Arrived {
    const EMPTY: Arrived = Arrived {
        message: Message {
            name: std::ptr::null_mut(),
            name_size: 0,
            parts: std::ptr::null_mut(),
            part_count: 0,
            control: std::ptr::null_mut(),
            control_size: 0,
            flags: 0,
        },
        size: 0,
    };
}

extern "C" {
    fn setsockopt(fd: i32, level: i32, name: i32, value: *const c_void, size: u32) -> i32;
    fn getsockopt(fd: i32, level: i32, name: i32, value: *mut c_void, size: *mut u32) -> i32;
    fn recvmmsg(fd: i32, to: *mut Arrived, most: u32, flags: i32, timeout: *mut c_void) -> i32;
    fn sendmsg(fd: i32, message: *const Message, flags: i32) -> isize;
    fn dup2(from: i32, to: i32) -> i32;
    fn fcntl(fd: i32, command: i32, ...) -> i32;
}

fn check(done: isize) -> io::Result<usize> {
    usize::try_from(done).map_err(|_| io::Error::last_os_error())
}

#[cfg(test)]
mod tests {
    use super::*;

    fn any(text: &str) -> Socket {
        Socket::bind(text.parse().unwrap()).unwrap()
    }

    fn next(batch: &mut Batch, socket: &Socket) -> Vec<Datagram> {
        (0..100).find_map(|_| batch.receive(socket).ok()).unwrap()
    }

    #[test]
    fn a_datagram_comes_and_goes_the_same_way() {
        let socket = any("0.0.0.0:0");
        let port = socket.address().unwrap().port();
        // Each address of 127/8 is one of ours.
        for (from, to) in [("127.0.0.1", [127, 0, 0, 1]), ("127.0.0.3", [127, 0, 0, 2])] {
            let ship = UdpSocket::bind((from, 0)).unwrap();
            ship.connect((Ipv4Addr::from(to), port)).unwrap();
            ship.set_read_timeout(Some(Duration::from_secs(5))).unwrap();
            ship.send(b"hello").unwrap();
            let got = next(&mut Batch::default(), &socket);
            assert_eq!((got.len(), &got[0].bytes[..]), (1, &b"hello"[..]));
            let way = Way { sender: ship.local_addr().unwrap(), ours: Some(to.into()) };
            assert_eq!(got[0].way, way);
            // A connected socket hears only who it is connected to.
            socket.send(way, b"reply").unwrap();
            let mut buffer = [0; 9];
            assert_eq!(ship.recv(&mut buffer).unwrap(), 5);
        }
    }

    #[test]
    fn a_socket_for_both_versions_shows_plain_addresses() {
        let socket = any("[::]:0");
        let port = socket.address().unwrap().port();
        let mut batch = Batch::default();
        for (from, to) in [("127.0.0.1", "127.0.0.2"), ("::1", "::1")] {
            let ship = UdpSocket::bind((from, 0)).unwrap();
            ship.set_read_timeout(Some(Duration::from_secs(5))).unwrap();
            ship.connect((to, port)).unwrap();
            ship.send(b"hello").unwrap();
            let got = next(&mut batch, &socket);
            let way = Way { sender: ship.local_addr().unwrap(), ours: Some(to.parse().unwrap()) };
            assert_eq!(got[0].way, way);
            socket.send(way, b"reply").unwrap();
            assert_eq!(ship.recv(&mut [0; 9]).unwrap(), 5);
        }
    }

    #[test]
    fn many_in_a_call_and_the_dropped_ones_are_counted() {
        let socket = any("127.0.0.1:0");
        // The least that the system gives.
        socket.set(SOL_SOCKET, SO_RCVBUF, 1).unwrap();
        let ship = UdpSocket::bind("127.0.0.1:0").unwrap();
        ship.connect(socket.address().unwrap()).unwrap();
        let sent = 200;
        for n in 0..sent {
            ship.send(&[n; 100]).unwrap();
        }
        let mut batch = Batch::default();
        let mut got = next(&mut batch, &socket).len();
        assert!(got > 1);
        while let Ok(more) = batch.receive(&socket) {
            got += more.len();
        }
        ship.send(&[0; 3000]).unwrap();
        let last = next(&mut batch, &socket);
        assert_eq!(last[0].bytes.len(), LARGEST);
        assert_eq!(got as u32 + batch.dropped.unwrap(), u32::from(sent));
    }
}
