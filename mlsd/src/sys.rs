//! What std does not have: the only unsafe code. Constants are those of Linux on x86-64 and arm64.
use std::ffi::CString;
use std::io;
use std::os::raw::{c_char, c_int, c_void};
use std::os::unix::io::{AsRawFd, FromRawFd, OwnedFd, RawFd};
use std::os::unix::net::UnixListener;
use std::os::unix::process::CommandExt;
use std::process::Command;
use std::sync::atomic::{AtomicI32, AtomicU64, Ordering};

#[repr(C)]
#[derive(Clone, Copy, Debug)]
pub struct PollFd {
    pub fd: RawFd,
    pub events: i16,
    pub revents: i16,
}
pub const IN: i16 = 1;
pub const OUT: i16 = 4;
/// POLLERR, POLLHUP, POLLNVAL.
pub const GONE: i16 = 8 | 16 | 32;

pub const HANGUP: u8 = 1;
/// SIGINT and SIGTERM.
pub const ENDINGS: [u8; 2] = [2, 15];

const SOL_SOCKET: c_int = 1;
const SO_PEERCRED: c_int = 17;
const SO_PEERGROUPS: c_int = 59;
const F_SETFD: c_int = 2;
const FD_CLOEXEC: c_int = 1;
const RLIMIT_NOFILE: c_int = 7;
/// The most groups that a process can have.
const GROUPS_MAX: usize = 65_536;

#[repr(C)]
#[derive(Default, Clone, Copy, Debug)]
pub struct Peer {
    pub pid: i32,
    pub uid: u32,
    gid: u32,
}

/// The fronts of struct passwd and struct group, which is all that is read.
#[repr(C)]
struct Entry {
    name: *const c_char,
    password: *const c_char,
    id: u32,
}

extern "C" {
    #[link_name = "poll"]
    fn c_poll(fds: *mut PollFd, count: u64, timeout: c_int) -> c_int;
    fn getsockopt(fd: c_int, level: c_int, name: c_int, value: *mut c_void, len: *mut u32) -> c_int;
    fn getpwnam(name: *const c_char) -> *const Entry;
    fn getgrnam(name: *const c_char) -> *const Entry;
    fn signal(number: c_int, handler: usize) -> usize;
    fn write(fd: c_int, bytes: *const u8, count: usize) -> isize;
    fn fcntl(fd: c_int, what: c_int, value: c_int) -> c_int;
    fn getrlimit(what: c_int, limits: *mut [u64; 2]) -> c_int;
    fn memfd_create(name: *const c_char, flags: u32) -> c_int;
    fn ftruncate(fd: c_int, len: i64) -> c_int;
    fn mmap(at: *mut c_void, len: usize, may: c_int, how: c_int, fd: c_int, from: i64) -> *mut c_void;
    fn sendmsg(fd: c_int, message: *const Message, flags: c_int) -> isize;
    fn setpgid(pid: i32, group: i32) -> c_int;
    fn __errno_location() -> *mut c_int;
}

/// Waits until a descriptor is ready, at most so many milliseconds; less than 0 is no limit. An interrupt ends it too.
pub fn poll(fds: &mut [PollFd], timeout: i32) -> io::Result<()> {
    // SAFETY: the pointer and the count are those of one slice.
    if unsafe { c_poll(fds.as_mut_ptr(), fds.len() as u64, timeout) } >= 0 {
        return Ok(());
    }
    let error = io::Error::last_os_error();
    if error.kind() != io::ErrorKind::Interrupted {
        return Err(error);
    }
    fds.iter_mut().for_each(|fd| fd.revents = 0);
    Ok(())
}

/// Reads an option of a socket into values of which each may have any bytes; returns how many bytes it has.
fn option<T: Copy>(fd: RawFd, name: c_int, values: &mut [T]) -> io::Result<usize> {
    let mut len = std::mem::size_of_val(values) as u32;
    // SAFETY: the pointer has as many bytes as the length says, and T is u32 or a struct of three.
    match unsafe { getsockopt(fd, SOL_SOCKET, name, values.as_mut_ptr().cast(), &mut len) } {
        0 => Ok(len as usize),
        _ => Err(io::Error::last_os_error()),
    }
}

/// Who connected, and all groups of it, as the kernel kept them when it did.
pub fn peer(fd: RawFd) -> io::Result<(Peer, Vec<u32>)> {
    let mut peer = [Peer::default()];
    option(fd, SO_PEERCRED, &mut peer)?;
    let mut groups = vec![0u32; 64];
    let bytes = option(fd, SO_PEERGROUPS, &mut groups).or_else(|_| {
        // (there are more than fit)
        groups = vec![0; GROUPS_MAX];
        option(fd, SO_PEERGROUPS, &mut groups)
    })?;
    groups.truncate(bytes / std::mem::size_of::<u32>());
    groups.push(peer[0].gid);
    Ok((peer[0], groups))
}

/// The number of a user, or of a group.
pub fn id_of(name: &str, is_group: bool) -> Option<u32> {
    let name = CString::new(name).ok()?;
    // SAFETY: the result is null or points to a struct that begins as Entry does; it is read before another call.
    unsafe {
        let found = if is_group { getgrnam(name.as_ptr()) } else { getpwnam(name.as_ptr()) };
        found.as_ref().map(|entry| entry.id)
    }
}

static WAKE: AtomicI32 = AtomicI32::new(-1);

extern "C" fn on_signal(number: c_int) {
    let byte = number as u8;
    // SAFETY: write is safe in a handler; errno is put back, since the handler may stand between a call and its errno.
    unsafe {
        let errno = *__errno_location();
        write(WAKE.load(Ordering::Relaxed), &byte, 1);
        *__errno_location() = errno;
    }
}

/// From now on these signals write their number as a byte to `wake`, which must not block.
pub fn catch_signals(wake: RawFd, numbers: &[u8]) {
    WAKE.store(wake, Ordering::Relaxed);
    for number in numbers {
        // SAFETY: the handler does only what a handler may.
        unsafe { signal(c_int::from(*number), on_signal as extern "C" fn(c_int) as usize) };
    }
}

/// The listening socket that systemd passes as descriptor 3.
pub fn passed_listener() -> UnixListener {
    const PASSED: RawFd = 3;
    // SAFETY: it is closed in the core (F_SETFD has no memory in it); nothing else here has it.
    unsafe {
        fcntl(PASSED, F_SETFD, FD_CLOEXEC);
        UnixListener::from_raw_fd(PASSED)
    }
}

/// How many descriptors may be open.
pub fn descriptors() -> u64 {
    let mut limits = [0u64; 2];
    // SAFETY: a struct rlimit is two of 64 bits.
    if unsafe { getrlimit(RLIMIT_NOFILE, &mut limits) } == 0 {
        limits[0]
    } else {
        0
    }
}

/// The command runs in a group of its own, so that a terminal's interrupt does not reach it.
pub fn leave_group(command: &mut Command) {
    // SAFETY: what runs between fork and exec is one system call, which has no memory in it.
    unsafe {
        command.pre_exec(|| match setpgid(0, 0) {
            0 => Ok(()),
            _ => Err(io::Error::last_os_error()),
        })
    };
}

const PAGE: usize = 4_096;
const MFD_CLOEXEC: u32 = 1;
const MFD_ALLOW_SEALING: u32 = 2;
const F_ADD_SEALS: c_int = 1_033;
/// F_SEAL_SEAL, F_SEAL_SHRINK, F_SEAL_GROW and F_SEAL_FUTURE_WRITE.
const SEALS: c_int = 1 | 2 | 4 | 16;
const PROT_READ_WRITE: c_int = 1 | 2;
const MAP_SHARED: c_int = 1;

/// A page in memory whose first eight bytes are a number, which this process alone can change, from now on until its end.
pub fn shared_number() -> io::Result<(OwnedFd, &'static AtomicU64)> {
    let failed = io::Error::last_os_error;
    // SAFETY: the name is a string of C, and the descriptor is nobody else's.
    let file = match unsafe { memfd_create(b"mlsd\0".as_ptr().cast(), MFD_CLOEXEC | MFD_ALLOW_SEALING) } {
        fd if fd >= 0 => unsafe { OwnedFd::from_raw_fd(fd) },
        _ => return Err(failed()),
    };
    let fd = file.as_raw_fd();
    // SAFETY: the mapping is new, is a page long as the file is, and is never taken away.
    let number = unsafe {
        if ftruncate(fd, PAGE as i64) != 0 {
            return Err(failed());
        }
        let at = mmap(std::ptr::null_mut(), PAGE, PROT_READ_WRITE, MAP_SHARED, fd, 0);
        if at as isize == -1 {
            return Err(failed());
        }
        &*(at as *const AtomicU64)
    };
    number.store(1, Ordering::SeqCst);
    // SAFETY: no memory is in it.
    match unsafe { fcntl(fd, F_ADD_SEALS, SEALS) } {
        0 => Ok((file, number)),
        _ => Err(failed()),
    }
}

#[repr(C)]
struct Piece {
    base: *const c_void,
    len: usize,
}

/// struct msghdr.
#[repr(C)]
struct Message {
    name: *const c_void,
    name_len: u32,
    pieces: *const Piece,
    count: usize,
    control: *const c_void,
    control_len: usize,
    flags: c_int,
}

/// struct cmsghdr, with one descriptor.
#[repr(C, align(8))]
struct Rights {
    len: usize,
    level: c_int,
    kind: c_int,
    fd: c_int,
}
const SCM_RIGHTS: c_int = 1;
const MSG_NOSIGNAL: c_int = 0x4000;

/// Sends bytes, of which the first comes with a descriptor; how many were sent.
pub fn send_with(sock: RawFd, bytes: &[u8], fd: RawFd) -> io::Result<usize> {
    let head = std::mem::size_of::<usize>() + 2 * std::mem::size_of::<c_int>();
    let rights = Rights { len: head + std::mem::size_of::<c_int>(), level: SOL_SOCKET, kind: SCM_RIGHTS, fd };
    let piece = Piece { base: bytes.as_ptr().cast(), len: bytes.len() };
    let message = Message {
        name: std::ptr::null(),
        name_len: 0,
        pieces: &piece,
        count: 1,
        control: (&rights as *const Rights).cast(),
        control_len: std::mem::size_of::<Rights>(),
        flags: 0,
    };
    // SAFETY: all that the message points to lives until the call has returned, and is only read.
    match unsafe { sendmsg(sock, &message, MSG_NOSIGNAL) } {
        count if count >= 0 => Ok(count as usize),
        _ => Err(io::Error::last_os_error()),
    }
}
