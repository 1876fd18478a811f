//! The socket that clients connect to, and what the service manager is told.
use crate::ending::End;
use crate::sys;
use std::io::ErrorKind;
use std::os::unix::fs::{FileTypeExt, PermissionsExt};
use std::os::unix::net::{UnixDatagram, UnixListener, UnixStream};
use std::time::Duration;

/// The users file says who may ask, so anybody may connect.
const MODE: u32 = 0o666;
/// How long the service manager may take to read what it waits for.
const PATIENCE: Duration = Duration::from_secs(5);

/// The socket that systemd passes, if it does. It is taken before the core starts, which would have it too.
pub fn passed() -> Option<UnixListener> {
    let number = |name| std::env::var(name).ok().and_then(|value| value.parse::<u32>().ok());
    if number("LISTEN_PID") == Some(std::process::id()) && number("LISTEN_FDS") == Some(1) {
        Some(sys::passed_listener())
    } else {
        None
    }
}

/// The listening socket, and its path where it is the front's own to remove.
pub fn listener(passed: Option<UnixListener>, path: Option<&str>) -> Result<(UnixListener, Option<String>), End> {
    let (listener, own) = match (passed, path) {
        (Some(listener), _) => (listener, None),
        (None, Some(path)) => (bound(path)?, Some(path.to_string())),
        (None, None) => return Err(End::words("neither --socket nor a socket that was passed")),
    };
    listener.set_nonblocking(true).map_err(|error| End::own("listen", error))?;
    Ok((listener, own))
}

fn bound(path: &str) -> Result<UnixListener, End> {
    let told = |error| End::own(path, error);
    if std::fs::symlink_metadata(path).map_or(false, |meta| meta.file_type().is_socket()) {
        match UnixStream::connect(path) {
            Ok(_) => return Err(End::own(path, "in use")),
            // (nobody listens there any more)
            Err(error) if error.kind() == ErrorKind::ConnectionRefused => std::fs::remove_file(path).map_err(told)?,
            Err(error) => return Err(told(error)),
        }
    }
    let listener = UnixListener::bind(path).map_err(told)?;
    std::fs::set_permissions(path, std::fs::Permissions::from_mode(MODE)).map_err(told)?;
    Ok(listener)
}

/// Sends to the service manager, where there is one, and waits at most so long until there is room for it. An abstract
/// name is not understood.
fn send(text: &str, most: Option<Duration>) {
    if let (Ok(path), Ok(socket)) = (std::env::var("NOTIFY_SOCKET"), UnixDatagram::unbound()) {
        // (that it isn't heard is of no consequence here)
        let _ = socket.set_nonblocking(most.is_none()).and(socket.set_write_timeout(most));
        let _ = socket.send_to(text.as_bytes(), path);
    }
}

/// Tells the service manager what it waits for.
pub fn notify(text: &str) {
    send(text, Some(PATIENCE));
}

/// Tells the service manager what it hears again later: a manager that reads nothing holds up nobody.
pub fn mention(text: &str) {
    send(text, None);
}
