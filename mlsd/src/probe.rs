//! `mlsd --probe SOCKET`: whether a line is answered there, for whoever looks after it.
use crate::ending::End;
use std::io::{BufRead, BufReader, Write};
use std::os::unix::net::UnixStream;
use std::sync::mpsc::channel;
use std::time::Duration;

const MOST: Duration = Duration::from_secs(2);
/// What the core is asked for it, and the answer.
pub const LINE: &str = "probe";
pub const ANSWER: &str = "yes";

fn asked(path: &str) -> Result<(), String> {
    let told = |error: std::io::Error| error.to_string();
    let mut stream = UnixStream::connect(path).map_err(told)?;
    let mut reader = BufReader::new(stream.try_clone().map_err(told)?);
    let mut line = String::new();
    reader.read_line(&mut line).map_err(told)?;
    if !line.starts_with("session ") {
        return Err(format!("refused: {}", if line.is_empty() { "the end" } else { line.trim_end() }));
    }
    stream.write_all(format!("{LINE}\n").as_bytes()).map_err(told)?;
    line.clear();
    reader.read_line(&mut line).map_err(told)?;
    match line.strip_suffix('\n') {
        Some(ANSWER) => Ok(()),
        Some(answer) => Err(format!("answered: {answer}")),
        None => Err("the end, and no answer".to_string()),
    }
}

/// Asks, and waits for so long; a connection may wait for ever, so another thread makes it.
pub fn probe(path: String) -> Result<(), End> {
    let (sender, receiver) = channel();
    let name = path.clone();
    std::thread::spawn(move || sender.send(asked(&path)));
    let told = receiver.recv_timeout(MOST).unwrap_or_else(|_| Err("no answer within 2 s".to_string()));
    told.map_err(|told| End::own(&name, told))
}
