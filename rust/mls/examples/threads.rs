//! Four threads ask one monitor: `threads START`.
use mls::{Mode, Monitor};
use std::sync::Mutex;

fn main() -> Result<(), Box<dyn std::error::Error>> {
    let path = std::env::args().nth(1).ok_or("threads START")?;
    let monitor = Monitor::open(&std::fs::read(path)?)?;
    let ann = monitor.subject("ann").ok_or("the start has no ann")?;
    let plans = monitor.object("plans").ok_or("the start has no plans")?;
    let monitor = Mutex::new(monitor);
    std::thread::scope(|scope| {
        for session in 0..4 {
            let monitor = &monitor;
            scope.spawn(move || {
                for _ in 0..1000 {
                    let answer = monitor.lock().unwrap().get(session, ann, plans, Mode::Read);
                    assert!(answer.expect("memory").is_granted());
                }
            });
        }
    });
    let monitor = monitor.into_inner()?;
    println!("{} entries, held: {}", monitor.entry_count(), monitor.check(ann, plans, Mode::Read));
    Ok(())
}
