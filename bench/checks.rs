//! What checks cost in plain Rust: a table of accesses behind a reader/writer lock, or behind an atomic pointer that is swapped for a copy
//! (read-copy-update; a copy is made at every 64th write, and none is freed, so that no reader need be waited for). The words are those of `mls_probes gate`.
use std::sync::atomic::{AtomicPtr, Ordering};
use std::sync::RwLock;
use std::thread;

/// Whether a subject accesses an object in a mode: a bit for each.
type Table = Vec<u64>;

fn place(subject: usize, object: usize) -> usize {
    subject / 8 * 4096 + object
}

fn is_held(table: &Table, subject: usize, object: usize, mode: usize) -> bool {
    table[place(subject, object)] >> (subject % 8 * 4 + mode) & 1 == 1
}

fn release(table: &mut Table, subject: usize, object: usize, mode: usize) {
    table[place(subject, object)] &= !(1 << (subject % 8 * 4 + mode));
}

fn main() {
    let words: Vec<String> = std::env::args().collect();
    let number = |k: usize| words[k].parse::<usize>().unwrap();
    let (writers, made, lookers, looks) = (number(2), number(3), number(5), number(6));
    let locked = RwLock::new(vec![0u64; 4096]);
    let pointer = AtomicPtr::new(Box::into_raw(Box::new(vec![0u64; 4096])));
    let by_lock = words[1] == "rwlock";
    let held = |k: usize| {
        if by_lock {
            is_held(&locked.read().unwrap(), 0, k % 4, 1)
        } else {
            // Safe: no copy is freed.
            is_held(unsafe { &*pointer.load(Ordering::Acquire) }, 0, k % 4, 1)
        }
    };
    let write = |k: usize| {
        let mut table = locked.write().unwrap();
        release(&mut table, 0, k % 4, 1);
        if !by_lock && k % 64 == 0 {
            pointer.store(Box::into_raw(Box::new(table.clone())), Ordering::Release);
        }
    };
    thread::scope(|scope| {
        for _ in 0..writers {
            scope.spawn(|| (0..made).for_each(write));
        }
        for _ in 0..lookers {
            scope.spawn(|| println!("{}", (0..looks).filter(|k| std::hint::black_box(held(*k))).count()));
        }
    });
}
