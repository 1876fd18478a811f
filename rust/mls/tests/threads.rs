//! A monitor behind a mutex, asked by many threads; and one that goes from thread to thread.
use mls::{CloseError, Labels, LinesError, Mode, Monitor, Object, Office, OfficeError, Request, Session, Subject};
use std::sync::{Arc, Mutex};
use std::thread;

const START: &[u8] = include_bytes!("../../../examples/standard.json");
const THREADS: u32 = 8;
const ROUNDS: usize = 500;

#[test]
fn threads_take_turns() {
    let monitor = Arc::new(Mutex::new(Monitor::open(START).unwrap()));
    let work = |session: u32| {
        let monitor = Arc::clone(&monitor);
        move || {
            let (ann, plans) = (Subject(0), Object(1));
            for _ in 0..ROUNDS {
                let mut m = monitor.lock().unwrap();
                assert!(m.get(session, ann, plans, Mode::Read).unwrap().is_granted());
                assert!(m.check(ann, plans, Mode::Read));
                drop(m);
                assert!(monitor.lock().unwrap().release(session, ann, plans, Mode::Read).unwrap().is_granted());
            }
        }
    };
    let running: Vec<_> = (0..THREADS).map(|session| thread::spawn(work(session))).collect();
    for it in running {
        it.join().unwrap();
    }
    let m = monitor.lock().unwrap();
    assert_eq!(m.entry_count(), u64::from(THREADS) * 2 * ROUNDS as u64);
    for session in 0..THREADS {
        assert_eq!(m.entries(0).filter(|it| it.session == session).count(), 2 * ROUNDS);
    }
    let resumed = Monitor::resume(START, m.journal(0).unwrap().as_bytes()).unwrap();
    assert_eq!(resumed.entry_count(), m.entry_count());
}

#[test]
fn a_monitor_goes_from_thread_to_thread() {
    let mut monitor = Monitor::open(START).unwrap();
    for session in 0..THREADS {
        monitor = thread::spawn(move || {
            assert!(monitor.get(session, Subject(0), Object(1), Mode::Read).unwrap().is_granted());
            monitor
        })
        .join()
        .unwrap();
    }
    assert_eq!(monitor.entry_count(), u64::from(THREADS));
}

#[test]
fn sessions_ask_side_by_side() {
    let (office, sessions) = Office::open(Monitor::open(START).unwrap(), THREADS as u16).unwrap();
    let work = |mut session: Session| {
        move || {
            let (ann, plans) = (Subject(0), Object(1));
            let mut numbers = Vec::new();
            for _ in 0..ROUNDS {
                numbers.push(session.get(ann, plans, Mode::Read).unwrap().number);
                session.check(ann, plans, Mode::Read);
                assert!(session.decide(&Request::Get { subject: ann, object: plans, mode: Mode::Read }).is_granted());
                numbers.push(session.release(ann, plans, Mode::Read).unwrap().number);
            }
            (session, numbers)
        }
    };
    let running: Vec<_> = sessions.into_iter().map(|it| thread::spawn(work(it))).collect();
    let (sessions, numbers): (Vec<_>, Vec<_>) = running.into_iter().map(|it| it.join().unwrap()).unzip();
    let monitor = office.close(sessions).unwrap();
    assert_eq!(monitor.entry_count(), u64::from(THREADS) * 2 * ROUNDS as u64);
    for (session, wanted) in numbers.into_iter().enumerate() {
        let found = monitor.entries(0).filter(|it| it.session == session as u32).map(|it| it.answer.number);
        assert_eq!(found.collect::<Vec<_>>(), wanted);
    }
    let resumed = Monitor::resume(START, monitor.journal(0).unwrap().as_bytes()).unwrap();
    assert_eq!(resumed.entry_count(), monitor.entry_count());
}

#[test]
fn a_session_sees_and_reads_what_another_did() {
    let mut monitor = Monitor::open(START).unwrap();
    let (ann, bob, plans) = (Subject(0), Subject(1), Object(1));
    assert!(monitor.get(0, ann, plans, Mode::Read).unwrap().is_granted());
    let (root, journal) = (monitor.object_info(Object(0)).unwrap(), monitor.journal(0).unwrap());
    let wanted = (monitor.subject_info(bob), monitor.pair(ann, plans), monitor.counts());
    let request = Request::Get { subject: bob, object: Object(2), mode: Mode::Read };
    let (why, children) = (monitor.explain(&request), monitor.children(Object(0)).collect::<Vec<_>>());
    let said = monitor.decide_label(bob, Mode::Read, &root.security, &root.integrity);
    let (office, mut sessions) = Office::open(monitor, 2).unwrap();
    let (mut one, mut other) = (sessions.remove(0), sessions.remove(0));
    assert_eq!((other.subject_info(bob), other.pair(ann, plans), other.counts()), wanted);
    assert_eq!((other.explain(&request), other.object_info(Object(0))), (why, Some(root)));
    assert_eq!(other.decide_label(bob, Mode::Read, &root.security, &root.integrity), said);
    let rows = [Labels::new(&root.security, &root.integrity); 3];
    assert_eq!(other.decide_labels(bob, Mode::Read, &rows), [said; 3]);
    let next = |last: &Object| other.child_after(Object(0), *last);
    assert_eq!(std::iter::successors(Some(Object(0)), next).skip(1).collect::<Vec<_>>(), children);
    assert_eq!(other.lines(0, 1 << 16).unwrap(), (journal.clone(), 1));
    assert_eq!(other.lines(1, 0).unwrap(), (String::new(), 1));
    assert_eq!((one.changes(), other.changes()), (0, 0));
    let number = one.release(ann, plans, Mode::Read).unwrap().number;
    assert_eq!((other.changes(), one.changes()), (1, 1));
    assert!(other.see(number + 1) && !other.see(number + 2));
    assert!(!other.check(ann, plans, Mode::Read));
    let (line, after) = other.lines(1, 1 << 16).unwrap();
    assert_eq!(
        (after, other.lines(3, 9), other.lines(0, 9)),
        (2, Err(LinesError::NoSuchEntry), Err(LinesError::NoRoom))
    );
    assert!(one.get(ann, plans, Mode::Read).unwrap().is_granted());
    one.meet(&mut other);
    assert!(other.check(ann, plans, Mode::Read));
    let monitor = office.close(vec![one, other]).unwrap();
    assert!(monitor.journal(0).unwrap().starts_with(&(journal + &line)));
}

#[test]
fn entries_are_forgotten_while_an_office_is_open() {
    let monitor = Monitor::open(START).unwrap();
    let (ann, plans) = (monitor.subject("ann").unwrap(), monitor.object("plans").unwrap());
    let (office, mut sessions) = Office::open(monitor, 2).unwrap();
    let (mut one, mut other) = (sessions.remove(0), sessions.remove(0));
    assert!(one.get(ann, plans, Mode::Read).unwrap().is_granted());
    assert_eq!(other.release(ann, plans, Mode::Read).unwrap().number, 1);
    let last = one.lines(1, 1 << 16).unwrap();
    one.forget(1);
    assert_eq!(other.lines(0, 1 << 16), Err(LinesError::NoSuchEntry));
    assert_eq!(other.lines(1, 1 << 16), Ok(last.clone()));
    let monitor = office.close(vec![one, other]).unwrap();
    assert_eq!((monitor.forgotten(), monitor.entry_count(), monitor.line(1)), (1, 2, Ok(last.0)));
}

#[test]
fn an_office_is_closed_with_its_sessions_alone() {
    for count in [0, Office::MAX_SESSIONS + 1] {
        let refused = Office::open(Monitor::open(START).unwrap(), count).unwrap_err();
        assert!(matches!(refused, OfficeError::BadCount(_)));
    }
    let (office, mut sessions) = Office::open(Monitor::open(START).unwrap(), 2).unwrap();
    let (_other, mut strangers) = Office::open(Monitor::open(START).unwrap(), 2).unwrap();
    assert!(sessions[1].get(Subject(0), Object(1), Mode::Read).unwrap().is_granted());
    assert!(!strangers[1].check(Subject(0), Object(1), Mode::Read));
    let (first, second) = (sessions.remove(0), sessions.remove(0));
    let CloseError { office, sessions } = office.close(vec![second]).unwrap_err();
    let CloseError { office, mut sessions } =
        office.close(sessions.into_iter().chain([strangers.remove(0)]).collect()).unwrap_err();
    let second = sessions.remove(1);
    let monitor = office.close(vec![second, first]).unwrap();
    assert_eq!(monitor.entries(0).map(|it| it.session).collect::<Vec<_>>(), [1]);
    let (office, mut sessions) = Office::open(monitor, 3).unwrap();
    drop(sessions.remove(1));
    assert!(office.close(sessions).is_err());
}

#[test]
fn no_office_takes_the_sessions_of_one_that_was_dropped() {
    for _ in 0..20 {
        let (office, stale) = Office::open(Monitor::open(START).unwrap(), 2).unwrap();
        drop(office);
        let (office, sessions) = Office::open(Monitor::open(START).unwrap(), 2).unwrap();
        let CloseError { office, sessions: mut stale } = office.close(stale).unwrap_err();
        assert!(stale[1].get(Subject(0), Object(1), Mode::Read).unwrap().is_granted());
        assert_eq!(office.close(sessions).unwrap().entry_count(), 0);
    }
}

#[test]
fn an_office_is_dropped_while_its_sessions_ask() {
    let (office, sessions) = Office::open(Monitor::open(START).unwrap(), THREADS as u16).unwrap();
    let work = |mut session: Session| {
        move || {
            for _ in 0..ROUNDS {
                assert!(session.get(Subject(0), Object(1), Mode::Read).unwrap().is_granted());
                session.check(Subject(0), Object(1), Mode::Read);
                assert!(session.release(Subject(0), Object(1), Mode::Read).unwrap().is_granted());
            }
        }
    };
    let running: Vec<_> = sessions.into_iter().map(|it| thread::spawn(work(it))).collect();
    drop(office);
    for it in running {
        it.join().unwrap();
    }
}
