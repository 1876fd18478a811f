//! The crate over the library: each call, each error, and what is resumed.
use mls::*;

const START: &[u8] = include_bytes!("../../../examples/standard.json");
const ANN: Subject = Subject(0);
const BOB: Subject = Subject(1);
const SEC: Subject = Subject(2);
const ROOT: Object = Object(0);
const PLANS: Object = Object(1);
const MEMO: Object = Object(2);
const MADE: Object = Object(4);
const KEPT: &str = "0 5 0 get-read 1 yes\n1 6 1 get-read 2 no star\n";

fn opened() -> Monitor {
    Monitor::open(START).unwrap()
}

fn label(level: u8, categories: &[u8]) -> Label {
    Label::new(level, categories.iter().copied()).unwrap()
}

/// The standard start with a part of it changed, once.
fn start_with(old: &str, new: &str) -> Vec<u8> {
    let text = std::str::from_utf8(START).unwrap();
    assert!(text.contains(old));
    text.replacen(old, new, 1).into_bytes()
}

#[test]
fn each_action() {
    let mut m = opened();
    let (security, integrity) = (label(2, &[0]), label(0, &[]));
    let answers = [
        m.get(10, SEC, ROOT, Mode::Write),
        m.create(11, SEC, ROOT, security, integrity),
        m.give(12, SEC, BOB, MADE, Mode::Append),
        m.get(13, BOB, MADE, Mode::Append),
        m.relabel(14, SEC, MADE, security),
        m.rescind(15, SEC, BOB, MADE, Mode::Append),
        m.delete(16, SEC, MADE),
        m.release(17, SEC, ROOT, Mode::Write),
        m.level(18, BOB, label(1, &[])),
        m.get(u32::MAX, BOB, MADE, Mode::Execute),
    ]
    .map(Result::unwrap);
    let texts = ["yes", "created 4", "yes", "yes", "yes", "yes", "yes", "yes", "yes", "undefined"];
    assert_eq!(answers.map(|it| it.to_string()), texts);
    let requests = [
        Request::Get { subject: SEC, object: ROOT, mode: Mode::Write },
        Request::Create { subject: SEC, parent: ROOT, security, integrity },
        Request::Give { subject: SEC, other: BOB, object: MADE, mode: Mode::Append },
        Request::Get { subject: BOB, object: MADE, mode: Mode::Append },
        Request::Relabel { subject: SEC, object: MADE, security },
        Request::Rescind { subject: SEC, other: BOB, object: MADE, mode: Mode::Append },
        Request::Delete { subject: SEC, object: MADE },
        Request::Release { subject: SEC, object: ROOT, mode: Mode::Write },
        Request::Level { subject: BOB, security: label(1, &[]) },
        Request::Get { subject: BOB, object: MADE, mode: Mode::Execute },
    ];
    let sessions = [10, 11, 12, 13, 14, 15, 16, 17, 18, u32::MAX];
    for (n, entry) in m.entries(0).enumerate() {
        let wanted = Entry { session: sessions[n], request: requests[n], answer: answers[n] };
        assert_eq!((entry, answers[n].number), (wanted, n as u64));
    }
    assert_eq!((m.entry_count(), m.entries(4).count(), m.entries(11).count()), (10, 6, 0));
    let lines = "0 10 2 get-write 0 yes\n\
                 1 11 2 create 0 2:0 0 created 4\n\
                 2 12 2 give append 1 4 yes\n\
                 3 13 1 get-append 4 yes\n\
                 4 14 2 relabel 4 2:0 yes\n\
                 5 15 2 rescind append 1 4 yes\n\
                 6 16 2 delete 4 yes\n\
                 7 17 2 release write 0 yes\n\
                 8 18 1 level 1 yes\n\
                 9 4294967295 1 get-execute 4 undefined\n";
    assert_eq!(m.journal(0).unwrap(), lines);
    assert_eq!(m.line(4).unwrap(), "4 14 2 relabel 4 2:0 yes\n");
}

#[test]
fn a_denial_is_an_answer() {
    let mut m = opened();
    let answer = m.get(6, BOB, MEMO, Mode::Read).unwrap();
    assert_eq!(answer, Answer { number: 0, reply: Reply::Denied(Reason::Star), object: None });
    assert!(!answer.is_granted());
    assert_eq!(m.entry(0).unwrap().session, 6);
}

#[test]
fn decide_changes_nothing() {
    let m = opened();
    let get = Request::Get { subject: ANN, object: PLANS, mode: Mode::Read };
    for _ in 0..2 {
        assert_eq!(m.decide(&get), Answer { number: 0, reply: Reply::Yes, object: None });
    }
    assert_eq!((m.entry_count(), m.check(ANN, PLANS, Mode::Read), m.journal(0)), (0, false, Ok(String::new())));
}

#[test]
fn check_sees_what_is_held() {
    let mut m = opened();
    assert!(m.get(0, ANN, PLANS, Mode::Read).unwrap().is_granted());
    assert!(m.check(ANN, PLANS, Mode::Read));
    let rows = [(ANN, PLANS, Mode::Write), (BOB, PLANS, Mode::Read), (ANN, Object(4095), Mode::Read)];
    for (subject, object, mode) in rows.into_iter().chain([(Subject(300), PLANS, Mode::Read)]) {
        assert!(!m.check(subject, object, mode));
    }
    assert!(m.release(0, ANN, PLANS, Mode::Read).unwrap().is_granted());
    assert!(!m.check(ANN, PLANS, Mode::Read));
}

#[test]
fn names_and_labels() {
    let m = opened();
    assert_eq!((m.subject("sec"), m.object("memo")), (Some(SEC), Some(MEMO)));
    assert_eq!((m.subject("memo"), m.object("sec")), (None, None));
    for name in ["", "n\0", "\u{ff}", "ann "] {
        assert_eq!((m.subject(name), m.object(name)), (None, None));
    }
    let both = m.read_label(Kind::Security, "S:B,A").unwrap();
    assert_eq!((both, m.write_label(Kind::Security, &both)), (label(2, &[0, 1]), Ok("S:A,B".into())));
    assert_eq!(m.read_label(Kind::Integrity, "hi"), Ok(label(1, &[])));
    assert_eq!(m.write_label(Kind::Integrity, &label(1, &[])), Ok("hi".into()));
    for text in ["Q", "", "S:", "S\0", "hi"] {
        assert_eq!(m.read_label(Kind::Security, text), Err(LabelError::NoSuchLabel));
    }
    for (kind, level) in [(Kind::Security, 4), (Kind::Security, 15), (Kind::Integrity, 2)] {
        assert_eq!(m.write_label(kind, &label(level, &[])), Err(LabelError::NoSuchLabel));
    }
}

#[test]
fn lines_longer_than_the_first_room() {
    let names: Vec<_> = ["A".into(), "B".into()].into_iter().chain((2..256).map(|n| format!("c{n:03}"))).collect();
    let start = start_with("\"categories\": [\"A\", \"B\"]", &format!("\"categories\": {names:?}"));
    let mut m = Monitor::open(&start).unwrap();
    let all = m.read_label(Kind::Security, &format!("T:{}", names.join(","))).unwrap();
    assert_eq!((all, all.categories().count()), (label(3, &(0..=255).collect::<Vec<_>>()), 256));
    let text = m.write_label(Kind::Security, &all).unwrap();
    assert_eq!(m.read_label(Kind::Security, &text), Ok(all));
    let _ = m.level(0, BOB, all).unwrap();
    assert!(m.line(0).unwrap().len() > 900);
    assert_eq!(m.entry(0).unwrap().request, Request::Level { subject: BOB, security: all });
}

#[test]
fn entries_that_there_are_none_of() {
    let m = opened();
    for n in [0, 1, u64::MAX] {
        assert_eq!((m.entry(n), m.line(n)), (None, Err(EntryError::NoSuchEntry)));
    }
}

#[test]
fn entries_that_are_forgotten() {
    let mut m = opened();
    for _ in 0..3 {
        let _ = m.get(0, BOB, MEMO, Mode::Read).unwrap();
    }
    let kept = m.line(2).unwrap();
    m.forget(2);
    assert_eq!((m.forgotten(), m.entry_count(), m.line(2)), (2, 3, Ok(kept.clone())));
    assert!(m.entry(1).is_none() && m.line(1) == Err(EntryError::NoSuchEntry));
    assert_eq!(m.entries(0).map(|it| it.answer.number).collect::<Vec<_>>(), [2]);
    assert_eq!((m.journal(2), m.journal(1)), (Ok(kept), Err(EntryError::NoSuchEntry)));
    m.forget(u64::MAX);
    assert_eq!((m.forgotten(), m.entries(0).count()), (3, 0));
    assert_eq!(m.get(0, BOB, MEMO, Mode::Read).unwrap().number, 3);
}

#[test]
fn a_journal_is_resumed() {
    let mut m = Monitor::resume(START, KEPT.as_bytes()).unwrap();
    assert_eq!((m.entry_count(), m.check(ANN, PLANS, Mode::Read), m.journal(0).unwrap()), (2, true, KEPT.into()));
    assert!(m.release(0, ANN, PLANS, Mode::Read).unwrap().is_granted());
    assert_eq!(m.journal(2).unwrap(), "2 0 0 release read 1 yes\n");
    assert_eq!(m.journal(9).unwrap(), "");
    assert_eq!(Monitor::resume(START, b"").unwrap().entry_count(), 0);
}

/// A store in miniature: it keeps each line and each entry, and goes on from a state's text.
#[test]
fn a_monitor_that_goes_on() {
    let mut m = opened();
    let (security, low) = (label(2, &[1]), label(0, &[]));
    let answers = [
        m.get(0, ANN, PLANS, Mode::Read),
        m.get(0, SEC, ROOT, Mode::Write),
        m.create(0, SEC, ROOT, security, low),
        m.give(0, SEC, BOB, MADE, Mode::Append),
        m.get(0, BOB, MADE, Mode::Append),
        m.delete(0, SEC, MEMO),
    ];
    assert!(answers.iter().all(|it| it.unwrap().is_granted()));
    let (mut lines, state, number) = (m.journal(0).unwrap(), m.state_text().unwrap(), m.entry_count());
    m.forget(number);
    let last = [m.release(9, ANN, PLANS, Mode::Read).unwrap(), m.create(0, SEC, ROOT, low, low).unwrap()];
    assert_eq!(last.map(|it| it.number), [6, 7]);
    lines += &m.journal(number).unwrap();
    let (behind, at_last) = (m.entries(0).collect::<Vec<_>>(), m.state_text().unwrap());
    drop(m);
    let mut on = Monitor::open_state(START, state.as_bytes(), number).unwrap();
    assert_eq!((on.entry_count(), on.forgotten(), on.entries(0).count()), (6, 6, 0));
    assert_eq!((on.entry(5), on.line(5), on.state_text()), (None, Err(EntryError::NoSuchEntry), Ok(state)));
    assert!(on.check(ANN, PLANS, Mode::Read) && on.check(BOB, MADE, Mode::Append));
    for entry in &behind {
        assert_eq!(on.submit(entry.session, &entry.request), Ok(entry.answer));
    }
    assert_eq!((on.entries(0).collect::<Vec<_>>(), on.state_text().unwrap()), (behind, at_last));
    assert_eq!(on.get(3, BOB, PLANS, Mode::Read).unwrap().number, 8);
    lines += &on.line(8).unwrap();
    let whole = Monitor::resume(START, lines.as_bytes()).unwrap();
    assert_eq!((whole.state_text(), whole.entry_count()), (on.state_text(), 9));
}

#[test]
fn states_that_are_refused() {
    let state = opened().state_text().unwrap();
    let refused = |text: &str| Monitor::open_state(START, text.as_bytes(), 7).unwrap_err();
    let last = "permit aud read plans\n";
    assert!(state.ends_with(last));
    let rows = [
        (String::new(), OpenStateError::Line(0)),
        (state[..state.len() - 1].into(), OpenStateError::Line(21)),
        (state.replace("next 4", "next 3"), OpenStateError::Line(1)),
        (state.replace("profile 1", "profile 2"), OpenStateError::OtherStart),
        (state.replace("bob maximum C", "bob maximum S"), OpenStateError::OtherStart),
        (format!("{state}access bob read memo\n"), OpenStateError::NotSecure),
    ];
    for (text, error) in rows {
        assert_eq!(refused(&text), error, "{text}");
    }
    // what a call is lent may not overlap: the crate sees to that
    assert_eq!(Monitor::open_state(START, START, 7).unwrap_err(), OpenStateError::Line(0));
    let error = Monitor::open_state(b"{}", state.as_bytes(), 7).unwrap_err();
    assert_eq!(error, OpenStateError::Start(LoadFault::Members));
    let most = 1 << 63;
    let error = Monitor::open_state(START, state.as_bytes(), most + 1).unwrap_err();
    assert_eq!((error, error.to_string().as_str()), (OpenStateError::TooManyEntries, "too many entries"));
    let mut on = Monitor::open_state(START, state.as_bytes(), most).unwrap();
    assert_eq!((on.get(0, ANN, PLANS, Mode::Read).unwrap().number, on.entry_count()), (most, most + 1));
}

#[test]
fn starts_that_are_refused() {
    let rows = [
        (b"".to_vec(), LoadFault::Json, "start 1 Json"),
        (b"{}".to_vec(), LoadFault::Members, "start 2 Members"),
        (start_with("[\"lo\", \"hi\"]", "[]"), LoadFault::Scheme(SchemeFault::NoLevels), "start 3 Scheme 1 NoLevels"),
        (start_with("{\"name\": \"ann\"", "{\"name\": \"bob\""), LoadFault::Name, "start 4 Name"),
        (start_with("\"maximum\": \"C\"", "\"maximum\": \"Q\""), LoadFault::Label, "start 5 Label"),
        (start_with("\"parent\": \"root\"", "\"parent\": \"roof\""), LoadFault::Unknown, "start 6 Unknown"),
        (
            start_with("\"current\": \"U\"", "\"current\": \"T:A,B\""),
            LoadFault::Start(StartFault::CurrentAboveMaximum),
            "start 7 Start 6 CurrentAboveMaximum",
        ),
    ];
    for (start, fault, text) in rows {
        let error = Monitor::open(&start).unwrap_err();
        assert_eq!((error, error.to_string().as_str()), (OpenError::Start(fault), text));
        assert_eq!(Monitor::resume(&start, b"x").unwrap_err(), error);
    }
}

#[test]
fn journals_that_are_refused() {
    let refused = |journal: &str| Monitor::resume(START, journal.as_bytes()).unwrap_err();
    let rows = [
        ("x\n", EntryFault::BadForm, "line 3: entry 1 BadForm"),
        ("70000000000000000000000 0 0 delete 1 yes\n", EntryFault::BadNumber, "line 3: entry 2 BadNumber"),
        ("2 0 0 level 16 yes\n", EntryFault::BadLabel, "line 3: entry 3 BadLabel"),
        ("2 0 0 delete 1 no\n", EntryFault::BadReply, "line 3: entry 4 BadReply"),
    ];
    for (line, fault, text) in rows {
        let error = refused(&format!("{KEPT}{line}"));
        assert_eq!((error, error.to_string().as_str()), (OpenError::Line { line: 2, fault }, text));
    }
    let error = refused(&format!("{KEPT}{KEPT}"));
    assert_eq!(error, OpenError::Replay { entry: 2, fault: ReplayFault::Number });
    assert_eq!(error.to_string(), "replay 1 Number at 2");
    let error = refused(&KEPT.replace("no star", "yes"));
    assert_eq!(error, OpenError::Replay { entry: 1, fault: ReplayFault::Differs(Reply::Denied(Reason::Star)) });
    assert_eq!(error.to_string(), "replay 2 Differs at 1 expected no star");
}

/// What a call is lent may not overlap: the crate sees to that.
#[test]
fn a_journal_within_its_start() {
    let error = Monitor::resume(START, START).unwrap_err();
    assert_eq!(error, OpenError::Line { line: 0, fault: EntryFault::BadForm });
    assert_eq!(Monitor::resume(START, &START[..0]).unwrap().entry_count(), 0);
}

#[test]
fn words_are_those_of_scripts() {
    assert_eq!(Mode::ALL.map(|it| it.to_string()), ["execute", "read", "append", "write"]);
    let reasons =
        ["discretionary", "simple", "star", "integrity", "authority", "compatibility", "ceiling", "root", "full"];
    assert_eq!(Reason::ALL.map(|it| it.to_string()), reasons);
    assert_eq!(Reply::Denied(Reason::Full).to_string(), "no full");
}

#[test]
fn values_are_printed_for_debugging() {
    let m = Monitor::resume(START, KEPT.as_bytes()).unwrap();
    assert_eq!(format!("{m:?}"), "Monitor { entry_count: 2, .. }");
}
