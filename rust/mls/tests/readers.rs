//! The crate over the library: decisions by labels, what a monitor holds, and explanations.
use mls::*;
use std::collections::BTreeSet;

const START: &[u8] = include_bytes!("../../../examples/standard.json");
const ANN: Subject = Subject(0);
const BOB: Subject = Subject(1);
const SEC: Subject = Subject(2);
const AUD: Subject = Subject(3);
const ROOT: Object = Object(0);
const PLANS: Object = Object(1);
const MEMO: Object = Object(2);
const TOOL: Object = Object(3);
const MADE: Object = Object(4);

fn opened() -> Monitor {
    Monitor::open(START).unwrap()
}

fn label(level: u8, categories: &[u8]) -> Label {
    Label::new(level, categories.iter().copied()).unwrap()
}

fn pairs() -> impl Iterator<Item = (Subject, Object, Mode)> {
    let subjects = [ANN, BOB, SEC, AUD].into_iter();
    let pairs = subjects.flat_map(|s| [ROOT, PLANS, MEMO, TOOL].map(|o| (s, o)));
    pairs.flat_map(|(s, o)| Mode::ALL.map(|x| (s, o, x)))
}

#[test]
fn dominance() {
    let labels = [(0, &[][..]), (1, &[]), (1, &[0]), (1, &[0, 64]), (2, &[64]), (15, &[0, 64, 255])];
    for (a, b) in labels.iter().flat_map(|a| labels.map(|b| (a, b))) {
        let wanted = a.0 >= b.0 && b.1.iter().all(|it| a.1.contains(it));
        assert_eq!(label(a.0, a.1).dominates(&label(b.0, b.1)), wanted, "{a:?} {b:?}");
    }
}

#[test]
fn decisions_by_labels() {
    let mut m = opened();
    let (secret, low) = (label(2, &[0]), label(0, &[]));
    assert_eq!(m.decide_label(ANN, Mode::Read, &secret, &label(1, &[])), Reply::Yes);
    assert_eq!(m.decide_label(ANN, Mode::Read, &label(2, &[1]), &low), Reply::Denied(Reason::Simple));
    assert_eq!(m.decide_label(BOB, Mode::Read, &label(1, &[]), &low), Reply::Denied(Reason::Star));
    assert_eq!(m.decide_label(ANN, Mode::Read, &secret, &low), Reply::Denied(Reason::Integrity));
    assert_eq!(m.decide_label(BOB, Mode::Append, &secret, &low), Reply::Yes);
    assert_eq!(m.decide_label(BOB, Mode::Append, &low, &label(1, &[])), Reply::Denied(Reason::Integrity));
    assert_eq!(m.decide_label(SEC, Mode::Write, &low, &low), Reply::Denied(Reason::Integrity));
    // (one label may be both)
    assert_eq!(m.decide_label(BOB, Mode::Read, &low, &low), Reply::Yes);
    for undefined in [
        m.decide_label(Subject(4), Mode::Read, &low, &low),
        m.decide_label(ANN, Mode::Read, &label(4, &[]), &low),
        m.decide_label(ANN, Mode::Read, &low, &label(0, &[0])),
    ] {
        assert_eq!(undefined, Reply::Undefined);
    }
    assert!(m.level(0, BOB, label(1, &[])).unwrap().is_granted());
    assert_eq!(m.decide_label(BOB, Mode::Read, &label(1, &[]), &low), Reply::Yes);
    assert_eq!(m.entry_count(), 1);
}

/// Each reply is that of the call for its row.
#[test]
fn batches() {
    let m = opened();
    let securities =
        [(0, &[][..]), (1, &[]), (2, &[0]), (2, &[1, 64]), (3, &[0, 1]), (4, &[])].map(|it| label(it.0, it.1));
    let integrities = [(0, &[][..]), (1, &[]), (0, &[200])].map(|it| label(it.0, it.1));
    let rows: Vec<_> = securities.iter().flat_map(|s| integrities.map(|i| Labels::new(s, &i))).collect();
    for (subject, mode) in (0..5).flat_map(|s| Mode::ALL.map(|x| (Subject(s), x))) {
        let wanted = rows.iter().map(|it| m.decide_label(subject, mode, &it.security(), &it.integrity()));
        assert_eq!(m.decide_labels(subject, mode, &rows), wanted.collect::<Vec<_>>());
        assert_eq!(m.decide_labels(subject, mode, &rows[..1]).len(), 1);
        assert_eq!(m.decide_labels(subject, mode, &[]), []);
    }
}

/// Of an object's labels it says what the rule for a get says, where the matrix permits that.
#[test]
fn decisions_by_the_labels_of_objects() {
    let m = opened();
    let mut seen = BTreeSet::new();
    for (subject, object, mode) in pairs() {
        let it = m.object_info(object).unwrap();
        let by_labels = m.decide_label(subject, mode, &it.security, &it.integrity);
        let reply = m.decide(&Request::Get { subject, object, mode }).reply;
        let is_permitted = m.pair(subject, object).unwrap().permitted.has(mode);
        assert_eq!(reply, if is_permitted { by_labels } else { Reply::Denied(Reason::Discretionary) });
        seen.insert((is_permitted, by_labels.to_string()));
    }
    assert!(seen.len() >= 5, "{seen:?}");
}

#[test]
fn subjects() {
    let m = opened();
    let (low, high) = (label(0, &[]), label(1, &[]));
    let sec = SubjectInfo { maximum: label(3, &[0, 1]), current: low, integrity: high, is_trusted: true };
    let bob = SubjectInfo { maximum: label(1, &[]), current: low, integrity: low, is_trusted: false };
    assert_eq!((m.subject_info(SEC), m.subject_info(BOB)), (Some(sec), Some(bob)));
    assert_eq!((m.subject_info(Subject(4)), m.subject_info(Subject(u16::MAX))), (None, None));
}

#[test]
fn objects() {
    let mut m = opened();
    let plans = ObjectInfo { security: label(2, &[0]), integrity: label(1, &[]), parent: Some(ROOT) };
    let root = ObjectInfo { security: label(0, &[]), integrity: label(1, &[]), parent: None };
    assert_eq!((m.object_info(PLANS), m.object_info(ROOT)), (Some(plans), Some(root)));
    assert_eq!((m.object_info(MADE), m.object_info(Object(u16::MAX))), (None, None));
    assert_eq!(m.counts(), Counts { entries: 0, subjects: 4, objects: 4, next: Some(MADE) });
    let (security, integrity) = (label(2, &[1]), label(0, &[]));
    assert!(m.get(0, SEC, ROOT, Mode::Write).unwrap().is_granted());
    assert_eq!(m.create(0, SEC, ROOT, security, integrity).unwrap().object, Some(MADE));
    assert_eq!(m.object_info(MADE), Some(ObjectInfo { security, integrity, parent: Some(ROOT) }));
    assert_eq!(m.counts(), Counts { entries: 2, subjects: 4, objects: 5, next: Some(Object(5)) });
    assert!(m.delete(0, SEC, MEMO).unwrap().is_granted());
    assert_eq!(m.object_info(MEMO), None);
    assert_eq!(m.counts(), Counts { entries: 3, subjects: 4, objects: 4, next: Some(Object(5)) });
    assert!(m.children(ROOT).eq([PLANS, TOOL, MADE]));
}

#[test]
fn children() {
    let mut m = opened();
    assert!(m.children(ROOT).eq([PLANS, MEMO, TOOL]));
    assert_eq!(
        (m.children(TOOL).next(), m.children(MADE).next(), m.children(Object(u16::MAX)).next()),
        (None, None, None)
    );
    assert!(m.get(0, SEC, ROOT, Mode::Write).unwrap().is_granted());
    let low = label(0, &[]);
    while m.create(0, SEC, ROOT, low, low).unwrap().is_granted() {}
    assert!(m.children(ROOT).eq((1..4096).map(Object)));
    assert_eq!((m.counts().objects, m.counts().next), (4096, None));
}

#[test]
fn pairs_of_subjects_and_objects() {
    let mut m = opened();
    let modes = |modes: &[Mode]| modes.iter().copied().collect::<Modes>();
    let pair = |permitted, held| Some(PairInfo { permitted: modes(permitted), held: modes(held) });
    assert_eq!(m.pair(ANN, PLANS), pair(&[Mode::Read, Mode::Write], &[]));
    assert_eq!(m.pair(SEC, MEMO), pair(&[Mode::Append, Mode::Write], &[]));
    assert_eq!(m.pair(BOB, TOOL), pair(&[Mode::Execute], &[]));
    assert_eq!(m.pair(AUD, TOOL), pair(&[], &[]));
    assert_eq!((m.pair(Subject(4), TOOL), m.pair(BOB, MADE)), (None, None));
    assert!(m.get(0, ANN, PLANS, Mode::Read).unwrap().is_granted());
    assert_eq!(m.pair(ANN, PLANS), pair(&[Mode::Read, Mode::Write], &[Mode::Read]));
}

#[test]
fn a_start_of_the_state() {
    let mut m = opened();
    let (security, integrity) = (label(2, &[1]), label(0, &[]));
    assert!(m.get(0, ANN, PLANS, Mode::Read).unwrap().is_granted());
    assert!(m.get(0, SEC, ROOT, Mode::Write).unwrap().is_granted());
    assert_eq!(m.create(0, SEC, ROOT, security, integrity).unwrap().object, Some(MADE));
    assert!(m.give(0, SEC, BOB, MADE, Mode::Append).unwrap().is_granted());
    assert!(m.get(0, BOB, MADE, Mode::Append).unwrap().is_granted());
    assert!(m.delete(0, SEC, MEMO).unwrap().is_granted());
    let told = m.state_start().unwrap();
    let now = [(ROOT, ROOT), (PLANS, PLANS), (TOOL, Object(2)), (MADE, Object(3))];
    for (old, new) in now {
        assert_eq!(told.object(old), Some(new));
    }
    for gone in [MEMO, Object(5), Object(4095), Object(4096), Object(u16::MAX)] {
        assert_eq!(told.object(gone), None, "{gone:?}");
    }
    let new = Monitor::open(&told.text).unwrap();
    assert_eq!((m.entry_count(), new.entry_count(), new.counts().next), (6, 0, Some(Object(4))));
    for (subject, (old, object)) in [ANN, BOB, SEC, AUD].into_iter().flat_map(|s| now.map(|o| (s, o))) {
        assert_eq!(new.subject_info(subject), m.subject_info(subject));
        assert_eq!(new.pair(subject, object), m.pair(subject, old));
        for mode in Mode::ALL {
            let replies = [(&m, old), (&new, object)]
                .map(|(it, object)| it.decide(&Request::Get { subject, object, mode }).reply);
            assert_eq!(replies[0], replies[1], "{subject:?} {old:?} {mode:?}");
        }
    }
    assert_eq!(now.map(|it| new.object_name(it.1).unwrap()), ["root", "plans", "tool", "o4"]);
    // what it opens with is a state, whose objects have their numbers already
    let again = new.state_start().unwrap();
    assert_eq!((&again.text, again.object(MADE)), (&told.text, None));
    assert!(now.iter().all(|it| again.object(it.1) == Some(it.1)));
}

#[test]
fn names_of_numbers() {
    let long = "n".repeat(32);
    let text = std::str::from_utf8(START).unwrap().replace("\"tool\"", &format!("\"{long}\""));
    let m = Monitor::open(text.as_bytes()).unwrap();
    assert_eq!([ANN, BOB, SEC, AUD].map(|it| m.subject_name(it).unwrap()), ["ann", "bob", "sec", "aud"]);
    assert_eq!([ROOT, PLANS, MEMO, TOOL].map(|it| m.object_name(it).unwrap()), ["root", "plans", "memo", &long]);
    assert_eq!((m.subject_name(Subject(4)), m.object_name(MADE), m.object_name(Object(u16::MAX))), (None, None, None));
}

#[test]
fn a_get_that_is_denied_is_explained() {
    let mut m = opened();
    let get = Request::Get { subject: BOB, object: MEMO, mode: Mode::Read };
    let [low, secret] = [label(0, &[]), label(1, &[])];
    let term = |of, label| Term { of, label };
    let of_memo = term(Compared::SecurityOfObject(MEMO), secret);
    let dominance = |first, second| Basis::Dominance { first, second };
    let (ours, theirs) = (Compared::IntegrityOfSubject(BOB), Compared::IntegrityOfObject(MEMO));
    let rows = [
        (Reason::Discretionary, true, Basis::Permission { subject: BOB, object: MEMO, mode: Mode::Read }),
        (Reason::Simple, true, dominance(term(Compared::MaximumOfCaller, secret), of_memo)),
        (Reason::Star, false, dominance(term(Compared::CurrentOfCaller, low), of_memo)),
        (Reason::Integrity, true, dominance(term(theirs, low), term(ours, low))),
    ];
    let conditions = rows.map(|(reason, holds, basis)| Condition { reason, holds, basis }).to_vec();
    let wanted = Explanation { conditions, remedy: Some(secret) };
    let found = m.explain(&get).unwrap();
    assert_eq!((found.is_granted(), found.failed(), &found), (false, Some(&wanted.conditions[2]), &wanted));
    assert_eq!(m.entry_count(), 0);
    // with the remedy it is granted
    assert!(m.level(0, BOB, found.remedy.unwrap()).unwrap().is_granted());
    assert!(m.get(0, BOB, MEMO, Mode::Read).unwrap().is_granted());
    assert!(m.explain(&get).unwrap().is_granted());
}

#[test]
fn other_requests_are_explained() {
    let m = opened();
    let bases = |request| {
        let told = m.explain(&request).unwrap();
        assert_eq!(told.remedy, None);
        told.conditions.into_iter().map(|it| (it.reason, it.holds, it.basis)).collect::<Vec<_>>()
    };
    let term = |of, label| Term { of, label };
    let [low, plans, top] = [label(0, &[]), label(2, &[0]), label(3, &[0])];
    let new = term(Compared::RequestedSecurity, top);
    assert_eq!(bases(Request::Release { subject: BOB, object: MEMO, mode: Mode::Read }), []);
    let relabelling = Basis::Relabelling {
        subject: ANN,
        object: PLANS,
        parent: ROOT,
        writes: false,
        current: term(Compared::CurrentOfCaller, plans),
        label: term(Compared::SecurityOfObject(PLANS), plans),
        new,
    };
    let label_of_root = term(Compared::SecurityOfObject(ROOT), low);
    let place = Basis::Place { object: PLANS, parent: ROOT, new, label: label_of_root, is_below: true };
    let wanted = [
        (Reason::Authority, false, relabelling),
        (Reason::Compatibility, true, place),
        (Reason::Simple, true, Basis::Observers { object: PLANS, new }),
        (Reason::Star, true, Basis::Holders { object: PLANS, new }),
    ];
    assert_eq!(bases(Request::Relabel { subject: ANN, object: PLANS, security: top }), wanted);
    let give = Request::Give { subject: BOB, other: ANN, object: TOOL, mode: Mode::Read };
    assert_eq!(bases(give), [(Reason::Authority, false, Basis::Writing { subject: BOB, object: ROOT })]);
    let wanted = [
        (Reason::Root, false, Basis::NoRoot { object: ROOT }),
        (Reason::Authority, false, Basis::NoParent { object: ROOT }),
    ];
    assert_eq!(bases(Request::Delete { subject: SEC, object: ROOT }), wanted);
}

/// The explanation of each get has the reply that the rules give, and its remedy leads to what it says.
#[test]
fn explanations_are_those_of_the_replies() {
    let mut remedies = 0;
    for (subject, object, mode) in pairs() {
        let (mut m, get) = (opened(), Request::Get { subject, object, mode });
        let (told, reply) = (m.explain(&get).unwrap(), m.decide(&get).reply);
        assert_eq!(told.failed().map_or(Reply::Yes, |it| Reply::Denied(it.reason)), reply);
        if let Some(label) = told.remedy.filter(|_| !told.is_granted()) {
            assert!(m.level(0, subject, label).unwrap().is_granted() && m.decide(&get).is_granted());
            remedies += 1;
        }
    }
    assert!(remedies > 0);
}

/// The name of what a condition rests on.
fn name_of(basis: &Basis) -> String {
    format!("{basis:?}").split([' ', '{']).next().unwrap().to_string()
}

#[test]
fn each_basis_is_met() {
    let m = opened();
    let top = label(3, &[0]);
    let mut requests: Vec<_> = pairs().map(|(subject, object, mode)| Request::Get { subject, object, mode }).collect();
    for subject in [ANN, SEC] {
        let place = (ROOT, top, label(0, &[]));
        requests.push(Request::Create { subject, parent: place.0, security: place.1, integrity: place.2 });
        requests.push(Request::Give { subject, other: BOB, object: TOOL, mode: Mode::Read });
        requests.push(Request::Level { subject, security: top });
        for object in [ROOT, PLANS] {
            requests.push(Request::Delete { subject, object });
            requests.push(Request::Relabel { subject, object, security: top });
        }
    }
    let met = requests.iter().flat_map(|it| m.explain(it).unwrap().conditions).map(|it| name_of(&it.basis));
    let met: BTreeSet<_> = met.collect();
    assert_eq!(met.len(), 17, "{met:?}");
}

#[test]
fn requests_that_are_undefined_are_not_explained() {
    let m = opened();
    let (low, none) = (label(0, &[]), label(4, &[]));
    for request in [
        Request::Get { subject: BOB, object: MADE, mode: Mode::Read },
        Request::Get { subject: Subject(4), object: MEMO, mode: Mode::Read },
        Request::Level { subject: BOB, security: none },
        Request::Create { subject: SEC, parent: ROOT, security: low, integrity: none },
    ] {
        assert_eq!(m.decide(&request).reply, Reply::Undefined);
        assert_eq!(m.explain(&request), Err(ExplainError::Undefined));
    }
    assert_eq!(ExplainError::Undefined.to_string(), "the request is undefined");
}
