use super::*;
use crate::names::tests::standard;
use crate::who::Asker;

fn parsed(text: &str) -> Result<Users, String> {
    Users::parse(text, &standard(), &|name, is_group| match (name, is_group) {
        ("ann", false) => Some(1001),
        ("audit", true) => Some(50),
        _ => None,
    })
}

fn shown(users: &Users, uid: u32, groups: &[u32]) -> Option<String> {
    users.who(&standard(), uid, groups).map(|who| who.shown(&standard()))
}

#[test]
fn all_rules_that_apply_are_joined() {
    let users =
        parsed("ann = ann # a note\n\n# a note\n1002 = bob\n@audit = aud rate=50\n7 = * rate=0 clients=400 day=9\n")
            .unwrap();
    let some = |text: &str| Some(text.to_string());
    assert_eq!(shown(&users, 1001, &[]), some("ann"));
    assert_eq!(shown(&users, 1001, &[50]), some("ann,aud"));
    assert_eq!(shown(&users, 1002, &[1001]), some("bob"));
    assert_eq!(shown(&users, 1003, &[50, 7]), some("aud"));
    assert_eq!(shown(&users, 7, &[]), some("ann,bob,sec,aud"));
    // 50 is the group's number, not a user's; root needs no rule, and has nobody without one
    assert_eq!((shown(&users, 50, &[]), shown(&users, 0, &[])), (None, some("nobody")));
    let who = users.who(&standard(), 7, &[50]).unwrap();
    assert_eq!((who.rate(), who.clients(), who.day(), who.is_root), (0, 400, 9, false));
    let users = parsed("5 = ann reads=held\n@audit = ann\n").unwrap();
    let holds = |uid, groups: &[u32]| users.who(&standard(), uid, groups).unwrap().holds_reads;
    assert_eq!((holds(5, &[]), holds(5, &[50]), holds(7, &[50])), (true, true, false));
}

#[test]
fn a_pool_is_asked_as_by_its_name_alone() {
    let users = parsed("5 = app aud\n6 = *\npool app = ann bob\n").unwrap();
    assert_eq!(users.pools, [Pool { name: "app".to_string(), members: vec![0, 1] }]);
    let (names, who) = (standard(), users.who(&standard(), 5, &[]).unwrap());
    assert_eq!((who.asker(&names, "app"), who.asker(&names, "ann")), (Some(Asker::Pool(0)), None));
    assert_eq!((who.asker(&names, "#0"), who.asker(&names, "#3")), (None, Some(Asker::Subject(3))));
    assert_eq!(shown(&users, 6, &[]), Some("sec,aud,app".to_string()));
}

#[test]
fn a_rule_may_name_stats() {
    let users = parsed("@audit = stats\n5 = ann\n6 = *\n").unwrap();
    let has = |uid, groups: &[u32]| users.who(&standard(), uid, groups).unwrap().has_stats;
    assert_eq!(
        (has(5, &[]), has(5, &[50]), has(6, &[]), shown(&users, 9, &[50])),
        (false, true, false, Some("nobody".to_string()))
    );
    let (one, other) = (users.who(&standard(), 5, &[50]).unwrap(), users.who(&standard(), 5, &[]).unwrap());
    assert!(one.covers(&other) && !other.covers(&one));
}

#[test]
fn what_is_not_understood_is_refused_with_its_line() {
    let rows = [
        ("ann\n", "line 1: bad form"),
        ("ann =\n", "line 1: bad form"),
        ("ann ann\n", "line 1: bad form"),
        ("\nann = eve\n", "line 2: no subject is called eve"),
        ("eve = ann\n", "line 1: nobody is called eve"),
        ("@ann = ann\n", "line 1: nobody is called ann"),
        ("+5 = ann\n", "line 1: nobody is called +5"),
        ("4294967296 = ann\n", "line 1: nobody is called 4294967296"),
        ("ann = #0\n", "line 1: bad form"),
        ("ann = ann rate=-1\n", "line 1: bad number in rate=-1"),
        ("ann = ann reads=1\n", "line 1: no limit is called reads"),
        ("ann = ann rat=1\n", "line 1: no limit is called rat"),
        ("pool app =\n", "line 1: bad form"),
        ("pool a.b = ann\n", "line 1: bad form"),
        ("pool bob = ann\n", "line 1: bob is a subject's name, or another pool's"),
        ("pool a = ann\npool a = bob\n", "line 2: a is a subject's name, or another pool's"),
        ("pool a = ann\npool b = bob ann\n", "line 2: ann is in a pool already"),
        ("pool a = ann ann\n", "line 1: ann is in a pool already"),
        ("pool a = eve\n", "line 1: no subject is called eve"),
        ("pool a = app\npool app = ann\n", "line 1: no subject is called app"),
        ("ann = ann\npool a = ann\n", "line 1: ann is one of a pool's"),
    ];
    for (text, wanted) in rows {
        assert_eq!(parsed(text).err(), Some(wanted.to_string()), "{text}");
    }
    assert!(parsed("").unwrap().rules.is_empty());
}
