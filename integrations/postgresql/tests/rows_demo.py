"""What users see: the answers follow from docs/POLICY.md, over a start in which everybody is permitted everything, so
that labels decide. ann works at U and up to S:A, bob at U and up to C; eve works at T:A,B and has the integrity lo;
sec is trusted."""

HIDDEN = "ERROR:  mls: ann may not"


def test_it_is_built_without_a_warning(world):
    assert world.said == "", world.said


def test_read(world):
    world.same([
        # (row 5 has the integrity lo: whoever has hi doesn't read it)
        ("bob", "SELECT * FROM docs ORDER BY id;", "1|U_hi|lunch at noon\n"),
        ("bob", "BEGIN; SELECT id FROM docs WHERE id = 1; SELECT mls.held(); COMMIT; SELECT mls.held();",
         "1\nread U_hi\n\n"),
        ("ann", "SELECT mls.level('S:A'); SELECT * FROM docs ORDER BY id;",
         "S:A\n1|U_hi|lunch at noon\n2|C_hi|budget draft\n3|S_hi|attack at dawn\n4|S-A_hi|agents in A\n"),
        ("eve", "SELECT id FROM docs ORDER BY id;", "1\n2\n3\n4\n5\n"),
        # (the star property doesn't bind sec, integrity does)
        ("sec", "SELECT id FROM docs ORDER BY id;", "1\n2\n3\n4\n"),
    ])


def test_no_flow_down_in_a_transaction(world):
    world.same([
        ("ann", "SELECT mls.level('S:A'); BEGIN; SELECT body FROM docs WHERE id = 3; SELECT mls.held(); "
                "INSERT INTO docs VALUES (10, 'U_hi', 'attack at dawn'); SELECT 1; ROLLBACK;",
         "S:A\nattack at dawn\nread S_hi\nERROR:  mls: ann may not append container U_hi: no star\n"
         "ERROR:  current transaction is aborted, commands ignored until end of transaction block\n"),
        ("ann", "BEGIN; SELECT body FROM docs WHERE id = 3; SELECT mls.level('U'); ROLLBACK;",
         "attack at dawn\nERROR:  mls: ann may not work at U: no star\n"),
        ("ann", "BEGIN; SAVEPOINT a; SELECT body FROM docs WHERE id = 3; ROLLBACK TO a; SELECT mls.held(); "
                "SELECT mls.level('U'); ROLLBACK;",
         "attack at dawn\nread S_hi\nERROR:  mls: ann may not work at U: no star\n"),
    ])


def test_write(world):
    world.same([
        ("ann", "SELECT mls.level('S:A'); INSERT INTO docs VALUES (11, 'S-A_hi', 'more on A'); "
                "SELECT id FROM docs ORDER BY id;", "S:A\n1\n2\n3\n4\n11\n"),
        ("ann", "UPDATE docs SET body = body || '!' WHERE id = 4; "
                "SELECT body FROM docs WHERE id = 4;", "agents in A!\n"),
        # (write needs the label at which she works: no row below it is changed)
        ("ann", "UPDATE docs SET body = body || '!' WHERE id = 3; "
                "SELECT body FROM docs WHERE id = 3;", "attack at dawn\n"),
        ("ann", "UPDATE docs SET label = 'U_hi' WHERE id = 4;", f"{HIDDEN} write container U_hi: no star\n"),
        ("ann", "UPDATE docs SET label = 'S_hi' WHERE id = 4;", f"{HIDDEN} write container S_hi: no star\n"),
        ("ann", "DELETE FROM docs; SELECT id FROM docs ORDER BY id;", "1\n2\n3\n"),
        ("eve", "INSERT INTO docs VALUES (14, 'T-A-B_hi', 'x');",
         "ERROR:  mls: eve may not append container T-A-B_hi: no integrity\n"),
        ("bob", "DELETE FROM docs WHERE id = 2; "
                "MERGE INTO docs USING (VALUES (2)) v (k) ON id = k WHEN MATCHED THEN DELETE; "
                "INSERT INTO docs VALUES (20, 'C_lo', 'x') RETURNING id;",
         "ERROR:  mls: bob may not append container C_lo where a key would tell of hidden rows\n"),
        ("postgres", "SELECT count(*) FROM docs WHERE id = 2;", "1\n"),
    ])


def test_append_above(world):
    """A row above the session's level is added blindly; into a table with a key only by leave."""
    blind = "INSERT INTO docs VALUES (12, 'T-A-B_hi', 'blind write up');"
    told = "ERROR:  mls: ann may not append container T-A-B_hi where a key would tell of hidden rows\n"
    world.same([
        ("ann", blind, told),
        ("ann", "SET mls.append_up = on;", "ERROR:  permission denied to set parameter \"mls.append_up\"\n"),
        ("postgres", "CREATE TABLE heap (LIKE docs); CALL mls.protect('heap'); "
                     "GRANT INSERT, SELECT ON heap TO ann;", ""),
        ("ann", blind.replace("docs", "heap") + "SELECT * FROM heap;", ""),
        ("ann", blind.replace("docs", "heap").replace(";", " RETURNING id;"),
         "ERROR:  new row violates row-level security policy \"mls_read\" for table \"heap\"\n"),
        ("postgres", "SELECT label FROM heap; DROP TABLE heap;", "T-A-B_hi\n"),
    ])
    with world.opened("append_up"):
        world.same([("ann", blind + "SELECT id FROM docs;", "1\n")])


def test_levels(world):
    world.same([
        ("bob", "SELECT mls.level('S');", "ERROR:  mls: bob may not work at S: no ceiling\n"),
        ("bob", "SELECT mls.level('C'); SELECT id FROM docs ORDER BY id; SELECT mls.level('U');", "C\n1\n2\nU\n"),
        ("ann", "SELECT mls.level('Q');", "ERROR:  mls: ann may not work at Q: bad label\n"),
        ("ann", "SELECT mls.level('U; sec level U');", "ERROR:  mls: not a label\n"),
        # (what was denied is asked again after a change of level)
        ("ann", "BEGIN; SELECT count(*) FROM docs; SELECT mls.level('S:A'); "
                "SELECT count(*) FROM docs; COMMIT;", "1\nS:A\n4\n"),
        # (what she remembers may be written once the level fell: no monitor of accesses keeps that)
        ("ann", "SELECT mls.level('U'); "
                "INSERT INTO docs VALUES (13, 'U_hi', 'what I remember of 3: attack at dawn');", "U\n"),
        ("bob", "SELECT id, body FROM docs ORDER BY id;", "1|lunch at noon\n13|what I remember of 3: attack at dawn\n"),
    ])


def test_who_asks(world):
    world.same([
        ("app", "SELECT 1 FROM docs;", "ERROR:  permission denied for table docs\n"),
        ("postgres", "GRANT SELECT ON docs TO app; GRANT bob TO ann;", ""),
        ("app", "SELECT * FROM docs;", "ERROR:  mls: the monitor says not yours to app\n"),
        ("postgres", "SELECT id, label FROM docs ORDER BY id; SELECT mls.held();",
         "1|U_hi\n2|C_hi\n3|S_hi\n4|S-A_hi\n5|U_lo\n\n"),
        ("ann", "SET ROLE bob; SELECT mls.subject(), mls.level('S:A'); SELECT id FROM docs ORDER BY id;",
         "ann|S:A\n1\n2\n3\n4\n"),
        ("postgres", "REVOKE bob FROM ann; REVOKE SELECT ON docs FROM app;", ""),
        ("bob", "CREATE FUNCTION d.f() RETURNS bigint LANGUAGE sql SECURITY DEFINER AS $$ SELECT count(*) "
                "FROM d.docs $$; SELECT d.f();", "1\n"),
        # (a function's owner isn't asked for: it runs at the level of whoever calls it)
        ("ann", "SELECT d.f();", "4\n"),
        ("bob", "DROP FUNCTION d.f();", ""),
        ("ann", "SET mls.socket = '/run/x';", "ERROR:  parameter \"mls.socket\" cannot be changed now\n"),
    ])


def test_labels(world):
    world.same([
        ("ann", "INSERT INTO docs VALUES (30, 'nothing', 'x');", "ERROR:  mls: the monitor says bad name to ann\n"),
        ("ann", "INSERT INTO docs VALUES (30, '#1', 'x');",
         "ERROR:  value for domain mls.label violates check constraint \"label_check\"\n"),
        ("ann", "INSERT INTO docs VALUES (30, NULL, 'x');",
         "ERROR:  new row violates row-level security policy \"mls_append\" for table \"docs\"\n"),
        ("ann", "SELECT mls.may_read('U_hi'), mls.may_read('#1');", "ERROR:  mls: not the name of a container\n"),
        ("ann", "SELECT mls.may_read(repeat('x', 33));", "ERROR:  mls: not the name of a container\n"),
        ("bob", "CREATE TABLE d.t (label name); CALL mls.protect('d.t'); DROP TABLE d.t;",
         "ERROR:  mls: the column label of d.t is to be of the type mls.label, or text\n"),
        ("bob", "CREATE TABLE d.t (label varchar(9)); CALL mls.protect('d.t'); SELECT mls.is_protected('d.t');", "t\n"),
        ("postgres", "DROP TABLE t;", ""),
        ("bob", "CREATE TABLE d.t (id int); CALL mls.protect('d.t'); DROP TABLE d.t;",
         "ERROR:  column \"label\" of relation \"t\" does not exist\n"),
    ])
