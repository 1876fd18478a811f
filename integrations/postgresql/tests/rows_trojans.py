"""What somebody at a low level leaves, and that runs later: in a session above, in a command of the server's own, or
where a foreign key acts. Each row has the statements that read hidden rows, or wrote them down, once."""
from rows_closed import AT_S

CARRIED = "ERROR:  mls: ann may not write {}: this session worked with {}, above its level now\n".format
SECRET = "(SELECT string_agg(body, ';') FROM d.docs WHERE id = 4)"
HELPERS = f"""
CREATE PROCEDURE d.helper() LANGUAGE plpgsql AS $$ DECLARE found text; BEGIN
  PERFORM mls.level('S:A'); found := {SECRET}; COMMIT; PERFORM mls.level('U');
  INSERT INTO d.docs VALUES (100, 'U_hi', found); END $$;
CREATE FUNCTION d.trojan() RETURNS text LANGUAGE plpgsql AS $$ BEGIN
  IF coalesce(current_setting('app.found', true), '') = '' THEN
    PERFORM mls.level('S:A'); PERFORM set_config('app.found', {SECRET}, false);
  ELSE
    PERFORM mls.level('U'); INSERT INTO d.docs VALUES (100, 'U_hi', current_setting('app.found'));
  END IF; RETURN 'no news'; END $$;
CREATE VIEW d.news AS SELECT d.trojan() AS news; GRANT SELECT ON d.news TO ann;
"""


def test_a_session_carries_nothing_down(world):
    """A procedure or a view of bob's that ann uses at U read all that she may, and wrote it at U when she came back."""
    above = CARRIED("U_hi", "S-A_hi")
    world.same([
        ("bob", HELPERS, ""),
        ("ann", "CALL d.helper(); SELECT mls.level('U');", above + "U\n"),
        ("ann", "SELECT news FROM d.news; SELECT news FROM d.news; SELECT mls.level('U');", f"no news\n{above}U\n"),
        ("bob", "SELECT id FROM docs;", "1\n"),
        # (what a session reads, writes or adds at its level it remembers; it leaves nothing without a label either)
        ("ann", AT_S + "SELECT count(*) FROM docs WHERE id = 4; SELECT mls.level('U'); NOTIFY dawn; "
                       "UPDATE docs SET body = 'x'; DELETE FROM docs;", "S:A\n1\nU\n" + above + 2 * above),
        ("ann", AT_S + "SELECT count(*) FROM docs WHERE id = 4; SELECT mls.level('U'); DO $$ BEGIN "
                       "BEGIN DELETE FROM docs; EXCEPTION WHEN OTHERS THEN NULL; END; DELETE FROM docs; END $$;",
         "S:A\n1\nU\n" + above),
        ("ann", AT_S + "INSERT INTO docs VALUES (7, 'S-A_hi', 'x'); SELECT mls.level('U'); "
                       "INSERT INTO docs VALUES (8, 'U_hi', 'x');", "S:A\nU\n" + above),
        # (what it added above its level it doesn't know more of for that; and a trusted subject may write down)
        ("ann", "SELECT mls.level('C'); INSERT INTO docs VALUES (9, 'C_hi', 'x'); DISCARD ALL; SELECT mls.level('U'); "
                "BEGIN; CREATE TABLE d.heap (label mls.label); CALL mls.protect('d.heap'); COMMIT; "
                "INSERT INTO d.heap VALUES ('S-A_hi'); INSERT INTO d.heap VALUES ('U_hi');", "C\nU\n"),
        ("sec", "SELECT count(*) > 3 FROM docs; INSERT INTO docs VALUES (10, 'U_hi', 'x');", "t\n"),
        ("postgres", "DROP VIEW news; DROP FUNCTION trojan; DROP PROCEDURE helper; DROP TABLE heap;", ""),
    ])


def test_what_a_session_remembers_ends_with_it(world):
    """DISCARD ALL leaves the seed of random(), and names of settings."""
    read = AT_S + "SELECT count(*) FROM docs WHERE id = 4; SELECT mls.level('U'); "
    add = "INSERT INTO docs VALUES (20, 'U_hi', 'x'); "
    above, read_so = CARRIED("U_hi", "S-A_hi"), "S:A\n1\nU\n"
    flood = ("DO $$ BEGIN FOR k IN 1..4100 LOOP BEGIN PERFORM mls.may_read('n' || k); EXCEPTION WHEN OTHERS THEN NULL; "
             "END; END LOOP; END $$; ")
    world.same([
        ("ann", read + "DISCARD ALL; " + add, read_so),
        ("ann", read + flood + "DELETE FROM docs WHERE id = 20;", read_so + above),
        ("ann", read + "SELECT set_config('app.b1', '1', false); DISCARD ALL; DELETE FROM docs WHERE id = 20;",
         read_so + "1\n" + above),
        ("ann", "SELECT setseed(0.25); SELECT random() AS r \\gset\nDISCARD ALL;\nSELECT :r = random();", "\nf\n"),
        ("ann", "SELECT setseed(0.25); DISCARD ALL; SELECT random() AS r \\gset\nSELECT setseed(0.25); "
                "SELECT :r = random();", "\n\nf\n"),
    ])


BY_HAND = """
ALTER TABLE d.{0} ENABLE ROW LEVEL SECURITY, FORCE ROW LEVEL SECURITY; CREATE POLICY mls_open ON d.{0} USING (true);
CREATE POLICY a ON d.{0} AS RESTRICTIVE FOR SELECT USING (mls.may_read({1}));
CREATE POLICY b ON d.{0} AS RESTRICTIVE FOR INSERT WITH CHECK (mls.must_append({1}));
CREATE POLICY d ON d.{0} AS RESTRICTIVE FOR DELETE USING (mls.may_write({1}));
CREATE POLICY mls_write ON d.{0} AS RESTRICTIVE FOR UPDATE USING (mls.may_write({1})) WITH CHECK (mls.must_write({1}));
""".format
SEES = """
CREATE TABLE d.loot (body text);
CREATE FUNCTION d.takes(body text) RETURNS void LANGUAGE plpgsql AS 'BEGIN INSERT INTO d.loot VALUES (body); END';
CREATE FUNCTION d.sees(body text) RETURNS text LANGUAGE plpgsql IMMUTABLE AS
  'BEGIN IF session_user = ''postgres'' THEN PERFORM d.takes(body); END IF; RETURN body; END';
"""


def test_protection_by_hand_is_looked_at(world):
    """bob protected a table by policies of his own, and his function in an index was given all rows by ANALYZE, which
    the server runs by itself."""
    over = "ERROR:  mls: function over hidden rows: d.sees(text) on d.t\n"
    first = "ERROR:  mls: policy that is asked first: a on d.t\n"
    world.same([
        ("bob", SEES + "CREATE TABLE d.t (id int, label mls.label, body text); CREATE INDEX ON d.t (d.sees(body)); "
                       "GRANT ALL ON d.t TO ann;", ""),
        ("bob", BY_HAND("t", "label") + "SELECT mls.is_protected('d.t');", first + "f\n"),
        ("bob", "ALTER POLICY a ON d.t RENAME TO mls_read; ALTER POLICY b ON d.t RENAME TO mls_append; "
                "ALTER POLICY d ON d.t RENAME TO mls_delete;", ""),
    ])
    last = BY_HAND("t", "label").strip().splitlines()[-1]
    world.same([
        ("bob", last + "SELECT mls.is_protected('d.t');", over + "f\n"),
        ("bob", f"BEGIN; {last} SELECT mls.is_protected('d.t'); COMMIT;", "t\n" + over),
        ("bob", f"BEGIN; SAVEPOINT s; {last} RELEASE s; PREPARE TRANSACTION 'x';", over),
        # (nor does he get so far by names that stand before the catalogs')
        ("bob", "DROP TABLE d.t; CREATE TABLE d.t (id int, label mls.label, body text); "
                "CREATE INDEX ON d.t (d.sees(body)); "
                "CREATE TEMP VIEW pg_roles AS SELECT oid, true AS rolsuper FROM pg_catalog.pg_roles; "
                "CREATE TEMP TABLE pg_depend (LIKE pg_catalog.pg_depend); CALL mls.protect('d.t');", over),
        ("postgres", "CALL mls.protect_one('t'); INSERT INTO t VALUES (1, 'S-A_hi', 'agents in A'); ANALYZE t;", ""),
        ("bob", "SELECT DISTINCT body FROM d.loot;", "agents in A\n"),
        ("postgres", "DROP TABLE t, loot; DROP FUNCTION sees, takes;", ""),
    ])


def test_protection_by_a_name_is_looked_at(world):
    """A column of another name becomes the label where it is renamed in a table above."""
    world.same([
        ("bob", "CREATE TABLE d.above (x mls.label, body text); CREATE TABLE d.t () INHERITS (d.above);" +
         BY_HAND("t", "x"), ""),
        ("bob", "ALTER TABLE d.above RENAME x TO label; SELECT mls.is_protected('d.t');",
         "ERROR:  mls: table without protection above it: d.t below d.above\nf\n"),
        ("bob", "DROP TABLE d.above CASCADE;", "NOTICE:  drop cascades to table t\n"),
        # (nor is a table let be that takes rows for one without policies)
        ("bob", "CREATE TABLE d.parts (id int, label mls.label) PARTITION BY LIST (id); "
                "CREATE TABLE d.part1 PARTITION OF d.parts DEFAULT;" +
         BY_HAND("parts", "label").replace("POLICY a", "POLICY mls_read") + "SELECT mls.is_protected('d.parts'); "
         "DROP TABLE d.parts;",
         "ERROR:  mls: table without protection below it: d.part1 below d.parts\nf\n"),
        # (tables that a key joins may be protected one after the other, in one transaction)
        ("bob", "CREATE TABLE d.a (id int, label mls.label, PRIMARY KEY (id, label)); CREATE TABLE d.t (id int, "
                "label mls.label, FOREIGN KEY (id, label) REFERENCES d.a); BEGIN; CALL mls.protect_one('d.a'); "
                "CALL mls.protect_one('d.t'); COMMIT; SELECT mls.is_protected('d.t');", "t\n"),
        ("postgres", "DROP TABLE t, a;", ""),
    ])


LAYS = """
CREATE TABLE d.loot (body text); CREATE TABLE d.t (id int, label mls.label, body text); CALL mls.protect('d.t');
CREATE TABLE d.bait (id int); GRANT ALL ON d.t TO ann;
CREATE FUNCTION d.lays() RETURNS void LANGUAGE plpgsql AS $$ BEGIN {}
  EXCEPTION WHEN OTHERS THEN INSERT INTO d.loot VALUES (sqlerrm); END $$;
CREATE FUNCTION d.runs(id int) RETURNS int LANGUAGE plpgsql IMMUTABLE AS $$ BEGIN
  IF session_user = 'postgres' THEN PERFORM d.lays(); END IF; RETURN id; END $$;
CREATE INDEX ON d.bait (d.runs(id)); INSERT INTO d.bait VALUES (1);
""".format
# What bob's function does in a command that the server runs as bob, but for a superuser.
LAID = [
    ("ALTER TABLE d.t DISABLE ROW LEVEL SECURITY; INSERT INTO d.loot SELECT body FROM d.t;",
     "mls: no ALTER TABLE where the server runs an owner's function"),
    ("DROP POLICY mls_read ON d.t;", "mls: no DROP POLICY where the server runs an owner's function"),
    ("DROP OWNED BY bob CASCADE;", "mls: no DROP OWNED where the server runs an owner's function"),
    ("INSERT INTO d.loot SELECT body FROM d.t;", "mls: an owner's function asks nothing where the server runs it"),
]


def test_functions_that_the_server_runs_change_nothing(world):
    """In ANALYZE the session's user is a superuser, whom nothing binds: bob's function laid his table open."""
    for deed, due in LAID:
        world.same([
            ("bob", LAYS(deed), ""),
            ("ann", AT_S + "INSERT INTO d.t VALUES (1, 'S-A_hi', 'agents in A');", "S:A\n"),
        ])
        for command in ("ANALYZE bait;", "REINDEX TABLE bait;", "CREATE INDEX ON bait (d.runs(id));",
                        "VACUUM FULL bait;"):
            world.same([("postgres", command, ""),
                        ("bob", "SELECT DISTINCT body FROM d.loot; TRUNCATE d.loot;", due + "\n")])
        world.same([("postgres", "SELECT mls.is_protected('t'); DROP TABLE t, bait, loot; DROP FUNCTION runs, lays;",
                     "t\n")])


def test_what_a_superuser_runs_for_an_owner_goes_on(world):
    world.same([
        ("postgres", "SET ROLE keeper; CREATE TABLE k (id int, label mls.label, body text); CALL mls.protect('k'); "
                     "CREATE MATERIALIZED VIEW m AS SELECT DISTINCT note FROM scratch; "
                     "CREATE UNIQUE INDEX ON m (note); RESET ROLE; CREATE INDEX ON k (lower(body)); "
                     "CREATE UNIQUE INDEX i ON k (id, label); "
                     "CLUSTER k USING i; REINDEX TABLE k; ANALYZE k; VACUUM FULL k; REFRESH MATERIALIZED VIEW m; "
                     "REFRESH MATERIALIZED VIEW CONCURRENTLY m; ALTER TABLE k ADD PRIMARY KEY (id, label); "
                     "SELECT mls.is_protected('k'); DROP TABLE k; DROP MATERIALIZED VIEW m;", "t\n"),
    ])


ACTS = """
CREATE TABLE d.a (id int, label mls.label, body text, PRIMARY KEY (id, label));
CREATE FUNCTION d.all_of_a() RETURNS text LANGUAGE plpgsql AS $$ BEGIN
  RETURN (SELECT string_agg(body, ';' ORDER BY body) FROM d.a); END $$;
CREATE FUNCTION d.told() RETURNS trigger LANGUAGE plpgsql AS $$ BEGIN RAISE NOTICE '% saw %', tg_op, d.all_of_a();
  IF tg_op = 'DELETE' THEN RETURN OLD; END IF; RETURN NEW; END $$;
CREATE FUNCTION d.checked(text) RETURNS bool LANGUAGE plpgsql AS $$ BEGIN RAISE NOTICE 'check saw %', d.all_of_a();
  RETURN true; END $$;
CREATE TABLE d.b (id int, label mls.label, note text, CHECK (d.checked(note)),
  FOREIGN KEY (id, label) REFERENCES d.a ON DELETE CASCADE ON UPDATE CASCADE);
CALL mls.protect('d.a', 'd.b'); GRANT ALL ON d.a, d.b TO ann;
"""


def test_a_foreign_keys_action_runs_nothing_past_the_policies(world):
    """Where a row goes with the one that it refers to, its trigger ran past the policies of all tables of its owner."""
    world.same([
        ("bob", ACTS.replace("CALL", "CREATE TRIGGER x BEFORE UPDATE OR DELETE ON d.b FOR EACH ROW EXECUTE FUNCTION "
                                     "d.told(); CALL"), ""),
        ("ann", AT_S + "SET client_min_messages = error; INSERT INTO d.a VALUES (1, 'S-A_hi', 'agents in A'); "
                       "INSERT INTO d.b VALUES (1, 'S-A_hi'); SELECT mls.level('U');", "S:A\nU\n"),
        ("bob", "INSERT INTO d.a VALUES (1, 'U_hi', 'mine'), (2, 'U_hi', 'other'); INSERT INTO d.b VALUES (1, 'U_hi');",
         "NOTICE:  check saw mine;other\n"),
        ("bob", "UPDATE d.a SET id = 3 WHERE id = 1; DELETE FROM d.a WHERE id = 3; SELECT count(*) FROM d.b;",
         "NOTICE:  UPDATE saw mine;other\nNOTICE:  check saw mine;other\nNOTICE:  DELETE saw other\n0\n"),
        ("ann", AT_S + "DELETE FROM d.a; SELECT count(*) FROM d.b;", "S:A\nNOTICE:  DELETE saw other\n0\n"),
        ("postgres", "SELECT count(*) FROM b; DROP TABLE b, a; DROP FUNCTION told, checked, all_of_a;", "0\n"),
    ])


def test_no_user_brings_functions_in_c(world):
    """tcn, a trusted extension, notifies of a row that ann adds at S:A, key and all, and calls no function for it."""
    told = "ERROR:  mls: only a superuser creates an extension: its functions are not asked about\n"
    below = "ERROR:  mls: table parts is protected, and what stands below it must be too\n"
    world.same([
        ("postgres", "GRANT CREATE ON DATABASE demo TO bob; CREATE FOREIGN DATA WRAPPER w; "
                     "CREATE SERVER s FOREIGN DATA WRAPPER w; GRANT USAGE ON FOREIGN SERVER s TO bob;", ""),
        ("bob", "CREATE EXTENSION tcn SCHEMA d; DO 'BEGIN CREATE EXTENSION lo SCHEMA d; END';", 2 * told),
        # (rows that go to a foreign partition are asked about by no policy)
        ("bob", "CREATE TABLE d.parts (id int, label mls.label) PARTITION BY RANGE (id); CALL mls.protect('d.parts'); "
                "CREATE FOREIGN TABLE d.part1 PARTITION OF d.parts DEFAULT SERVER s;", below),
        ("postgres", "DROP TABLE parts; DROP SERVER s; DROP FOREIGN DATA WRAPPER w; "
                     "REVOKE CREATE ON DATABASE demo FROM bob;", ""),
    ])


def test_pages_put_into_the_log_are_not_counted(world):
    """Whoever first changes a page after a checkpoint puts it into the log whole, and so does a read that clears it."""
    told = "ERROR:  mls: EXPLAIN (WAL) would tell what other sessions read\n"
    world.same([("bob", "CREATE TABLE d.own (x int); EXPLAIN (ANALYZE, WAL) UPDATE d.own SET x = 1; "
                        "EXPLAIN (WAL off, COSTS off) SELECT 1; DROP TABLE d.own;", told + "Result\n")])


def test_labels_are_compared_as_they_are(world):
    """Where S-A_hi and SA_hi are one text to a key, rows of one container tell of rows of the other, or lock them."""
    world.same([
        ("bob", "CREATE COLLATION d.loose (provider = icu, locale = 'und-u-ka-shifted-ks-level1', "
                "deterministic = false); "
                "CREATE TABLE d.t (id int, label text COLLATE d.loose, PRIMARY KEY (id, label)); "
                "CALL mls.protect('d.t');",
         "ERROR:  mls: the column label of d.t is to be of the type mls.label, or text\n"),
        ("bob", "SELECT mls.is_protected('d.t'); DROP TABLE d.t; DROP COLLATION d.loose;", "f\n"),
    ])


def test_the_audit_names_who_runs_as_a_superuser(world):
    """Its policies are asked nothing then; such a trigger runs so where a foreign key acts."""
    world.same([
        ("postgres", "CREATE ROLE boss SUPERUSER NOLOGIN; CREATE ROLE friend; GRANT boss TO friend; "
                     "GRANT friend TO bob; CREATE TABLE t (id int, label mls.label); "
                     "CREATE FUNCTION g() RETURNS trigger LANGUAGE plpgsql AS "
                     "'BEGIN RETURN NEW; END'; ALTER FUNCTION g OWNER TO bob; "
                     "CREATE TRIGGER x BEFORE INSERT ON t FOR EACH ROW EXECUTE FUNCTION g();", ""),
        ("bob", "SET ROLE boss; SELECT count(*) FROM docs;", "5\n"),
        ("postgres", "SELECT finding, name, remedy FROM mls.audit() WHERE finding ~ 'superuser'; DROP TABLE t; "
                     "DROP FUNCTION g; DROP ROLE boss, friend;",
         "role that can become a superuser|bob: boss|REVOKE boss FROM bob\n"
         "trigger that runs as a superuser|x on d.t|ALTER FUNCTION .. OWNER TO a superuser, or DROP TRIGGER\n"),
    ])


def test_a_row_whose_label_is_no_container_tells(world):
    """A superuser's row, or one of an older start: a condition that picks it is an error, and so tells of it."""
    bad = "ERROR:  mls: the monitor says bad name to bob\n"
    world.same([
        ("postgres", "INSERT INTO docs VALUES (50, 'gone', 'lost at sea');", ""),
        ("bob", "SELECT id FROM docs WHERE body = 'lost at sea'; SELECT id FROM docs WHERE body = 'lost at dawn'; "
                "SELECT id FROM docs WHERE body > 'lor' AND body < 'lot';", bad + bad),
        ("postgres", "DELETE FROM docs WHERE id = 50;", ""),
    ])
