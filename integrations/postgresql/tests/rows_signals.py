"""Signals from a session above to one below, and what tells of hidden rows beside the policies: each row has the
statements that did it once."""
import os
import re

from rows_closed import AT_S

LOCKED = "ERROR:  mls: ann may not lock rows of a table without protection: no star\n"


def marks(world, table="d.open"):
    """What bob reads of the rows' locks, after all is over."""
    return world.ask("bob", f"SELECT id FROM {table} WHERE xmax <> 0 ORDER BY id;")


def test_row_locks_do_not_write_down(world):
    """ann at S:A marks rows of a table without labels that she picks by what she reads there; bob reads the marks."""
    world.same([("postgres", "CREATE TABLE open (id int PRIMARY KEY, note text); "
                             "INSERT INTO open SELECT k, 'x' FROM generate_series(1, 8) k; "
                             "CREATE VIEW over WITH (security_invoker) AS SELECT * FROM open; "
                             "GRANT SELECT, UPDATE ON open, over TO ann, bob; "
                             "CREATE FUNCTION lock_it() RETURNS int LANGUAGE sql AS 'SELECT id FROM d.open FOR SHARE';",
                 "")])
    pick = "id IN (SELECT ascii(substr(body, 1, 1)) % 8 FROM docs WHERE id = 3)"
    for how in ("UPDATE", "NO KEY UPDATE", "SHARE", "KEY SHARE"):
        world.same([
            ("ann", AT_S + f"SELECT id FROM d.open WHERE {pick} FOR {how};", "S:A\n" + LOCKED),
            ("ann", AT_S + f"SELECT id FROM d.over WHERE {pick} FOR {how};", "S:A\n" + LOCKED),
            ("ann", AT_S + f"SELECT * FROM (SELECT id FROM d.open WHERE {pick} FOR {how}) x;", "S:A\n" + LOCKED),
            ("ann", AT_S + f"BEGIN; DECLARE c CURSOR FOR SELECT id FROM d.open FOR {how} NOWAIT; FETCH c; ROLLBACK;",
             "S:A\n" + LOCKED + "ERROR:  current transaction is aborted, commands ignored until end of transaction "
                                "block\n"),
        ])
    world.same([
        ("ann", AT_S + "SELECT d.lock_it();", "S:A\n" + LOCKED),
        ("ann", AT_S + "LOCK TABLE d.open IN ROW SHARE MODE;", "S:A\nERROR:  mls: ann may not LOCK TABLE: no star\n"),
        ("ann", AT_S + "BEGIN; LOCK TABLE d.open IN ACCESS SHARE MODE; COMMIT;", "S:A\n"),
    ])
    assert marks(world) == ""
    # (at the lowest label all is as it was)
    world.same([("bob", "SELECT id FROM d.open WHERE id = 5 FOR UPDATE; BEGIN; LOCK TABLE d.open; COMMIT;", "5\n")])
    assert marks(world) == "5\n"
    world.same([("postgres", "DROP VIEW over; DROP FUNCTION lock_it; DROP TABLE open;", "")])


def test_row_locks_of_a_protected_table_are_writes(world):
    for how in ("UPDATE", "NO KEY UPDATE", "SHARE", "KEY SHARE"):
        world.same([("ann", AT_S + f"SELECT id FROM docs ORDER BY id FOR {how};", "S:A\n4\n")])
    assert marks(world, "docs") == ""
    world.same([("postgres", "SELECT id FROM docs WHERE xmax <> 0;", "4\n")])


KEYED = """
CREATE TABLE d.cust (id int, label mls.label, PRIMARY KEY (id, label));
CREATE TABLE d.sale (id int, cust int, label mls.label, custlabel mls.label);
GRANT ALL ON d.cust, d.sale TO ann, bob; GRANT REFERENCES ON d.cust TO eve;
"""
ADD = "ALTER TABLE d.sale ADD CONSTRAINT k FOREIGN KEY "
LOCKS = "ERROR:  mls: a foreign key from {} to {} would lock rows of another label\n".format


def test_foreign_keys_lock_no_row_of_another_label(world):
    """A row at S:A that refers to a public one left xmax there."""
    other = ADD + "(cust, custlabel) REFERENCES d.cust (id, label);"
    told = "ERROR:  mls: foreign key that tells: k on d.sale\n"
    world.same([
        ("bob", KEYED + "CALL mls.protect('d.cust', 'd.sale');", ""),
        ("bob", other, "ERROR:  mls: table sale is protected: only a superuser changes that\n"),
        ("postgres", other, LOCKS("sale", "cust")),
        # (nor one whose action gives the row another label)
        ("postgres", ADD + "(cust, label) REFERENCES d.cust (id, label) ON DELETE SET NULL;", LOCKS("sale", "cust")),
        # (nor from a table that isn't protected, nor to one)
        ("eve", "CREATE TABLE d.probe (id int, label mls.label, FOREIGN KEY (id, label) REFERENCES d.cust);",
         "ERROR:  mls: eve may not CREATE TABLE: no star\n"),
        ("postgres", "SET ROLE bob; CREATE TABLE probe (id int, FOREIGN KEY (id, label) REFERENCES cust, "
                     "label text);", ""),
        ("postgres", "CREATE TABLE open (id int PRIMARY KEY); "
                     "ALTER TABLE sale ADD FOREIGN KEY (cust) REFERENCES open;", LOCKS("sale", "open")),
        # (one made before is refused by protect, whichever side is protected)
        ("postgres", "DROP TABLE probe, open, cust, sale;", ""),
        ("bob", KEYED + other + "CALL mls.protect('d.cust', 'd.sale');", told),
        ("bob", "CALL mls.protect('d.sale');", told),
        ("bob", "CALL mls.protect('d.cust');", told),
        # (and listed where a superuser has made it so)
        ("postgres", "CALL mls.protect_one('cust'); CALL mls.protect_one('sale'); "
                     "SELECT name FROM mls.audit() WHERE finding = 'foreign key that tells'; "
                     "ALTER TABLE sale DROP CONSTRAINT k;" + ADD + "(cust, label) REFERENCES d.cust; "
                     "SELECT count(*) FROM mls.audit() WHERE finding = 'foreign key that tells';",
         "k on d.sale\n0\n"),
        ("bob", "INSERT INTO d.cust VALUES (1, 'U_hi'); INSERT INTO d.sale VALUES (1, 1, 'U_hi');", ""),
        ("ann", AT_S + "INSERT INTO d.cust VALUES (1, 'S-A_hi'); INSERT INTO d.sale VALUES (2, 1, 'S-A_hi'); "
                       "INSERT INTO d.sale VALUES (3, 7, 'S-A_hi');",
         "S:A\nERROR:  insert or update on table \"sale\" violates foreign key constraint \"k\"\n"),
        # (what is added above one's level would tell whether a hidden row is there)
        ("bob", "INSERT INTO d.sale VALUES (4, 1, 'S-A_hi');",
         "ERROR:  mls: bob may not append container S-A_hi where a key would tell of hidden rows\n"),
    ])
    assert marks(world, "d.cust") == "1\n"
    world.same([
        ("ann", "SELECT label FROM d.cust WHERE xmax <> 0 ORDER BY label;", "S-A_hi\nU_hi\n"),
        ("postgres", "DROP TABLE sale, cust;", ""),
    ])


REFUSED = re.compile("^ERROR:  mls: table [a-z_]+ is protected: only a superuser changes that$", re.MULTILINE)
CHANGED = "ERROR:  mls: table t is protected: only a superuser changes that\n"
# What bob types, who has the role of the owner, and who owns `parent`, `hisdomain`, `histype` and f.
OWNERS = [
    "ALTER TABLE d.t INHERIT d.parent;",
    "ALTER TABLE d.t RENAME label TO was;",
    "ALTER TABLE d.t RENAME COLUMN body TO text;",
    "ALTER VIEW d.t RENAME TO u;",
    "ALTER TABLE d.t RENAME CONSTRAINT t_check TO c;",
    "ALTER TABLE d.t DROP COLUMN label CASCADE;",
    "CREATE INDEX ON d.t (d.f(body));",
    "ALTER TABLE d.t ADD CHECK (d.f(body) > 0);",
    "ALTER TABLE d.t ADD x int GENERATED ALWAYS AS (d.f(body)) STORED;",
    "ALTER TABLE d.t ALTER body TYPE int USING d.f(body);",
    "CREATE STATISTICS d.s ON (d.f(body)) FROM d.t;",
    "ALTER TABLE d.t ALTER body SET STATISTICS 1000;",
    "CREATE POLICY aaa ON d.t AS RESTRICTIVE USING (d.f(body) > 0);",
    "CREATE TRIGGER x BEFORE INSERT ON d.t FOR EACH ROW EXECUTE FUNCTION d.g();",
    "CREATE RULE r AS ON INSERT TO d.t DO ALSO SELECT 1;",
    "ALTER TABLE d.t DISABLE TRIGGER ALL;",
    "ALTER TABLE d.t OWNER TO bob;",
    "ALTER TABLE d.t SET SCHEMA public;",
    "ALTER TABLE d.t SET (fillfactor = 20);",
    "CLUSTER d.t USING t_pkey;",
    "VACUUM FULL d.t;",
    "VACUUM (VERBOSE) d.t;",
    "ANALYZE VERBOSE d.parent, d.t;",
    "REINDEX TABLE d.t;",
    "ALTER INDEX d.t_pkey RENAME TO x;",
    "DROP INDEX d.t_body_idx;",
    "DROP STATISTICS d.known;",
    "DROP TRIGGER told ON d.t;",
    "DROP FUNCTION d.g() CASCADE;",
    "DROP DOMAIN d.hisdomain CASCADE;",
    "DROP TYPE d.hiskind CASCADE;",
    "DROP TABLE d.t;",
    "DROP TABLE d.above CASCADE;",
    "DROP OWNED BY bob CASCADE;",
    "DROP SCHEMA mine CASCADE;",
    "ALTER TABLE d.above RENAME body TO text;",
    "ALTER TABLE d.above ADD CHECK (d.f(body) > 0);",
    "ALTER TABLE d.above ADD extra int;",
    "ALTER TYPE d.hisrow RENAME ATTRIBUTE body TO text CASCADE;",
    "ALTER TYPE d.hisrow DROP ATTRIBUTE label CASCADE;",
]
OWNED = """
SET ROLE bob;
CREATE FUNCTION f(text) RETURNS int LANGUAGE plpgsql IMMUTABLE COST 0.0001 AS $$ BEGIN RAISE NOTICE 'saw %', $1;
  RETURN 1; END $$;
CREATE FUNCTION g() RETURNS trigger LANGUAGE plpgsql AS 'BEGIN RETURN NEW; END';
CREATE DOMAIN hisdomain AS text; CREATE TYPE hiskind AS ENUM ('a'); CREATE TYPE hisrow AS (label text, body text);
CREATE TABLE parent (label mls.label, body text);
CREATE TABLE above (label mls.label, body text);
CREATE TABLE t (id int CHECK (id > 0), label mls.label, body text, kind hiskind, said hisdomain,
  PRIMARY KEY (id, label));
CREATE INDEX ON t (body); CREATE STATISTICS known ON id, body FROM t;
CREATE TRIGGER told BEFORE INSERT ON t FOR EACH ROW EXECUTE FUNCTION g();
CALL mls.protect('t');
RESET ROLE;
INSERT INTO t VALUES (1, 'S-A_hi', 'attack at dawn', 'a', 'at dawn');
CREATE SCHEMA mine AUTHORIZATION bob; CREATE TABLE mine.t (id int, label mls.label); CALL mls.protect('mine.t');
"""


def test_an_owner_changes_nothing_of_a_protected_table(world):
    world.same([("postgres", "GRANT CREATE ON SCHEMA public TO bob;" + OWNED, "")])
    # (heirs and tables of a type, put there by a superuser)
    world.same([("postgres", "SET ROLE bob; CREATE TABLE heir (label mls.label, body text); "
                             "CREATE TABLE typed OF hisrow; CALL mls.protect('heir', 'typed'); RESET ROLE; "
                             "ALTER TABLE heir INHERIT above;", "")])
    bob = world.server.session("bob")
    for sql in OWNERS:
        found = bob.ask(sql)
        assert REFUSED.search(found) and "saw" not in found, f"{sql}\n found {found}"
    world.same([
        ("bob", "ALTER DOMAIN d.hisdomain ADD CHECK (d.f(VALUE) > 0);",
         "ERROR:  mls: only a superuser adds a constraint to a domain: it looks at hidden rows\n"),
        ("bob", "ALTER TABLE d.parent ATTACH PARTITION d.t DEFAULT;", CHANGED),
        ("bob", "CREATE TABLE d.heir2 () INHERITS (d.t);",
         "ERROR:  mls: table t is protected, and what stands below it must be too\n"),
        # (what stays the owner's)
        ("bob", "GRANT SELECT ON d.t TO ann; REVOKE SELECT ON d.t FROM ann; VACUUM d.parent; "
                "COMMENT ON TABLE d.t IS 'x'; SELECT mls.is_protected('d.t'), count(*) FROM d.t;", "t|0\n"),
        # (what does all tables does those too, and would tell of their rows)
        ("bob", "VACUUM; ANALYZE VERBOSE; CLUSTER; REINDEX SCHEMA d;",
         "ERROR:  mls: only a superuser vacuums, clusters or reindexes all tables\n" * 4),
        # (a temporary table is its session's)
        ("bob", "CREATE TEMP TABLE tmp (label mls.label); CALL mls.protect('tmp'); DROP TABLE tmp;", ""),
    ])
    assert "d.heir below d.above" in faults(world, "table without protection above it")
    world.same([("postgres", "DROP TABLE heir, typed, t, above, parent; DROP SCHEMA mine CASCADE;"
                             "DROP TYPE hisrow, hiskind; DROP DOMAIN hisdomain; DROP FUNCTION f, g; "
                             "REVOKE CREATE ON SCHEMA public FROM bob;",
                 "NOTICE:  drop cascades to table mine.t\n")])


def faults(world, finding):
    return world.ask("postgres", f"SELECT name FROM mls.audit() WHERE finding = '{finding}';").splitlines()


def test_protect_refuses_what_runs_over_hidden_rows(world):
    make = "CREATE TABLE d.t (id int, label mls.label, body text); {} CALL mls.protect('d.t'); DROP TABLE d.t;".format
    world.same([
        ("bob", "CREATE FUNCTION d.f(text) RETURNS int LANGUAGE sql IMMUTABLE AS 'SELECT 1'; "
                "CREATE TABLE d.parent (id int, label mls.label, body text);", ""),
        ("bob", make("CREATE INDEX ON d.t (d.f(body));"),
         "ERROR:  mls: function over hidden rows: d.f(text) on d.t\n"),
        ("bob", make("CREATE STATISTICS d.s ON (d.f(body)) FROM d.t;"),
         "ERROR:  mls: function over hidden rows: d.f(text) on d.t\n"),
        ("bob", make("CREATE POLICY aaa ON d.t AS RESTRICTIVE USING (true);"),
         "ERROR:  mls: policy that is asked first: aaa on d.t\n"),
        ("bob", make("ALTER TABLE d.t INHERIT d.parent;"),
         "ERROR:  mls: table without protection above it: d.t below d.parent\n"),
        ("bob", "DROP TABLE d.parent; DROP FUNCTION d.f;", ""),
    ])


def test_the_audit_names_who_can_become_the_owner(world):
    world.same([("postgres", "CREATE ROLE friend; GRANT keeper TO friend; GRANT friend TO bob; "
                             "CREATE ROLE clerk LOGIN CREATEROLE CREATEDB; GRANT pg_signal_backend TO clerk;", "")])
    assert faults(world, "role that can become the owner") == ["bob: keeper"]
    assert faults(world, "role with CREATEROLE") == faults(world, "role with CREATEDB") == ["clerk"]
    assert faults(world, "role with pg_signal_backend") == ["clerk"]
    world.same([("postgres", "REVOKE pg_signal_backend FROM clerk; DROP ROLE friend, clerk;", "")])
    assert faults(world, "role that can become the owner") == []


UP = "ERROR:  mls: bob may not append container S-A_hi where a key would tell of hidden rows\n"


def test_a_guess_at_a_key_tells_nothing(world):
    """bob adds a row with a guessed key at a label above, and sees whether it is there."""
    world.same([
        ("postgres", "CREATE TABLE k (id int, label mls.label, PRIMARY KEY (id, label)); "
                     "CREATE TABLE x (id int, label mls.label, EXCLUDE USING btree (id WITH =, label WITH =)); "
                     "CREATE TABLE p (id int, label mls.label) PARTITION BY RANGE (id); "
                     "CREATE TABLE p1 PARTITION OF p (PRIMARY KEY (id, label)) FOR VALUES FROM (0) TO (9); "
                     "CREATE TABLE heap (id int, label mls.label); CALL mls.protect('k', 'x', 'p', 'heap'); "
                     "GRANT ALL ON k, x, p, heap TO bob, ann; INSERT INTO k VALUES (1, 'S-A_hi'); "
                     "INSERT INTO x VALUES (1, 'S-A_hi'); INSERT INTO p VALUES (1, 'S-A_hi');", ""),
        ("bob", "INSERT INTO d.k VALUES (1, 'S-A_hi') ON CONFLICT DO NOTHING;", UP),
        ("bob", "INSERT INTO d.k VALUES (2, 'S-A_hi') ON CONFLICT DO NOTHING;", UP),
        ("bob", "INSERT INTO d.k VALUES (1, 'S-A_hi');", UP),
        ("bob", "INSERT INTO d.k VALUES (1, 'S-A_hi') ON CONFLICT (id, label) DO UPDATE SET id = 3;", UP),
        ("bob", "MERGE INTO d.k USING (VALUES (5)) v (n) ON id = n WHEN NOT MATCHED THEN INSERT VALUES (n, 'S-A_hi');",
         UP),
        ("bob", "WITH a AS (INSERT INTO d.k VALUES (1, 'S-A_hi') RETURNING 1) SELECT 1;", UP),
        ("bob", "INSERT INTO d.x VALUES (1, 'S-A_hi');", UP),
        ("bob", "INSERT INTO d.p VALUES (1, 'S-A_hi');", UP),
        ("bob", "CREATE FUNCTION d.adds() RETURNS int LANGUAGE sql AS $$ INSERT INTO d.k VALUES (1, 'S-A_hi') "
                "RETURNING 1 $$; INSERT INTO d.heap SELECT d.adds(), 'U_hi'; DROP FUNCTION d.adds;", UP),
        ("bob", "INSERT INTO d.heap VALUES (1, 'S-A_hi'); INSERT INTO d.k VALUES (1, 'U_hi') ON CONFLICT DO NOTHING;"
                "INSERT INTO d.k VALUES (1, 'U_hi') ON CONFLICT DO NOTHING; SELECT * FROM d.k;", "1|U_hi\n"),
        ("ann", AT_S + "INSERT INTO d.k VALUES (7, 'S-A_hi'), (1, 'S-A_hi') ON CONFLICT DO NOTHING; "
                       "SELECT * FROM d.k ORDER BY id, label;", "S:A\n1|S-A_hi\n1|U_hi\n7|S-A_hi\n"),
        ("postgres", "DROP TABLE k, x, p, heap;", ""),
    ])


def test_a_key_without_label_locks_no_row_of_another(world):
    """ON CONFLICT DO UPDATE locks the row that is there, and then is refused: the lock stays."""
    world.same([
        ("ann", AT_S + "INSERT INTO docs VALUES (1, 'S-A_hi', 'x') ON CONFLICT (id) DO UPDATE SET body = 'y';",
         "S:A\nERROR:  mls: ann may not update on a conflict of a key without label: no star\n"),
        ("ann", "WITH a AS (INSERT INTO docs VALUES (1, 'S-A_hi', 'x') ON CONFLICT (id) DO UPDATE SET body = 'y' "
                "RETURNING 1) SELECT 1;",
         "ERROR:  mls: ann may not update on a conflict of a key without label: no star\n"),
    ])
    assert marks(world, "docs") == ""
    world.same([("bob", "INSERT INTO docs VALUES (1, 'U_hi', 'x') ON CONFLICT (id) DO UPDATE SET body = 'y' "
                        "RETURNING body;", "y\n")])


def test_the_worker_of_a_parallel_query_asks_nothing(world):
    """A function that says falsely that it is parallel safe runs there, without the session's monitor and level."""
    force = "SET force_parallel_mode = on; SET parallel_setup_cost = 0; SET parallel_tuple_cost = 0; "
    world.same([
        ("bob", "CREATE FUNCTION d.reads() RETURNS bigint LANGUAGE plpgsql PARALLEL SAFE AS 'BEGIN RETURN (SELECT "
                "count(*) FROM d.docs); END'; CREATE FUNCTION d.cancels() RETURNS bool LANGUAGE plpgsql PARALLEL SAFE "
                "AS 'BEGIN RETURN pg_cancel_backend(1); END';", ""),
    ])
    # (where no worker is free the session runs it itself, and is bound as always)
    alone = "ERROR:  mls: the worker of a parallel query asks nothing\n"
    for role, sql, own in (("ann", AT_S + force + "SELECT d.reads();", "4\n"),
                           ("ann", AT_S + force + "SELECT d.cancels();",
                            "ERROR:  mls: ann may not call pg_cancel_backend: no star\n"),
                           ("bob", force + "CREATE TABLE d.copy AS SELECT d.reads();",
                            "ERROR:  mls: rows of docs would be copied without their labels\n")):
        with world.opened("parallel"):
            found = world.ask(role, sql).removeprefix("S:A\n")
        assert found in (alone, own), f"{sql}\n found {found}"
    world.same([("bob", "DROP FUNCTION d.reads; DROP FUNCTION d.cancels;", "")])


def test_the_audit_names_keys_of_all_kinds(world):
    world.same([("postgres", "CREATE TABLE k (id int, label mls.label, a int4range, UNIQUE (id) INCLUDE (label), "
                             "EXCLUDE USING gist (a WITH &&), EXCLUDE USING btree (id WITH =, label WITH =)); "
                             "CALL mls.protect('k');", "")])
    assert faults(world, "key that tells") == ["d.docs_pkey on d.docs", "d.k_a_excl on d.k", "d.k_id_label_key on d.k"]
    world.same([("postgres", "DROP TABLE k;", "")])


def test_sequences_are_not_advanced_above(world):
    taken = "S:A\nERROR:  mls: ann may not {}: no star\n".format
    number = taken("take the next number of a sequence")
    world.same([
        ("postgres", "CREATE SEQUENCE counter; CREATE TABLE s (id serial, label mls.label); "
                     "CREATE TABLE i (id int GENERATED BY DEFAULT AS IDENTITY, label mls.label, body text); "
                     "CALL mls.protect('s', 'i'); GRANT ALL ON SEQUENCE counter, s_id_seq TO ann, bob; "
                     "GRANT ALL ON s, i TO ann, bob;", ""),
        ("ann", AT_S + "SELECT nextval('counter') FROM generate_series(1, 65536);", taken("call nextval")),
        ("ann", AT_S + "INSERT INTO d.s (label) VALUES ('S-A_hi');", taken("call nextval")),
        ("ann", AT_S + "INSERT INTO d.i (label) VALUES ('S-A_hi');", number),
        ("ann", AT_S + "INSERT INTO d.i (label) VALUES ('S-A_hi'), ('S-A_hi');", number),
        ("ann", AT_S + "INSERT INTO d.i (label) SELECT label FROM docs ORDER BY body LIMIT 1;", number),
        ("ann", AT_S + "WITH a AS (INSERT INTO d.i (label) VALUES ('S-A_hi') RETURNING 1) SELECT 1;", number),
        ("ann", AT_S + "MERGE INTO d.i USING (VALUES (5)) v (n) ON id = n WHEN NOT MATCHED THEN INSERT (label) "
                       "VALUES ('S-A_hi');", number),
        ("ann", AT_S + "INSERT INTO d.i VALUES (7, 'S-A_hi'); UPDATE d.i SET id = DEFAULT;", number),
        ("bob", "SELECT nextval('counter'); INSERT INTO d.s (label) VALUES ('U_hi') RETURNING id; "
                "INSERT INTO d.i (label) VALUES ('U_hi') RETURNING id;", "1\n1\n1\n"),
    ])
    with world.opened("nextval_up"):
        world.same([("ann", AT_S + "INSERT INTO d.s (label) VALUES ('S-A_hi') RETURNING id; "
                                   "INSERT INTO d.i (label) VALUES ('S-A_hi') RETURNING id;", "S:A\n2\n2\n")])
    world.same([("postgres", "DROP TABLE s, i; DROP SEQUENCE counter;", "")])


TELLS = "SELECT remedy || ';' FROM mls.audit() WHERE finding = 'function that tells';"


def test_the_audit_asks_for_each_revoke_by_its_statement(world):
    """What it says is typed, and then it finds nothing more; ann at S:A is seen by none of these."""
    asked = world.ask("postgres", TELLS)
    assert "REVOKE EXECUTE ON FUNCTION pg_lock_status() FROM public;\n" in asked, asked
    assert "REVOKE EXECUTE ON FUNCTION pg_stat_get_numscans(oid) FROM public;\n" in asked, asked
    world.same([("bob", "SELECT count(*) > 0 FROM pg_locks; SELECT count(*) > 0 FROM pg_stat_user_tables;", "t\nt\n")])
    world.same([("postgres", asked + TELLS, "")])
    denied = "ERROR:  permission denied for function {}\n".format
    world.same([
        ("bob", "SELECT * FROM pg_locks;", denied("pg_lock_status")),
        ("bob", "SELECT seq_scan FROM pg_stat_user_tables;", denied("pg_stat_get_numscans")),
        ("bob", "SELECT * FROM pg_stat_activity;", denied("pg_stat_get_activity")),
        ("bob", "SELECT pg_current_wal_insert_lsn();", denied("pg_current_wal_insert_lsn")),
        ("bob", "SELECT pg_relation_size('docs');", denied("pg_relation_size")),
        ("bob", "SELECT id FROM docs;", "1\n"),
        ("postgres", asked.replace("REVOKE", "GRANT").replace("FROM public", "TO public"), ""),
    ])
    # (in other databases it can't look: it asks that nobody enters them)
    assert faults(world, "other database") == ["postgres", "template1"]
    closes = world.ask("postgres", "SELECT remedy || ';' FROM mls.audit() WHERE finding = 'other database';")
    world.same([("postgres", closes, "")])
    assert faults(world, "other database") == []
    world.same([("postgres", closes.replace("REVOKE", "GRANT").replace("FROM public", "TO public"), "")])


def test_a_held_cursor_copies_nothing_by_a_function(world):
    """The rows of WITH HOLD are taken at the end of the transaction, or as they are fetched."""
    copied = "ERROR:  mls: rows of docs would be copied without their labels\n"
    held = "BEGIN; DECLARE c CURSOR WITH HOLD FOR SELECT {}; {} COMMIT; FETCH c;".format
    xml = "query_to_xml('SELECT body FROM d.docs', true, false, '')"
    world.same([
        ("bob", held(xml, ""), copied + "ERROR:  cursor \"c\" does not exist\n"),
        ("bob", held(xml, "FETCH c;"), copied + "ERROR:  cursor \"c\" does not exist\n"),
        ("bob", held("table_to_xml('d.docs', true, false, '')", ""), copied + "ERROR:  cursor \"c\" does not exist\n"),
        ("bob", held("1", ""), "1\n"),
        ("bob", f"SELECT {xml}::text LIKE '%lunch%';", "t\n"),
    ])


def test_no_user_has_scans_begin_together(world):
    """A scan that begins where another one stands says where that is. (pg_dump switches it off for itself.)"""
    only = "ERROR:  mls: only a superuser switches synchronize_seqscans on\n"
    world.same([
        ("bob", "SET synchronize_seqscans = on; ALTER ROLE bob SET synchronize_seqscans = on;", 2 * only),
        ("bob", "SELECT set_config('synchronize_seqscans', 'on', false);", only),
        ("bob", "SET synchronize_seqscans = off; SHOW synchronize_seqscans;", "off\n"),
    ])
    asked = world.server.ask("bob", "SELECT 1;", env={**os.environ, "PGOPTIONS": "-c synchronize_seqscans=on"})
    assert only.replace("ERROR", "FATAL").strip() in asked, asked


def test_plans_tell_nothing_of_hidden_rows(world):
    told = "ERROR:  mls: a plan over docs would tell of hidden rows\n"
    world.same([
        ("bob", "EXPLAIN SELECT * FROM docs WHERE body = 'attack at dawn';", told),
        ("bob", "EXPLAIN (ANALYZE) SELECT * FROM docs;", told),
        ("bob", "PREPARE p AS SELECT * FROM docs; EXPLAIN EXECUTE p;", told),
        ("bob", "DO $$ DECLARE t text; BEGIN EXECUTE 'EXPLAIN SELECT * FROM docs' INTO t; END $$;", told),
        ("bob", "EXPLAIN DECLARE c CURSOR FOR SELECT * FROM docs;", told),
        ("bob", "SET debug_print_plan = on; SET client_min_messages = log; SELECT * FROM docs;",
         "LOG:  statement: SELECT * FROM docs;\n" + told),
        ("bob", "EXPLAIN (COSTS off) SELECT 1;", "Result\n"),
        ("postgres", "EXPLAIN (COSTS off) SELECT * FROM docs;", "Seq Scan on docs\n"),
    ])
