"""What tells of other sessions or of hidden rows without a row that is read: plans, workers, the cache, snapshots, and
functions that stand behind a type or an operator. Each row has the statements that did it once."""
import re
import time

from rows_closed import AT_S

SAMPLE = """
CREATE TABLE known (id int, label mls.label, body text); CALL mls.protect('known'); GRANT SELECT ON known TO bob;
INSERT INTO known SELECT n, 'S-A_hi', 'text ' || k FROM generate_series(1, 90) k, generate_series(1, 30) n
  WHERE k % 3 = 0;
INSERT INTO known SELECT k, 'U_hi', 'mine ' || k FROM generate_series(1, 2000) k;
CREATE INDEX ON known (body); CREATE INDEX ON known (lower(body)); CREATE STATISTICS two ON label, body FROM known;
ANALYZE known;
"""
GUESSED = "SELECT id FROM d.known WHERE body IN ('mine 3', 'mine 2000', '{}');"
# Of seven questions, how many got a plan for all values: that is chosen where plans for this value cost more.
PREPARED = ("PREPARE p(text) AS SELECT FROM d.known WHERE {} = $1;" + "EXECUTE p('{}');" * 7 +
            "SELECT generic_plans FROM pg_prepared_statements;")


def test_plans_are_not_made_of_hidden_rows(world):
    """A guessed text that stands in thirty hidden rows had rows come in another order than one that stands in none."""
    world.same([("postgres", SAMPLE, "")])
    there, none = (world.ask("bob", GUESSED.format(text)) for text in ("text 3", "text 4"))
    assert there == none, (there, none)
    for column in ("body", "lower(body)"):
        there, none = (world.ask("bob", PREPARED.format(column, *[text] * 7)) for text in ("text 3", "text 4"))
        assert there == none, (column, there, none)
    with world.opened("statistics"):
        there, none = (world.ask("bob", GUESSED.format(text)) for text in ("text 3", "text 4"))
        assert there == "3\n2000\n" and none == "2000\n3\n", (there, none)
        assert "setting that opens|mls.statistics=on in demo" in world.ask("postgres", "SELECT * FROM mls.audit();")
    world.same([("postgres", "DROP TABLE known;", "")])


CHEAP = "SET parallel_setup_cost = 0; SET parallel_tuple_cost = 0; SET min_parallel_table_scan_size = 0; "
WORKERS = CHEAP + "EXPLAIN (ANALYZE, COSTS off, TIMING off, SUMMARY off) SELECT count(*) FROM d.much;"


def test_no_session_takes_workers(world):
    """Of the server's workers ann takes some, and bob is shown how many are left."""
    world.same([("postgres", "CREATE TABLE much AS SELECT k FROM generate_series(1, 20000) k; "
                             "GRANT SELECT ON much TO ann, bob;", "")])
    assert "Workers" not in world.ask("bob", WORKERS)
    world.same([("ann", AT_S + CHEAP + "SELECT count(DISTINCT pg_backend_pid()) FROM d.much;", "S:A\n1\n")])
    with world.opened("parallel"):
        assert "Workers Launched" in world.ask("bob", WORKERS)
        assert "setting that opens|mls.parallel=on in demo" in world.ask("postgres", "SELECT * FROM mls.audit();")
    world.same([("postgres", "DROP TABLE much;", "")])


def test_the_cache_is_not_counted(world):
    """Which pages of a table without labels ann has read was exact in the counts of pages that bob found there."""
    told = "ERROR:  mls: EXPLAIN (BUFFERS) would tell what other sessions read\n"
    world.same([
        ("bob", "CREATE TABLE d.own (x int); EXPLAIN (BUFFERS, COSTS off) SELECT * FROM d.own;", told),
        ("bob", "EXPLAIN (ANALYZE, BUFFERS on) SELECT 1;", told),
        ("bob", "DO $$ DECLARE t text; BEGIN EXECUTE 'EXPLAIN (BUFFERS) SELECT 1' INTO t; END $$;", told),
        ("bob", "EXPLAIN (BUFFERS off, COSTS off) SELECT 1;", "Result\n"),
        ("bob", "VACUUM VERBOSE d.own;", "ERROR:  mls: VERBOSE would tell what other sessions read\n"),
        ("bob", "ANALYZE VERBOSE d.own;", "ERROR:  mls: VERBOSE would tell what other sessions read\n"),
        ("bob", "VACUUM (VERBOSE off) d.own; VACUUM d.own; ANALYZE d.own; DROP TABLE d.own;", ""),
    ])
    with world.opened("explain"):
        assert "Result" in world.ask("bob", "EXPLAIN (ANALYZE, BUFFERS) SELECT 1;")


SERIALIZABLE = "ERROR:  mls: ann may not run a SERIALIZABLE transaction: no star\n"


def test_no_snapshot_above_has_one_below_wait(world):
    """A transaction of bob's that is SERIALIZABLE and DEFERRABLE waited for one of ann's that only had a snapshot."""
    above = world.server.session("ann")
    assert above.ask("SELECT mls.level('S:A');") == "S:A\n"
    for sql in ("DO $$ BEGIN END $$;", "PREPARE p AS SELECT 1;", "EXPLAIN (COSTS off) SELECT 1;"):
        assert above.ask("BEGIN ISOLATION LEVEL SERIALIZABLE;" + sql).startswith(SERIALIZABLE), sql
        begun_at = time.monotonic()
        world.same([("bob", "SET statement_timeout = '20s'; BEGIN ISOLATION LEVEL SERIALIZABLE READ ONLY DEFERRABLE; "
                            "SELECT 1; COMMIT;", "1\n")])
        assert time.monotonic() < begun_at + 20, sql
        above.ask("ROLLBACK; DEALLOCATE ALL;")
    for sql in ("BEGIN; SET TRANSACTION ISOLATION LEVEL SERIALIZABLE; ROLLBACK;",
                "SET default_transaction_isolation = serializable;",
                "SET SESSION CHARACTERISTICS AS TRANSACTION ISOLATION LEVEL SERIALIZABLE;",
                "SELECT set_config('transaction_isolation', 'serializable', true);"):
        assert above.ask(sql) == SERIALIZABLE, sql


def test_the_level_stays_where_all_transactions_are_serializable(world):
    world.same([
        ("ann", "SET default_transaction_isolation = serializable; BEGIN ISOLATION LEVEL READ COMMITTED; "
                "SELECT mls.level('S:A'); ROLLBACK; RESET default_transaction_isolation; SELECT mls.level('S:A');",
         "ERROR:  mls: the level stays while transactions are SERIALIZABLE by default\nS:A\n"),
        ("postgres", "ALTER ROLE ann SET default_transaction_isolation = serializable; SELECT name FROM mls.audit() "
                     "WHERE finding = 'setting that opens'; ALTER ROLE ann RESET default_transaction_isolation;",
         "default_transaction_isolation=serializable of ann\n"),
    ])


# What of a table calls a function of bob's, where no index and no statistics name it.
BEHIND = [
    ("body text); CREATE INDEX ON d.t ((body OPERATOR(d.===) 'x'));", "same(text,text)"),
    ("body text); CREATE INDEX ON d.t (id) WHERE body OPERATOR(d.===) 'x';", "same(text,text)"),
    ("body text); CREATE STATISTICS d.s ON (body OPERATOR(d.===) 'x') FROM d.t;", "same(text,text)"),
    ("body text); CREATE INDEX ON d.t ((body::d.checked));", "okay(text)"),
    ("body d.span);", "apart(text,text)"),
    ("body d.span[]);", "apart(text,text)"),
    ("body d.boxed);", "apart(text,text)"),
]
OWN = """
CREATE FUNCTION d.same(text, text) RETURNS bool LANGUAGE plpgsql IMMUTABLE AS 'BEGIN RETURN $1 = $2; END';
CREATE FUNCTION d.okay(text) RETURNS bool LANGUAGE plpgsql IMMUTABLE AS 'BEGIN RETURN true; END';
CREATE FUNCTION d.apart(text, text) RETURNS float8 LANGUAGE plpgsql IMMUTABLE AS 'BEGIN RETURN 1; END';
CREATE OPERATOR d.=== (FUNCTION = d.same, LEFTARG = text, RIGHTARG = text);
CREATE DOMAIN d.checked AS text CHECK (d.okay(VALUE));
CREATE TYPE d.span AS RANGE (SUBTYPE = text, SUBTYPE_DIFF = d.apart);
CREATE TYPE d.boxed AS (it d.span);
"""


def test_functions_behind_operators_and_types_see_no_hidden_row(world):
    """ANALYZE, which the server runs by itself, gave bob's function all rows of a table that he had protected."""
    world.same([("bob", OWN, "")])
    for columns, function in BEHIND:
        world.same([("bob", f"CREATE TABLE d.t (id int, label mls.label, {columns} CALL mls.protect('d.t'); "
                            "DROP TABLE d.t;", f"ERROR:  mls: function over hidden rows: d.{function} on d.t\n")])
    # (those of a superuser may)
    world.same([
        ("postgres", "ALTER FUNCTION apart OWNER TO postgres;", ""),
        ("bob", "CREATE TABLE d.t (id int, label mls.label, body d.boxed); CALL mls.protect('d.t'); "
                "SELECT mls.is_protected('d.t');", "t\n"),
        ("postgres", "ALTER FUNCTION apart OWNER TO bob; SELECT name FROM mls.audit() WHERE finding ~ 'function over'; "
                     "DROP TABLE t; DROP TYPE boxed, span; DROP DOMAIN checked; DROP OPERATOR === (text, text); "
                     "DROP FUNCTION same, okay, apart;", "d.apart(text,text) on d.t\n"),
    ])


def test_positions_of_the_log_are_told_by_no_function(world):
    """A message for logical decoding returns where it stands in the log."""
    asked = world.ask("postgres", "SELECT remedy FROM mls.audit() WHERE finding = 'function that tells';")
    for function in ("pg_logical_emit_message(boolean,text,text)", "pg_last_wal_replay_lsn()",
                     "brin_summarize_range(regclass,bigint)"):
        assert re.search(rf"REVOKE EXECUTE ON FUNCTION {re.escape(function)} FROM public$", asked, re.M), function
    world.same([("ann", AT_S + "SELECT brin_summarize_range('d.docs_pkey', 0);",
                 "S:A\nERROR:  mls: ann may not call brin_summarize_range: no star\n")])


def test_the_audit_names_who_may_set_what(world):
    world.same([
        ("postgres", "GRANT SET ON PARAMETER mls.explain TO bob; GRANT ALTER SYSTEM ON PARAMETER mls.socket TO public;",
         ""),
        ("bob", "SET mls.explain = on; EXPLAIN (COSTS off) SELECT * FROM docs;",
         "Seq Scan on docs\n  Filter: mls.may_read((label)::text)\n"),
    ])
    asked = world.ask("postgres", "SELECT remedy || ';' FROM mls.audit() WHERE finding ~ '^parameter';")
    assert asked == ("REVOKE SET ON PARAMETER mls.explain FROM bob;\n"
                     "REVOKE ALTER SYSTEM ON PARAMETER mls.socket FROM public;\n"), asked
    world.same([("postgres", asked + "SELECT count(*) FROM mls.audit() WHERE finding ~ '^parameter';", "0\n"),
                ("bob", "SET mls.explain = on;", 'ERROR:  permission denied to set parameter "mls.explain"\n')])
