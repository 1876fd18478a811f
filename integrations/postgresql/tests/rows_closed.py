"""Ways round the policies that are closed: whoever works above the lowest label leaves nothing that has no label, and
rows are not copied to where they have none."""

AT_S = "SELECT mls.level('S:A'); "

# What ann types at S:A, and the deed that she is then refused. The objects are made before, by a superuser.
LEAVING = [
    ("CREATE TABLE d.dawn (x int);", "CREATE TABLE"),
    ("CREATE TEMP TABLE dawn (x int);", "CREATE TABLE"),
    ("CREATE VIEW d.dawn AS SELECT 1;", "CREATE VIEW"),
    ("CREATE SEQUENCE d.dawn;", "CREATE SEQUENCE"),
    ("CREATE FUNCTION d.dawn() RETURNS int LANGUAGE sql AS 'SELECT 1';", "CREATE FUNCTION"),
    ("CREATE TYPE d.dawn AS ENUM ('attack');", "CREATE TYPE"),
    ("CREATE SCHEMA dawn;", "CREATE SCHEMA"),
    ("CREATE TABLE d.dawn AS SELECT 'attack at dawn' AS x;", "CREATE TABLE AS"),
    ("SELECT body INTO d.dawn FROM docs;", "SELECT INTO"),
    ("EXPLAIN ANALYZE CREATE TABLE d.dawn AS SELECT * FROM docs;", "EXPLAIN"),
    ("CREATE MATERIALIZED VIEW d.dawn AS SELECT * FROM docs;", "CREATE MATERIALIZED VIEW"),
    ("COMMENT ON TABLE hers IS 'attack at dawn';", "COMMENT"),
    ("ALTER TABLE hers RENAME TO dawn;", "ALTER TABLE"),
    ("ALTER TABLE hers ALTER x SET DEFAULT 'attack at dawn';", "ALTER TABLE"),
    ("DROP TABLE hers;", "DROP TABLE"),
    ("GRANT SELECT ON hers TO bob;", "GRANT"),
    ("ANALYZE hers;", "ANALYZE"),
    ("TRUNCATE hers;", "TRUNCATE TABLE"),
    ("ALTER ROLE ann SET search_path = 'attack at dawn';", "ALTER ROLE"),
    ("NOTIFY dawn, 'attack';", "NOTIFY"),
    ("SELECT pg_notify('dawn', 'attack');", "call pg_notify"),
    ("DO $$ BEGIN EXECUTE 'NOTIFY dawn'; END $$;", "NOTIFY"),
    ("DO $$ BEGIN PERFORM pg_notify('dawn', 'attack'); END $$;", "call pg_notify"),
    ("COPY hers FROM PROGRAM 'echo attack';", "COPY"),
    ("COPY docs TO PROGRAM 'cat';", "COPY"),
    ("COPY docs TO '/tmp/dawn';", "COPY"),
    ("SELECT lo_create(0);", "call lo_create"),
    ("SELECT lo_creat(-1);", "call lo_creat"),
    ("SELECT lo_from_bytea(0, 'attack');", "call lo_from_bytea"),
    ("SELECT lo_put(1, 0, 'attack');", "call lo_put"),
    ("SELECT setval('d.counter', 1234567);", "call setval"),
    ("SELECT nextval('d.counter');", "call nextval"),
    ("BEGIN ISOLATION LEVEL REPEATABLE READ; SELECT pg_export_snapshot(); ROLLBACK;", "call pg_export_snapshot"),
    ("SELECT pg_cancel_backend(1);", "call pg_cancel_backend"),
    ("SELECT pg_advisory_unlock_all();", "call pg_advisory_unlock_all"),
    ("LOCK TABLE hers;", "LOCK TABLE"),
    ("LOCK TABLE docs IN ROW SHARE MODE;", "LOCK TABLE"),
    ("SELECT * FROM scratch FOR KEY SHARE;", "lock rows of a table without protection"),
    ("BEGIN ISOLATION LEVEL SERIALIZABLE; SELECT count(*) FROM docs; ROLLBACK;", "run a SERIALIZABLE transaction"),
    ("SELECT pg_advisory_lock(1234567);", "call pg_advisory_lock"),
    ("SELECT pg_try_advisory_xact_lock_shared(12, 34);", "call pg_try_advisory_xact_lock_shared"),
    ("BEGIN; SELECT count(*) FROM docs; PREPARE TRANSACTION 'dawn'; ROLLBACK;", "PREPARE TRANSACTION"),
    ("INSERT INTO scratch SELECT body FROM docs;", "write a table without protection"),
    ("UPDATE scratch SET note = 'attack at dawn';", "write a table without protection"),
    ("DELETE FROM scratch;", "write a table without protection"),
    ("WITH gone AS (DELETE FROM scratch RETURNING 1) SELECT count(*) FROM gone;", "write a table without protection"),
    ("EXPLAIN ANALYZE INSERT INTO scratch VALUES ('dawn');", "write a table without protection"),
    ("SET application_name = 'attack at dawn';", "SET"),
    ("RESET application_name;", "RESET"),
    ("SELECT set_config('application_name', 'attack at dawn', false);", "set application_name"),
    ("SELECT d.named();", "set application_name"),
]


def refused(deed):
    return f"ERROR:  mls: ann may not {deed}" + ("" if deed == "set application_name" else ": no star")


def test_nothing_is_left_above_the_lowest_label(world):
    world.same([("postgres", "CREATE TABLE hers (x text); ALTER TABLE hers OWNER TO ann; "
                             "CREATE SEQUENCE counter; GRANT ALL ON SEQUENCE counter TO ann; "
                             "GRANT pg_write_server_files TO ann; "
                             "GRANT pg_execute_server_program, pg_read_server_files TO ann; "
                             "GRANT CREATE ON DATABASE demo TO ann; "
                             "CREATE FUNCTION named() RETURNS int LANGUAGE sql SET application_name = 'dawn' AS "
                             "'SELECT 1';", "")])
    for sql, deed in LEAVING:
        found = world.ask("ann", AT_S + sql).splitlines()
        assert refused(deed) in found, f"{sql}\n found {found}\n wanted {refused(deed)}"
    # (psql calls the functions of large objects by a message of their own)
    said = world.ask("ann", AT_S + "\n\\lo_import /etc/hostname\n")
    assert refused("call lo_creat") in said or refused("call lo_create") in said, said
    world.same([("postgres", "DROP TABLE hers; DROP SEQUENCE counter; DROP FUNCTION named; "
                             "SELECT count(*) FROM scratch; SELECT count(*) FROM pg_largeobject_metadata; "
                             "REVOKE CREATE ON DATABASE demo FROM ann; "
                             "REVOKE pg_write_server_files, pg_execute_server_program, "
                             "pg_read_server_files FROM ann;", "0\n0\n")])


def test_all_is_left_at_the_lowest_label(world):
    world.same([
        ("ann", "CREATE TABLE d.mine (x text); COMMENT ON TABLE d.mine IS 'x'; NOTIFY dawn; "
                "SELECT pg_notify('dawn', 'x'); SET application_name = 'x'; SELECT lo_create(77); "
                "SELECT lo_unlink(77); INSERT INTO scratch VALUES ('x'); SELECT pg_try_advisory_lock(7); "
                "CREATE TABLE d.again AS SELECT * FROM scratch; SELECT * FROM d.again; DROP TABLE d.mine, d.again; "
                "ALTER ROLE ann SET search_path = d; ALTER ROLE ann RESET ALL;",
         "\n77\n1\nt\nx\n"),
        # (what was left in a transaction holds its level down to the end)
        ("ann", "BEGIN; NOTIFY dawn; SELECT mls.held(); SELECT mls.level('S:A'); ROLLBACK;",
         "append U_hi\nERROR:  mls: ann may not work at S:A: no star\n"),
        # (its integrity is hi)
        ("eve", "NOTIFY dawn;", "ERROR:  mls: eve may not NOTIFY: no star\n"),
        ("app", "NOTIFY dawn;", "ERROR:  mls: the monitor says not yours to app\n"),
    ])


def test_what_leaves_nothing_is_allowed(world):
    sql = ("SET work_mem = '8MB'; SHOW work_mem; BEGIN ISOLATION LEVEL REPEATABLE READ; PREPARE p AS SELECT 1; "
           "EXECUTE p; SAVEPOINT s; RELEASE s; DECLARE c CURSOR FOR SELECT id FROM docs ORDER BY id; FETCH 2 FROM c; "
           "CLOSE c; DO $$ BEGIN PERFORM count(*) FROM docs; END $$; LISTEN dawn; COMMIT; UNLISTEN *; DEALLOCATE p; "
           "COPY (SELECT id FROM docs ORDER BY id) TO STDOUT; DISCARD ALL;")
    world.same([("ann", AT_S + sql, "S:A\n8MB\n1\n1\n2\n1\n2\n3\n4\n")])


def copied(table="docs"):
    return f"ERROR:  mls: rows of {table} would be copied without their labels\n"


def test_rows_are_not_copied_without_labels(world):
    world.same([
        ("bob", "CREATE FUNCTION d.all_ids() RETURNS bigint LANGUAGE plpgsql AS $$ BEGIN RETURN (SELECT count(*) "
                "FROM d.docs); END $$; CREATE VIEW d.seen WITH (security_invoker) AS SELECT * FROM docs;", ""),
        ("bob", "CREATE TABLE d.copy AS SELECT * FROM docs;", copied()),
        ("bob", "SELECT * INTO d.copy FROM docs;", copied()),
        ("bob", "CREATE TABLE d.copy AS SELECT * FROM d.seen;", copied()),
        ("bob", "CREATE TABLE d.copy AS SELECT d.all_ids();", copied()),
        ("bob", "PREPARE p AS SELECT * FROM docs; CREATE TABLE d.copy AS EXECUTE p;", copied()),
        ("bob", "CREATE MATERIALIZED VIEW d.copy AS SELECT * FROM docs;", copied()),
        ("bob", "CREATE TABLE d.copy AS SELECT * FROM docs WITH NO DATA; DROP TABLE d.copy;", ""),
        ("bob", "CREATE MATERIALIZED VIEW d.copy AS SELECT * FROM docs WITH NO DATA; "
                "REFRESH MATERIALIZED VIEW d.copy;", copied()),
        ("bob", "DROP MATERIALIZED VIEW d.copy;", ""),
        ("bob", "EXPLAIN ANALYZE CREATE TABLE d.copy AS SELECT * FROM docs;", copied()),
        ("bob", "BEGIN; DECLARE c CURSOR WITH HOLD FOR SELECT * FROM docs; COMMIT;", copied()),
        # (a trusted subject may write low what it reads, and so may copy rows by its own hand, but not by these
        # statements)
        ("sec", "CREATE TABLE d.copy AS SELECT * FROM docs;", copied()),
        ("bob", "DROP VIEW d.seen; DROP FUNCTION d.all_ids;", ""),
        ("postgres", "SELECT count(*) FROM pg_class WHERE relname = 'copy';", "0\n"),
        # (what the hint says)
        ("bob", "CREATE TABLE d.copy (LIKE docs); CALL mls.protect('d.copy'); "
                "INSERT INTO d.copy SELECT * FROM docs; SELECT id FROM d.copy; "
                "SELECT mls.is_protected('d.copy');", "1\nt\n"),
        ("postgres", "DROP TABLE copy;", ""),
    ])


def test_functions_see_visible_rows_alone(world):
    world.same([
        ("bob", "CREATE FUNCTION d.snoop(text) RETURNS bool LANGUAGE plpgsql COST 0.0001 AS $$ BEGIN RAISE NOTICE "
                "'saw %', $1; RETURN true; END $$; SELECT id FROM docs WHERE d.snoop(body);",
         "NOTICE:  saw lunch at noon\n1\n"),
        ("bob", "ALTER FUNCTION d.snoop LEAKPROOF;", "ERROR:  only superuser can define a leakproof function\n"),
        ("bob", "SELECT id FROM docs WHERE 1 / (id - 3) > 100; DROP FUNCTION d.snoop;", ""),
    ])


def test_no_plan_is_parallel(world):
    with world.opened("explain"), world.opened("parallel"):
        world.same([
            ("bob", "SET max_parallel_workers_per_gather = 4; SET parallel_setup_cost = 0; "
                    "SET parallel_tuple_cost = 0; SET min_parallel_table_scan_size = 0; "
                    "EXPLAIN (COSTS off) SELECT count(*) FROM docs;",
             "Aggregate\n  ->  Seq Scan on docs\n        Filter: mls.may_read((label)::text)\n"),
        ])


def test_copy_obeys(world):
    world.same([
        ("bob", "COPY docs TO STDOUT;", "1\tU_hi\tlunch at noon\n"),
        # (the program may find that nobody reads from it)
        ("bob", "\\copy docs FROM PROGRAM 'trap \"\" PIPE; echo 20,U_hi,x 2>/dev/null; true' csv",
         "ERROR:  COPY FROM not supported with row-level security\n"),
    ])
