"""What the extension doesn't keep, as README.md says it: each row shows that it is so, and most that the audit tells
of it."""
import os
import subprocess

from monitor import TOP


def found(world, finding):
    return world.ask("postgres", f"SELECT name FROM mls.audit() WHERE finding = '{finding}';").splitlines()


def test_superusers_and_bypassrls(world):
    world.same([
        ("postgres", "SELECT count(*) FROM docs; CREATE ROLE free LOGIN BYPASSRLS; "
                     "CREATE ROLE root2 SUPERUSER LOGIN; CREATE ROLE copier LOGIN REPLICATION; "
                     "GRANT SELECT ON docs TO free; GRANT pg_read_all_stats TO copier;", "5\n"),
        ("free", "SELECT count(*) FROM docs;", "5\n"),
    ])
    assert found(world, "role with BYPASSRLS") == ["free"]
    assert found(world, "superuser") == ["root2"]
    assert found(world, "role that replicates") == ["copier"]
    assert found(world, "role with pg_read_all_stats") == ["copier"]
    world.same([("postgres", "REVOKE ALL ON docs FROM free; DROP ROLE free, root2, copier;", "")])


def test_a_table_that_a_superuser_lays_open(world):
    world.same([
        ("postgres", "ALTER TABLE docs NO FORCE ROW LEVEL SECURITY;"
                     "SET ROLE keeper; SELECT count(*) FROM docs;", "5\n"),
        ("bob", "SELECT count(*) FROM docs; SELECT mls.is_protected('docs');", "1\nf\n"),
    ])
    assert "d.docs" in found(world, "table without protection")
    world.same([("postgres", "ALTER TABLE docs FORCE ROW LEVEL SECURITY; SELECT mls.is_protected('docs');", "t\n")])


def test_views(world):
    world.same([
        ("postgres", "CREATE VIEW v AS SELECT * FROM docs; "
                     "CREATE VIEW v2 WITH (security_invoker) AS SELECT * FROM docs; GRANT SELECT ON v, v2 TO bob;", ""),
        ("bob", "SELECT count(*) FROM v; SELECT count(*) FROM v2;", "5\n1\n"),
    ])
    assert found(world, "view without security_invoker") == ["d.v"]
    # (what an administrator does about it; the owner of the table is bound too, and so is a view of his)
    world.same([
        ("postgres", "SET ROLE keeper; CREATE VIEW v3 AS SELECT * FROM docs; GRANT SELECT ON v3 TO bob;", ""),
        ("bob", "SELECT count(*) FROM v3;", "1\n"),
        ("postgres", "DROP VIEW v3; ALTER VIEW v SET (security_invoker);", ""),
        ("bob", "SELECT count(*) FROM v;", "1\n"),
        ("postgres", "DROP VIEW v, v2; SELECT count(*) FROM mls.audit() WHERE finding LIKE 'view%';", "0\n"),
    ])


def test_leakproof_functions(world):
    world.same([
        ("postgres", "CREATE FUNCTION snoop(text) RETURNS bool LANGUAGE plpgsql COST 0.0001 LEAKPROOF AS $$ "
                     "BEGIN RAISE NOTICE 'saw %', $1; RETURN true; END $$;", ""),
        ("bob", "SELECT id FROM docs WHERE d.snoop(body);",
         "NOTICE:  saw lunch at noon\nNOTICE:  saw budget draft\nNOTICE:  saw attack at dawn\n"
         "NOTICE:  saw agents in A\nNOTICE:  saw a rumour\n1\n"),
    ])
    assert found(world, "leakproof function") == ["d.snoop(text)"]
    world.same([
        ("postgres", "ALTER FUNCTION snoop NOT LEAKPROOF;", ""),
        ("bob", "SELECT id FROM docs WHERE d.snoop(body);", "NOTICE:  saw lunch at noon\n1\n"),
        ("postgres", "DROP FUNCTION snoop; SELECT count(*) FROM mls.audit() WHERE finding LIKE 'leakproof%';", "0\n"),
    ])


def test_keys_tell(world):
    world.same([
        ("bob", "INSERT INTO docs VALUES (3, 'U_hi', 'x');", "ERROR:  duplicate key value violates unique constraint "
                                                             "\"docs_pkey\"\n"),
        ("bob", "INSERT INTO docs VALUES (3, 'U_hi', 'x') ON CONFLICT DO NOTHING; SELECT id FROM docs;", "1\n"),
    ])
    assert found(world, "key that tells") == ["d.docs_pkey on d.docs"]
    # (with the label in the key the same number may stand at each label, and nothing is told)
    world.same([
        ("postgres", "ALTER TABLE docs DROP CONSTRAINT docs_pkey, ADD PRIMARY KEY (id, label);", ""),
        ("bob", "INSERT INTO docs VALUES (3, 'U_hi', 'x'); SELECT id FROM docs ORDER BY id;", "1\n3\n"),
        ("postgres", "SELECT count(*) FROM mls.audit() WHERE finding LIKE '%key%'; "
                     "DELETE FROM docs WHERE body = 'x'; "
                     "ALTER TABLE docs DROP CONSTRAINT docs_pkey, ADD PRIMARY KEY (id);", "0\n"),
    ])


def test_sizes_and_estimates_tell(world):
    with world.opened("explain"), world.opened("statistics"):
        told(world)


def told(world):
    world.same([
        ("postgres", "INSERT INTO docs SELECT 1000 + k, 'S_hi', CASE WHEN k <= 300 THEN 'attack at dawn' ELSE "
                     "'filler ' || k END FROM generate_series(1, 995) k; VACUUM ANALYZE docs;", ""),
        ("bob", "SELECT ctid, id FROM docs; "
                "SELECT reltuples FROM pg_class WHERE relname = 'docs'; "
                "SELECT count(*) FROM pg_stats WHERE tablename = 'docs';"
                "SELECT pg_relation_size('docs') > 8192;", "(0,1)|1\n1000\n0\nt\n"),
        ("bob", "EXPLAIN (ANALYZE, TIMING off, COSTS off, SUMMARY off) SELECT * FROM docs WHERE id < 1004;",
         "Index Scan using docs_pkey on docs (actual rows=1 loops=1)\n  Index Cond: (id < 1004)\n"
         "  Filter: mls.may_read((label)::text)\n  Rows Removed by Filter: 7\n"),
    ])
    # (the estimate for a text that stands in 301 hidden rows, and for one that stands in none; a third is taken for
    # visible)
    dawn, dusk = (world.ask("bob", f"EXPLAIN SELECT * FROM docs WHERE body = 'attack at {time}';")
                  for time in ("dawn", "dusk"))
    assert " rows=100 " in dawn and " rows=1 " in dusk, (dawn, dusk)
    # (what an administrator does about it, while the table is new)
    world.same([("postgres", "CREATE TABLE blank (LIKE docs); CALL mls.protect('blank'); GRANT SELECT ON blank TO bob;"
                             "ALTER TABLE blank ALTER body SET STATISTICS 0; INSERT INTO blank SELECT * FROM docs;"
                             "ANALYZE blank;", "")])
    dawn, dusk = (world.ask("bob", f"EXPLAIN SELECT * FROM blank WHERE body = 'attack at {time}';")
                  for time in ("dawn", "dusk"))
    assert dawn.splitlines()[0] == dusk.splitlines()[0], (dawn, dusk)
    world.same([("postgres", "DROP TABLE blank;", "")])


def test_the_name_on_connecting_is_not_asked_about(world):
    named = world.server.session("bob")
    watched = subprocess.Popen(world.server.psql("ann", "demo"), stdin=subprocess.PIPE, stdout=subprocess.PIPE,
                               text=True, env={**os.environ, "PGAPPNAME": "attack at dawn"})
    watched.stdin.write("SELECT mls.level('S:A');\n")
    watched.stdin.flush()
    assert watched.stdout.readline() == "S:A\n"
    seen = "SELECT application_name FROM pg_stat_activity WHERE usename = 'ann';"
    assert named.ask(seen) == "attack at dawn\n"
    # (what an administrator does about it)
    world.ask("postgres", "REVOKE EXECUTE ON FUNCTION pg_stat_get_activity FROM public;")
    assert named.ask(seen) == "ERROR:  permission denied for function pg_stat_get_activity\n"
    world.ask("postgres", "GRANT EXECUTE ON FUNCTION pg_stat_get_activity TO public;")
    watched.communicate()
    named.close()


def test_a_role_sees_its_own_queries(world):
    """What a session of ann's at S:A asks, another of hers at U sees (with a pool they are two subjects)."""
    high, low = world.server.session("ann"), world.server.session("ann")
    high.ask("SELECT 'attack at dawn';")
    seen = "SELECT query FROM pg_stat_activity WHERE usename = 'ann' AND pid <> pg_backend_pid();"
    assert "attack at dawn" in low.ask(seen)
    # (what an administrator does about it)
    world.ask("postgres", "ALTER SYSTEM SET track_activities = off;")
    world.server.reload(track_activities="off")
    high.ask("SELECT 'attack at noon';")
    assert "attack" not in low.ask(seen)
    world.ask("postgres", "ALTER SYSTEM RESET track_activities;")
    world.server.reload(track_activities="on")
    high.close()
    low.close()


def typed():
    """What DEPLOYING-POSTGRESQL.md has an administrator type into psql, where the roles are there already."""
    with open(f"{TOP}/docs/DEPLOYING-POSTGRESQL.md", encoding="utf-8") as file:
        lines = file.read().split("su postgres -c psql <<'END'\n")[1].split("    END\n")[0].splitlines()
    return "\n".join(line.strip() for line in lines if "CREATE ROLE" not in line)


def set_system(world, value):
    names = ("track_activities", "synchronize_seqscans")
    for name in names:
        world.ask("postgres", f"ALTER SYSTEM {value.format(name)};")
    due = "off\n" * len(names) if "off" in value else "on\n" * len(names)
    world.ask("postgres", "SELECT pg_reload_conf();")
    while world.ask("postgres", "".join(f"SHOW {name};" for name in names)) != due:
        pass


def test_the_page_ends_with_nothing_found(world):
    set_system(world, "SET {} = off")
    assert world.server.ask("postgres", typed(), "postgres") == ""
    world.same([("bob", "SELECT 1;", "psql: error: connection to server on socket "
                                     f"\"{world.folder}/.s.PGSQL.5432\" failed: FATAL:  permission denied for database "
                                     "\"demo\"\nDETAIL:  User does not have CONNECT privilege.\n"),
                ("postgres", "DROP DATABASE office; "
                             "GRANT CONNECT ON DATABASE demo, postgres, template1 TO public;", "")])
    set_system(world, "RESET {}")


def test_counters_go_on_by_leave(world):
    world.same([("postgres", "CREATE SEQUENCE counter; GRANT ALL ON SEQUENCE counter TO ann, bob;", "")])
    with world.opened("nextval_up"):
        assert found(world, "setting that opens") == ["mls.nextval_up", "mls.nextval_up=on in demo"]
        world.same([
            ("ann", "SELECT mls.level('S:A'); SELECT nextval('counter');", "S:A\n1\n"),
            ("bob", "SELECT nextval('counter');", "2\n"),
        ])
    world.same([("postgres", "DROP SEQUENCE counter;", "")])


def test_the_audit_names_all(world):
    world.same([
        ("postgres", "SELECT finding, name FROM mls.audit() WHERE finding <> 'function that tells';",
         "activity that others see|track_activities\nkey that tells|d.docs_pkey on d.docs\n"
         "other database|postgres\nother database|template1\nsetting that tells|synchronize_seqscans\n"
         "table without protection|d.scratch\n"),
        ("postgres", "CREATE FUNCTION high() RETURNS bigint LANGUAGE sql SECURITY DEFINER AS 'SELECT count(*) "
                     "FROM d.docs'; CREATE EXTENSION hstore;", ""),
        ("bob", "SELECT d.high();", "5\n"),
        ("postgres", "SELECT finding, name "
                     "FROM mls.audit() WHERE "
                     "finding ~ "
                     "'(runs|extension)'; "
                     "DROP FUNCTION high; "
                     "DROP EXTENSION hstore;", "function that runs as a superuser|d.high()\nother extension|hstore\n"),
        ("postgres", "CREATE TABLE parts (id int, label mls.label) PARTITION BY RANGE (id); "
                     "CALL mls.protect('parts'); CREATE TABLE part1 PARTITION OF parts FOR VALUES FROM (0) TO (9); "
                     "CREATE MATERIALIZED VIEW m AS SELECT * FROM docs; CREATE PUBLICATION p FOR TABLE docs; "
                     "CREATE FOREIGN DATA WRAPPER w; CREATE SERVER s FOREIGN DATA WRAPPER w; "
                     "CREATE FOREIGN TABLE f (x int) SERVER s; CREATE TABLE hers (label mls.label); "
                     "CALL mls.protect('hers'); ALTER TABLE hers OWNER TO ann; "
                     "SELECT finding, name FROM mls.audit() WHERE name NOT LIKE '%pkey%' AND name <> 'd.scratch'AND "
                     "finding !~ '^(activity|function|other|setting)';",
         "WARNING:  wal_level is insufficient to publish logical changes\nforeign table|d.f\nmaterialized view|d.m\n"
         "owner that logs in|d.hers: ann\npublication|p\ntable without protection|d.part1\n"
         "table without protection below it|d.part1 below d.parts\n"),
        ("postgres", "DROP TABLE parts; DROP MATERIALIZED VIEW m; DROP PUBLICATION p; DROP FOREIGN TABLE f; "
                     "DROP SERVER s; DROP FOREIGN DATA WRAPPER w; DROP TABLE hers;", ""),
    ])
