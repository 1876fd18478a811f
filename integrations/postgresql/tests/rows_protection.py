"""Which tables count as protected, and that nobody but a superuser takes the protection off."""
from rows_closed import AT_S


def test_protection_stays_on(world):
    changed = "ERROR:  mls: table docs is protected: only a superuser changes that\n"
    world.same([("postgres", "GRANT keeper TO bob;", "")])
    for sql in ("ALTER TABLE docs NO FORCE ROW LEVEL SECURITY;", "ALTER TABLE docs DISABLE ROW LEVEL SECURITY;",
                "ALTER TABLE docs DROP label CASCADE;", "DROP POLICY mls_read ON docs;", "DROP POLICY mls_read ON "
                                                                                         "d.docs;",
                "ALTER POLICY mls_read ON docs USING (true);"):
        world.same([("bob", "SET ROLE keeper; " + sql, changed)])
    world.same([
        ("bob", "SET ROLE keeper; TRUNCATE docs;", "ERROR:  mls: table docs is protected: only a superuser truncates "
                                                   "it\n"),
        ("bob", "SET ROLE keeper; ALTER TABLE docs ALTER label TYPE text;", changed),
        # (a policy more opens nothing, since those that decide are restrictive)
        ("postgres", "CREATE POLICY more ON docs USING (true);", ""),
        ("bob", "SET ROLE keeper; SELECT id FROM docs; DROP POLICY more ON docs;", "1\n" + changed),
        ("postgres", "DROP POLICY more ON docs; REVOKE keeper FROM bob;", ""),
        ("bob", "SET row_security = off; SELECT * FROM docs;",
         "ERROR:  query would be affected by row-level security policy for table \"docs\"\n"),
    ])


FAKES = [
    ("no policy", ""),
    ("of the right name", "CREATE POLICY mls_append ON fake AS RESTRICTIVE FOR INSERT WITH CHECK (true);"),
    ("permissive", "CREATE POLICY mls_append ON fake FOR INSERT WITH CHECK (mls.must_append(label));"),
    ("for somebody else", "CREATE POLICY mls_append ON fake AS RESTRICTIVE FOR INSERT TO eve WITH CHECK "
                          "(mls.must_append(label));"),
    ("of another column", "CREATE POLICY mls_append ON fake AS RESTRICTIVE FOR INSERT WITH CHECK "
                          "(mls.must_append(body));"),
    ("with a way out",
     "CREATE POLICY mls_append ON fake AS RESTRICTIVE FOR INSERT WITH CHECK (mls.must_append(label) OR id > 0);"),
]


def test_protection_is_no_matter_of_names(world):
    for _, policy in FAKES:
        world.same([
            ("bob", "CREATE TABLE d.fake (id int, label text NOT NULL, body text); CALL mls.protect('d.fake'); "
                    "GRANT ALL ON d.fake TO ann;", ""),
            ("ann", AT_S + "INSERT INTO d.fake VALUES (1, 'S-A_hi', 'x'); SELECT mls.is_protected('d.fake'); "
                           "SELECT mls.level('U')",
             "S:A\nt\nU\n"),
            # (a superuser lays it open, for bob could not)
            ("postgres", "DROP POLICY mls_append ON d.fake; SET search_path = d; "
                         "CREATE POLICY other ON fake USING (true);" + policy, ""),
            ("ann", AT_S + "INSERT INTO d.fake VALUES (1, 'S-A_hi', 'x'); SELECT mls.is_protected('d.fake'); "
                           "SELECT mls.level('U')",
             "S:A\nERROR:  mls: ann may not write a table without protection: no star\nf\nU\n"),
            ("postgres", "DROP TABLE fake;", ""),
        ])


def test_partitions_and_heirs_are_protected(world):
    world.same([
        ("bob", "CREATE TABLE d.parts (id int, label mls.label, body text) PARTITION BY RANGE (id); "
                "CREATE TABLE d.part1 PARTITION OF d.parts FOR VALUES FROM (0) TO (100);", ""),
        ("bob", "CALL mls.protect('d.parts'); GRANT ALL ON d.parts, d.part1 TO ann; "
                "SELECT mls.is_protected('d.part1');", "t\n"),
        ("ann", AT_S + "INSERT INTO d.parts VALUES (1, 'S-A_hi', 'x'); UPDATE d.parts SET body = 'y'; "
                       "SELECT * FROM d.part1;",
         "S:A\n1|S-A_hi|y\n"),
        ("bob", "SELECT * FROM d.part1; SELECT * FROM d.parts;", ""),
        ("postgres", "DROP TABLE parts;", ""),
    ])


def test_nothing_unprotected_stands_below(world):
    below = "ERROR:  mls: table {} is protected, and what stands below it must be too\n".format
    changed = "ERROR:  mls: table {} is protected: only a superuser changes that\n".format
    world.same([
        ("bob", "CREATE TABLE d.parts (id int, label mls.label, body text) PARTITION BY RANGE (id); "
                "CALL mls.protect('d.parts'); CREATE TABLE d.up (label mls.label, body text); "
                "CALL mls.protect('d.up'); CREATE TABLE d.part1 (LIKE d.parts); "
                "CREATE TABLE d.heir (label mls.label, body text);", ""),
        ("bob", "CREATE TABLE d.part2 PARTITION OF d.parts FOR VALUES FROM (0) TO (9);", below("parts")),
        ("bob", "ALTER TABLE d.parts ATTACH PARTITION d.part1 FOR VALUES FROM (0) TO (9);", changed("parts")),
        ("bob", "CREATE TABLE d.heir2 () INHERITS (d.up);", below("up")),
        ("bob", "ALTER TABLE d.heir INHERIT d.up;", changed("up")),
        ("bob", "CALL mls.protect('d.part1', 'd.heir');", ""),
        ("postgres", "ALTER TABLE parts ATTACH PARTITION part1 FOR VALUES FROM (0) TO (9); "
                     "ALTER TABLE heir INHERIT up; SELECT name FROM mls.audit() WHERE finding ~ 'protection' "
                     "AND name !~ 'scratch'; DROP TABLE parts, heir, up;", ""),
    ])
