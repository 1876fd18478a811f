"""Start files for .ci/check-starts: changes of a small file, and why it is then refused, or what is counted where it is
read.

The faults are those of docs/FORMATS.md, "Start files" and "Starts".
"""

# A file of one subject, a root, one object below it, and one cell.
LOW = '{"levels":["U"],"categories":[]}'
INTEGRITY = '{"levels":["lo"],"categories":[]}'
SUBJECT = '{"name":"s","maximum":"U","current":"U","integrity":"lo","trusted":false}'
ROOT = '{"name":"r","parent":null,"security":"U","integrity":"lo"}'
CHILD = '{"name":"o","parent":"r","security":"U","integrity":"lo"}'
CELL = '{"subject":"s","object":"o","modes":["read"]}'
SMALL = (f'{{"security":{LOW},"integrity":{INTEGRITY},"subjects":[{SUBJECT}],'
         f'"objects":[{ROOT},{CHILD}],"matrix":[{CELL}]}}')


def each(before, old, *others):
    """A change for each of the others: in the place of the old text, which stands after another."""
    return [[(before + old, before + other)] for other in others]


def without(*texts):
    """A change for each text: it is left out."""
    return [[(text, "")] for text in texts]


# A member that is left out, at each place.
MISSING = [*without(f'"security":{LOW},', f'"integrity":{INTEGRITY},', f'"subjects":[{SUBJECT}],',
            f'"objects":[{ROOT},{CHILD}],'),
           *without(f',"matrix":[{CELL}]', '"levels":["U"],', ',"categories":[]', '"levels":["lo"],', '"name":"s",',
            '"maximum":"U",'),
           *without('"current":"U",', ',"trusted":false', '"name":"r",', '"parent":null,', '"name":"o",',
            '"parent":"r",'), *without('"subject":"s",', '"object":"o",', ',"modes":["read"]'),
           *each('["lo"]', ',"categories":[]', ""), *each("", '"integrity":"lo","trusted"', '"trusted"'),
           *each("null", ',"security":"U"', ""), *each('null,"security":"U"', ',"integrity":"lo"', ""),
           *each('"r"', ',"security":"U"', ""), *each('"r","security":"U"', ',"integrity":"lo"', "")]

# The first members of the file and of each object in it.
FIRST_MEMBERS = ['"security"', '"levels":["U"]', '"levels":["lo"]', '"name":"s"', '"name":"r"', '"name":"o"', '"subject"']

# A member that no start file has, beside the others or in the place of one.
UNKNOWN_MEMBERS = [*[[("{" + first, '{"extra":0,' + first)] for first in FIRST_MEMBERS],
                   *each("", '"security":{', '"Security":{'), *each("", '"subjects"', '"subject"'),
                   *each("", '"matrix"', '"cells"'), *each("", '"matrix"', '"accesses"'),
                   *each("", '"matrix":', '"matrix":[],"access":'), *each("", '"levels"', '"level"'),
                   *each("", '"categories"', '"category"'), *each("", '"maximum"', '"maximal"'),
                   *each("", '"trusted"', '"trust"'), *each("", '"parent"', '"above"'), *each("", '"modes"', '"mode"'),
                   *each("", '"name":"o"', '"":"o"')]

# A value of another type, at each place.
TYPES = [*each("", LOW, "[]", "3", '"U"', "null", "true"),
         *each("", '["U"]', '"U"', "{}", "null", "[3]", "[null]", '[["U"]]', '["U",1]'),
         *each('["U"],"categories":', "[]", "{}", "[1.5]", "[false]", '""'), *each("", INTEGRITY, '["lo"]'),
         *each("", f"[{SUBJECT}]", "{}", '"s"', "null", "[3]", "[[]]", '["s"]'),
         *each('"name":', '"s"', "3", "null", '["s"]'), *each('"maximum":', '"U"', "1", '["U"]'),
         *each('"current":', '"U"', "true", "null"),
         *each("", '"integrity":"lo","trusted"', '"integrity":0,"trusted"', '"integrity":[],"trusted"'),
         *each('"trusted":', "false", "0", '"false"', "null", "[false]"),
         *each("", f"[{ROOT},{CHILD}]", "[]", "{}", "null", '"r"', "[null]", '["r"]'),
         *each('"name":', '"r"', "0", "null"), *each('"parent":', "null", '"r"', "0", "false", '""', "[]"),
         *each('null,"security":', '"U"', "null", "{}"), *each('"U","integrity":', '"lo"},{', "1},{"),
         *each("", CHILD, "null", '"o"', "[]"), *each('"name":', '"o"', "{}"),
         *each('"parent":', '"r"', "null", "0", '["r"]'), *each('"r","security":', '"U"', "3"),
         *each("", '"lo"}]', "false}]"), *each("", f"[{CELL}]", "{}", "null", '""', "[0]", '["s"]', "[[]]"),
         *each('"subject":', '"s"', "0", "null"), *each('"object":', '"o"', "1", '["o"]'),
         *each("", '["read"]', '"read"', "null", '{"read":true}', "[0]", "[null]", '[["read"]]', '["read",4]')]

# A member that is written twice counts as its last value.
TWICE = [*each("", '"name":"s"', '"name":"t","name":"s"', '"name":0,"name":"s"'),
         *each("", '"parent":null', '"parent":"r","parent":null'),
         *each("", '"modes":["read"]', '"modes":["x"],"modes":["read"]')]
TWICE_WRONG = each("", '"trusted":false', '"trusted":false,"trusted":0')

# Texts that are JSON and no start file, and texts that aren't JSON.
OTHER_JSON = [b"{}", b"[]", b"null", b"true", b"-1", b"1e300", b'"security"', b'{"security":{}}',
              127 * b"[" + 127 * b"]"]
NO_JSON = [b"", b" ", b"{", b"}", b"{}{}", b"[1,]", b'{"a":1e400}', b'"\\ud800"', b'"\xff"', b"\xef\xbb\xbf{}",
           128 * b"[" + 128 * b"]"]

# Numbers and surrogates.
VALUES = [("1 Json", each('"trusted":', "false", "1e400")), ("2 Members", each('"trusted":', "false", "1e300")),
          ("1 Json", each('"name":', '"s"', '"\\ud800"')), ("4 Name", each('"name":', '"s"', '"\\ud83d\\ude00"'))]


def names(count, first=""):
    """So many names, each once."""
    return ",".join(f'"{first}{chr(97 + number // 26)}{chr(97 + number % 26)}"' for number in range(count))


LONG = 33 * "x"
LEVELS, CATEGORIES = '["U"]', '"categories":[]'
# Each fault of a scheme, and two at once: the security scheme's comes before the integrity scheme's.
SCHEMES = [("1 NoLevels", [(LEVELS, "[]")]), ("2 TooManyLevels", [(LEVELS, f'["U",{names(16)}]')]),
           ("3 TooManyCategories", [(CATEGORIES, f'"categories":[{names(257)}]')]),
           ("4 BadName", [(LEVELS, '["U","a b"]')]), ("4 BadName", [(LEVELS, '["U",""]')]),
           ("4 BadName", [(LEVELS, f'["U","{LONG}"]')]), ("4 BadName", [(CATEGORIES, '"categories":["A,B"]')]),
           ("4 BadName", [(CATEGORIES, '"categories":["\\u00e9"]')]), ("5 RepeatedName", [(LEVELS, '["U","U"]')]),
           ("5 RepeatedName", [(CATEGORIES, '"categories":["A","B","A"]')]), ("1 NoLevels", [('["lo"]', "[]")]),
           ("5 RepeatedName", [('["lo"]', '["lo","lo"]')]),
           ("5 RepeatedName", [(f'["lo"],{CATEGORIES}', '["lo"],"categories":["A","A"]')]),
           ("5 RepeatedName", [(LEVELS, '["U","U"]'), ('["lo"]', "[]")]),
           ("1 NoLevels", [(LEVELS, "[]"), ('["lo"]', '["lo","lo"]')]),
           ("1 NoLevels", [(LEVELS, "[]"), (CATEGORIES, '"categories":["A","A"]')])]

# As many levels and categories as there may be; a level and a category of one name.
SCHEMES_READ = [[(LEVELS, f'["U",{names(15)}]')], [(CATEGORIES, f'"categories":[{names(256)}]')],
                [(CATEGORIES, '"categories":["U"]')]]

# Where labels stand: what is before each, the label, and what is after it.
LABEL_PLACES = [('"maximum":', "U", ""), ('"current":', "U", ""), ('"integrity":', "lo", ',"trusted"'),
                ('"parent":null,"security":', "U", ""), ('"parent":null,"security":"U","integrity":', "lo", ""),
                ('"parent":"r","security":', "U", ""), ('"parent":"r","security":"U","integrity":', "lo", "")]
# What follows a level in a text that is no label's: another form, an unknown category, and one that stands twice.
LABEL_ENDS = [":", ":A,", ":A,,B", " ", ":C", ":A,C", ":A,A", ":B,A,B"]
# Texts of which no level is known, or that are of another form.
NO_LABELS = ["", "Q", "Q:A", ":A", "U,lo", "u"]
# Texts in the place of bob's maximum of the standard file, and why each is no label.
LABEL_FAULTS = [("", "bad form"), ("S:", "bad form"), ("Q:Z", "unknown level"), ("S:Z,Z", "unknown category"),
                ("S:A,A", "repeated category"), ("Q:,", "bad form")]
# Labels of the first place: the order of categories is free.
LABELS_READ = ["U", "U:A", "U:B,A", "U:A,B"]

# No name, and a name that stands twice.
NO_NAMES = ['""', f'"{LONG}"', '"a b"', '"a.b"', '"a:b"', '"\\u00e9"', '"a\\u0000"', '"a\\n"']
NAMES = [*[row for name in "sro" for row in each('"name":', f'"{name}"', *NO_NAMES)],
         *each("", SUBJECT, f"{SUBJECT},{SUBJECT}"), *each('"name":', '"o"', '"r"'),
         *each("", CHILD, f"{CHILD},{CHILD}")]

# Names of more subjects: the last stands twice; none does, though two differ only in their case.
MORE_NAMES = [(wanted, [(SUBJECT, ",".join(SUBJECT.replace('"s"', f'"{name}"') for name in given))])
              for wanted, given in (("4 Name", ["s", "ann", "ann"]), ("4 Name", ["ann", "bob", "eve", "bob"]),
               ((3, 2, 1), ["s", "ann", "Ann"]), ((4, 2, 1), ["ann", "bob", "s", "an"]))]

# A name of 32 bytes, and a subject and an object of one name.
NAMES_READ = [[('"name":"s"', f'"name":"{LONG[1:]}"'), ('"subject":"s"', f'"subject":"{LONG[1:]}"')],
              [('"name":"s"', '"name":"o"'), ('"subject":"s"', '"subject":"o"')], [('"name":"o"', '"name":"o"')]]

# An unknown parent, subject, object or mode; a subject's name in the place of an object's, and the other way round.
UNKNOWN = [*each('"parent":', '"r"', '"nil"', '"s"', '""', '"R"'), *each('"subject":', '"s"', '"o"', '"x"', '""'),
           *each('"object":', '"o"', '"s"', '"x"'),
           *each("", '["read"]', '["Read"]', '[""]', '["read","x"]', '["reading"]', '["get-read"]')]

# Each fault of a start that a small file can have: a label is within its bounds, and a cell names what is there.
STARTS = [("1 NoSubjects", [(f"[{SUBJECT}]", "[]"), (f"[{CELL}]", "[]")]),
          ("5 BadParent", [('"parent":"r"', '"parent":"o"')]),
          ("5 BadParent", [('"parent":"r"', '"parent":"p"'), ('"lo"}]', '"lo"},' + CHILD.replace('"o"', '"p"') + "]")]),
          ("6 CurrentAboveMaximum", [(LEVELS, '["U","C"]'), ('"current":"U"', '"current":"C"')]),
          ("7 NotCompatible", [(LEVELS, '["U","C"]'), ('null,"security":"U"', 'null,"security":"C"')]),
          ("8 IntegrityAboveParent", [('["lo"]', '["lo","hi"]'), ('"lo"}]', '"hi"}]')])]

# Words of all modes, some of them twice; no word; the root as an object of the matrix; the same cell twice; cells of
# two objects: how many cells each has.
MATRIX_READ = [(4, [('["read"]', '["read","write","append","execute","read","write"]')]), (0, [('["read"]', "[]")]),
               (1, [('"object":"o"', '"object":"r"')]), (1, [(CELL, f"{CELL},{CELL}")]),
               (3, [(CELL, '{"subject":"s","object":"r","modes":["read","read"]},' + CELL.replace('"read"',
                '"write","execute"'))])]

# What stands in the member accesses of the small file, and why it is then refused, or what is counted.
ACCESSES = [
    ((1, 2, 1), "[]"), ((1, 2, 1), '[{"subject":"s","object":"o","modes":[]}]'), ((1, 2, 1, 1), f"[{CELL}]"),
    ((1, 2, 1, 1), f"[{CELL},{CELL}]"), ((1, 2, 1, 1), '[{"subject":"s","object":"o","modes":["read","read"]}]'),
    *[("2 Members", text) for text in ("null", "{}", "0", '"s"', "[0]", "[null]", "[[]]", "[{}]")], ("2 Members", CELL),
    ("2 Members", '[{"subject":"s","object":"o"}]'), ("2 Members", '[{"subject":"s","object":"o","modes":"read"}]'),
    ("2 Members", '[{"subject":"s","object":"o","modes":[0]}]'),
    ("2 Members", '[{"subject":0,"object":"o","modes":["read"]}]'),
    ("2 Members", '[{"subject":"s","object":"o","modes":["read"],"extra":0}]'),
    ("6 Unknown", '[{"subject":"o","object":"o","modes":["read"]}]'),
    ("6 Unknown", '[{"subject":"s","object":"s","modes":["read"]}]'),
    ("6 Unknown", '[{"subject":"s","object":"o","modes":["Read"]}]'),
    ("6 Unknown", '[{"subject":"s","object":"x","modes":[]}]'),
    # (what the matrix doesn't permit)
    ("7 Start 10 NotSecure", '[{"subject":"s","object":"r","modes":["read"]}]'),
    ("7 Start 10 NotSecure", '[{"subject":"s","object":"o","modes":["read","write"]}]'),
]

# An access of the standard file, and why it is then refused, or what is counted.
STANDARD_ACCESSES = [
    ((4, 4, 12, 1), "ann", "plans", "read"), ((4, 4, 12, 1), "sec", "plans", "write"),
    # (star, discretionary security, integrity twice, all but integrity)
    ("7 Start 10 NotSecure", "bob", "memo", "read"), ("7 Start 10 NotSecure", "ann", "plans", "append"),
    ("7 Start 10 NotSecure", "sec", "memo", "write"), ("7 Start 10 NotSecure", "ann", "memo", "read"),
    ("7 Start 10 NotSecure", "bob", "plans", "read"),
]

# Accesses of the standard file, of which one stands twice: what is counted, and the lines of the state for them.
STANDARD_ACCESSES_TWICE = (
    [("sec", "plans", "write"), ("ann", "plans", "read"), ("sec", "plans", "write")], (4, 4, 12, 2),
    ["access ann read plans", "access sec write plans"])

# Permissions of the standard file in the place of its own, of which each stands twice, before others or behind them:
# what is counted, and the lines of the state for them.
ALL_MODES = ["write", "append", "read", "execute"]
STANDARD_CELLS_TWICE = (
    [("bob", "tool", ALL_MODES), ("ann", "root", ALL_MODES), ("bob", "tool", ALL_MODES), ("ann", "root", ALL_MODES)],
    (4, 4, 8), [f"permit {place}" for place in (
        "ann execute root", "ann read root", "ann append root", "ann write root", "bob execute tool", "bob read tool",
        "bob append tool", "bob write tool")])

# What stands in the member profile of the small file, and why it is then refused, or what is counted.
PROFILES = [((1, 2, 1), "1"), ((1, 2, 1), "2"),
            *[("2 Members", text) for text in ("0", "3", "-1", "-2", "1.0", "2.0", "1e0", "0.1e1", "258", "65537",
             "4294967297", "18446744073709551617", '"1"', '"2"', "null", "true", "[1]", "{}")], ("1 Json", "01"),
            ("1 Json", "+1")]

# Two faults, of which the lesser comes, whether it stands after the other or before it.
TWO_FAULTS = [("2 Members", [('"modes"', '"mode"'), (LEVELS, "[]")]),
              ("2 Members", [('"trusted":false', '"trusted":0'), ('["lo"]', '["lo","lo"]')]),
              ("3 Scheme 1 NoLevels", [('["lo"]', "[]"), ('"name":"s"', '"name":""')]),
              ("3 Scheme 5 RepeatedName", [(LEVELS, '["U","U"]'), ('"name":"o"', '"name":"r"')]),
              ("4 Name", [('"name":"o"', '"name":"r"'), ('"maximum":"U"', '"maximum":"Q"')]),
              ("4 Name", [('"name":"o"', '"name":""'), ('"current":"U"', '"current":":"')]),
              ("5 Label", [('"lo"}]', '"Q"}]'), ('"parent":"r"', '"parent":"nil"')]),
              ("5 Label", [('"lo"}]', '"lo:A"}]'), ('"subject":"s"', '"subject":"x"')]),
              ("6 Unknown", [('["read"]', '["x"]'), ('"parent":"r"', '"parent":"o"')]),
              ("6 Unknown", [('"object":"o"', '"object":"x"'), (LEVELS, '["U","C"]'), ('"current":"U"',
               '"current":"C"')]), ("2 Members", [('"modes"', '"mode"'), ('"parent":"r"', '"parent":"o"')])]

# How many subjects and objects a chain has, what stands last in its list of objects, and why it is refused, or nothing
# where it is read.
UNKNOWN_PARENT = ',{"name":"x","parent":"y","security":"U","integrity":"lo"}'
COUNTS = [
    (256, 1, "", ""), (1, 4096, "", ""), (257, 1, "", "7 Start 2 TooManySubjects"),
    (1, 4097, "", "7 Start 3 TooManyObjects"), (257, 4097, "", "7 Start 2 TooManySubjects"),
    (0, 4097, "", "7 Start 1 NoSubjects"),
    (1, 4096, ',{"name":"x","parent":"o0","security":"Q","integrity":"lo"}', "5 Label"),
    (1, 4096, UNKNOWN_PARENT, "6 Unknown"),
    (1, 4096, ',{"name":"x","parent":"x","security":"U","integrity":"lo"}', "7 Start 3 TooManyObjects"),
    # the numbers 65,536 and 65,540 are no others
    (1, 65_537, "", "7 Start 3 TooManyObjects"), (1, 65_540, UNKNOWN_PARENT, "6 Unknown"),
    (1, 65_541, "", "7 Start 3 TooManyObjects"),
]
