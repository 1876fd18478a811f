"""Worked scripts that show the rules: lines of scripts, each with the answer that it must have, worked out by hand."""

# A name, and a script over the standard start: a line has what is asked, two spaces or more, and its answer.
SCRIPTS = [
    ("gets and releases", """
        bob get-append plans        no integrity
        ann get-read memo           no integrity
        ann get-append plans        no discretionary
        bob get-read memo           no star
        ann get-execute tool        no integrity
        bob get-execute tool        yes
        sec get-write plans         yes
        sec get-write memo          no integrity
        ann release write plans     yes
        ann give read bob plans     no authority
        ann give read bob root      no authority
        sec give read bob root      yes
        ann get-read plans          yes
        ann get-read plans          yes
        sec get-write root          yes
        sec rescind read ann plans  yes
        ann get-read plans          no discretionary
        #9 get-read plans           undefined
        ann get-read #77            undefined
        sec delete root             no root
        ann delete plans            no authority
        ann check execute plans     not held
        ann check read plans        not held
        ann check append plans      not held
        ann check write plans       not held
        sec check write plans       held
        ann get-write plans         yes
    """),
    ("an access is held from its get to its release", """
        ann get-read memo           no integrity
        ann check read plans        not held
        ann get-read plans          yes
        ann check read plans        held
        ann get-read plans          yes
        ann check read plans        held
        bob get-read memo           no star
        ann check read plans        held
        bob get-execute tool        yes
        ann check read plans        held
        ann release read plans      yes
        ann check read plans        not held
        sec get-write plans         yes
        ann check read plans        not held
        ann release write plans     yes
        #9 get-read plans           undefined
        sec get-write memo          no integrity
        ann check read plans        not held
        sec check write plans       held
        sec check write memo        not held
        #9 check read plans         not held
        ann check read #77          not held
        sec get-write root          yes
        sec create root U hi        created 4
    """),
    ("subjects change their levels", """
        bob level S                 no ceiling
        bob get-read memo           no star
        bob level C                 yes
        bob get-read memo           yes
        bob level U                 no star
        bob release read memo       yes
        bob level U                 yes
        sec get-write plans         yes
        sec level T:A,B             yes
        bob get-read memo           no star
        sec check write plans       held
    """),
    ("holders and the tree bind a trusted subject", """
        ann get-read plans          yes
        sec relabel plans T:A       no simple
        sec relabel root C          no compatibility
        sec relabel plans C         yes
        ann get-write plans         no star
        ann check read plans        held
    """),
    ("a holder that writes is looked at", """
        ann get-write plans         yes
        sec relabel plans C         no star
        ann release write plans     yes
        aud get-read plans          yes
        sec relabel plans T:A       no simple
        sec relabel plans C         yes
        sec relabel #9 C            undefined
    """),
    ("an untrusted subject relabels what it made", """
        ann get-write plans         yes
        ann create plans S:A hi     created 4
        ann relabel #4 T:A          yes
        ann relabel #4 S:A          no authority
        ann relabel plans T:A       no authority
        ann level C                 no star
    """),
    ("objects are relabelled, one of them with another above it", """
        ann get-write plans         yes
        ann create plans S:A hi     created 4
        ann relabel #4 T:A          yes
        sec relabel plans C         no star
        ann release write plans     yes
        sec relabel plans C         yes
    """),
    ("creations", """
        sec get-write plans         yes
        sec create plans C hi       no compatibility
        sec create plans S:A hi     created 4
        sec get-append memo         yes
        sec create memo C hi        no integrity
        sec create memo U hi        no compatibility
        sec create memo C lo        created 5
        ann create root U hi        no authority
        sec get-write root          yes
        sec create root S:B hi      created 6
        sec give read ann #6        yes
        ann get-read #6             no simple
    """),
    ("what is made is untouched, and the branch that is deleted is gone", """
        sec get-write root          yes
        sec create root U hi        created 4
        sec give write sec #4       yes
        sec get-write #4            yes
        sec create #4 C hi          created 5
        sec give write sec #5       yes
        sec get-write #5            yes
        sec create #5 S:A hi        created 6
        sec give read ann #6        yes
        ann get-read #6             yes
        ann check read #6           held
        sec delete #4               yes
        ann get-read #6             undefined
        ann release read #5         undefined
        ann check read #6           not held
        sec get-write #4            undefined
        sec delete root             no root
        sec create root U hi        created 7
        sec get-execute #7          no discretionary
        sec get-read #7             no discretionary
        sec get-append #7           no discretionary
        sec get-write #7            no discretionary
        sec check execute #7        not held
        sec check read #7           not held
        sec check append #7         not held
        sec check write #7          not held
        ann delete plans            no authority
    """),
]

# What gets of the standard start are answered that the matrix permits; of all others it is `no discretionary`.
PERMITTED_GETS = """
    ann get-read plans          yes
    ann get-write plans         yes
    ann get-read memo           no integrity
    ann get-execute tool        no integrity
    bob get-append plans        no integrity
    bob get-read memo           no star
    bob get-execute tool        yes
    sec get-write root          yes
    sec get-write plans         yes
    sec get-append memo         yes
    sec get-write memo          no integrity
    aud get-read plans          yes
"""

# The greatest level of each subject, and what is above it.
GREATEST_LEVELS = """
    ann level S:A               yes
    ann level S:A,B             no ceiling
    ann level T:A               no ceiling
    bob level C                 yes
    bob level C:A               no ceiling
    bob level S                 no ceiling
    sec level T:A,B             yes
    aud level S:A               yes
    aud level S:A,B             no ceiling
    aud level T:A               no ceiling
    aud level U                 yes
"""

# Scripts that are read line by line, and by a feed that looks ahead, with their answers.
FED = [("", ""), ("\n; note\n\n", ""),
       ("ann get-read plans\nann check read plans\nann frob\nzoe get-read plans\nann release read plans",
        "yes\nheld\nbad form\nbad name\nyes\n"),
       ("sec get-write root\n$x = sec create root S:B hi\nsec give read ann $x\nann get-read $x\nann get-read $y\n",
        "yes\ncreated 4\nyes\nno simple\nbad name\n"),
       ("$x = ann create root U hi\nann get-read $x\nsec create root Q hi\n#9 get-read plans\nann get-read #77\n",
        "no authority\nbad name\nbad label\nundefined\nundefined\n"),
       ("sec get-write root\n$x = sec create root U hi\n$x = sec create root U hi\n$x = ann create root U hi\n"
        "sec delete $x\nann check read $x\n", "yes\ncreated 4\ncreated 5\nno authority\nyes\nnot held\n")]

# The lines of the state that the standard start opens with.
OPENING = """
    profile 1
    next 4
    subject ann maximum S:A current S:A integrity hi
    subject bob maximum C current U integrity lo
    subject sec maximum T:A,B current U integrity hi trusted
    subject aud maximum S:A current U integrity hi trusted
    object root security U integrity hi
    object plans security S:A integrity hi parent root
    object memo security C integrity lo parent root
    object tool security U integrity lo parent root
    permit ann read plans
    permit ann write plans
    permit ann read memo
    permit ann execute tool
    permit bob append plans
    permit bob read memo
    permit bob execute tool
    permit sec write root
    permit sec write plans
    permit sec append memo
    permit sec write memo
    permit aud read plans
"""

# Names, and scripts over the standard start: behind each line and its answer the lines of the state that it takes
# away, each with a -, and those that it adds, each with a +. All others stay.
CHANGES = [
    ("permissions and accesses come and go, each alone", """
        sec get-write root          yes         + access sec write root
        sec give read bob plans     yes         + permit bob read plans
        sec give read bob plans     yes
        bob get-read plans          no simple
        sec rescind read bob plans  yes         - permit bob read plans
        sec rescind read bob plans  yes
        ann get-read plans          yes         + access ann read plans
        ann get-read plans          yes
        ann release read plans      yes         - access ann read plans
        ann release read plans      yes
        ann get-read plans          yes         + access ann read plans
        sec rescind read ann plans  yes         - permit ann read plans  - access ann read plans
        ann release write plans     yes
        sec get-write memo          no integrity
    """),
    ("labels change, and an object is made and deleted with the one above it", """
        sec get-write root          yes         + access sec write root
        ann level C                 yes         - subject ann maximum S:A current S:A integrity hi  \
            + subject ann maximum S:A current C integrity hi
        sec relabel memo T          yes         - object memo security C integrity lo parent root  \
            + object memo security T integrity lo parent root
        sec get-write plans         yes         + access sec write plans
        sec create plans S:A hi     created 4   + object #4 security S:A integrity hi parent plans  - next 4  + next 5
        sec give read ann #4        yes         + permit ann read #4
        sec give write sec #4       yes         + permit sec write #4
        sec get-write #4            yes         + access sec write #4
        sec delete plans            yes         - object plans security S:A integrity hi parent root  \
            - object #4 security S:A integrity hi parent plans  - permit ann read plans  - permit ann write plans  \
            - permit ann read #4  - permit bob append plans  - permit sec write plans  - permit sec write #4  \
            - permit aud read plans  - access sec write plans  - access sec write #4
        sec create root U hi        created 5   + object #5 security U integrity hi parent root  - next 5  + next 6
    """),
]

# A start of five subjects, one of which may write the root, and of an object below that; and the lines of its state. In
# a table with a byte for two subjects the last one, s2, has a byte of its own.
def start_of_tables(profile):
    subjects = [{"name": name, "maximum": "U", "current": "U", "integrity": "lo", "trusted": True}
                for name in ("s0", "s1", "boss", "other", "s2")]
    objects = [{"name": "root", "parent": None, "security": "U", "integrity": "lo"},
               {"name": "o1", "parent": "root", "security": "U", "integrity": "lo"}]
    return {"profile": profile, "security": {"levels": ["U"], "categories": []},
            "integrity": {"levels": ["lo"], "categories": []}, "subjects": subjects, "objects": objects,
            "matrix": [{"subject": "boss", "object": "root", "modes": ["write"]}]}


OPENING_OF_TABLES = """
    next 2
    subject s0 maximum U current U integrity lo trusted
    subject s1 maximum U current U integrity lo trusted
    subject boss maximum U current U integrity lo trusted
    subject other maximum U current U integrity lo trusted
    subject s2 maximum U current U integrity lo trusted
    object root security U integrity lo
    object o1 security U integrity lo parent root
    permit boss write root
"""

# Profiles, names, and scripts over that start, as above.
CHANGES_OF_TABLES = [
    (1, "a mode that is given twice, and rescinded", """
        boss get-write root         yes         + access boss write root
        boss give read s0 o1        yes         + permit s0 read o1
        boss give read s0 o1        yes
        boss rescind read s0 o1     yes         - permit s0 read o1
    """),
    (1, "cells that stand side by side share no mode", """
        boss get-write root         yes         + access boss write root
        boss create root U lo       created 2   - next 2  + next 3  + object #2 security U integrity lo parent root
        boss give execute s1 o1     yes         + permit s1 execute o1
        boss give read s1 o1        yes         + permit s1 read o1
        boss give append s1 o1      yes         + permit s1 append o1
        boss give write s1 o1       yes         + permit s1 write o1
        boss give append s2 #2      yes         + permit s2 append #2
        boss give write s0 o1       yes         + permit s0 write o1
        boss rescind write s1 o1    yes         - permit s1 write o1
        boss rescind write s0 o1    yes         - permit s0 write o1
        boss delete o1              yes         - object o1 security U integrity lo parent root  \
            - permit s1 execute o1  - permit s1 read o1  - permit s1 append o1
    """),
    (1, "what is permitted on a branch goes with it", """
        boss get-write root         yes         + access boss write root
        boss create root U lo       created 2   - next 2  + next 3  + object #2 security U integrity lo parent root
        boss create root U lo       created 3   - next 3  + next 4  + object #3 security U integrity lo parent root
        boss give write boss #2     yes         + permit boss write #2
        boss get-write #2           yes         + access boss write #2
        boss create #2 U lo         created 4   - next 4  + next 5  + object #4 security U integrity lo parent #2
        boss give read s2 o1        yes         + permit s2 read o1
        boss give read s2 #2        yes         + permit s2 read #2
        boss give read s2 #3        yes         + permit s2 read #3
        boss give read s2 #4        yes         + permit s2 read #4
        boss delete #2              yes         - object #2 security U integrity lo parent root  \
            - object #4 security U integrity lo parent #2  - permit boss write #2  - access boss write #2  \
            - permit s2 read #2  - permit s2 read #4
    """),
    (1, "one of two branches is taken out, and its numbers aren't given again", """
        boss get-write root         yes         + access boss write root
        boss give write boss o1     yes         + permit boss write o1
        boss get-write o1           yes         + access boss write o1
        boss create o1 U lo         created 2   - next 2  + next 3  + object #2 security U integrity lo parent o1
        boss give write boss #2     yes         + permit boss write #2
        boss get-write #2           yes         + access boss write #2
        boss create #2 U lo         created 3   - next 3  + next 4  + object #3 security U integrity lo parent #2
        boss create root U lo       created 4   - next 4  + next 5  + object #4 security U integrity lo parent root
        boss delete o1              yes         - object o1 security U integrity lo parent root  \
            - object #2 security U integrity lo parent o1  - object #3 security U integrity lo parent #2  \
            - permit boss write o1  - access boss write o1  - permit boss write #2  - access boss write #2
        boss create root U lo       created 5   - next 5  + next 6  + object #5 security U integrity lo parent root
    """),
    (1, "a branch of five is taken out", """
        boss get-write root         yes         + access boss write root
        boss give write boss o1     yes         + permit boss write o1
        boss get-write o1           yes         + access boss write o1
        boss create root U lo       created 2   - next 2  + next 3  + object #2 security U integrity lo parent root
        boss create o1 U lo         created 3   - next 3  + next 4  + object #3 security U integrity lo parent o1
        boss create root U lo       created 4   - next 4  + next 5  + object #4 security U integrity lo parent root
        boss create o1 U lo         created 5   - next 5  + next 6  + object #5 security U integrity lo parent o1
        boss give write boss #3     yes         + permit boss write #3
        boss get-write #3           yes         + access boss write #3
        boss create #3 U lo         created 6   - next 6  + next 7  + object #6 security U integrity lo parent #3
        boss create o1 U lo         created 7   - next 7  + next 8  + object #7 security U integrity lo parent o1
        boss give write boss #4     yes         + permit boss write #4
        boss get-write #4           yes         + access boss write #4
        boss delete o1              yes         - object o1 security U integrity lo parent root  \
            - object #3 security U integrity lo parent o1  - object #5 security U integrity lo parent o1  \
            - object #6 security U integrity lo parent #3  - object #7 security U integrity lo parent o1  \
            - permit boss write o1  - access boss write o1  - permit boss write #3  - access boss write #3
        boss create #4 U lo         created 8   - next 8  + next 9  + object #8 security U integrity lo parent #4
    """),
    (2, "numbers are given again, the least first, and hold nothing of what they were", """
        boss get-write root         yes         + access boss write root
        boss give write boss o1     yes         + permit boss write o1
        boss get-write o1           yes         + access boss write o1
        boss create o1 U lo         created 2   - next 2  + next 3  + object #2 security U integrity lo parent o1
        boss give write boss #2     yes         + permit boss write #2
        boss get-write #2           yes         + access boss write #2
        boss create #2 U lo         created 3   - next 3  + next 4  + object #3 security U integrity lo parent #2
        boss create root U lo       created 4   - next 4  + next 5  + object #4 security U integrity lo parent root
        boss give write boss #4     yes         + permit boss write #4
        boss get-write #4           yes         + access boss write #4
        boss delete o1              yes         - object o1 security U integrity lo parent root  \
            - object #2 security U integrity lo parent o1  - object #3 security U integrity lo parent #2  \
            - permit boss write o1  - access boss write o1  - permit boss write #2  - access boss write #2  \
            - next 5  + next 1
        boss create #4 U lo         created 1   - next 1  + next 2  + object o1 security U integrity lo parent #4
        boss create root U lo       created 2   - next 2  + next 3  + object #2 security U integrity lo parent root
        boss create root U lo       created 3   - next 3  + next 5  + object #3 security U integrity lo parent root
        boss create root U lo       created 5   - next 5  + next 6  + object #5 security U integrity lo parent root
        boss delete #4              yes         - object #4 security U integrity lo parent root  \
            - object o1 security U integrity lo parent #4  - permit boss write #4  - access boss write #4  \
            - next 6  + next 1
    """),
]

# The journal of a script as session 7.
JOURNAL_SCRIPT = """
    ann get-read memo           no integrity
    ann get-read plans          yes
    ann get-read plans          yes
    bob get-read memo           no star
    bob get-execute tool        yes
    ann release read plans      yes
    sec get-write plans         yes
    ann release write plans     yes
    #9 get-read plans           undefined
    sec get-write memo          no integrity
"""
JOURNAL = """\
0 7 0 get-read 2 no integrity
1 7 0 get-read 1 yes
2 7 0 get-read 1 yes
3 7 1 get-read 2 no star
4 7 1 get-execute 3 yes
5 7 0 release read 1 yes
6 7 2 get-write 1 yes
7 7 0 release write 1 yes
8 7 9 get-read 1 undefined
9 7 2 get-write 2 no integrity
"""

# A start of one untrusted subject, which may write the root. Both are at the upper of two levels, in security and in
# integrity.
ONE = {"security": {"levels": ["L", "H"], "categories": []}, "integrity": {"levels": ["lo", "hi"], "categories": []},
       "subjects": [{"name": "one", "maximum": "H", "current": "H", "integrity": "hi", "trusted": False}],
       "objects": [{"name": "root", "parent": None, "security": "H", "integrity": "hi"}],
       "matrix": [{"subject": "one", "object": "root", "modes": ["write"]}]}
