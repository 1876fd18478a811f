"""Schemes, names and words, and which of them the program reads."""

LEVELS, CATEGORIES = ["U", "C", "S", "T"], ["A", "B"]

# Levels and categories of a scheme, and what is said of it, if anything. Of several faults the least is told.
SCHEMES = [(LEVELS, CATEGORIES, None), ([], CATEGORIES, "1 NoLevels"), (17 * ["a"], [], "2 TooManyLevels"),
           (LEVELS, 257 * ["a"], "3 TooManyCategories"), (["a b"], [], "4 BadName"), (["U", "U"], [], "5 RepeatedName"),
           (["U"], ["U"], None), ([], 257 * ["a"], "1 NoLevels"), (17 * ["a"], 257 * ["a"], "2 TooManyLevels"),
           (["U", "U"], ["a b"], "4 BadName"), ([f"l{n}" for n in range(16)], [f"c{n}" for n in range(256)], None)]

# Texts, and whether each is a name: of no byte, of one, of 32, of 33, and of another letter.
NAMES = [("", False), ("x", True), ("abcdefghijklmnopqrstuvwxyz_ABCDE", True),
         ("abcdefghijklmnopqrstuvwxyz_ABCDEF", False), ("\u00e9", False)]

# Words that are no modes, actions, reasons or replies: a front, more than a word, capitals, a word of another table.
NO_WORDS = ["re", "reads", "READ", "level-up"]
