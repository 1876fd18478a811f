"""Changes of bytes by chance: bytes are changed, cut, repeated and joined, and tokens take the place of others."""

# Bytes that stand for something in a format, and some that stand for nothing in any.
BYTES = b' \n\r\t\x00\x0b\x7f\xff\xc3\xa9\xe2";:,.=$#{}[]\\-_+/019AZaz'


def byte(rng):
    return bytes([rng.choice(BYTES) if rng.random() < 0.7 else rng.randrange(256)])


def span(rng, text, most=40):
    """A place, and another after it; mostly not far from it."""
    first = rng.randrange(len(text) + 1)
    return first, min(len(text), first + rng.randrange(most if rng.random() < 0.8 else len(text) + 1))


def changed(rng, text, _):
    """One byte is another, is one more, or is left out: anywhere, often at an end."""
    first = rng.choice((0, len(text), *4 * (rng.randrange(len(text) + 1),)))
    return text[:first] + rng.choice((byte(rng), b"")) + text[first + rng.randrange(2):]


def cut(rng, text, _):
    """A part is left out, or all after or before a place."""
    first, last = span(rng, text)
    return rng.choice((text[:first] + text[last:], text[:first], text[last:]))


def repeated(rng, text, _):
    """A part stands twice or more."""
    first, last = span(rng, text)
    return text[:first] + rng.choice((2, 2, 2, 3, 5)) * text[first:last] + text[last:]


def joined(rng, text, other):
    """A part of another text stands in this one."""
    first, last = span(rng, other)
    at = rng.randrange(len(text) + 1)
    return text[:at] + other[first:last] + text[at + rng.randrange(2) * (last - first):]


KINDS = (changed, cut, repeated, joined)


def mutated(rng, text, other, kinds=KINDS):
    """A text with some changes."""
    for _ in range(rng.choice((1, 1, 1, 1, 2, 2, 3))):
        text = rng.choice(kinds)(rng, text, other)
    return text


def with_other_token(rng, text, pattern, tokens):
    """A text in which one token is another, is left out, or stands twice."""
    found = [*pattern.finditer(text)]
    if not found:
        return text + rng.choice(tokens)
    it = rng.choice(found)
    own = (b"", 2 * it[0], it[0] + b" " + it[0], rng.choice(found)[0])
    new = rng.choice((*own, rng.choice(tokens), rng.choice(tokens)))
    return text[:it.start()] + new + text[it.end():]
