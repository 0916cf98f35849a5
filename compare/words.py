"""Words of every shape for comparing, made from the tables' rows: lists of code points of at most 255 bytes of UTF-8."""
import random

FRONT = range(3, 10)
END = range(10, 22)
FILLERS = [0x62F, 0x631, 0x62D]  # in no row of A_3 to A_21
FOREIGN = [0x24, 0x41, 0x7A, 0x7F, 0x80, 0xE9, 0x3A9, 0x670, 0x6F0, 0x7FF, 0x800, 0xD7FF, 0xE000, 0xFB50, 0xFE6F, 0xFE80, 0xFEFC, 0xFEFD,
           0xFFFF, 0x10000, 0x1F453, 0x10FFFF]
NEAR_MARKS = list(range(0xFE70, 0xFE80))  # the floating marks, and FE73 and FE75, which are none
MARKS = {c for c in NEAR_MARKS if c not in (0xFE73, 0xFE75)}


def unmarked(word):
    """The word without its floating marks."""
    return [c for c in word if c not in MARKS]


def encoded(word):
    return ''.join(map(chr, word)).encode()


def size(word):
    return len(encoded(word))


def rows(tables, numbers):
    return [letters for n in numbers for letters, _ in tables[n]]


def listed(tables):
    """Every row alone, then in front of 0 to 6 letters and behind them, in open and defined words, so that each guard is met and missed."""
    yield []
    for letters in rows(tables, range(22)):
        yield letters
    for n in range(7):
        middle = (FILLERS * 3)[:n]
        for letters in rows(tables, FRONT):
            yield letters + middle
        for letters in rows(tables, END):
            yield middle + letters
            yield middle + letters + [0x647, 0x627]
            yield [0x627, 0x644] + middle + letters
            yield [0x627, 0x644] + middle + letters + [0x646]
    for key in rows(tables, [0]):
        yield [0x627, 0x644] + key + [0x62F, 0x631]
        yield [0x62F] + key + [0x647]
    for c in FOREIGN:
        yield [c]
        yield [0x627, 0x644, c, 0x62F, 0x631]
        yield [0x62F, 0x631, c, 0x647, 0x627]
    for c in NEAR_MARKS:
        yield [c]
        yield [0x627, c, 0x644, 0x62F, 0x631]  # inside an article
        yield [0x645, 0x644, c, 0x643]  # one letter below a guard
        yield [0x627, 0x644, 0x62F, 0x647, c, 0x627, c]  # inside and behind an ending
        yield [c, 0x623, c, 0x628]


def longest():
    """Words of 250 to 255 bytes."""
    for c in (0x61, 0x647, 0x62F, 0x64B, 0xFEFB, 0xFEF7, 0xFE8D, 0xFE73, 0xFE7F, 0x10FFFF):
        yield [c] * (255 // size([c]))
        yield [0x627, 0x644] + [c] * (250 // size([c]))
    yield [0x623, 0x627, 0x648, 0x628, 0x627, 0x644] + [0x62F] * 121
    yield [0x62F] * 100 + [0x647, 0x627] * 13
    yield [0xFE76, 0x62F] * 50 + [0xFE7F]


def parts(tables, rng):
    """Rows in front, letters, rows at the end."""
    front = [rng.choice(rows(tables, [n])) for n in (4, 5, rng.choice((3, 6, 7, 8))) if rng.random() < 0.4]
    if rng.random() < 0.2:
        front.append(rng.choice(rows(tables, [9])))
    middle = [rng.choice(LETTERS) for _ in range(rng.choice((0, 1, 1, 2, 2, 2, 3, 3, 4)))]
    end = [rng.choice(rows(tables, END)) for _ in range(rng.choice((0, 1, 1, 1, 2, 2, 3, 4)))]
    return [c for part in front + [middle] + end for c in part]


LETTERS = list(range(0x621, 0x63B)) + list(range(0x641, 0x64B))
CLOSE = [0x623, 0x627, 0x648, 0x641, 0x628, 0x644, 0x643, 0x633, 0x64A, 0x62A, 0x646, 0x645, 0x647, 0x649, 0x629]


def marked(tables, rng, word):
    """The word with keys of A_0, letters of FE70 to FE7F and other characters put in."""
    out = []
    for c in word:
        while rng.random() < 0.15:
            out.append(rng.choice(rows(tables, [0]))[0] if rng.random() < 0.8 else rng.choice(NEAR_MARKS + FOREIGN))
        out.append(c)
    return out


def formed(tables, rng, word, gives):
    """The word with letters as presentation forms, and lam and alef as ligatures."""
    forms = {}
    for letters, k in tables[0]:
        if gives.get(k):
            forms.setdefault(tuple(gives[k]), []).append(letters[0])
    out, i = [], 0
    while i < len(word):
        two = forms.get(tuple(word[i:i + 2]))
        if two and rng.random() < 0.7:
            out.append(rng.choice(two))
            i += 2
            continue
        one = forms.get((word[i],))
        out.append(rng.choice(one) if one and rng.random() < 0.6 else word[i])
        i += 1
    return out


def random_words(tables, gives, rng):
    while True:
        word = parts(tables, rng)
        yield word
        yield [rng.choice(CLOSE) for _ in range(rng.randrange(2, 9))]
        yield marked(tables, rng, word)
        yield formed(tables, rng, word, gives)
        yield marked(tables, rng, formed(tables, rng, parts(tables, rng), gives))


def words(tables, gives, count, seed):
    """`count` different words: all of `listed` and `longest`, then random ones."""
    rng = random.Random(seed)
    seen = {}
    for source in (listed(tables), longest(), random_words(tables, gives, rng)):
        for word in source:
            if len(seen) >= count:
                return [list(w) for w in seen]
            if size(word) <= 255:
                seen[tuple(word)] = True
    return [list(w) for w in seen]
