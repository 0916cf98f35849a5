"""Reads tables, clauses, steps and examples out of the definition, crates/definition/specs, and the pairs out of crates/order/specs."""
import os
import re

from source import HERE, fail, read

CRATES = os.path.join(HERE, '..', 'crates')


def without_comments(text):
    return re.sub(r'--[^\n]*', '', text)


def spec(name, crate='definition'):
    return without_comments(read(os.path.join(CRATES, crate, 'specs', name + '.antt')))


LETTERS = {m.group(1): int(m.group(2), 16) for m in re.finditer(r'^(\w+) = 0x([0-9A-F]+)$', spec('Letters'), re.M)}


def letter(text):
    name = text.removeprefix('Letters.')
    return int(name, 16) if name.startswith('0x') else LETTERS[name]


def rows_of(text):
    rows = []
    for row in text.split('∷'):
        words = row.split()
        if words == ['[]']:
            return rows
        size = {'one': 1, 'two': 2, 'three': 3}[words[0]]
        if len(words) != size + 2:
            fail(f'not a row: {row}')
        rows.append(([letter(w) for w in words[1:-1]], int(words[-1])))
    fail('a table without an end')


def clause(text, left):
    """The right side of the clause that begins with `left`."""
    m = re.search(r'^%s =(.*?)(?=\n\S|\n\n|\Z)' % re.escape(left), text, re.M | re.S)
    return m.group(1) if m else fail(f'no clause {left}')


def numbers(text):
    return [int(n) for n in re.findall(r'\d+', text)]


def rule(text, left):
    """The number of the table and the guards of a clause with a `rule`."""
    m = re.search(r'rule A_(\d+) \(([^)]*)\)', clause(text, left))
    return int(m.group(1)), numbers(m.group(2))


def rules(text, function):
    """The clauses of a function that are a `rule`, by the step: the number of the table, and the guards."""
    return {name: rule(text, f'{function} {name}') for name in re.findall(rf'^{function} (\w+) = rule', text, re.M)}


def tables(text):
    """The tables of a text, by their numbers."""
    return {int(n): rows_of(clause(text, f'A_{n}')) for n in re.findall(r'^A_(\d+) =', text, re.M)}


def words_of(text):
    """A list of words: each `[]` or letters in parentheses."""
    if text.strip() == '[]':
        return []
    parts = re.findall(r'\(([^)]*)\)|\[\]', re.sub(r'∷ \[\]\s*$', '', text))
    return [[letter(w) for w in part.split() if w not in ('∷', '[]')] for part in parts]


def gives():
    """What the classes of A_0 give; a class that is not here gives nothing."""
    return {k: letters for letters, k in rows_of(clause(spec('Normal'), 'gives'))}


def steps():
    """The steps of the definition: name, table, guards, replacements and exceptions. The kind check and the endings have neither of these two."""
    fronts = spec('Fronts')
    for name, (table, guards) in {'checks1': rule(spec('Kind'), 'kind w'), **rules(spec('Endings'), 'suffix')}.items():
        yield name, table, guards, [], []
    for name, (table, guards) in rules(fronts, 'prefix').items():
        yield name, table, guards, words_of(clause(fronts, f'replacements {name}')), words_of(clause(fronts, f'not_at {name}'))


def examples():
    """The words of Examples.antt: each with its stem, its kind and its normalised word, of which None is not given."""
    word = lambda text: [letter(c) for c in re.findall(r'\w+', text)]
    text, one = spec('Examples'), r'(\[\]|\([^()]*\))'
    for w, s, k in re.findall(rf'\bsample {one}\s+{one}\s+(OPEN|DEFINED)', text):
        yield word(w), word(s), k, None
    for w, k, _, _, s in re.findall(rf'\bworked {one}\s+(OPEN|DEFINED)\s+{one}\s+{one}\s+{one}', text):
        yield word(w), word(s), k, None
    for w, n in re.findall(rf'\bnormal_sample {one}\s+{one}', text):
        yield word(w), None, None, word(n)


def settled_pairs():
    """The pairs of crates/order/specs/Settled.antt: each with its word, stem and exchanged stem, or with None where no word shows it."""
    text = spec('Settled', 'order')
    for m in re.finditer(r'^    (?:∷ )?(shown|unshown) (\w+ \d)(.*)$', text, re.M):
        words = [[int(h, 16) for h in re.findall(r'0x([0-9A-F]+)', w)] for w in re.findall(r'\(([^)]*)\)', m.group(3))]
        yield m.group(2), words if m.group(1) == 'shown' else None
