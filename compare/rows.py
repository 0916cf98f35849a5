"""The rows that 18 steps of the Rust find in words: r_Checks1, then ENDINGS, then FRONTS.

Rows are numbered from 0. The number is the table's number of rows where no row matches, and where the step ends before it searches. r_Checks1 and each
ending have a fresh environment with the word as it is; an ending stands at the word's end. The fronts have one environment, one after the other: each has
what the one before it left, and where a step fails the cursor goes back.
The Rust's searches answer the row's class alone. The numbers come from a copy in a temporary folder, whose searches record the row too (EDITS).
Each is compared with the longest row that matches, found by going through the table, and each front must begin where the one before it left off.
The words must show every case: each row of each table with its guard met and not met, each step with no row that matches, and each place where a step ends
before it searches; for the fronts behind the first both at the word's front and behind it. What is missing is named, and the status is 1; so it is with a
difference, with a step that searches twice or succeeds with no row, and with a text that is not in the Rust as often as EDITS says.
"""
import collections
import itertools
import os
import shutil
import subprocess
import sys
import tempfile

from source import HERE, answers, hex_word, read, rust_exceptions, rust_step
from words import FILLERS, size

ENDINGS = ['r_Suffix_Verb_Step1', 'r_Suffix_Verb_Step2a', 'r_Suffix_Verb_Step2b', 'r_Suffix_Verb_Step2c', 'r_Suffix_Noun_Step1b', 'r_Suffix_Noun_Step2a',
           'r_Suffix_Noun_Step2b', 'r_Suffix_Noun_Step2c1', 'r_Suffix_Noun_Step2c2', 'r_Suffix_Noun_Step3', 'r_Suffix_All_alef_maqsura']
FRONTS = ['r_Prefix_Step1', 'r_Prefix_Step2', 'r_Prefix_Step3a_Noun', 'r_Prefix_Step3b_Noun', 'r_Prefix_Step3_Verb', 'r_Prefix_Step4_Verb']
# A text of snowball_env.rs, what stands for it in the copy, and how often it is there: in each search twice the class, and once that no row matches.
EDITS = [('return w.2;', 'return found(i as usize, w.2);', 4), ('return 0;', 'return found(amongs.len(), 0);', 2)]

# What a step did: the row found, or None where it made no search, the cursor before, whether it succeeded, the letters at the cursor.
Taken = collections.namedtuple('Taken', 'row cursor succeeded letters')
# What the words must show of a step: the row or None, how it ended, and where its cursor stood.
Case = collections.namedtuple('Case', 'step row how where')
MET, MISSED, NO_ROW = 'with its guard met', 'with its guard not met', 'no row'


class Step:
    """A step of the Rust with its table."""

    def __init__(self, source, tables, name):
        step = rust_step(source, name)
        self.name, self.table, self.guards = name, step.table, step.guards
        self.rows = tables[step.table]
        self.replacements = [step.replacements[k] for _, k in self.rows]
        self.exceptions = rust_exceptions(source, name)
        self.wheres = [', cursor 0', ', cursor above 0'] if name in FRONTS[1:] else ['']

    def number(self, taken):
        return len(self.rows) if taken.row is None else taken.row

    def exception(self, taken):
        """The letters at the cursor at which the step ends before it searches, if they are there."""
        return next((letters for letters in self.exceptions if taken.letters[:len(letters)] == letters), None)

    def longest(self, word, taken):
        """The row by going through the table: the longest at the word's end or at the cursor. None where the step ends before it searches."""
        if self.exception(taken):
            return None
        fits = lambda row: word[-len(row):] == row if self.name in ENDINGS else taken.letters[:len(row)] == row
        found = [i for i, (row, _) in enumerate(self.rows) if fits(row)]
        return max(found, key=lambda i: len(self.rows[i][0]), default=len(self.rows))

    def different(self, word, taken):
        """Names a row that is not the longest, and a step that succeeds with no row."""
        text = lambda row: 'no search' if row is None else f'row {row}'
        longest = self.longest(word, taken)
        if taken.row != longest:
            yield f'{self.name}: {text(taken.row)} in the word {hex_word(word)}, and {text(longest)} by going through A_{self.table}'
        if taken.succeeded and self.number(taken) == len(self.rows):
            yield f'{self.name}: succeeds with no row in the word {hex_word(word)}'

    def left(self, taken):
        """The cursor and the letters at it behind the step: as before where it failed, else behind what it put for the row."""
        if not taken.succeeded:
            return taken.cursor, taken.letters
        return taken.cursor + size(self.replacements[taken.row]), taken.letters[len(self.rows[taken.row][0]):]

    def case(self, taken):
        where = self.wheres[-1 if taken.cursor else 0]
        if taken.row is None:
            return Case(self.name, None, f'no search at {hex_word(self.exception(taken) or [])}', where)
        if taken.row == len(self.rows):
            return Case(self.name, None, NO_ROW, where)
        return Case(self.name, taken.row, MET if taken.succeeded else MISSED, where)

    def cases(self):
        """All that the words must show."""
        for where in self.wheres:
            yield Case(self.name, None, NO_ROW, where)
            yield from (Case(self.name, None, f'no search at {hex_word(letters)}', where) for letters in self.exceptions)
            for i, (_, k) in enumerate(self.rows):
                yield from (Case(self.name, i, how, where) for how in ([MET, MISSED] if k in self.guards else [MET]))

    def text(self, case):
        row = '' if case.row is None else f'row {case.row} ({hex_word(self.rows[case.row][0])}) of A_{self.table} '
        return f'{case.step}: {row}{case.how}{case.where}'


def steps_with_rows(source, tables):
    return [Step(source, tables, name) for name in ['r_Checks1', *ENDINGS, *FRONTS]]


def end_with(wrong):
    """Names what is wrong and ends the program, if anything is."""
    lines = list(wrong)
    if lines:
        print('\n'.join(lines))
        sys.exit(1)


def chained(steps):
    """What a front finds or ends at, in front of 0 to 2 letters, at the word's front and behind rows that earlier steps replace, so that their cursor moves."""
    fronts = steps[-len(FRONTS):]
    leaving = [[row for (row, _), put in zip(step.rows, step.replacements) if put] for step in fronts[:-1]]
    leaving = [rows for rows in leaving if rows]
    pieces = [letters for step in fronts[1:] for letters in [*step.exceptions, *(row for row, _ in step.rows)]]
    for used in itertools.product((False, True), repeat=len(leaving)):
        for (i, piece), n in itertools.product(enumerate(pieces), range(3)):
            head = [rows[(i + n) % len(rows)] for rows, use in zip(leaving, used) if use]
            yield [c for part in head for c in part] + piece + FILLERS[:n]


def unchained(word, pairs):
    """Names a front that does not begin where the one before it left off."""
    left = 0, word
    for step, taken in pairs[-len(FRONTS):]:
        if (taken.cursor, taken.letters) != left:
            yield f'{step.name}: begins at {taken.cursor} in the word {hex_word(word)}, and not at {left[0]} with {hex_word(left[1])} behind it'
        left = step.left(taken)


def rewrite(path, change):
    """Writes a file of the copy anew: the copy of a file that cannot be written cannot be either."""
    text = change(read(path))
    os.remove(path)
    with open(path, 'w', encoding='utf-8') as file:
        file.write(text)


def recording(text):
    """The text of snowball_env.rs with searches that record their row."""
    end_with(f"snowball_env.rs has '{old}' {text.count(old)} times and not {times}" for old, _, times in EDITS if text.count(old) != times)
    for old, new, _ in EDITS:
        text = text.replace(old, new)
    return text


def build(docs, folder):
    part = lambda name: os.path.join(HERE, 'reference', name)
    subprocess.run([part('copy'), docs, folder], check=True)
    lists = ''.join(f'static {name}: [Step; {len(steps)}] = [{", ".join(steps)}];\n' for name, steps in (('ENDINGS', ENDINGS), ('FRONTS', FRONTS)))
    rewrite(os.path.join(folder, 'source', 'snowball_env.rs'), lambda text: recording(text) + read(part('rows_env.rs')))
    rewrite(os.path.join(folder, 'source', 'algorithms', 'arabic_test_copy.rs'), lambda text: text + read(part('rows_steps.rs')) + lists)
    for name in ('rows.rs', 'lines.rs'):
        shutil.copy(part(name), folder)
    program = os.path.join(folder, 'rows')
    subprocess.run(['rustc', '--edition', '2015', '--cap-lints', 'allow', '-O', '-C', 'overflow-checks=on', '-o', program, program + '.rs'], check=True)
    return program


def what_was_taken(step, word, field):
    """What a step did with a word, out of a field of the Rust's answer."""
    searches, cursor, succeeded, *letters = field.split()
    rows = [] if searches == '-' else searches.split(',')
    if len(rows) > 1:
        end_with([f'{step.name}: {len(rows)} searches in the word {hex_word(word)}'])
    return Taken(int(rows[0]) if rows else None, int(cursor), succeeded == '1', [int(h, 16) for h in letters])


def taken_steps(docs, steps, words):
    """Each step and what it does with the word, for each word, by the Rust."""
    with tempfile.TemporaryDirectory() as folder:
        answered = answers([build(docs, folder)], words)
    return [[(step, what_was_taken(step, word, field)) for step, field in zip(steps, fields)] for word, fields in zip(words, answered)]


def found_rows(docs, steps, words):
    """The steps' numbers for each word, parted by spaces, and which rows they show. Ends the program where something is missing or different."""
    did = taken_steps(docs, steps, words)
    end_with(text for word, pairs in zip(words, did) for step, taken in pairs for text in step.different(word, taken))
    end_with(text for word, pairs in zip(words, did) for text in unchained(word, pairs))
    shown = {step.case(taken) for pairs in did for step, taken in pairs}
    end_with('no word shows ' + step.text(case) for step in steps for case in step.cases() if case not in shown)
    rows = lambda how: len({(case.step, case.row) for case in shown if case.row is not None and case.how in how})
    text = f'{rows([MET, MISSED])} rows of {len(steps)} tables answered, {rows([MISSED])} of them with the guard not met'
    return [' '.join(str(step.number(taken)) for step, taken in pairs) for pairs in did], text
