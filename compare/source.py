"""Reads the tables and steps out of the Rust's arabic.rs."""
import os
import re
import subprocess
import sys

HERE = os.path.dirname(os.path.abspath(__file__))


def fail(text):
    print(text, file=sys.stderr)
    sys.exit(2)


def read(path):
    try:
        with open(path, encoding='utf-8') as file:
            return file.read()
    except OSError as error:
        fail(f'{path} cannot be read ({error.strerror}): give the root folder of the crate rust-stemmers 1.2.0 as the argument')


def docs_folder(given):
    """The crate's root folder: the one that is given, or ../shared/docs/src beside the repository."""
    return given or os.path.join(HERE, '..', '..', 'shared', 'docs', 'src')


def arabic(docs):
    return read(os.path.join(docs, 'src', 'snowball', 'algorithms', 'arabic.rs'))


def unescape(text):
    text = re.sub(r'\\u\{([0-9A-Fa-f]+)\}', lambda m: chr(int(m.group(1), 16)), text)
    return [ord(c) for c in re.sub(r'\\(.)', r'\1', text)]


def rust_tables(source):
    tables = {}
    for m in re.finditer(r"static A_(\d+): &'static \[Among<Context>; (\d+)\] = &\[(.*?)\n\];", source, re.S):
        rows = [(unescape(r.group(1)), int(r.group(2))) for r in re.finditer(r'Among\("((?:[^"\\]|\\.)*)", -?\d+, (\d+), None\)', m.group(3))]
        if len(rows) != int(m.group(2)):
            fail(f'A_{m.group(1)}: {len(rows)} rows read of {m.group(2)}')
        tables[int(m.group(1))] = rows
    return tables


class Step:
    """A step's table, and its guard and replacement by class."""

    def __init__(self, table, guards, replacements):
        self.table, self.guards, self.replacements = table, guards, replacements


def function(source, name):
    """The text of a function of the Rust."""
    found = re.search(r'fn %s\(.*?\n}\n' % name, source, re.S)
    return found.group(0) if found else fail(f'no function {name} in arabic.rs')


def rust_step(source, name):
    body = function(source, name)
    table = int(re.search(r'find_among(?:_b)?\(A_(\d+),', body).group(1))
    guards, replacements = {}, {}
    branches = re.split(r'else if among_var == (\d+) \{', body)[1:]
    for k, branch in zip(branches[0::2], branches[1::2]):
        guard = re.search(r'i_word_len (>=?) (\d+)', branch)
        if guard:
            guards[int(k)] = int(guard.group(2)) + (guard.group(1) == '>')
        made = re.search(r'slice_from\("((?:[^"\\]|\\.)*)"\)', branch)
        replacements[int(k)] = unescape(made.group(1)) if made else []
    return Step(table, guards, replacements)


def rust_exceptions(source, name):
    """The letters at which a step ends before it searches."""
    return [unescape(text) for text in re.findall(r'eq_s\(&"([^"]*)"\)', function(source, name))]


def hex_word(word):
    return ' '.join('%X' % c for c in word)


def answers(program, words):
    """The fields that a program prints for each word: it reads a word a line, and parts the fields by tabs."""
    given = ''.join(hex_word(w) + '\n' for w in words)
    ran = subprocess.run(program, input=given, capture_output=True, text=True)
    if ran.returncode:
        fail(f"{program[0]} ends with status {ran.returncode}: {' '.join(ran.stderr.split())}")
    lines = [line.split('\t') for line in ran.stdout.split('\n')[:-1]]
    return lines if len(lines) == len(words) else fail(f'{len(lines)} answers of {program[0]} for {len(words)} words')


def rust_answers(docs, folder, words):
    """Stem, kind, normalised and finished word and number of endings cut of each word, by the Rust built in the folder."""
    subprocess.run([os.path.join(HERE, 'reference', 'build'), docs, folder], check=True)
    return answers([os.path.join(folder, 'reference')], words)
