"""model_tables.py DOCS: the tables, guards and replacements of the Rust's steps as the Rust file tables.rs, which the models of order and places include.

The step that the definition leaves out, the noun's Step1a, is not in it. DOCS is the root folder of the crate.
"""
import re
import sys

sys.dont_write_bytecode = True
from source import arabic, function, rust_exceptions, rust_step, rust_tables, unescape

STEPS = ['Checks1', 'Prefix_Step1', 'Prefix_Step2', 'Prefix_Step3a_Noun', 'Prefix_Step3b_Noun', 'Prefix_Step3_Verb', 'Prefix_Step4_Verb',
         'Suffix_Noun_Step1b', 'Suffix_Noun_Step2a', 'Suffix_Noun_Step2b', 'Suffix_Noun_Step2c1', 'Suffix_Noun_Step2c2', 'Suffix_Noun_Step3',
         'Suffix_Verb_Step1', 'Suffix_Verb_Step2a', 'Suffix_Verb_Step2b', 'Suffix_Verb_Step2c', 'Suffix_All_alef_maqsura']


def rust_letters(word):
    return '&[%s]' % ', '.join('0x%X' % c for c in word)


def rust_static(source, tables, number, name):
    """A step for a model: its rows, the longest first, each with its number in the table, guard and replacement."""
    step = rust_step(source, 'r_' + name)
    rows = sorted(enumerate(tables[step.table]), key=lambda row: -len(row[1][0]))
    lines = ', '.join('Row { number: %d, letters: %s, guard: %d, gives: %s }' % (i, rust_letters(letters), step.guards.get(k, 0), rust_letters(step.replacements[k]))
                      for i, (letters, k) in rows)
    not_at = ', '.join(map(rust_letters, rust_exceptions(source, 'r_' + name)))
    edges = sum(1 << k for k in {letters[-1 if name.startswith('Suffix') else 0] % 64 for letters, _ in tables[step.table]})
    return f'pub static {name.upper()}: Step = Step {{ number: {number}, table: {step.table}, edges: {edges}, not_at: &[{not_at}], rows: &[{lines}] }};\n'


def finishing(source, tables):
    """What A_1 and A_2 give for the last letter and for the others; both stand in one function."""
    for name, table, part in zip(('LAST', 'OTHER'), (1, 2), re.split(r'find_among\(A_2,', function(source, 'r_Normalize_post'))):
        gives = {int(k): unescape(text) for k, text in re.findall(r'among_var == (\d) \{[^}]*?slice_from\("([^"]*)"\)', part)}
        yield 'pub static %s: &[(u32, u32)] = &[%s];\n' % (name, ', '.join('(0x%X, 0x%X)' % (letters[0], gives[k][0]) for letters, k in tables[table]))


def tables_file(source):
    """The tables as the Rust file that a model includes."""
    tables, gives = rust_tables(source), rust_step(source, 'r_Normalize_pre').replacements
    letters = lambda numbers: sorted({c for n in numbers for row, _ in tables[n] for c in row} | {0x62F})
    text = ''.join(rust_static(source, tables, i, name) for i, name in enumerate(STEPS)) + ''.join(finishing(source, tables))
    text += 'pub static STEPS: [&Step; %d] = [%s];\n' % (len(STEPS), ', '.join('&' + name.upper() for name in STEPS))
    text += 'pub static A_0: &[(u32, &[u32])] = &[%s];\n' % ', '.join('(0x%X, %s)' % (row[0], rust_letters(gives[k])) for row, k in tables[0])
    text += f'pub static TABLE_LETTERS: &[u32] = {rust_letters(letters(range(1, 22)))};\n'
    text += f'pub static ALL_LETTERS: &[u32] = {rust_letters(letters(range(22)))};\n'
    return text


if __name__ == '__main__':
    print(tables_file(arabic(sys.argv[1])), end='')
