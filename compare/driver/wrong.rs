// wrong answers DEFINITION: for words on standard input, each a line of hexadecimal code points, stem, kind, normalised and finished word.
// wrong tests DEFINITION CHANGES TESTS: for each wrong definition how many tests of each group show it.
// wrong search DEFINITION CHANGES LONGEST SEED WORDS: for each wrong definition a word for which it gives something else, a smallest one
// if it has at most LONGEST letters. compare/wrong builds and starts it. A definition is a list of changes to the empty one.

mod random;

use random::Random;
use std::collections::BTreeMap;
use std::io::{self, BufRead, Write};

const STEPS: [&str; 17] = [
    "checks1", "prefix_step1", "prefix_step2", "prefix_step3a_noun", "prefix_step3b_noun", "prefix_step3_verb", "prefix_step4_verb", "noun_step1b", "noun_step2a", "noun_step2b",
    "noun_step2c1", "noun_step2c2", "noun_step3", "verb_step1", "verb_step2a", "verb_step2b", "verb_step2c",
];
const CHECKS1: usize = 0;
const PREFIX_STEP1: usize = 1;
const PREFIX_STEP2: usize = 2;
const PREFIX_STEP3A_NOUN: usize = 3;
const PREFIX_STEP3B_NOUN: usize = 4;
const PREFIX_STEP3_VERB: usize = 5;
const PREFIX_STEP4_VERB: usize = 6;
const NOUN_STEP1B: usize = 7;
const NOUN_STEP2A: usize = 8;
const NOUN_STEP2B: usize = 9;
const NOUN_STEP2C1: usize = 10;
const NOUN_STEP2C2: usize = 11;
const NOUN_STEP3: usize = 12;
const VERB_STEP1: usize = 13;
const VERB_STEP2A: usize = 14;
const VERB_STEP2B: usize = 15;
const VERB_STEP2C: usize = 16;
const SIZE: usize = 600;

/// Which of the rows that match is taken.
#[derive(Clone, Copy, PartialEq)]
enum Search {
    Longest,
    Shortest,
    /// The longest of those whose guard is met.
    LongestMet,
}

/// A row with what its class brings.
#[derive(Clone, PartialEq)]
struct Row {
    letters: Vec<u32>,
    guard: usize,
    gives: Vec<u32>,
}

/// A step for use: its rows in the order in which they are tried.
#[derive(Clone, PartialEq)]
struct Step {
    rows: Vec<Row>,
    /// A bit for each letter with which a row begins, or ends in a step for endings: the letter's number modulo 64.
    edges: u64,
    not_at: Vec<Vec<u32>>,
    search: Search,
}

type Letters = BTreeMap<u32, u32>;

/// A definition as it is written: rows and classes by table, guards and replacements by step and class.
#[derive(Clone)]
struct Definition {
    tables: Vec<Vec<(Vec<u32>, usize)>>,
    gives: BTreeMap<usize, Vec<u32>>,
    table: [usize; STEPS.len()],
    guards: BTreeMap<(usize, usize), usize>,
    puts: BTreeMap<(usize, usize), Vec<u32>>,
    not_at: Vec<Vec<Vec<u32>>>,
    search: [Search; STEPS.len()],
    last: Letters,
    other: Letters,
    maqsura: Letters,
}

/// A definition ready for use.
#[derive(Clone, PartialEq)]
struct Model {
    normal: BTreeMap<u32, Vec<u32>>,
    /// Whether a letter of `normal` has this number modulo 4096.
    keys: Vec<bool>,
    steps: Vec<Step>,
    last: Letters,
    other: Letters,
    maqsura: Letters,
}

fn letters(fields: &[&str]) -> Vec<u32> {
    fields.iter().map(|h| u32::from_str_radix(h, 16).expect("a hexadecimal number")).collect()
}

fn hex(word: &[u32]) -> String {
    word.iter().map(|c| format!("{:X}", c)).collect::<Vec<_>>().join(" ")
}

fn changed(table: &Letters, c: u32) -> u32 {
    *table.get(&c).unwrap_or(&c)
}

impl Definition {
    fn empty() -> Definition {
        Definition {
            tables: vec![Vec::new(); 22],
            gives: BTreeMap::new(),
            table: [0; STEPS.len()],
            guards: BTreeMap::new(),
            puts: BTreeMap::new(),
            not_at: vec![Vec::new(); STEPS.len()],
            search: [Search::Longest; STEPS.len()],
            last: Letters::new(),
            other: Letters::new(),
            maqsura: Letters::new(),
        }
    }

    /// One change: its name and what it takes.
    fn change(&mut self, line: &str) {
        let fields: Vec<&str> = line.split_whitespace().collect();
        let number = |i: usize| fields[i].parse::<usize>().expect("a number");
        let step = |i: usize| STEPS.iter().position(|name| *name == fields[i]).expect("a step");
        match fields[0] {
            "row" => self.tables[number(1)].push((letters(&fields[3..]), number(2))),
            "without" => {
                self.tables[number(1)].remove(number(2));
            }
            "class" => self.tables[number(1)][number(2)].1 = number(3),
            "gives" => {
                self.gives.insert(number(1), letters(&fields[2..]));
            }
            "table" => self.table[step(1)] = number(2),
            "guard" => {
                self.guards.insert((step(1), number(2)), number(3));
            }
            "puts" => {
                self.puts.insert((step(1), number(2)), letters(&fields[3..]));
            }
            "exception" => self.not_at[step(1)].push(letters(&fields[2..])),
            "allowed" => {
                self.not_at[step(1)].remove(number(2));
            }
            "shortest" => self.search[step(1)] = Search::Shortest,
            "met" => self.search[step(1)] = Search::LongestMet,
            name => {
                let table = match name {
                    "last" => &mut self.last,
                    "other" => &mut self.other,
                    "maqsura" => &mut self.maqsura,
                    _ => panic!("no change {}", name),
                };
                let pair = letters(&fields[1..]);
                table.insert(pair[0], pair[1]);
            }
        }
    }

    fn step(&self, i: usize) -> Step {
        let row = |(letters, class): &(Vec<u32>, usize)| Row {
            letters: letters.clone(),
            guard: *self.guards.get(&(i, *class)).expect("a guard for the class"),
            gives: self.puts.get(&(i, *class)).cloned().unwrap_or_default(),
        };
        let mut rows: Vec<Row> = self.tables[self.table[i]].iter().map(row).collect();
        let shortest = self.search[i] == Search::Shortest;
        rows.sort_by_key(|row| if shortest { row.letters.len() } else { 9 - row.letters.len() });
        let edge = |row: &Row| row.letters[if i < NOUN_STEP1B { 0 } else { row.letters.len() - 1 }];
        let edges = rows.iter().fold(0, |edges, row| edges | 1 << (edge(row) & 63));
        Step { rows, edges, not_at: self.not_at[i].clone(), search: self.search[i] }
    }

    fn model(&self) -> Model {
        let normal: BTreeMap<u32, Vec<u32>> = self.tables[0].iter().map(|(key, class)| (key[0], self.gives[class].clone())).collect();
        let mut keys = vec![false; 4096];
        for key in normal.keys() {
            keys[*key as usize % 4096] = true;
        }
        let changing = |table: &Letters| table.iter().filter(|(c, d)| c != d).map(|(c, d)| (*c, *d)).collect();
        let steps = (0..STEPS.len()).map(|i| self.step(i)).collect();
        Model { normal, keys, steps, last: changing(&self.last), other: changing(&self.other), maqsura: changing(&self.maqsura) }
    }
}

/// A word on its way: the text is letters[from..to]; its first `head` letters are the head, and `passed` letters stand between head and cursor.
struct Text {
    letters: [u32; SIZE],
    from: usize,
    to: usize,
    head: usize,
    passed: usize,
}

impl Text {
    fn new() -> Text {
        Text { letters: [0; SIZE], from: 0, to: 0, head: 0, passed: 0 }
    }

    fn all(&self) -> &[u32] {
        &self.letters[self.from..self.to]
    }
}

impl Step {
    /// The row that the step takes of those that match beside the letter `edge`, where `len` letters are there.
    fn take(&self, len: usize, edge: Option<&u32>, matches: impl Fn(&[u32]) -> bool) -> Option<&Row> {
        if self.edges >> (edge? & 63) & 1 == 0 {
            return None;
        }
        let met_only = self.search == Search::LongestMet;
        self.rows.iter().find(|row| matches(&row.letters) && (!met_only || len >= row.guard)).filter(|row| len >= row.guard)
    }

    fn cut(&self, text: &mut Text) -> bool {
        let row = self.take(text.all().len(), text.all().last(), |key| text.all().ends_with(key));
        let size = row.map_or(0, |row| row.letters.len());
        text.to -= size;
        size > 0
    }

    /// A front step at the cursor. The letters before the cursor move up to the replacement.
    fn apply(&self, text: &mut Text, to_head: bool) -> bool {
        let cursor = text.from + text.head + text.passed;
        let rest = &text.letters[cursor..text.to];
        if self.not_at.iter().any(|key| rest.starts_with(key)) {
            return false;
        }
        let row = match self.take(text.all().len(), rest.first(), |key| rest.starts_with(key)) {
            None => return false,
            Some(row) => row,
        };
        let gone = row.letters.len() - row.gives.len();
        text.letters.copy_within(text.from..cursor, text.from + gone);
        text.letters[cursor + gone..cursor + row.letters.len()].copy_from_slice(&row.gives);
        text.from += gone;
        if to_head {
            text.head = row.gives.len();
        } else {
            text.passed += row.gives.len();
        }
        true
    }
}

impl Model {
    fn defined(&self, word: &[u32]) -> bool {
        self.steps[CHECKS1].take(word.len(), word.first(), |key| word.starts_with(key)).is_some()
    }

    fn normalise(&self, word: &[u32], text: &mut Text) {
        text.from = 0;
        text.to = 0;
        for c in word {
            let given = if self.keys[*c as usize % 4096] { self.normal.get(c) } else { None };
            let given = given.map_or(std::slice::from_ref(c), |given| given);
            text.letters[text.to..text.to + given.len()].copy_from_slice(given);
            text.to += given.len();
        }
    }

    fn verb(&self, text: &mut Text) -> bool {
        if self.steps[VERB_STEP1].cut(text) {
            while self.steps[VERB_STEP1].cut(text) {}
            let _ = self.steps[VERB_STEP2A].cut(text) || self.steps[VERB_STEP2C].cut(text);
            return true;
        }
        self.steps[VERB_STEP2B].cut(text) || self.steps[VERB_STEP2A].cut(text)
    }

    fn noun(&self, text: &mut Text, open: bool) -> bool {
        let cut = |step: usize, text: &mut Text| self.steps[step].cut(text);
        let sequel = |text: &mut Text| cut(NOUN_STEP2A, text) || cut(NOUN_STEP2B, text) || cut(NOUN_STEP2C1, text);
        let _ = cut(NOUN_STEP2C2, text)
            || (cut(NOUN_STEP1B, text) && sequel(text))
            || (open && cut(NOUN_STEP2A, text))
            || cut(NOUN_STEP2B, text);
        cut(NOUN_STEP3, text)
    }

    fn fronts(&self, text: &mut Text, open: bool) {
        text.head = 0;
        text.passed = 0;
        self.steps[PREFIX_STEP1].apply(text, true);
        self.steps[PREFIX_STEP2].apply(text, false);
        if !self.steps[PREFIX_STEP3A_NOUN].apply(text, false) && !self.steps[PREFIX_STEP3B_NOUN].apply(text, false) && open {
            self.steps[PREFIX_STEP3_VERB].apply(text, false);
            self.steps[PREFIX_STEP4_VERB].apply(text, false);
        }
    }

    fn finish(&self, text: &mut Text) {
        if text.to > text.from {
            let end = text.to - 1;
            for c in &mut text.letters[text.from..end] {
                *c = changed(&self.other, *c);
            }
            text.letters[end] = changed(&self.last, text.letters[end]);
        }
    }

    /// The stem of a normalised word that stands in the text.
    fn stem(&self, text: &mut Text, open: bool) {
        if !(open && self.verb(text)) && !self.noun(text, open) && text.to > text.from {
            text.letters[text.to - 1] = changed(&self.maqsura, text.letters[text.to - 1]);
        }
        self.fronts(text, open);
        self.finish(text);
    }
}

/// What a definition gives for a word.
struct Answer {
    text: Text,
    defined: bool,
}

impl Answer {
    fn new() -> Answer {
        Answer { text: Text::new(), defined: false }
    }

    fn stem(&mut self, model: &Model, word: &[u32]) -> &[u32] {
        self.defined = model.defined(word);
        model.normalise(word, &mut self.text);
        model.stem(&mut self.text, !self.defined);
        self.text.all()
    }

    fn normalised(&mut self, model: &Model, word: &[u32]) -> &[u32] {
        model.normalise(word, &mut self.text);
        self.text.all()
    }

    fn finished(&mut self, model: &Model, word: &[u32]) -> &[u32] {
        self.text.from = 0;
        self.text.to = word.len();
        self.text.letters[..word.len()].copy_from_slice(word);
        model.finish(&mut self.text);
        self.text.all()
    }

    /// Stem, kind, normalised and finished word.
    fn fields(&mut self, model: &Model, word: &[u32]) -> [String; 4] {
        let stem = hex(self.stem(model, word));
        let kind = if self.defined { "DEFINED" } else { "OPEN" };
        [stem, kind.to_string(), hex(self.normalised(model, word)), hex(self.finished(model, word))]
    }
}

/// A word and its four answers, those that the test has.
struct Test {
    group: String,
    word: Vec<u32>,
    stem: Option<Vec<u32>>,
    defined: Option<bool>,
    normalised: Option<Vec<u32>>,
    finished: Option<Vec<u32>>,
}

impl Test {
    fn read(line: &str) -> Test {
        let fields: Vec<&str> = line.split('\t').collect();
        let word = |text: &str| letters(&text.split_whitespace().collect::<Vec<_>>());
        let given = |i: usize| if fields[i] == "-" { None } else { Some(word(fields[i])) };
        let defined = if fields[3] == "-" { None } else { Some(fields[3] == "DEFINED") };
        Test { group: fields[0].to_string(), word: word(fields[1]), stem: given(2), defined, normalised: given(4), finished: given(5) }
    }

    fn fails(&self, model: &Model, answer: &mut Answer) -> bool {
        let differs = |is: &[u32], given: &Option<Vec<u32>>| given.as_ref().map_or(false, |given| is != &given[..]);
        (self.stem.is_some() && differs(answer.stem(model, &self.word), &self.stem))
            || self.defined.map_or(false, |defined| model.defined(&self.word) != defined)
            || (self.normalised.is_some() && differs(answer.normalised(model, &self.word), &self.normalised))
            || (self.finished.is_some() && differs(answer.finished(model, &self.word), &self.finished))
    }
}

fn lines(path: &str) -> Vec<String> {
    std::fs::read_to_string(path).expect("a file").lines().map(str::to_string).collect()
}

/// The definition of a file, and the models of the wrong ones; None for a change that gives the same model.
fn models(definition: &str, changes: &str) -> (Model, Vec<Option<Model>>) {
    let mut right = Definition::empty();
    for line in lines(definition) {
        right.change(&line);
    }
    let model = right.model();
    let wrong = |line: &String| {
        let mut wrong = right.clone();
        wrong.change(line);
        Some(wrong.model()).filter(|wrong| *wrong != model)
    };
    let wrong = if changes.is_empty() { Vec::new() } else { lines(changes).iter().map(wrong).collect() };
    (model, wrong)
}

fn print_answers(definition: &str) {
    let (model, _) = models(definition, "");
    let mut answer = Answer::new();
    let mut output = io::BufWriter::new(io::stdout());
    for line in io::stdin().lock().lines() {
        let line = line.expect("a line of text");
        let word = letters(&line.split_whitespace().collect::<Vec<_>>());
        writeln!(output, "{}", answer.fields(&model, &word).join("\t")).expect("standard output");
    }
}

/// Only words with a letter that is normalised otherwise can show a wrong A_0.
fn touched(right: &Model, wrong: &Model) -> Option<Vec<u32>> {
    if right.normal == wrong.normal {
        return None;
    }
    Some(right.normal.keys().filter(|c| right.normal.get(c) != wrong.normal.get(c)).cloned().collect())
}

fn print_tests(definition: &str, changes: &str, tests: &str) {
    let (right, wrong) = models(definition, changes);
    let tests: Vec<Test> = lines(tests).iter().map(|line| Test::read(line)).collect();
    let mut answer = Answer::new();
    for test in &tests {
        if test.fails(&right, &mut answer) {
            println!("fails\t{}\t{}", test.group, hex(&test.word));
        }
    }
    for model in &wrong {
        let model = match model {
            None => {
                println!("same");
                continue;
            }
            Some(model) => model,
        };
        let keys = touched(&right, model);
        let mut shown: BTreeMap<&str, usize> = BTreeMap::new();
        for test in &tests {
            let reached = keys.as_ref().map_or(true, |keys| test.word.iter().any(|c| keys.contains(c)));
            if reached && test.fails(model, &mut answer) {
                *shown.entry(&test.group).or_insert(0) += 1;
            }
        }
        println!("{}", shown.iter().map(|(group, n)| format!("{} {}", group, n)).collect::<Vec<_>>().join("\t"));
    }
}

/// Words to try: all short ones over the tables' letters, then random ones.
struct Source {
    rows: Vec<Vec<Vec<u32>>>,
    forms: Vec<(u32, Vec<u32>)>,
    letters: Vec<u32>,
    all: Vec<u32>,
    random: Random,
}

impl Source {
    fn new(right: &Model, seed: u64) -> Source {
        let rows: Vec<Vec<Vec<u32>>> = right.steps.iter().map(|step| step.rows.iter().map(|row| row.letters.clone()).collect()).collect();
        let forms: Vec<(u32, Vec<u32>)> = right.normal.iter().map(|(key, gives)| (*key, gives.clone())).collect();
        // U+062F is in no table
        let mut letters: Vec<u32> = rows.iter().flatten().flatten().cloned().chain([0x62F]).collect();
        letters.extend(right.other.keys().chain(right.last.keys()).chain(right.maqsura.keys()));
        letters.sort();
        letters.dedup();
        let all = letters.iter().cloned().chain(forms.iter().map(|(key, _)| *key)).collect();
        Source { rows, forms, letters, all, random: Random::seeded(seed) }
    }

    fn chance(&mut self, percent: usize) -> bool {
        self.random.below(100) < percent
    }

    fn row(&mut self, from: usize, to: usize) -> Vec<u32> {
        let step = from + self.random.below(to - from);
        let row = self.random.below(self.rows[step].len());
        self.rows[step][row].clone()
    }

    /// A row in front of each sort or none, letters, and rows at the end; at times with presentation forms or marks.
    fn word(&mut self) -> Vec<u32> {
        let mut word = Vec::new();
        for (percent, from, to) in [(35, 1, 2), (40, 2, 3), (50, 3, 6), (20, 6, 7)] {
            if self.chance(percent) {
                word.extend(self.row(from, to));
            }
        }
        for _ in 0..self.random.pick(&[0, 1, 1, 2, 2, 2, 3, 3, 4]) {
            word.push(self.letters[self.random.below(self.letters.len())]);
        }
        for _ in 0..self.random.pick(&[0, 1, 1, 1, 2, 2, 3, 4]) {
            word.extend(self.row(7, STEPS.len()));
        }
        if self.chance(20) {
            for _ in 0..1 + self.random.below(3) {
                let key = self.random.below(self.forms.len());
                let at = self.random.below(word.len() + 1);
                word.insert(at, self.forms[key].0);
            }
        }
        if self.chance(20) {
            for i in 0..word.len() {
                let (key, gives) = &self.forms[self.random.below(self.forms.len())];
                if i + gives.len() <= word.len() && !gives.is_empty() && word[i..].starts_with(gives) {
                    word.splice(i..i + gives.len(), [*key]);
                }
            }
        }
        word
    }
}

/// The wrong definitions, and the word found for each.
struct Found {
    right: Model,
    wrong: Vec<(usize, Model)>,
    word: Vec<Option<Vec<u32>>>,
    given: Answer,
    other: Answer,
}

impl Found {
    fn differs(&mut self, i: usize, word: &[u32]) -> bool {
        let (_, model) = &self.wrong[i];
        self.other.stem(model, word) != self.given.text.all() || self.other.defined != self.given.defined
    }

    /// Tries a word on all that are not shown yet.
    fn try_word(&mut self, word: &[u32]) {
        self.given.stem(&self.right, word);
        for i in 0..self.wrong.len() {
            if self.word[i].is_none() && self.differs(i, word) {
                self.word[i] = Some(word.to_vec());
            }
        }
    }

    fn all_words(&mut self, letters: &[u32], longest: usize) -> u64 {
        let mut total = 0;
        for length in 0..longest + 1 {
            let mut digits = vec![0; length];
            let mut word = vec![letters[0]; length];
            let count = (letters.len() as u64).pow(length as u32);
            for _ in 0..count {
                self.try_word(&word);
                for i in (0..length).rev() {
                    digits[i] = (digits[i] + 1) % letters.len();
                    word[i] = letters[digits[i]];
                    if digits[i] > 0 {
                        break;
                    }
                }
            }
            total += count;
        }
        total
    }
}

/// Without letters that it does not need: the word stays one for which the two differ.
fn smaller(found: &mut Found, i: usize, word: Vec<u32>) -> Vec<u32> {
    for at in 0..word.len() {
        let mut fewer = word.clone();
        fewer.remove(at);
        found.given.stem(&found.right, &fewer);
        if found.differs(i, &fewer) {
            return smaller(found, i, fewer);
        }
    }
    word
}

fn print_words(definition: &str, changes: &str, longest: usize, seed: u64, words: u64) {
    let (right, wrong) = models(definition, changes);
    let mut source = Source::new(&right, seed);
    let count = wrong.len();
    let wrong: Vec<(usize, Model)> = wrong.into_iter().enumerate().filter_map(|(i, model)| model.map(|model| (i, model))).collect();
    let word = vec![None; wrong.len()];
    let mut found = Found { right, wrong, word, given: Answer::new(), other: Answer::new() };
    let mut total = found.all_words(&source.letters.clone(), longest);
    total += found.all_words(&source.all.clone(), 2) + words;
    for _ in 0..words {
        let word = source.word();
        found.try_word(&word);
    }
    let mut shown: Vec<String> = vec!["same".to_string(); count];
    for i in 0..found.wrong.len() {
        let at = found.wrong[i].0;
        shown[at] = match found.word[i].clone() {
            None => "-".to_string(),
            Some(word) => {
                let word = smaller(&mut found, i, word);
                let stem = hex(found.given.stem(&found.right, &word));
                let kind = if found.given.defined { "DEFINED" } else { "OPEN" };
                let other = hex(found.other.stem(&found.wrong[i].1, &word));
                format!("{}\t{}\t{}\t{}", hex(&word), stem, kind, other)
            }
        };
    }
    println!("{}\n{}", shown.join("\n"), total);
}

fn main() {
    let arguments: Vec<String> = std::env::args().skip(1).collect();
    let number = |i: usize| arguments[i].parse::<u64>().expect("a number");
    match arguments[0].as_str() {
        "answers" => print_answers(&arguments[1]),
        "tests" => print_tests(&arguments[1], &arguments[2], &arguments[3]),
        _ => print_words(&arguments[1], &arguments[2], number(3) as usize, number(4), number(5)),
    }
}
