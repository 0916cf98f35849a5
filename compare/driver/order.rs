// order stems: for words on standard input, each a line of hexadecimal code points, the stem, and the other stem of every exchange that changes it.
// order search SEED WORDS: for every pair of neighbouring steps a smallest word whose stem differs when they are exchanged, and the rows never
// taken; compare/order builds and starts it. WORDS is the number of random words.

mod order_model;
mod random;

use order_model::*;
use random::Random;
use std::io::{self, BufRead, Write};

/// A model for every pair of neighbours.
fn pairs(keys: &'static [u16]) -> Vec<Model> {
    PLACES.iter().enumerate().flat_map(|(place, (_, count))| (0..count - 1).map(move |first| Model::new(keys, place, first, NO_STEP, 0))).collect()
}

/// A model without each row of A_3 to A_20, but for A_10, which has no step here.
fn shortened(keys: &'static [u16]) -> Vec<Model> {
    STEPS[..STEPS.len() - 1].iter().flat_map(|step| (0..step.rows.len()).map(move |row| Model::new(keys, NOWHERE, 0, step.number, row))).collect()
}

impl Random {
    fn chance(&mut self, percent: usize) -> bool {
        self.below(100) < percent
    }

    fn row(&mut self, steps: &[&'static Step]) -> &'static [u32] {
        let step = self.pick(steps);
        step.rows[self.below(step.rows.len())].letters
    }

    /// A row in front of each sort or none, letters, and rows at the end.
    fn parts(&mut self, word: &mut Vec<u32>) {
        for (percent, steps) in [(35, &STEPS[1..2]), (40, &STEPS[2..3]), (50, &STEPS[3..6]), (20, &STEPS[6..7])] {
            if self.chance(percent) {
                word.extend_from_slice(self.row(steps));
            }
        }
        for _ in 0..self.pick(&[0, 1, 1, 2, 2, 2, 3, 3, 4]) {
            word.push(if self.chance(70) { self.pick(TABLE_LETTERS) } else { 0x627 + self.below(20) as u32 });
        }
        for _ in 0..self.pick(&[0, 1, 1, 1, 2, 2, 3, 4]) {
            word.extend_from_slice(self.row(&STEPS[7..]));
        }
    }

    /// Presentation forms for letters, and ligatures for lam and alef.
    fn form(&mut self, word: &mut Vec<u32>) {
        let mut i = 0;
        while i < word.len() {
            let (key, gives) = A_0[self.below(A_0.len())];
            if !gives.is_empty() && begins_with(&word[i..], gives) {
                word.splice(i..i + gives.len(), Some(key));
            }
            i += self.below(2);
        }
    }

    /// Other keys of A_0 between the letters.
    fn mark(&mut self, word: &mut Vec<u32>) {
        for _ in 0..1 + self.below(3) {
            word.insert(self.below(word.len() + 1), A_0[self.below(A_0.len())].0);
        }
    }

    fn word(&mut self) -> Vec<u32> {
        let mut word = Vec::new();
        match self.below(5) {
            0 => word.extend((0..2 + self.below(12)).map(|_| self.pick(TABLE_LETTERS))),
            _ => self.parts(&mut word),
        }
        match self.below(6) {
            0 => self.form(&mut word),
            1 => self.mark(&mut word),
            _ => (),
        }
        word
    }
}

/// A word with its stem and the stem of a model that differs from it.
type Shown = (Vec<u32>, Vec<u32>, Vec<u32>);

/// What is known of a model: the first differing word, and how many words of fewer letters were tried.
struct Search {
    model: Model,
    shown: Option<Shown>,
    tried: u64,
}

impl Search {
    fn new(model: Model) -> Search {
        Search { model, shown: None, tried: 0 }
    }

    /// Tries a word, where none was found yet.
    fn try_word(&mut self, word: &[u32], stem: &[u32]) {
        if self.shown.is_none() && !same(self.model.stem(word), stem) {
            self.shown = Some((word.to_vec(), stem.to_vec(), self.model.stem(word).to_vec()));
        }
    }

    fn line(&self, longest: &str) -> String {
        match &self.shown {
            None => format!("{}: no word differs ({} words tried)", self.model.name(), self.tried),
            Some((word, stem, other)) => {
                format!("{}: {} stem {}, exchanged {}; no {} differs ({} words tried)", self.model.name(), hex(word), hex(stem), hex(other), longest, self.tried)
            }
        }
    }
}

/// Goes through all words of up to `longest` of the letters, the short ones first, and tries each where no word was found yet.
fn all_words(base: &mut Model, searches: &mut [Search], letters: &[u32], longest: usize) -> u64 {
    let mut total = 0;
    for length in 0..longest + 1 {
        let mut open: Vec<&mut Search> = searches.iter_mut().filter(|s| s.shown.is_none()).collect();
        let count = (letters.len() as u64).pow(length as u32);
        let mut digits = vec![0; length];
        let mut word = vec![letters[0]; length];
        for _ in 0..count {
            let stem = base.stem(&word);
            for search in open.iter_mut() {
                search.try_word(&word, stem);
            }
            for i in (0..length).rev() {
                digits[i] = (digits[i] + 1) % letters.len();
                word[i] = letters[digits[i]];
                if digits[i] > 0 {
                    break;
                }
            }
        }
        for search in open.iter_mut().filter(|s| s.shown.is_none()) {
            search.tried += count;
        }
        total += count;
        eprintln!("all words of {} letters over {}: {}", length, letters.len(), count);
    }
    total
}

/// Tries a word beyond those.
fn one_word(base: &mut Model, searches: &mut [Search], word: &[u32]) {
    let stem = base.stem(word);
    for search in searches.iter_mut().filter(|s| s.shown.is_none()) {
        search.tried += 1;
        search.try_word(word, stem);
    }
}

/// The words of up to 6 letters that begin with a row of A_3, of the other kind: with a presentation form in front they are open, with marks behind they are defined.
fn turned_words(base: &mut Model, searches: &mut [Search]) -> u64 {
    let mut total = 0;
    for row in CHECKS1.rows {
        for length in 0..LONGEST + 1 - row.letters.len() {
            for number in 0..(TABLE_LETTERS.len() as u64).pow(length as u32) {
                let mut word = row.letters.to_vec();
                let mut rest = number as usize;
                for _ in 0..length {
                    word.push(TABLE_LETTERS[rest % TABLE_LETTERS.len()]);
                    rest /= TABLE_LETTERS.len();
                }
                let form = A_0.iter().find(|(_, gives)| same(gives, &word[..1])).expect("a form of the letter").0;
                let mark = A_0.iter().find(|(_, gives)| gives.is_empty()).expect("a mark").0;
                let (mut open, mut defined) = (word.clone(), word);
                open[0] = form;
                defined.extend([mark; 3]);
                one_word(base, searches, &open);
                one_word(base, searches, &defined);
                total += 2;
            }
        }
    }
    total
}

fn search(seed: u64, words: u64) {
    let mut random = Random::seeded(seed);
    let keys = keys();
    let mut base = Model::new(keys, NOWHERE, 0, NO_STEP, 0);
    let mut searches: Vec<Search> = pairs(keys).into_iter().chain(shortened(keys)).map(Search::new).collect();
    let pairs = searches.iter().filter(|s| s.model.step == NO_STEP).count();
    let mut total = all_words(&mut base, &mut searches[..2], ALL_LETTERS, 3);
    total += all_words(&mut base, &mut searches[2..], TABLE_LETTERS, LONGEST);
    let whole: Vec<bool> = searches.iter().map(|s| s.shown.is_some()).collect();
    total += turned_words(&mut base, &mut searches) + words;
    for _ in 0..words {
        let word = random.word();
        one_word(&mut base, &mut searches, &word);
    }
    for (search, whole) in searches[..pairs].iter().zip(&whole) {
        println!("{}", search.line(if *whole { "shorter word" } else { "word before it" }));
    }
    for (kind, name) in ["open", "defined"].iter().enumerate() {
        for step in &STEPS[1 - kind..STEPS.len() - 1] {
            let rows: Vec<usize> = (0..step.rows.len()).filter(|row| base.taken[kind][step.number] >> row & 1 == 0).collect();
            if rows.len() == step.rows.len() {
                println!("never taken in {} words: A_{}, all rows", name, step.table);
            } else if !rows.is_empty() {
                println!("never taken in {} words: {}", name, rows.iter().map(|row| row_name(step, *row)).collect::<Vec<_>>().join(", "));
            }
        }
    }
    for search in searches[pairs..].iter().filter(|s| s.shown.is_none()) {
        println!("without {}", search.line(""));
    }
    println!("most letters cut behind: {} in open words, {} in defined words", base.behind[0], base.behind[1]);
    let shown = searches[..pairs].iter().filter(|s| s.shown.is_some()).count();
    println!("{} pairs: {} shown, {} with no word; {} words", pairs, shown, pairs - shown, total);
}

fn stems() {
    let keys = keys();
    let mut base = Model::new(keys, NOWHERE, 0, NO_STEP, 0);
    let mut pairs = pairs(keys);
    let mut output = io::BufWriter::new(io::stdout());
    for line in io::stdin().lock().lines() {
        let line = line.expect("a line of text");
        let word: Vec<u32> = line.split_whitespace().map(|h| u32::from_str_radix(h, 16).expect("a hexadecimal number")).collect();
        let stem = base.stem(&word);
        write!(output, "{}", hex(stem)).expect("standard output");
        for pair in &mut pairs {
            if !same(pair.stem(&word), stem) {
                let name = pair.name();
                write!(output, "\t{}: {}", name, hex(pair.stem(&word))).expect("standard output");
            }
        }
        writeln!(output).expect("standard output");
    }
}

fn main() {
    let arguments: Vec<String> = std::env::args().skip(1).collect();
    let number = |i: usize| arguments[i].parse::<u64>().expect("a number");
    match arguments[0].as_str() {
        "stems" => stems(),
        _ => search(number(1), number(2)),
    }
}
