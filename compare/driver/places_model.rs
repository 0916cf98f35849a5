// The stem letter by letter: each letter goes through the steps with its place, the byte of the typed word where the letter begins that it came from (request A7).
// tables.rs comes from the Rust source (compare/model_tables.py).

use marks::floating;
use std::collections::HashMap;

pub struct Row {
    number: usize,
    pub letters: &'static [u32],
    guard: usize,
    gives: &'static [u32],
}

/// A step: its rows, the longest first, and the texts at which it fails before it searches.
pub struct Step {
    number: usize,
    table: usize,
    edges: u64,
    not_at: &'static [&'static [u32]],
    pub rows: &'static [Row],
}

include!("tables.rs");

/// The row of two letters of which the first one's place is kept.
const FIRST_KEPT: [u32; 2] = [0x623, 0x624];

#[derive(Clone, Copy)]
pub struct Letter {
    pub code: u32,
    pub place: u16,
}

/// The letters on their way, with the number of endings cut; in front the steps stand at the cursor.
pub struct Text {
    pub letters: Vec<Letter>,
    pub endings: u32,
    cursor: usize,
}

fn same(letters: &[Letter], key: &[u32]) -> bool {
    letters.iter().map(|letter| letter.code).eq(key.iter().cloned())
}

fn begins_with(letters: &[Letter], key: &[u32]) -> bool {
    key.len() <= letters.len() && same(&letters[..key.len()], key)
}

fn ends_with(letters: &[Letter], key: &[u32]) -> bool {
    key.len() <= letters.len() && same(&letters[letters.len() - key.len()..], key)
}

/// Whether the longest row in front matches and its guard is met.
fn met_in_front(step: &Step, letters: &[Letter]) -> bool {
    step.rows.iter().find(|row| begins_with(letters, row.letters)).map_or(false, |row| row.guard <= letters.len())
}

fn changed(table: &[(u32, u32)], letter: &mut Letter) {
    if let Some(&(_, given)) = table.iter().find(|&&(key, _)| key == letter.code) {
        letter.code = given;
    }
}

impl Text {
    fn cut(&mut self, step: &Step) -> bool {
        let n = self.letters.len();
        match step.rows.iter().find(|row| ends_with(&self.letters, row.letters)) {
            Some(row) if row.guard <= n => {
                self.letters.truncate(n - row.letters.len());
                self.endings += 1;
                true
            }
            _ => false,
        }
    }

    fn verb(&mut self) -> bool {
        if self.cut(&SUFFIX_VERB_STEP1) {
            while self.cut(&SUFFIX_VERB_STEP1) {}
            let _ = self.cut(&SUFFIX_VERB_STEP2A) || self.cut(&SUFFIX_VERB_STEP2C);
            return true;
        }
        self.cut(&SUFFIX_VERB_STEP2B) || self.cut(&SUFFIX_VERB_STEP2A)
    }

    fn noun(&mut self, open: bool) -> bool {
        let _ = self.cut(&SUFFIX_NOUN_STEP2C2)
            || (self.cut(&SUFFIX_NOUN_STEP1B) && (self.cut(&SUFFIX_NOUN_STEP2A) || self.cut(&SUFFIX_NOUN_STEP2B) || self.cut(&SUFFIX_NOUN_STEP2C1)))
            || (open && self.cut(&SUFFIX_NOUN_STEP2A))
            || self.cut(&SUFFIX_NOUN_STEP2B);
        self.cut(&SUFFIX_NOUN_STEP3)
    }

    /// Where verb and noun fail, a last 0649 changes in its place.
    fn maqsura(&mut self) {
        let row = &SUFFIX_ALL_ALEF_MAQSURA.rows[0];
        if ends_with(&self.letters, row.letters) {
            self.letters.last_mut().expect("a last letter").code = row.gives[0];
        }
    }

    /// A step in front. What replaces a row has the places of the row's last letters, or of its first ones.
    fn front(&mut self, step: &Step) -> bool {
        let (at, n) = (self.cursor, self.letters.len());
        if step.not_at.iter().any(|key| begins_with(&self.letters[at..], key)) {
            return false;
        }
        match step.rows.iter().find(|row| begins_with(&self.letters[at..], row.letters)) {
            Some(row) if row.guard <= n => {
                let behind = at + row.letters.len();
                let kept = if row.letters == FIRST_KEPT { at } else { behind - row.gives.len() };
                let given: Vec<Letter> = row.gives.iter().zip(&self.letters[kept..]).map(|(code, old)| Letter { code: *code, place: old.place }).collect();
                self.cursor = at + given.len();
                self.letters.splice(at..behind, given);
                true
            }
            _ => false,
        }
    }

    fn fronts(&mut self, open: bool) {
        self.front(&PREFIX_STEP1);
        self.front(&PREFIX_STEP2);
        if !self.front(&PREFIX_STEP3A_NOUN) && !self.front(&PREFIX_STEP3B_NOUN) && open {
            self.front(&PREFIX_STEP3_VERB);
            self.front(&PREFIX_STEP4_VERB);
        }
    }

    fn finish(&mut self) {
        if let Some(last) = self.letters.last_mut() {
            changed(LAST, last);
        }
        for letter in &mut self.letters {
            changed(OTHER, letter);
        }
    }
}

pub struct Model {
    normal: HashMap<u32, &'static [u32]>,
}

impl Model {
    pub fn new() -> Model {
        Model { normal: A_0.iter().cloned().collect() }
    }

    /// Each letter that a row of A_0 gives has the place of the letter that it stands for.
    fn normalise(&self, typed: &[Letter]) -> Vec<Letter> {
        let mut letters = Vec::new();
        for letter in typed {
            match self.normal.get(&letter.code) {
                None => letters.push(*letter),
                Some(given) => letters.extend(given.iter().map(|code| Letter { code: *code, place: letter.place })),
            }
        }
        letters
    }

    /// The letters of the stem with their places, and the number of endings.
    pub fn stem(&self, word: &str) -> Text {
        let typed: Vec<Letter> = word.char_indices().filter(|&(_, c)| !floating(c)).map(|(place, c)| Letter { code: c as u32, place: place as u16 }).collect();
        let open = !met_in_front(&CHECKS1, &typed);
        let mut text = Text { letters: self.normalise(&typed), endings: 0, cursor: 0 };
        if !(open && text.verb()) && !text.noun(open) {
            text.maqsura();
        }
        text.fronts(open);
        text.finish();
        text
    }
}
