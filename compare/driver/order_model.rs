// The stem on letters with two neighbouring steps exchanged, as in crates/order/specs/Order.antt. tables.rs comes from the Rust source.

pub struct Row {
    pub number: usize,
    pub letters: &'static [u32],
    guard: usize,
    gives: &'static [u32],
}

/// A step: its rows, the longest first, and the texts at which it fails before it searches.
pub struct Step {
    pub number: usize,
    pub table: usize,
    /// A bit for each letter with which a row begins, or ends in a step for endings: the letter's number modulo 64.
    edges: u64,
    not_at: &'static [&'static [u32]],
    pub rows: &'static [Row],
}

include!("tables.rs");

/// The places where steps stand in an order, each with the number of its entries.
pub const PLACES: [(&str, usize); 13] = [
    ("way", 5), ("ends", 3), ("verbs", 3), ("verb_turns", 2), ("verb_sequel", 3), ("noun_turns", 2), ("nouns", 5), ("step1b_turns", 2), ("step1b_sequel", 3),
    ("fronts", 3), ("thirds", 3), ("verb_fronts", 2), ("finishing", 2),
];
pub const WAY: usize = 0;
pub const ENDS: usize = 1;
pub const VERBS: usize = 2;
pub const VERB_TURNS: usize = 3;
pub const VERB_SEQUEL: usize = 4;
pub const NOUN_TURNS: usize = 5;
pub const NOUNS: usize = 6;
pub const STEP1B_TURNS: usize = 7;
pub const STEP1B_SEQUEL: usize = 8;
pub const FRONTS: usize = 9;
pub const THIRDS: usize = 10;
pub const VERB_FRONTS: usize = 11;
pub const FINISHING: usize = 12;
pub const NOWHERE: usize = 13;

pub const NO_STEP: usize = 99;
pub const SIZE: usize = 600;
pub const LONGEST: usize = 6;

pub fn same(a: &[u32], b: &[u32]) -> bool {
    a.len() == b.len() && a.iter().zip(b).all(|(x, y)| x == y)
}

pub fn begins_with(text: &[u32], key: &[u32]) -> bool {
    key.len() <= text.len() && same(&text[..key.len()], key)
}

pub fn ends_with(text: &[u32], key: &[u32]) -> bool {
    key.len() <= text.len() && same(&text[text.len() - key.len()..], key)
}

pub fn hex(word: &[u32]) -> String {
    word.iter().map(|c| format!("{:X}", c)).collect::<Vec<_>>().join(" ")
}

/// What a table of single letters gives; its rows are sorted.
pub fn changed(table: &[(u32, u32)], c: u32) -> u32 {
    if c < table[0].0 || c > table[table.len() - 1].0 {
        return c;
    }
    table.iter().find(|(key, _)| *key == c).map_or(c, |(_, gives)| *gives)
}

/// The model of the stem with the entries `first` and `first + 1` of a place exchanged, or with the row `row` of the step `step` left out.
pub struct Model {
    pub place: usize,
    pub first: usize,
    pub step: usize,
    pub row: usize,
    /// The number of the row of A_0 for a letter below 0x10000, from 1.
    keys: &'static [u16],
    /// The text is letters[from..to]; its first `head` letters are the head, and `passed` letters stand between head and cursor.
    letters: [u32; SIZE],
    from: usize,
    to: usize,
    head: usize,
    passed: usize,
    defined: bool,
    /// One bit a row: the rows that each step has found in this word, and those that it has taken in all open and in all defined words.
    found: [u16; STEPS.len()],
    pub taken: [[u16; STEPS.len()]; 2],
    /// The most letters cut behind, in open and in defined words.
    pub behind: [usize; 2],
}

impl Model {
    pub fn new(keys: &'static [u16], place: usize, first: usize, step: usize, row: usize) -> Model {
        let (found, taken) = ([0; STEPS.len()], [[0; STEPS.len()]; 2]);
        Model { place, first, step, row, keys, letters: [0; SIZE], from: 0, to: 0, head: 0, passed: 0, defined: false, found, taken, behind: [0; 2] }
    }

    pub fn name(&self) -> String {
        match self.step {
            NO_STEP => format!("{} {}", PLACES[self.place].0, self.first),
            step => row_name(STEPS[step], self.row),
        }
    }

    /// The entry that stands at i.
    fn at(&self, place: usize, i: usize) -> usize {
        match (place == self.place, i.wrapping_sub(self.first)) {
            (true, 0) => i + 1,
            (true, 1) => i - 1,
            _ => i,
        }
    }

    /// Steps that follow each other, as long as they succeed.
    fn in_turn(&mut self, place: usize, entry: impl Fn(&mut Model, usize) -> bool) -> bool {
        (0..PLACES[place].1).all(|i| entry(self, self.at(place, i)))
    }

    /// The first step that succeeds.
    fn first_of(&mut self, place: usize, entry: impl Fn(&mut Model, usize) -> bool) -> bool {
        (0..PLACES[place].1).any(|i| entry(self, self.at(place, i)))
    }

    /// The longest row that matches at the end or at the cursor, if its guard is met. No shorter row is tried.
    #[inline(always)]
    fn take(&mut self, step: &'static Step, at_end: bool) -> Option<&'static Row> {
        let text = if at_end { self.text() } else { &self.letters[self.from + self.head + self.passed..self.to] };
        let edge = if at_end { text.last() } else { text.first() };
        if step.edges >> (edge? & 63) & 1 == 0 {
            return None;
        }
        let matches = |row: &Row| if at_end { ends_with(text, row.letters) } else { begins_with(text, row.letters) };
        let row = step.rows.iter().find(|row| matches(row) && (step.number, row.number) != (self.step, self.row))?;
        self.found[step.number] |= 1 << row.number;
        if self.to - self.from < row.guard {
            return None;
        }
        self.taken[self.defined as usize][step.number] |= 1 << row.number;
        Some(row)
    }

    fn cut(&mut self, step: &'static Step) -> bool {
        let row = self.take(step, true);
        self.to -= row.map_or(0, |row| row.letters.len());
        row.is_some()
    }

    /// A front step at the cursor. The letters before the cursor move up to the replacement.
    fn apply(&mut self, step: &'static Step) -> bool {
        let at = self.head + self.passed;
        let rest = &self.letters[self.from + at..self.to];
        if step.not_at.iter().any(|key| begins_with(rest, key)) {
            return false;
        }
        let row = match self.take(step, false) {
            None => return false,
            Some(row) => row,
        };
        let (gone, cursor) = (row.letters.len() - row.gives.len(), self.from + at);
        self.letters.copy_within(self.from..cursor, self.from + gone);
        self.letters[cursor + gone..cursor + row.letters.len()].copy_from_slice(row.gives);
        self.from += gone;
        if step.number == PREFIX_STEP1.number {
            self.head = row.gives.len();
        } else {
            self.passed += row.gives.len();
        }
        true
    }

    /// Where an alternative fails, the cursor goes back to where nothing was passed yet.
    fn from_here(&mut self, done: bool) -> bool {
        if !done {
            self.passed = 0;
        }
        done
    }

    fn verb(&mut self) -> bool {
        self.first_of(VERBS, |m, i| match i {
            0 => m.in_turn(VERB_TURNS, |m, i| match i {
                0 => {
                    let done = m.cut(&SUFFIX_VERB_STEP1);
                    while done && m.cut(&SUFFIX_VERB_STEP1) {}
                    done
                }
                _ => m.first_of(VERB_SEQUEL, |m, i| match i {
                    0 => m.cut(&SUFFIX_VERB_STEP2A),
                    1 => m.cut(&SUFFIX_VERB_STEP2C),
                    _ => true,
                }),
            }),
            1 => m.cut(&SUFFIX_VERB_STEP2B),
            _ => m.cut(&SUFFIX_VERB_STEP2A),
        })
    }

    fn noun(&mut self) -> bool {
        self.in_turn(NOUN_TURNS, |m, i| match i {
            0 => m.first_of(NOUNS, |m, i| match i {
                0 => m.cut(&SUFFIX_NOUN_STEP2C2),
                1 => m.in_turn(STEP1B_TURNS, |m, i| match i {
                    0 => m.cut(&SUFFIX_NOUN_STEP1B),
                    _ => m.first_of(STEP1B_SEQUEL, |m, i| match i {
                        0 => m.cut(&SUFFIX_NOUN_STEP2A),
                        1 => m.cut(&SUFFIX_NOUN_STEP2B),
                        _ => m.cut(&SUFFIX_NOUN_STEP2C1),
                    }),
                }),
                2 => !m.defined && m.cut(&SUFFIX_NOUN_STEP2A),
                3 => m.cut(&SUFFIX_NOUN_STEP2B),
                _ => true,
            }),
            _ => m.cut(&SUFFIX_NOUN_STEP3),
        })
    }

    fn endings(&mut self) {
        let all = self.to;
        self.first_of(ENDS, |m, i| match i {
            0 => !m.defined && m.verb(),
            1 => m.noun(),
            _ => {
                let row = m.take(&SUFFIX_ALL_ALEF_MAQSURA, true);
                if let Some(row) = row {
                    m.letters[m.to - 1] = row.gives[0];
                }
                row.is_some()
            }
        });
        let most = &mut self.behind[self.defined as usize];
        *most = (all - self.to).max(*most);
    }

    fn fronts(&mut self) {
        self.in_turn(FRONTS, |m, i| match i {
            0 => m.apply(&PREFIX_STEP1) || true,
            1 => m.apply(&PREFIX_STEP2) || true,
            _ => m.first_of(THIRDS, |m, i| {
                let done = match i {
                    0 => m.apply(&PREFIX_STEP3A_NOUN),
                    1 => m.apply(&PREFIX_STEP3B_NOUN),
                    _ => !m.defined && m.in_turn(VERB_FRONTS, |m, i| match i {
                        0 => m.apply(&PREFIX_STEP3_VERB) || true,
                        _ => m.apply(&PREFIX_STEP4_VERB),
                    }),
                };
                m.from_here(done)
            }),
        });
    }

    fn normalise(&mut self) {
        if self.letters[self.from..self.to].iter().all(|c| *c < 0x10000 && self.keys[*c as usize] == 0) {
            return;
        }
        let (letters, from, to) = (self.letters, self.from, self.to);
        self.from = 0;
        self.to = 0;
        for c in &letters[from..to] {
            let given = match self.keys.get(*c as usize) {
                Some(i) if *i > 0 => A_0[*i as usize - 1].1,
                _ => std::slice::from_ref(c),
            };
            self.letters[self.to..self.to + given.len()].copy_from_slice(given);
            self.to += given.len();
        }
    }

    fn finish(&mut self) {
        for i in 0..PLACES[FINISHING].1 {
            let (from, table) = match self.at(FINISHING, i) {
                0 => (self.from.max(self.to.saturating_sub(1)), LAST),
                _ => (self.from, OTHER),
            };
            for c in &mut self.letters[from..self.to] {
                *c = changed(table, *c);
            }
        }
    }

    fn text(&self) -> &[u32] {
        &self.letters[self.from..self.to]
    }

    pub fn stem(&mut self, word: &[u32]) -> &[u32] {
        self.found = [0; STEPS.len()];
        self.letters[..word.len()].copy_from_slice(word);
        self.from = 0;
        self.to = word.len();
        self.head = 0;
        self.passed = 0;
        for i in 0..PLACES[WAY].1 {
            match self.at(WAY, i) {
                0 => {
                    // a row taken here counts for the defined words
                    self.defined = true;
                    self.defined = self.take(&CHECKS1, false).is_some();
                }
                1 => self.normalise(),
                2 => self.endings(),
                3 => self.fronts(),
                _ => self.finish(),
            }
        }
        self.text()
    }
}

pub fn row_name(step: &Step, number: usize) -> String {
    let row = step.rows.iter().find(|row| row.number == number).expect("a row of the table");
    format!("A_{} row {} ({})", step.table, number, hex(row.letters))
}

pub fn keys() -> &'static [u16] {
    let mut keys = vec![0; 0x10000];
    for (i, (key, _)) in A_0.iter().enumerate() {
        keys[*key as usize] = i as u16 + 1;
    }
    Box::leak(keys.into_boxed_slice())
}
