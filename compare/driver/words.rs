// Random words of every shape, made from the tables' keys, and damaged copies of them.

use random::Random;
use snowball::algorithms::arabic_test_copy;
use std::collections::HashMap;

/// Characters at the edges of the encoding's ranges and of the tables, most of them in no table.
pub const FOREIGN: [u32; 33] = [
    0, 9, 10, 0x20, 0x24, 0x41, 0x7A, 0x7F, 0x80, 0xE9, 0x3A9, 0x620, 0x653, 0x670, 0x6F0, 0x7FF, 0x800, 0xD7FF, 0xE000, 0xFB50, 0xFE70, 0xFE73, 0xFE75, 0xFE7F, 0xFE80, 0xFEFC, 0xFEFD, 0xFEFF,
    0xFFFF, 0x10000, 0x1F453, 0xFFFFF, 0x10FFFF,
];

/// Letters of one to four bytes that are in no table.
pub const FILLERS: [u32; 4] = [0x61, 0x62F, 0x2028, 0x1F453];

/// Some of the floating marks.
const FLOATING: [&'static str; 5] = ["\u{FE70}", "\u{FE72}", "\u{FE74}", "\u{FE76}", "\u{FE7F}"];

const CLOSE: [u32; 15] = [0x623, 0x627, 0x648, 0x641, 0x628, 0x644, 0x643, 0x633, 0x64A, 0x62A, 0x646, 0x645, 0x647, 0x649, 0x629];

pub fn character(n: u32) -> char {
    std::char::from_u32(n).expect("a scalar value")
}

pub struct Words {
    keys: Vec<Vec<&'static str>>,
    letters: Vec<char>,
    /// Letters with the presentation forms that stand for them.
    forms: HashMap<String, Vec<&'static str>>,
    /// What leaves no letter in the normalised word: the keys of A_0 that are deleted, and floating marks.
    deleted: Vec<&'static str>,
    pub random: Random,
    /// The letters in the keys of A_1 to A_21, and U+062F, which is in none.
    pub table_letters: Vec<char>,
    /// These and the letters in the keys of A_0.
    pub all_letters: Vec<char>,
}

impl Words {
    pub fn new(seed: u64) -> Words {
        let keys = arabic_test_copy::keys();
        let mut forms: HashMap<String, Vec<&'static str>> = HashMap::new();
        for key in &keys[0] {
            forms.entry(arabic_test_copy::normalised(key)).or_insert(Vec::new()).push(key);
        }
        let mut deleted = forms.remove("").expect("keys that are deleted");
        deleted.extend(FLOATING.iter());
        let letters_of = |tables: &[Vec<&'static str>]| {
            let mut letters: Vec<char> = tables.iter().flat_map(|t| t.iter()).flat_map(|k| k.chars()).chain(Some('\u{62F}')).collect();
            letters.sort();
            letters.dedup();
            letters
        };
        let table_letters = letters_of(&keys[1..]);
        let all_letters = letters_of(&keys);
        let letters = (0x621..0x63B).chain(0x641..0x64B).map(character).collect();
        Words { keys: keys, letters: letters, forms: forms, deleted: deleted, random: Random::seeded(seed), table_letters: table_letters, all_letters: all_letters }
    }

    fn chance(&mut self, percent: usize) -> bool {
        self.random.below(100) < percent
    }

    fn key(&mut self, from: usize, to: usize) -> &'static str {
        let table = from + self.random.below(to - from);
        let row = self.random.below(self.keys[table].len());
        self.keys[table][row]
    }

    /// Rows in front, letters, rows at the end.
    fn parts(&mut self) -> String {
        let mut word = String::new();
        if self.chance(35) {
            word.push_str(self.key(4, 5));
        }
        if self.chance(40) {
            word.push_str(self.key(5, 6));
        }
        if self.chance(50) {
            let table = self.random.pick(&[3, 6, 7, 8]);
            word.push_str(self.key(table, table + 1));
        }
        if self.chance(20) {
            word.push_str(self.key(9, 10));
        }
        for _ in 0..self.random.pick(&[0, 1, 1, 2, 2, 2, 3, 3, 4]) {
            let letter = self.random.below(self.letters.len());
            word.push(self.letters[letter]);
        }
        for _ in 0..self.random.pick(&[0, 1, 1, 1, 2, 2, 3, 4]) {
            word.push_str(self.key(10, 22));
        }
        word
    }

    fn scalar(&mut self) -> char {
        loop {
            let n = match self.random.below(6) {
                0 => self.random.below(0x80),
                1 => self.random.below(0x800),
                2 => 0x600 + self.random.below(0x100),
                3 => 0xFB50 + self.random.below(0x4B0),
                4 => self.random.below(0x10000),
                _ => 0x10000 + self.random.below(0x100000),
            };
            if let Some(c) = std::char::from_u32(n as u32) {
                return c;
            }
        }
    }

    /// The word with keys of A_0 and other characters put in.
    fn marked(&mut self, word: &str) -> String {
        let mut out = String::new();
        for c in word.chars() {
            while self.chance(15) {
                match self.random.below(10) {
                    0 => out.push(character(self.random.pick(&FOREIGN))),
                    1 => out.push(self.scalar()),
                    _ => out.push_str(self.key(0, 1)),
                }
            }
            out.push(c);
        }
        while self.chance(20) {
            out.push_str(self.key(0, 1));
        }
        out
    }

    /// The word with letters as presentation forms, and lam and alef as ligatures.
    fn formed(&mut self, word: &str) -> String {
        let letters: Vec<char> = word.chars().collect();
        let mut out = String::new();
        let mut i = 0;
        while i < letters.len() {
            let mut taken = 1;
            for n in &[2, 1] {
                let text: String = letters[i..].iter().take(*n).collect();
                let found = self.forms.get(&text).cloned();
                if let Some(found) = found {
                    if self.chance(65) {
                        out.push_str(self.random.pick(&found));
                        taken = *n;
                        break;
                    }
                }
                if *n == 1 {
                    out.push(letters[i]);
                }
            }
            i += taken;
        }
        out
    }

    /// Another word with the same normalised form, which is given: letters as presentation forms, and keys between them that are deleted.
    pub fn spelling(&mut self, normalised: &str) -> String {
        let formed = if self.chance(60) { self.formed(normalised) } else { normalised.to_string() };
        let often = self.random.pick(&[0, 0, 10, 30]);
        let mut out = String::new();
        for c in formed.chars() {
            while self.chance(often) {
                out.push_str(self.random.pick(&self.deleted));
            }
            out.push(c);
        }
        while self.chance(often) {
            out.push_str(self.random.pick(&self.deleted));
        }
        out
    }

    /// Pieces of one sort up to a random number of bytes.
    fn long(&mut self) -> String {
        let goal = self.random.below(256);
        let sort = self.random.below(6);
        let one = self.scalar();
        let key = self.key(0, 22);
        let mut word = if self.chance(50) { self.parts() } else { String::new() };
        while word.len() < goal {
            match sort {
                0 => word.push(one),
                1 => word.push_str(key),
                2 => word.push_str(self.key(0, 1)),
                3 => word.push_str(self.key(0, 22)),
                4 => word.push(self.scalar()),
                _ => word.push_str(&self.parts()),
            }
        }
        word
    }

    /// A word of up to 255 bytes.
    pub fn word(&mut self) -> Vec<u8> {
        let mut word = match self.random.below(20) {
            0 | 1 | 2 | 3 => self.parts(),
            4 | 5 | 6 => (0..self.random.below(9)).map(|_| character(self.random.pick(&CLOSE))).collect(),
            7 | 8 | 9 => {
                let word = self.parts();
                self.marked(&word)
            }
            10 | 11 | 12 => {
                let word = self.parts();
                self.formed(&word)
            }
            13 | 14 | 15 => {
                let word = self.parts();
                let word = self.formed(&word);
                self.marked(&word)
            }
            16 => (0..self.random.below(7)).map(|_| self.scalar()).collect(),
            17 => {
                let (front, back) = (self.key(0, 10), self.key(10, 22));
                let middle: String = (0..self.random.below(5)).map(|_| self.scalar()).collect();
                format!("{}{}{}", front, middle, back)
            }
            _ => self.long(),
        };
        while word.len() > 255 {
            word.pop();
        }
        word.into_bytes()
    }

    /// A word with one to nine letters of FE70 to FE7F put in at any places. It may be over 255 bytes.
    pub fn marked_word(&mut self) -> String {
        let word = String::from_utf8(self.word()).expect("a random word is well formed");
        let mut letters: Vec<char> = word.chars().collect();
        for _ in 0..self.random.pick(&[1, 1, 1, 2, 2, 3, 5, 9]) {
            let at = self.random.below(letters.len() + 1);
            letters.insert(at, character(0xFE70 + self.random.below(16) as u32));
        }
        letters.into_iter().collect()
    }

    /// A word with one to three bytes or places damaged. It may still be well-formed, and it may be over 255 bytes.
    pub fn damaged(&mut self) -> Vec<u8> {
        const BAD: [&'static [u8]; 14] = [
            b"\xC0\x80", b"\xC1\xBF", b"\xE0\x80\x80", b"\xE0\x9F\xBF", b"\xED\xA0\x80", b"\xED\xBF\xBF", b"\xF0\x80\x80\x80", b"\xF0\x8F\xBF\xBF", b"\xF4\x90\x80\x80", b"\xF5\x80\x80\x80",
            b"\xFE", b"\xFF", b"\x80", b"\xD9",
        ];
        let mut word = self.word();
        for _ in 0..self.random.pick(&[1, 1, 1, 2, 3]) {
            let n = word.len();
            let at = self.random.below(n + 1);
            if at == n {
                let more = if self.chance(50) { self.random.pick(&BAD).to_vec() } else { self.word() };
                word.extend(more);
                continue;
            }
            match self.random.below(7) {
                0 => word[at] ^= 1 << self.random.below(8),
                1 => word[at] = self.random.below(256) as u8,
                2 => {
                    word.remove(at);
                }
                3 => word.truncate(at),
                4 => {
                    let byte = word[at];
                    word.insert(at, byte);
                }
                5 => word.insert(at, self.random.below(256) as u8),
                _ => {
                    let bad = self.random.pick(&BAD);
                    word.splice(at..at, bad.iter().cloned());
                }
            }
        }
        word
    }
}
