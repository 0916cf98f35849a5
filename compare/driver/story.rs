// story SEED WORDS: compares the stories of words (request A3) with those of the Rust (story_text.rs); compare/story builds and starts it.
// WORDS is the number of random words, of which a tenth are damaged too.

#[path = "interface.rs"]
mod interface;
#[path = "marks.rs"]
mod marks;
#[path = "random.rs"]
mod random;
#[path = "source/mod.rs"]
mod snowball;
#[path = "story_text.rs"]
mod story_text;
#[path = "traced/mod.rs"]
mod traced;
#[path = "words.rs"]
mod words;

use interface::*;
use snowball::algorithms::{arabic, arabic_test_copy};
use snowball::SnowballEnv;
use std::collections::HashSet;
use std::time::{Duration, Instant};
use story_text::{deeds, story};
use words::{character, Words, FILLERS};

const ROOM: usize = 5937;
/// Bytes that are not lent stand in front of the lent ones and behind them.
const BESIDE: usize = 64;
const SHOWN: u64 = 10;

/// Beside FE70 to FE7F in the part marks: letters of rows in front and at the end, U+062F, which is in no row, an ASCII key, a vowel mark and a ligature.
const MARKED: [u32; 14] = [0x623, 0x627, 0x628, 0x629, 0x62F, 0x643, 0x644, 0x646, 0x647, 0x648, 0x64A, 0x21, 0x64E, 0xFEFB];

/// How the lines begin that no story has: those of the noun's Step1a (`main_equal` in crates/old_noun), and of a row of the verb's Step2a (`main_noon_alef` in crates/definition).
const NEVER: [&'static str; 2] = ["Suffix Noun Step1a ", "Suffix Verb Step2a 0646+0627"];

fn never(deed: &str) -> bool {
    NEVER.iter().any(|begin| deed.starts_with(begin))
}

/// A text as it would be written in a program.
fn quoted(bytes: &[u8]) -> String {
    let letters: Vec<u8> = bytes.iter().flat_map(|b| std::ascii::escape_default(*b)).collect();
    format!("\"{}\"", String::from_utf8_lossy(&letters))
}

fn stem(word: &str) -> String {
    let mut env = SnowballEnv::create(word);
    arabic::stem(&mut env);
    env.get_current().into_owned()
}

/// What the Rust says: a refusal's code, or the story.
enum Expected {
    Refused(u32),
    Given(String),
}

/// The traced copy must leave the stem of the unchanged Rust.
fn expected(word: &[u8]) -> Result<Expected, String> {
    if word.len() > LONGEST {
        return Ok(Expected::Refused(1));
    }
    let word = match std::str::from_utf8(word) {
        Ok(word) => word,
        Err(_) => return Ok(Expected::Refused(2)),
    };
    let (story, stem) = (story(word), stem(&marks::unmarked(word)));
    if story.stem != stem {
        return Err(format!("the traced copy leaves {} and the Rust {}", hex(story.stem.as_bytes()), hex(stem.as_bytes())));
    }
    Ok(Expected::Given(story.text))
}

/// The output, of which the library is lent the bytes from BESIDE on. No story has one of the bytes that stand there before a call.
struct Checker {
    before: Vec<u8>,
    output: Vec<u8>,
}

impl Checker {
    fn new() -> Checker {
        let before: Vec<u8> = (0..BESIDE + ROOM + BESIDE).map(|i| 0x80 | (i % 127) as u8).collect();
        Checker { output: before.clone(), before: before }
    }

    /// One call with so many bytes lent.
    fn call_differs(&mut self, word: &[u8], expected: &Expected, room: usize) -> Option<String> {
        let (code, text) = match *expected {
            Expected::Refused(code) => (code, ""),
            Expected::Given(ref text) if text.len() > room => (3, ""),
            Expected::Given(ref text) => (0, text.as_str()),
        };
        let answer = Answer { code: code, count: text.len() };
        self.output.copy_from_slice(&self.before);
        let is = unsafe { arabic_stemmer_story(word.as_ptr(), word.len(), self.output[BESIDE..].as_mut_ptr(), room) };
        let end = BESIDE + text.len();
        let same = |from: usize, to: usize| self.output[from..to] == self.before[from..to];
        if is == answer && self.output[BESIDE..end] == *text.as_bytes() && same(0, BESIDE) && same(end, self.output.len()) {
            return None;
        }
        let given = &self.output[BESIDE..BESIDE + is.count.min(ROOM)];
        let more = if same(0, BESIDE) && same(BESIDE + given.len(), self.output.len()) { "" } else { ", and changes more" };
        Some(format!("with {} bytes the library gives {:?} and {}{}; the Rust {:?} and {}", room, is, quoted(given), more, answer, quoted(text.as_bytes())))
    }

    /// The word with all the room, with just enough and with a byte too few; a refused one with all the room and with none.
    fn difference(&mut self, word: &[u8], expected: &Expected) -> Option<String> {
        let rooms = match *expected {
            Expected::Refused(_) => vec![ROOM, 0],
            Expected::Given(ref text) if text.is_empty() => vec![ROOM, 0],
            Expected::Given(ref text) => vec![ROOM, text.len(), text.len() - 1],
        };
        rooms.into_iter().filter_map(|room| self.call_differs(word, expected, room)).next()
    }

    fn compare(&mut self, word: &[u8]) -> Option<String> {
        match expected(word) {
            Err(why) => Some(why),
            Ok(expected) => self.difference(word, &expected),
        }
    }

    /// A word from which no letter can be dropped without the difference going too, and the difference.
    fn smaller(&mut self, word: &[u8]) -> Option<(Vec<u8>, String)> {
        let text = match std::str::from_utf8(word) {
            Ok(text) => text,
            Err(_) => return None,
        };
        for (at, c) in text.char_indices() {
            let fewer = [&word[..at], &word[at + c.len_utf8()..]].concat();
            if let Some(why) = self.compare(&fewer) {
                return Some(self.smaller(&fewer).unwrap_or((fewer, why)));
            }
        }
        None
    }
}

/// Counts of one part, or of all.
#[derive(Clone, Copy, Default)]
struct Counts {
    compared: u64,
    different: u64,
    refused: u64,
    lines: u64,
    longest: usize,
}

impl Counts {
    fn text(&self) -> String {
        format!("{} compared, {} different", self.compared, self.different)
    }

    fn add(&mut self, other: &Counts) {
        self.compared += other.compared;
        self.different += other.different;
        self.refused += other.refused;
        self.lines += other.lines;
        self.longest = self.longest.max(other.longest);
    }
}

struct Run {
    checker: Checker,
    part: &'static str,
    counts: Counts,
    all: Counts,
    /// The steps and rows of the stories' lines.
    seen: HashSet<String>,
    start: Instant,
    told: Instant,
}

impl Run {
    fn begin(&mut self, part: &'static str) {
        self.part = part;
        self.counts = Counts::default();
        self.start = Instant::now();
    }

    fn end(&mut self, what: &str) {
        let counts = self.counts;
        let told = format!("{} refused, {} lines, {} bytes in the longest story", counts.refused, counts.lines, counts.longest);
        println!("{}: {} ({}; {}; {} s)", self.part, counts.text(), what, told, self.start.elapsed().as_secs());
        self.all.add(&counts);
    }

    fn count(&mut self, expected: &Expected) {
        match *expected {
            Expected::Refused(_) => self.counts.refused += 1,
            Expected::Given(ref text) => {
                self.counts.longest = self.counts.longest.max(text.len());
                for line in text.lines() {
                    self.counts.lines += 1;
                    let deed = &line[..line.rfind(' ').expect("a number behind a space")];
                    if !self.seen.contains(deed) {
                        self.seen.insert(deed.to_string());
                    }
                }
            }
        }
    }

    fn take(&mut self, word: &[u8]) {
        let difference = match expected(word) {
            Err(why) => Some(why),
            Ok(expected) => {
                self.count(&expected);
                self.checker.difference(word, &expected)
            }
        };
        self.counts.compared += 1;
        if let Some(why) = difference {
            self.counts.different += 1;
            self.show(word, &why);
        }
        if self.counts.compared % 4096 == 0 && self.told.elapsed() > Duration::from_secs(5) {
            self.told = Instant::now();
            eprintln!("{}: {} words, {} s", self.part, self.counts.compared, self.start.elapsed().as_secs());
        }
    }

    /// Shows one of the first differences.
    fn show(&mut self, word: &[u8], why: &str) {
        if self.all.different + self.counts.different > SHOWN {
            return;
        }
        println!("{}: a difference at the word {}: {}", self.part, hex(word), why);
        if let Some((fewer, why)) = self.checker.smaller(word) {
            println!("smallest word found: {}: {}", hex(&fewer), why);
        }
    }

    /// Names the rows that have no line in any story, and those of NEVER that have one; answers how many they are.
    fn wrong_rows(&self) -> usize {
        let marks: Vec<char> = (0xFE70..0xFE80).map(character).filter(|c| marks::floating(*c)).collect();
        let deeds = deeds(&arabic_test_copy::keys(), &marks);
        let wrong: Vec<&String> = deeds.iter().filter(|deed| self.seen.contains(deed.as_str()) == never(deed)).collect();
        let seen = deeds.iter().filter(|deed| self.seen.contains(deed.as_str())).count();
        println!("lines: {}, with {} of {} rows; {} bytes in the longest story", self.all.lines, seen, deeds.len(), self.all.longest);
        for deed in &wrong {
            println!("{}: {}", if never(deed) { "a story has the line" } else { "no story has the line" }, deed);
        }
        wrong.len()
    }
}

/// All words of up to `longest` of the letters, the short ones first.
fn all_words(run: &mut Run, part: &'static str, letters: &[char], longest: u32) {
    run.begin(part);
    let n = letters.len();
    for length in 0..longest + 1 {
        for number in 0..n.pow(length) {
            let word: String = (0..length).map(|i| letters[number / n.pow(i) % n]).collect();
            run.take(word.as_bytes());
        }
    }
    run.end(&format!("all words of up to {} letters over {}", longest, n));
}

/// The rows of the tables from one number to another, each once, and none.
fn rows(from: usize, to: usize) -> Vec<&'static str> {
    let mut rows = arabic_test_copy::keys()[from..to].concat();
    rows.push("");
    rows.sort();
    rows.dedup();
    rows
}

/// 0 to 6 letters, of which the turn chooses the first.
fn middles(turn: usize) -> Vec<String> {
    (0..7).map(|n| (turn..turn + n).map(|i| character(FILLERS[i % FILLERS.len()])).collect()).collect()
}

/// The steps' rows in front one behind the other, 0 to 6 letters, and a row at the end.
fn fronts(run: &mut Run) {
    run.begin("fronts");
    let ends = rows(10, 22);
    let mut turn = 0;
    for first in rows(4, 5) {
        for second in rows(5, 6) {
            for third in rows(6, 9) {
                for fourth in rows(9, 10) {
                    for end in &ends {
                        turn += 1;
                        for middle in middles(turn) {
                            run.take([first, second, third, fourth, &middle, end].concat().as_bytes());
                        }
                    }
                }
            }
        }
    }
    run.end("rows in front one behind the other, 0 to 6 letters, and a row at the end");
}

/// Nothing or an article, 0 to 6 letters, and up to three rows at the end.
fn ends(run: &mut Run) {
    run.begin("ends");
    let ends = rows(10, 22);
    let mut turn = 0;
    for front in &["", "\u{627}\u{644}"] {
        for first in &ends {
            for second in &ends {
                for third in &ends {
                    turn += 1;
                    for middle in middles(turn) {
                        run.take([front, middle.as_str(), first, second, third].concat().as_bytes());
                    }
                }
            }
        }
    }
    run.end("nothing or an article in front, 0 to 6 letters, and up to three rows at the end");
}

/// Each row and each letter of FE70 to FE7F over and over up to 255 bytes: alone, behind a row in front and before a row at the end.
fn long(run: &mut Run) {
    run.begin("long");
    let marks: Vec<String> = (0xFE70..0xFE80).map(|n| character(n).to_string()).collect();
    for piece in rows(0, 22).into_iter().chain(marks.iter().map(|mark| mark.as_str())).filter(|piece| !piece.is_empty()) {
        for row in rows(1, 22) {
            let pieces = piece.repeat((LONGEST - row.len()) / piece.len());
            run.take([row, pieces.as_str()].concat().as_bytes());
            if !row.is_empty() {
                run.take([pieces.as_str(), row].concat().as_bytes());
            }
        }
    }
    run.end("a row or a letter of FE70 to FE7F repeated up to 255 bytes, alone, behind a row and before a row");
}

/// Random words, every second one with letters of FE70 to FE7F put in, by which it may get over 255 bytes.
fn random(run: &mut Run, words: &mut Words, count: u64) {
    run.begin("random");
    for i in 0..count {
        let word = if i % 2 == 0 { words.word() } else { words.marked_word().into_bytes() };
        run.take(&word);
    }
    run.end("random words");
}

/// Copies of random words with bytes flipped, dropped or put in; every tenth is over 255 bytes.
fn damaged(run: &mut Run, words: &mut Words, count: u64) {
    run.begin("damaged");
    for i in 0..count {
        let mut word = words.damaged();
        if i % 10 == 0 {
            word.resize(LONGEST + 1 + i as usize % 64, 0x61);
        }
        run.take(&word);
    }
    run.end("damaged copies of random words");
}

fn main() {
    let arguments: Vec<u64> = std::env::args().skip(1).map(|n| n.parse().expect("a number")).collect();
    let now = Instant::now();
    let mut run =
        Run { checker: Checker::new(), part: "", counts: Counts::default(), all: Counts::default(), seen: HashSet::new(), start: now, told: now };
    let mut words = Words::new(arguments[0]);
    let marks: Vec<char> = (0xFE70..0xFE80).map(character).collect();
    let all: Vec<char> = words.all_letters.iter().chain(&marks).cloned().collect();
    let marked: Vec<char> = marks.iter().cloned().chain(MARKED.iter().map(|n| character(*n))).collect();
    all_words(&mut run, "letters", &words.table_letters, 5);
    all_words(&mut run, "forms", &all, 3);
    all_words(&mut run, "marks", &marked, 4);
    fronts(&mut run);
    ends(&mut run);
    long(&mut run);
    random(&mut run, &mut words, arguments[1]);
    damaged(&mut run, &mut words, arguments[1] / 10);
    let wrong = run.wrong_rows();
    println!("{}", run.all.text());
    std::process::exit((run.all.different > 0 || wrong > 0) as i32)
}
