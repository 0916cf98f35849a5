// places SEED WORDS: compares the stems and the places of their letters with a model (places_model.rs); compare/places builds and starts it.
// WORDS is the number of random words, of which a tenth are damaged too.

#[path = "interface.rs"]
mod interface;
#[path = "marks.rs"]
mod marks;
#[path = "places_model.rs"]
mod places_model;
#[path = "random.rs"]
mod random;
#[path = "source/mod.rs"]
mod snowball;
#[path = "words.rs"]
mod words;

use interface::*;
use places_model::*;
use std::time::{Duration, Instant};
use words::{character, Words, FILLERS};

const ROOM: usize = 340;
/// Bytes and numbers that are not lent stand behind the lent ones.
const BEHIND: usize = 32;
const SHOWN: u64 = 10;

/// Beside the tables' letters and U+062F in the part short: letters of one, three and four bytes, a ligature, a vowel mark and a floating one.
const BESIDE: [u32; 6] = [0x61, 0x2028, 0x1F453, 0xFEFB, 0x64E, 0xFE76];

/// What the model expects: a refusal's code, or the stem with its number of endings and its places.
enum Expected {
    Refused(u32),
    Given { stem: Vec<u8>, endings: u32, places: Vec<u16> },
}

/// What of a word differs.
#[derive(PartialEq)]
enum Which {
    Stem,
    Places,
}

/// Output and numbers that the library is lent the front of. No byte of UTF-8 and no place is one of those that stand there before a call.
struct Lent {
    output: [u8; ROOM + BEHIND],
    places: [u16; LONGEST + BEHIND],
}

impl Lent {
    fn new() -> Lent {
        let mut lent = Lent { output: [0; ROOM + BEHIND], places: [0; LONGEST + BEHIND] };
        for (i, byte) in lent.output.iter_mut().enumerate() {
            *byte = 0xF8 | i as u8;
        }
        for (i, number) in lent.places.iter_mut().enumerate() {
            *number = 0x8000 | i as u16;
        }
        lent
    }

    fn with(stem: &[u8], places: &[u16]) -> Lent {
        let mut lent = Lent::new();
        lent.output[..stem.len()].copy_from_slice(stem);
        lent.places[..places.len()].copy_from_slice(places);
        lent
    }

    fn is(&self, other: &Lent) -> bool {
        self.output[..] == other.output[..] && self.places[..] == other.places[..]
    }
}

struct Checker {
    model: Model,
}

impl Checker {
    fn expected(&self, word: &[u8]) -> Expected {
        if word.len() > LONGEST {
            return Expected::Refused(1);
        }
        match std::str::from_utf8(word) {
            Err(_) => Expected::Refused(2),
            Ok(word) => {
                let text = self.model.stem(word);
                let stem: String = text.letters.iter().map(|letter| character(letter.code)).collect();
                Expected::Given { stem: stem.into_bytes(), endings: text.endings, places: text.letters.iter().map(|letter| letter.place).collect() }
            }
        }
    }

    /// The stem of the other entry: the model must have the same.
    fn stem_differs(&self, word: &[u8], expected: &Expected) -> Option<String> {
        let (answer, stem): (_, &[u8]) = match *expected {
            Expected::Refused(code) => (StemAnswer { code: code, endings: 0, count: 0 }, b""),
            Expected::Given { ref stem, endings, .. } => (StemAnswer { code: 0, endings: endings, count: stem.len() }, stem),
        };
        let mut lent = Lent::new();
        let is = unsafe { arabic_stemmer_stem(word.as_ptr(), word.len(), lent.output.as_mut_ptr(), ROOM) };
        if is == answer && lent.is(&Lent::with(stem, &[])) {
            return None;
        }
        Some(format!("arabic_stemmer_stem gives {:?} and {}; the model {:?} and {}", is, hex(&lent.output[..is.count.min(ROOM)]), answer, hex(stem)))
    }

    /// One call with so much lent.
    fn call_differs(&self, word: &[u8], expected: &Expected, room: usize, numbers: usize) -> Option<String> {
        let refused = |code| (PlacesAnswer { code: code, endings: 0, count: 0, letters: 0 }, Lent::new());
        let (answer, after) = match *expected {
            Expected::Refused(code) => refused(code),
            Expected::Given { ref stem, ref places, .. } if stem.len() > room || places.len() > numbers => refused(3),
            Expected::Given { ref stem, endings, ref places } => {
                (PlacesAnswer { code: 0, endings: endings, count: stem.len(), letters: places.len() }, Lent::with(stem, places))
            }
        };
        let mut lent = Lent::new();
        let is = unsafe { arabic_stemmer_stem_places(word.as_ptr(), word.len(), lent.output.as_mut_ptr(), room, lent.places.as_mut_ptr(), numbers) };
        if is == answer && lent.is(&after) {
            return None;
        }
        let shown = |answer: &PlacesAnswer, lent: &Lent| {
            let (count, letters) = (answer.count.min(ROOM), answer.letters.min(LONGEST));
            let same = lent.is(&Lent::with(&lent.output[..count], &lent.places[..letters]));
            format!("{:?}, {} and {:?}{}", answer, hex(&lent.output[..count]), &lent.places[..letters], if same { "" } else { ", and changes more" })
        };
        Some(format!("with {} bytes and {} numbers the library gives {}; the model {}", room, numbers, shown(&is, &lent), shown(&answer, &after)))
    }

    /// The word with all the room, with just enough, with a byte too few and with a number too few.
    fn places_differ(&self, word: &[u8], expected: &Expected) -> Option<String> {
        let mut lent = vec![(ROOM, LONGEST)];
        if let Expected::Given { ref stem, ref places, .. } = *expected {
            lent.push((stem.len(), places.len()));
            if !places.is_empty() {
                lent.push((stem.len() - 1, LONGEST));
                lent.push((ROOM, places.len() - 1));
            }
        } else {
            lent.push((0, 0));
        }
        lent.into_iter().filter_map(|(room, numbers)| self.call_differs(word, expected, room, numbers)).next()
    }

    fn differences(&self, word: &[u8]) -> Vec<(Which, String)> {
        let expected = self.expected(word);
        let stem = self.stem_differs(word, &expected).map(|why| (Which::Stem, why));
        let places = self.places_differ(word, &expected).map(|why| (Which::Places, why));
        stem.into_iter().chain(places).collect()
    }

    /// A word from which no letter can be dropped without the same sort of difference going too, and the difference.
    fn smaller(&self, word: &[u8], which: &Which) -> Option<(Vec<u8>, String)> {
        let text = match std::str::from_utf8(word) {
            Ok(text) => text,
            Err(_) => return None,
        };
        for (at, c) in text.char_indices() {
            let fewer = [&word[..at], &word[at + c.len_utf8()..]].concat();
            if let Some((_, why)) = self.differences(&fewer).into_iter().find(|difference| difference.0 == *which) {
                return Some(self.smaller(&fewer, which).unwrap_or((fewer, why)));
            }
        }
        None
    }
}

/// Counts of one part, or of all.
#[derive(Clone, Copy, Default)]
struct Counts {
    compared: u64,
    different: u64,
    stems: u64,
    places: u64,
}

impl Counts {
    fn text(&self) -> String {
        format!("{} compared, {} different: {} stems, {} places", self.compared, self.different, self.stems, self.places)
    }
}

struct Run {
    checker: Checker,
    part: &'static str,
    counts: Counts,
    all: Counts,
    start: Instant,
    told: Instant,
}

impl Run {
    fn begin(&mut self, part: &'static str) {
        self.part = part;
        self.counts = Counts::default();
        self.start = Instant::now();
    }

    fn end(&mut self, what: &str) {
        println!("{}: {} ({}; {} s)", self.part, self.counts.text(), what, self.start.elapsed().as_secs());
        self.all.compared += self.counts.compared;
        self.all.different += self.counts.different;
        self.all.stems += self.counts.stems;
        self.all.places += self.counts.places;
    }

    fn take(&mut self, word: &[u8]) {
        let differences = self.checker.differences(word);
        self.counts.compared += 1;
        if !differences.is_empty() {
            self.counts.different += 1;
            for (which, why) in differences {
                self.show(word, &which, &why);
                match which {
                    Which::Stem => self.counts.stems += 1,
                    Which::Places => self.counts.places += 1,
                }
            }
        }
        if self.counts.compared % 4096 == 0 && self.told.elapsed() > Duration::from_secs(5) {
            self.told = Instant::now();
            eprintln!("{}: {} words, {} s", self.part, self.counts.compared, self.start.elapsed().as_secs());
        }
    }

    /// Shows one of the first differences.
    fn show(&self, word: &[u8], which: &Which, why: &str) {
        if self.all.different + self.counts.different > SHOWN {
            return;
        }
        println!("{}: a difference at the word {}: {}", self.part, hex(word), why);
        if let Some((fewer, why)) = self.checker.smaller(word, which) {
            println!("smallest word found: {}: {}", hex(&fewer), why);
        }
    }
}

/// All words of up to `longest` letters, the short ones first.
fn short(run: &mut Run, longest: u32) {
    run.begin("short");
    let letters: Vec<char> = TABLE_LETTERS.iter().chain(BESIDE.iter()).map(|c| character(*c)).collect();
    let n = letters.len();
    for length in 0..longest + 1 {
        for number in 0..n.pow(length) {
            let word: String = (0..length).map(|i| letters[number / n.pow(i) % n]).collect();
            run.take(word.as_bytes());
        }
    }
    run.end(&format!("all words of up to {} letters over {}", longest, n));
}

/// The rows of the steps, and none.
fn rows(steps: &[&Step]) -> Vec<String> {
    let rows = steps.iter().flat_map(|step| step.rows.iter()).map(|row| row.letters.iter().map(|c| character(*c)).collect());
    std::iter::once(String::new()).chain(rows).collect()
}

/// The steps' rows in front one behind the other, 0 to 6 letters, and a row at the end.
fn listed(run: &mut Run) {
    run.begin("rows");
    let (firsts, seconds) = (rows(&[&PREFIX_STEP1]), rows(&[&PREFIX_STEP2]));
    let thirds = rows(&[&PREFIX_STEP3A_NOUN, &PREFIX_STEP3B_NOUN, &PREFIX_STEP3_VERB]);
    let (fourths, ends) = (rows(&[&PREFIX_STEP4_VERB]), rows(&STEPS[7..]));
    let mut turn = 0;
    for first in &firsts {
        for second in &seconds {
            for third in &thirds {
                for fourth in &fourths {
                    for end in &ends {
                        for n in 0..7 {
                            turn += 1;
                            let middle: String = (turn..turn + n).map(|i| character(FILLERS[i % FILLERS.len()])).collect();
                            run.take([first.as_str(), second, third, fourth, &middle, end].concat().as_bytes());
                        }
                    }
                }
            }
        }
    }
    run.end("rows in front one behind the other, 0 to 6 letters, and a row at the end");
}

/// Random words, every second one with letters of FE70 to FE7F put in.
fn random(run: &mut Run, words: &mut Words, count: u64) {
    run.begin("random");
    for i in 0..count {
        if i % 2 == 0 {
            run.take(&words.word());
            continue;
        }
        let mut word = words.marked_word();
        while word.len() > LONGEST {
            word.pop();
        }
        run.take(word.as_bytes());
    }
    run.end("random words of up to 255 bytes");
}

/// Copies of random words with bytes flipped, dropped or put in; every tenth is over 255 bytes.
fn damaged(run: &mut Run, words: &mut Words, count: u64) {
    run.begin("damaged");
    let mut refused = 0;
    for i in 0..count {
        let mut word = words.damaged();
        if i % 10 == 0 {
            word.resize(LONGEST + 1 + i as usize % 64, 0x61);
        }
        refused += (word.len() > LONGEST || std::str::from_utf8(&word).is_err()) as u64;
        run.take(&word);
    }
    run.end(&format!("damaged copies of random words, {} of them refused", refused));
}

fn main() {
    let arguments: Vec<u64> = std::env::args().skip(1).map(|n| n.parse().expect("a number")).collect();
    let now = Instant::now();
    let mut run = Run { checker: Checker { model: Model::new() }, part: "", counts: Counts::default(), all: Counts::default(), start: now, told: now };
    let mut words = Words::new(arguments[0]);
    short(&mut run, 4);
    listed(&mut run);
    random(&mut run, &mut words, arguments[1]);
    damaged(&mut run, &mut words, arguments[1] / 10);
    println!("{}", run.all.text());
    std::process::exit((run.all.different > 0) as i32)
}
