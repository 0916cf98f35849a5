// run SEED SECONDS WORDS PARTS LIST: compares the library with the Rust; compare/run builds and starts it.
// SECONDS is the time limit of each part, WORDS the number of random words in each of the parts random and damaged, of which marked has twice as many and blocks and
// spellings have a tenth, PARTS the parts' names parted by commas, LIST a file of words or nothing.

#[path = "blocks.rs"]
mod blocks;
#[path = "check.rs"]
mod check;
#[path = "interface.rs"]
mod interface;
#[path = "marks.rs"]
mod marks;
#[path = "source/mod.rs"]
mod snowball;
#[path = "random.rs"]
mod random;
#[path = "words.rs"]
mod words;

use check::{Checker, Difference, Expected};
use interface::{hex, LONGEST};
use snowball::algorithms::arabic_test_copy;
use std::io::BufRead;
use std::time::{Duration, Instant};
use words::Words;

const CARRIERS: [&'static str; 3] = ["\u{643}\u{62A}\u{627}\u{628}", "\u{627}\u{644}\u{648}\u{62C}\u{647}\u{629}", "\u{641}\u{633}\u{64A}\u{62F}\u{631}\u{633}\u{648}\u{646}\u{647}\u{627}"];

/// The letters that stand beside FE70 to FE7F in the part marks: of rows in front and at the end, and 062F, which is in no row.
const MARKED: [u32; 11] = [0x623, 0x627, 0x628, 0x629, 0x62F, 0x643, 0x644, 0x646, 0x647, 0x648, 0x64A];

/// How often a word of the part spellings is spelt.
const SPELLINGS: usize = 6;

extern "C" {
    fn signal(number: i32, handler: extern "C" fn(i32)) -> usize;
    fn _exit(status: i32) -> !;
}

/// A fault inside the library, such as a byte read or written outside the slices: says on which word.
extern "C" fn fault(number: i32) {
    println!("signal {} at the word {}", number, hex(&check::at()));
    unsafe { _exit(1) }
}

struct Run {
    checker: Checker,
    compared: u64,
    in_part: u64,
    part: &'static str,
    start: Instant,
    limit: Duration,
    shown: Instant,
}

impl Run {
    fn begin(&mut self, part: &'static str) {
        self.part = part;
        self.in_part = 0;
        self.start = Instant::now();
    }

    fn end(&mut self, what: &str) {
        self.compared += self.in_part;
        println!("{}: {} compared, 0 different ({}; {} s)", self.part, self.in_part, what, self.start.elapsed().as_secs());
    }

    /// Compares a word. False when the part's time is over.
    fn take(&mut self, word: &[u8]) -> bool {
        if let Some(difference) = self.checker.compare(word) {
            self.stop(word, difference);
        }
        self.in_part += 1;
        if self.in_part % 4096 == 0 {
            if self.shown.elapsed() > Duration::from_secs(5) {
                self.shown = Instant::now();
                eprintln!("{}: {} words, {} s", self.part, self.in_part, self.start.elapsed().as_secs());
            }
            return self.start.elapsed() < self.limit;
        }
        true
    }

    fn stop(&mut self, word: &[u8], difference: Difference) -> ! {
        println!("{}: a difference at the word {}", self.part, hex(word));
        let (least, difference) = self.checker.shrink(word, difference);
        println!("smallest word found: {}", hex(&least));
        if let Ok(text) = std::str::from_utf8(&least) {
            println!("its letters: {}", text.chars().map(|c| format!("U+{:04X}", c as u32)).collect::<Vec<_>>().join(" "));
        }
        match difference.out_len {
            Some(n) => println!("entry: {} with an output of {} bytes", difference.entry, n),
            None => println!("entry: {}", difference.entry),
        }
        println!("the library: {}", difference.ours);
        println!("the Rust: {}", difference.rust);
        println!("{} compared, 1 different", self.compared + self.in_part + 1);
        std::process::exit(1)
    }
}

fn version(run: &mut Run) {
    run.begin("version");
    let mut out = [0u8; 400];
    let answer = unsafe { interface::arabic_stemmer_version(out.as_mut_ptr(), out.len()) };
    let text = out[..answer.count.min(400)].to_vec();
    let shown = String::from_utf8_lossy(&text).into_owned();
    if answer.code != 0 || !shown.starts_with("arabic_stemmer ") || !shown.ends_with(", as rust-stemmers 1.2.0") {
        println!("version: code {}, text {}", answer.code, shown);
        println!("1 compared, 1 different");
        std::process::exit(1);
    }
    for out_len in 0..401 {
        if let Some(d) = run.checker.version(out_len, &text) {
            println!("version with an output of {} bytes: {}; and with 400 bytes: {}", out_len, d.ours, d.rust);
            println!("{} compared, 1 different", out_len + 1);
            std::process::exit(1);
        }
        run.in_part += 1;
    }
    run.end(&format!("'{}', outputs of 0 to 400 bytes", shown));
}

/// All words of up to `longest` of the letters, the short ones first.
fn all_words(run: &mut Run, part: &'static str, letters: &[char], longest: u32) {
    run.begin(part);
    run.checker.all_lengths = false;
    let n = letters.len() as u64;
    let mut what = String::new();
    for length in 0..longest + 1 {
        let all = n.pow(length);
        let mut word = String::new();
        let mut done = 0;
        while done < all {
            word.clear();
            let mut rest = done;
            for _ in 0..length {
                word.push(letters[(rest % n) as usize]);
                rest /= n;
            }
            done += 1;
            if !run.take(word.as_bytes()) && done < all {
                break;
            }
        }
        if done < all {
            what = format!("all words of up to {} letters over {}, and {} of the {} words of {} letters", length - 1, n, done, all, length);
            break;
        }
        what = format!("all words of up to {} letters over {}", length, n);
    }
    run.end(&what);
}

/// Every Unicode scalar alone, and in front, in the middle and at the end of each carrier.
fn scalars(run: &mut Run) {
    run.begin("scalars");
    run.checker.all_lengths = false;
    let mut last = 0;
    'all: for n in 0..0x110000 {
        let c = match std::char::from_u32(n) {
            Some(c) => c,
            None => continue,
        };
        run.take(c.to_string().as_bytes());
        for carrier in &CARRIERS {
            for at in &[0, 4, carrier.len()] {
                let word = format!("{}{}{}", &carrier[..*at], c, &carrier[*at..]);
                if !run.take(word.as_bytes()) {
                    break 'all;
                }
            }
        }
        last = n;
    }
    run.end(&format!("every scalar up to {:X} alone and in {} places of {} words", last, 3, CARRIERS.len()));
}

/// All strings of up to 3 bytes, and of 4 bytes with one of the bytes that start a letter of four bytes in front.
fn bytes(run: &mut Run) {
    run.begin("bytes");
    run.checker.all_lengths = false;
    let mut what = "all strings of up to 3 bytes, and those of 4 bytes on the edges of the ranges";
    let edges = [0, 0x61, 0x7F, 0x80, 0x8F, 0x90, 0x9F, 0xA0, 0xBF, 0xC0, 0xC1, 0xC2, 0xD9, 0xDF, 0xE0, 0xE1, 0xEC, 0xED, 0xEE, 0xEF, 0xF0, 0xF1, 0xF3, 0xF4, 0xF5, 0xF8, 0xFE, 0xFF];
    'all: for length in 0..4 {
        for n in 0..1u32 << (8 * length) {
            let word = [(n >> 16) as u8, (n >> 8) as u8, n as u8];
            if !run.take(&word[3 - length..]) {
                what = "not all strings of up to 3 bytes";
                break 'all;
            }
        }
    }
    for a in &edges {
        for b in &edges {
            for c in &edges {
                for d in &edges {
                    run.take(&[*a, *b, *c, *d]);
                }
            }
        }
    }
    run.end(what);
}

/// Words of 240 to 270 bytes and of some more, of letters of one to four bytes, with every shift by letters of one byte; damaged too.
fn lengths(run: &mut Run) {
    run.begin("lengths");
    run.checker.all_lengths = true;
    for letter in &["a", "\u{647}", "\u{62F}", "\u{64B}", "\u{623}", "\u{FE8D}", "\u{FEFB}", "\u{FEF7}", "\u{FE73}", "\u{FE7F}", "\u{2028}", "\u{10FFFF}", "."] {
        for total in (240..271).chain(vec![300, 339, 340, 341, 511, 512, 513, 1000, 4095, 4096, 4097, 8000]) {
            for front in 0..5 {
                for article in &["", "\u{627}\u{644}", "\u{641}\u{628}\u{627}\u{644}"] {
                    let mut word = format!("{}{}", article, "b".repeat(front));
                    while word.len() + letter.len() <= total {
                        word.push_str(letter);
                    }
                    while word.len() < total {
                        word.push('c');
                    }
                    run.take(word.as_bytes());
                    for at in &[0, total / 2, total - 1] {
                        let mut bad = word.clone().into_bytes();
                        bad[*at] = 0xFF;
                        run.take(&bad);
                    }
                    let mut ended = word.into_bytes();
                    ended[total - 1] = 0xD9;
                    run.take(&ended);
                }
            }
        }
    }
    let growing = "\u{FEFB}".repeat(85);
    run.take(growing.as_bytes());
    run.end("words of 240 to 270 bytes and of up to 8000");
}

fn random(run: &mut Run, words: &mut Words, count: u64, damaged: bool) {
    run.begin(if damaged { "damaged" } else { "random" });
    run.checker.all_lengths = true;
    let mut refused = 0;
    for _ in 0..count {
        let word = if damaged { words.damaged() } else { words.word() };
        if damaged && (word.len() > LONGEST || std::str::from_utf8(&word).is_err()) {
            refused += 1;
        }
        if !run.take(&word) {
            break;
        }
    }
    let what = if damaged { format!("damaged copies of random words, {} of them refused", refused) } else { "random words of up to 255 bytes".to_string() };
    run.end(&what);
}

/// Random words with letters of FE70 to FE7F put in, of which all but two are floating marks. How many have such a mark, how many of these have over 255 bytes, and
/// how many the Rust would cut in another way if it were given the marks too, so that other letters are left beside them, is counted.
fn marked(run: &mut Run, words: &mut Words, count: u64) {
    run.begin("marked");
    run.checker.all_lengths = false;
    let (mut with, mut other, mut long) = (0u64, 0u64, 0u64);
    for _ in 0..count {
        let word = words.marked_word();
        if marks::unmarked(&word) != word {
            with += 1;
            long += (word.len() > LONGEST) as u64;
            if let Ok(Expected::Given { defined, ref texts, .. }) = check::expected(word.as_bytes()) {
                other += (texts[0] != marks::unmarked(&check::stem(&word)) || defined != arabic_test_copy::is_defined(&word)) as u64;
            }
        }
        if !run.take(word.as_bytes()) {
            break;
        }
    }
    run.end(&format!("random words with letters of FE70 to FE7F put in: {} with a floating mark, {} of these over 255 bytes, {} with another kind or other letters in the stem if the marks counted", with, long, other));
}

/// Random words cut in two at every byte, and their results handed in again; also words of ligatures, which grow past 255 bytes.
fn in_blocks(run: &mut Run, words: &mut Words, count: u64) {
    run.begin("blocks");
    let mut tried = 0;
    while tried < count && run.start.elapsed() < run.limit {
        let word = if tried < 86 { "\u{FEFB}".repeat(tried as usize).into_bytes() } else { words.word() };
        let text = std::str::from_utf8(&word).expect("a random word is well formed");
        match blocks::compare(text, tried as usize) {
            Ok(compared) => run.in_part += compared,
            Err(why) => {
                println!("blocks: a difference at the word {}: {}", hex(&word), why);
                println!("{} compared, 1 different", run.compared + run.in_part + 1);
                std::process::exit(1)
            }
        }
        tried += 1;
    }
    run.end(&format!("{} words cut at every byte, and their results handed in again", tried));
}

/// Random words in several spellings with one normalised form: those of one kind must have one stem and one number of endings. Pairs of two kinds, and how many of them have two stems,
/// are counted. A spelling that comes again makes no pair.
fn in_spellings(run: &mut Run, words: &mut Words, count: u64) {
    run.begin("spellings");
    run.checker.all_lengths = false;
    let (mut one_kind, mut two_kinds, mut two_stems) = (0u64, 0u64, 0u64);
    let mut tried = 0;
    while tried < count && run.start.elapsed() < run.limit {
        let word = String::from_utf8(words.word()).expect("a random word is well formed");
        let normalised = arabic_test_copy::normalised(&marks::unmarked(&word));
        let mut seen: Vec<(String, bool, u32, String)> = Vec::new();
        for turn in 0..SPELLINGS {
            let spelt = if turn == 0 { word.clone() } else { words.spelling(&normalised) };
            run.take(spelt.as_bytes());
            if seen.iter().any(|(other, _, _, _)| *other == spelt) {
                continue;
            }
            let (defined, endings, texts) = match check::expected(spelt.as_bytes()) {
                Ok(Expected::Given { defined, endings, texts }) => (defined, endings, texts),
                _ => continue,
            };
            let [stem, own, _] = texts;
            for (other, other_defined, other_endings, other_stem) in &seen {
                let same = *other_stem == stem;
                if own != normalised || (defined == *other_defined && !(same && endings == *other_endings)) {
                    println!("spellings: {} and {} have the stems {} and {}", hex(other.as_bytes()), hex(spelt.as_bytes()), hex(other_stem.as_bytes()), hex(stem.as_bytes()));
                    println!("spellings: and {} and {} endings", other_endings, endings);
                    println!("{} compared, 1 different", run.compared + run.in_part + 1);
                    std::process::exit(1)
                }
                one_kind += (defined == *other_defined) as u64;
                two_kinds += (defined != *other_defined) as u64;
                two_stems += !same as u64;
            }
            seen.push((spelt, defined, endings, stem));
        }
        tried += 1;
    }
    run.end(&format!("{} words in up to {} spellings: {} pairs of two spellings of one kind, with one stem; {} of two kinds, {} of them with two stems", tried, SPELLINGS, one_kind, two_kinds, two_stems));
}

fn list(run: &mut Run, path: &str) {
    run.begin("list");
    run.checker.all_lengths = true;
    let file = std::fs::File::open(path).unwrap_or_else(|error| {
        eprintln!("{} cannot be read: {}", path, error);
        std::process::exit(2)
    });
    let mut what = "all lines";
    for line in std::io::BufReader::new(file).split(b'\n') {
        let line = line.unwrap_or_else(|error| {
            eprintln!("{} cannot be read: {}", path, error);
            std::process::exit(2)
        });
        if line.len() <= 8000 && !run.take(&line) {
            what = "as many lines as the time allowed";
            break;
        }
    }
    run.end(what);
}

fn main() {
    let a: Vec<String> = std::env::args().collect();
    let number = |i: usize| a[i].parse::<u64>().expect("a number");
    let mut words = Words::new(number(1));
    let now = Instant::now();
    let mut run = Run { checker: Checker::new(), compared: 0, in_part: 0, part: "", start: now, limit: Duration::from_secs(number(2)), shown: now };
    for number in &[4, 7, 11] {
        unsafe { signal(*number, fault) };
    }
    std::panic::set_hook(Box::new(|_| {}));
    for part in a[4].split(',') {
        match part {
            "version" => version(&mut run),
            "letters" => all_words(&mut run, "letters", &words.table_letters, 6),
            "forms" => all_words(&mut run, "forms", &words.all_letters, 3),
            "scalars" => scalars(&mut run),
            "bytes" => bytes(&mut run),
            "lengths" => lengths(&mut run),
            "marks" => {
                let letters: Vec<char> = (0xFE70..0xFE80).chain(MARKED.iter().cloned()).map(words::character).collect();
                all_words(&mut run, "marks", &letters, 5)
            }
            "marked" => marked(&mut run, &mut words, 2 * number(3)),
            "random" => random(&mut run, &mut words, number(3), false),
            "damaged" => random(&mut run, &mut words, number(3), true),
            "blocks" => in_blocks(&mut run, &mut words, number(3) / 10),
            "spellings" => in_spellings(&mut run, &mut words, number(3) / 10),
            "list" => list(&mut run, &a[5]),
            _ => {
                eprintln!("no part '{}': the parts are version, lengths, bytes, random, damaged, marks, marked, blocks, spellings, list, scalars, forms and letters", part);
                std::process::exit(2)
            }
        }
    }
    println!("{} compared, 0 different", run.compared);
}
