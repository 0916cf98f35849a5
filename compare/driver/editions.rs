// editions SEED WORDS LIST: compares the unchanged Rust with other editions of the algorithm; compare/editions builds and starts it.
// WORDS is the number of random words, LIST a file of words or nothing.
// editions show LETTERS: the stems of one word, given by its code points.

#[path = "random.rs"]
mod random;
#[path = "source/mod.rs"]
mod snowball;
#[path = "words.rs"]
mod words;

use snowball::algorithms::arabic;
use snowball::SnowballEnv;
use std::io::BufRead;
use std::os::raw::{c_char, c_int, c_void};
use words::Words;

extern "C" {
    fn sb_stemmer_new(algorithm: *const c_char, encoding: *const c_char) -> *mut c_void;
    fn sb_stemmer_stem(stemmer: *mut c_void, word: *const u8, size: c_int) -> *const u8;
    fn sb_stemmer_length(stemmer: *mut c_void) -> c_int;
}

#[cfg(xapian)]
extern "C" {
    fn xapian_stem(word: *const u8, length: usize, out: *mut u8, room: usize) -> usize;
}

const ROOM: usize = 4096;

fn fail(text: &str) -> ! {
    eprintln!("{}", text);
    std::process::exit(2)
}

fn rust(word: &str) -> String {
    let mut env = SnowballEnv::create(word);
    arabic::stem(&mut env);
    env.get_current().into_owned()
}

fn hex(word: &[u8]) -> String {
    match std::str::from_utf8(word) {
        Ok(text) => text.chars().map(|c| format!("{:04X}", c as u32)).collect::<Vec<_>>().join(" "),
        Err(_) => format!("the bytes {:02X?}", word),
    }
}

/// The other editions, by their names.
struct Editions {
    stemmer: *mut c_void,
}

#[cfg(xapian)]
const NAMES: &'static [&'static str] = &["libstemmer", "Xapian"];
#[cfg(not(xapian))]
const NAMES: &'static [&'static str] = &["libstemmer"];

impl Editions {
    fn new() -> Editions {
        let stemmer = unsafe { sb_stemmer_new(b"arabic\0".as_ptr() as *const _, b"UTF_8\0".as_ptr() as *const _) };
        if stemmer.is_null() {
            fail("libstemmer has no algorithm arabic for UTF_8");
        }
        Editions { stemmer: stemmer }
    }

    fn libstemmer(&self, word: &str) -> Vec<u8> {
        unsafe {
            let stem = sb_stemmer_stem(self.stemmer, word.as_ptr(), word.len() as c_int);
            std::slice::from_raw_parts(stem, sb_stemmer_length(self.stemmer) as usize).to_vec()
        }
    }

    #[cfg(xapian)]
    fn xapian(&self, word: &str) -> Vec<u8> {
        let mut out = vec![0u8; ROOM];
        let n = unsafe { xapian_stem(word.as_ptr(), word.len(), out.as_mut_ptr(), ROOM) };
        if n > ROOM {
            fail("a stem of Xapian that does not fit");
        }
        out.truncate(n);
        out
    }

    #[cfg(not(xapian))]
    fn xapian(&self, _: &str) -> Vec<u8> {
        fail("built without Xapian")
    }

    fn stem(&self, edition: usize, word: &str) -> Vec<u8> {
        if edition == 0 { self.libstemmer(word) } else { self.xapian(word) }
    }
}

/// What one edition gave.
#[derive(Default, Clone)]
struct Found {
    /// The characters that alone have another stem than in the Rust.
    signs: Vec<char>,
    in_part: [u64; 2],
    compared: u64,
    different: u64,
    /// Differing words with none of these characters.
    unexplained: u64,
}

struct Run {
    editions: Editions,
    /// Whether the words are characters alone, whose differences are kept as signs.
    alone: bool,
    found: Vec<Found>,
}

impl Run {
    fn take(&mut self, word: &str) {
        let stem = rust(word);
        for edition in 0..NAMES.len() {
            let other = self.editions.stem(edition, word);
            let found = &mut self.found[edition];
            found.in_part[0] += 1;
            if other == stem.as_bytes() {
                continue;
            }
            found.in_part[1] += 1;
            if self.alone {
                found.signs.extend(word.chars());
            } else if !word.chars().any(|c| found.signs.contains(&c)) {
                found.unexplained += 1;
                if found.unexplained <= 20 {
                    println!("{}: {} has the stem {} in the Rust, and {}", NAMES[edition], hex(word.as_bytes()), hex(stem.as_bytes()), hex(&other));
                }
            }
        }
    }

    fn end(&mut self, part: &str, what: &str) {
        for (edition, found) in self.found.iter_mut().enumerate() {
            found.compared += found.in_part[0];
            found.different += found.in_part[1];
            println!("{}, {}: {} compared, {} different ({})", NAMES[edition], part, found.in_part[0], found.in_part[1], what);
            found.in_part = [0, 0];
        }
    }

    /// All words of up to `longest` of the letters.
    fn all_words(&mut self, part: &str, letters: &[char], longest: u32) {
        let n = letters.len() as u64;
        for length in 0..longest + 1 {
            for number in 0..n.pow(length) {
                let mut rest = number;
                let mut word = String::new();
                for _ in 0..length {
                    word.push(letters[(rest % n) as usize]);
                    rest /= n;
                }
                self.take(&word);
            }
        }
        self.end(part, &format!("all words of up to {} letters over {}", longest, n));
    }
}

fn show(letters: &str) {
    let word: String = letters
        .split_whitespace()
        .map(|h| u32::from_str_radix(h, 16).ok().and_then(std::char::from_u32).unwrap_or_else(|| fail(&format!("no code point: {}", h))))
        .collect();
    println!("the Rust: {}", hex(rust(&word).as_bytes()));
    let editions = Editions::new();
    for (edition, name) in NAMES.iter().enumerate() {
        println!("{}: {}", name, hex(&editions.stem(edition, &word)));
    }
}

fn main() {
    let a: Vec<String> = std::env::args().collect();
    if a[1] == "show" {
        return show(&a[2]);
    }
    let number = |i: usize| a[i].parse::<u64>().expect("a number");
    let mut words = Words::new(number(1));
    let mut run = Run { editions: Editions::new(), alone: true, found: vec![Found::default(); NAMES.len()] };
    for c in (0..0x110000).filter_map(std::char::from_u32) {
        run.take(&c.to_string());
    }
    run.end("characters", "every Unicode scalar alone");
    run.alone = false;
    for (edition, found) in run.found.iter().enumerate() {
        println!("{}: {} characters have another stem: {}", NAMES[edition], found.signs.len(), hex(found.signs.iter().cloned().collect::<String>().as_bytes()));
    }
    let letters: Vec<char> = words.table_letters.iter().cloned().chain(Some('\u{FEFB}')).collect();
    run.all_words("letters", &letters, 5);
    let signs: Vec<char> = words.table_letters.iter().cloned().chain(run.found[0].signs.clone()).collect();
    run.all_words("signs", &signs, 4);
    for _ in 0..number(2) {
        let word = words.word();
        run.take(std::str::from_utf8(&word).expect("a word"));
    }
    run.end("random", "random words of up to 255 bytes");
    if !a[3].is_empty() {
        let file = std::fs::File::open(&a[3]).unwrap_or_else(|error| fail(&format!("{} cannot be read: {}", a[3], error)));
        for line in std::io::BufReader::new(file).lines() {
            run.take(&line.unwrap_or_else(|error| fail(&format!("{} cannot be read: {}", a[3], error))));
        }
        run.end("list", "all lines");
    }
    let mut bad = 0;
    for (edition, found) in run.found.iter().enumerate() {
        let why = match (found.different, found.unexplained) {
            (0, _) => String::new(),
            (_, 0) => format!(", each with one of the {} characters", found.signs.len()),
            (_, n) => format!(", {} of them with none of the {} characters", n, found.signs.len()),
        };
        println!("{}: {} compared, {} different{}", NAMES[edition], found.compared, found.different, why);
        bad += found.unexplained;
    }
    std::process::exit(if bad > 0 { 1 } else { 0 })
}
