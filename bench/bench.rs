// Measures the library, the Rust and, with the setting libstemmer, Snowball's C library on the same words; of the library also normalising alone.
//   bench sample FILE                      prints the words of a list that are taken as typical words
//   bench sets FILE                        the names of the word sets
//   bench count CONTENDER SET FILE         takes the set once through run_CONTENDER, or run_normalise; callgrind counts inside that function. Prints the number of words
//   bench table COUNTS ROUNDS FILE         times all sets and prints the table; COUNTS has lines of set, contender, words, instructions
// FILE is a word list, one word a line, or - for generated words.

#[path = "interface.rs"]
mod interface;
#[path = "source/mod.rs"]
mod snowball;

use interface::{arabic_stemmer_normalise, arabic_stemmer_stem};
use snowball::algorithms::{arabic, arabic_test_copy};
use snowball::SnowballEnv;
use std::collections::HashMap;
use std::hint::black_box;
use std::time::{Duration, Instant};

const TYPICAL: usize = 20000;
const NORMALISE: &str = "normalise";
const PASS: Duration = Duration::from_millis(25);
const SWEPT: usize = 64 << 20;

struct Set {
    name: String,
    words: Vec<String>,
}

/// The sum of the counts that the entry answers.
#[inline(always)]
fn through<F: Fn(&[u8], &mut [u8]) -> usize>(entry: F, words: &[String]) -> usize {
    let mut out = [0u8; 340];
    let mut sum = 0;
    for word in words {
        sum += entry(word.as_bytes(), &mut out);
    }
    sum
}

#[no_mangle]
#[inline(never)]
pub fn run_ours(words: &[String]) -> usize {
    through(|word, out| unsafe { arabic_stemmer_stem(word.as_ptr(), word.len(), out.as_mut_ptr(), out.len()) }.count, words)
}

#[no_mangle]
#[inline(never)]
pub fn run_normalise(words: &[String]) -> usize {
    through(|word, out| unsafe { arabic_stemmer_normalise(word.as_ptr(), word.len(), out.as_mut_ptr(), out.len()) }.count, words)
}

#[no_mangle]
#[inline(never)]
pub fn run_rust(words: &[String]) -> usize {
    let mut sum = 0;
    for word in words {
        let mut env = SnowballEnv::create(word);
        arabic::stem(&mut env);
        sum += black_box(env.get_current()).len();
    }
    sum
}

#[cfg(libstemmer)]
mod c {
    use std::os::raw::{c_char, c_int, c_void};
    extern "C" {
        pub fn sb_stemmer_new(algorithm: *const c_char, encoding: *const c_char) -> *mut c_void;
        pub fn sb_stemmer_stem(stemmer: *mut c_void, word: *const u8, size: c_int) -> *const u8;
        pub fn sb_stemmer_length(stemmer: *mut c_void) -> c_int;
    }
}

#[cfg(libstemmer)]
#[no_mangle]
#[inline(never)]
pub fn run_libstemmer(words: &[String], stemmer: usize) -> usize {
    let stemmer = stemmer as *mut _;
    let mut sum = 0;
    for word in words {
        sum += unsafe {
            black_box(c::sb_stemmer_stem(stemmer, word.as_ptr(), word.len() as _));
            c::sb_stemmer_length(stemmer) as usize
        };
    }
    sum
}

#[cfg(libstemmer)]
fn contenders() -> Vec<(&'static str, Box<dyn Fn(&[String]) -> usize>)> {
    let stemmer = unsafe { c::sb_stemmer_new(b"arabic\0".as_ptr() as *const _, b"UTF_8\0".as_ptr() as *const _) };
    if stemmer.is_null() {
        fail("libstemmer has no algorithm arabic for UTF_8");
    }
    let stemmer = stemmer as usize;
    vec![
        ("ours", Box::new(|words: &[String]| run_ours(words))),
        ("rust", Box::new(|words: &[String]| run_rust(words))),
        ("libstemmer", Box::new(move |words: &[String]| run_libstemmer(words, stemmer))),
    ]
}

#[cfg(not(libstemmer))]
fn contenders() -> Vec<(&'static str, Box<dyn Fn(&[String]) -> usize>)> {
    vec![
        ("ours", Box::new(|words: &[String]| run_ours(words))),
        ("rust", Box::new(|words: &[String]| run_rust(words))),
    ]
}

struct Random(u64);

impl Random {
    fn below(&mut self, n: usize) -> usize {
        self.0 ^= self.0 << 13;
        self.0 ^= self.0 >> 7;
        self.0 ^= self.0 << 17;
        ((self.0 >> 33) as usize) % n
    }

    fn pick<T: Copy>(&mut self, from: &[T]) -> T {
        from[self.below(from.len())]
    }
}

/// Words of 3 to 9 letters: rows of the tables of fronts, a root of 3 or 4 letters, rows of the tables of endings.
fn generated() -> Vec<String> {
    let keys = arabic_test_copy::keys();
    let letters: Vec<char> = (0x627..0x63B).chain(0x641..0x64B).filter_map(std::char::from_u32).filter(|c| *c != '\u{629}' && *c != '\u{649}').collect();
    let mut random = Random(0x2545F4914F6CDD1D);
    let mut words = Vec::new();
    while words.len() < TYPICAL {
        let mut word = String::new();
        if random.below(5) == 0 {
            word.push_str(random.pick(&keys[5]));
        }
        match random.below(10) {
            0 | 1 | 2 => word.push_str(random.pick(&keys[3])),
            3 => word.push_str(random.pick(&keys[7])),
            4 => word.push_str(random.pick(&keys[8])),
            _ => {}
        }
        for _ in 0..3 + random.below(4) / 3 {
            word.push(random.pick(&letters));
        }
        for _ in 0..random.pick(&[0, 0, 1, 1, 2]) {
            let table = 10 + random.below(12);
            word.push_str(random.pick(&keys[table]));
        }
        let n = word.chars().count();
        if n >= 3 && n <= 9 {
            words.push(word);
        }
    }
    words
}

fn fail(text: &str) -> ! {
    eprintln!("{}", text);
    std::process::exit(2)
}

/// The words of a list: those of 1 to 255 bytes in UTF-8, and of these evenly TYPICAL at the most.
fn listed(path: &str) -> Vec<String> {
    let text = std::fs::read(path).unwrap_or_else(|error| fail(&format!("{} cannot be read: {}", path, error)));
    let all: Vec<&[u8]> = text.split(|b| *b == b'\n').filter(|line| !line.is_empty()).collect();
    let good: Vec<&str> = all.iter().filter(|line| line.len() <= 255).filter_map(|line| std::str::from_utf8(line).ok()).collect();
    if good.is_empty() {
        fail(&format!("{} has no word", path));
    }
    if good.len() < all.len() {
        eprintln!("{} lines of {} are over 255 bytes or not UTF-8 and are left out", all.len() - good.len(), all.len());
    }
    let n = good.len().min(TYPICAL);
    (0..n).map(|i| good[i * good.len() / n].to_string()).collect()
}

fn sets(path: &str) -> Vec<Set> {
    let typical = if path == "-" { generated() } else { listed(path) };
    let mut sets = vec![Set { name: "typical".to_string(), words: typical }];
    for (name, letter, counts) in &[("U+0647", "\u{647}", [15, 31, 63, 127]), ("U+FEFB", "\u{FEFB}", [10, 20, 40, 85]), ("a", "a", [31, 63, 127, 255])] {
        for n in counts {
            sets.push(Set { name: format!("{}*{}", n, name), words: vec![letter.repeat(*n); 50] });
        }
    }
    sets
}

/// Writes through a large buffer, so that words, tables and code are out of the nearer caches.
fn sweep(buffer: &mut [u8], with: u8) {
    for i in (0..buffer.len()).step_by(64) {
        buffer[i] = buffer[i].wrapping_add(with);
    }
    black_box(buffer);
}

/// The least time of a word in nanoseconds for each contender, over rounds in which all take their turn.
fn time(set: &Set, rounds: usize, buffer: &mut [u8]) -> Vec<f64> {
    let contenders = contenders();
    let repeats: Vec<usize> = contenders
        .iter()
        .map(|(_, run)| {
            let start = Instant::now();
            black_box(run(black_box(&set.words)));
            (PASS.as_nanos() / start.elapsed().as_nanos().max(1)) as usize + 1
        })
        .collect();
    let mut best = vec![std::f64::MAX; contenders.len()];
    for round in 0..rounds {
        for i in 0..contenders.len() {
            let which = (i + round) % contenders.len();
            sweep(buffer, round as u8 + 1);
            let start = Instant::now();
            for _ in 0..repeats[which] {
                black_box((contenders[which].1)(black_box(&set.words)));
            }
            let each = start.elapsed().as_nanos() as f64 / (repeats[which] * set.words.len()) as f64;
            best[which] = best[which].min(each);
        }
    }
    best
}

fn table(counts: &str, rounds: usize, path: &str) {
    let names: Vec<&str> = contenders().iter().map(|c| c.0).collect();
    let mut instructions: HashMap<(String, String), f64> = HashMap::new();
    for line in std::fs::read_to_string(counts).unwrap_or_else(|e| fail(&e.to_string())).lines() {
        let f: Vec<&str> = line.split('\t').collect();
        let number = |i: usize| f[i].parse::<f64>().unwrap_or_else(|_| fail(&format!("no number in '{}'", line)));
        instructions.insert((f[0].to_string(), f[1].to_string()), number(3) / number(2));
    }
    println!("{:<12} {:>9} {}  {}", "", "bytes", join(&names, |n| format!("{:>12}", n)), join(&names, |n| format!("{:>12}", n)));
    println!(
        "{:<12} {:>9} {:>w$}  {:>w$}",
        "words",
        "a word",
        "instructions a word",
        "words a second",
        w = 13 * names.len() - 1
    );
    let mut buffer = vec![1u8; SWEPT];
    let mut last = String::new();
    let mut normalising: Vec<String> = Vec::new();
    for set in sets(path) {
        let ns = time(&set, rounds, &mut buffer);
        let bytes = set.words.iter().map(|w| w.len()).sum::<usize>() as f64 / set.words.len() as f64;
        let count_of = |name: &str| *instructions.get(&(set.name.clone(), name.to_string())).unwrap_or(&std::f64::NAN);
        let counted: Vec<f64> = names.iter().map(|n| count_of(n)).collect();
        normalising.push(format!("{} {:.0}", set.name, count_of(NORMALISE)));
        println!("{:<12} {:>9.1} {}  {}", set.name, bytes, join(&counted, |c| format!("{:>12.0}", c)), join(&ns, |t| format!("{:>12.0}", 1e9 / t)));
        if set.name == "typical" {
            last = ratios("typical", &counted, &ns);
        } else if set.words[0].len() > 250 {
            last = format!("{}; {}", last, ratios(&set.name, &counted, &ns));
        }
    }
    println!("normalising alone, ours, instructions a word: {}", normalising.join(", "));
    println!("ours/Rust{}: {}", if names.len() == 3 { " (ours/libstemmer)" } else { "" }, last);
}

fn join<T, F: Fn(&T) -> String>(of: &[T], show: F) -> String {
    of.iter().map(show).collect::<Vec<_>>().join(" ")
}

fn ratios(name: &str, counted: &[f64], ns: &[f64]) -> String {
    // Ours over each other contender's, those behind the Rust's in brackets.
    let over = |v: &[f64], less_is_more: bool| {
        let of = |i: usize| if less_is_more { v[i] / v[0] } else { v[0] / v[i] };
        (1..v.len()).map(|i| if i == 1 { format!("{:.2}", of(i)) } else { format!("({:.2})", of(i)) }).collect::<Vec<_>>().join(" ")
    };
    format!("{} instructions {}, words a second {}", name, over(counted, false), over(ns, true))
}

fn main() {
    let a: Vec<String> = std::env::args().collect();
    let a: Vec<&str> = a.iter().map(|s| s.as_str()).collect();
    match a[1..] {
        ["sample", file] => println!("{}", listed(file).join("\n")),
        ["sets", file] => sets(file).iter().for_each(|s| println!("{}", s.name)),
        ["count", contender, name, file] => {
            let set = sets(file).into_iter().find(|s| s.name == name).unwrap_or_else(|| fail("no such set"));
            let mut list = contenders();
            list.push((NORMALISE, Box::new(|words: &[String]| run_normalise(words))));
            let run = &list.iter().find(|c| c.0 == contender).unwrap_or_else(|| fail("no such contender")).1;
            black_box(run(black_box(&set.words)));
            println!("{}", set.words.len());
        }
        ["table", counts, rounds, file] => table(counts, rounds.parse().unwrap_or_else(|_| fail("no number of rounds")), file),
        _ => fail("usage: bench sample FILE | sets FILE | count CONTENDER SET FILE | table COUNTS ROUNDS FILE"),
    }
}
