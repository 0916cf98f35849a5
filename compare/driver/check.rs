// Compares every entry of the library with the Rust on one word: code, count or kind, the number of endings, and every byte of the output.

use interface::*;
use marks::unmarked;
use snowball::algorithms::{arabic, arabic_test_copy};
use snowball::SnowballEnv;
use std::panic::catch_unwind;

const PAGE: usize = 4096;
const PAGES: usize = 4;
const BESIDE: usize = 48;
pub const ROOM: usize = 340;

extern "C" {
    fn mmap(at: *mut u8, len: usize, protection: i32, flags: i32, file: i32, offset: i64) -> *mut u8;
    fn mprotect(at: *mut u8, len: usize, protection: i32) -> i32;
}

static mut AT: (*const u8, usize) = (std::ptr::null(), 0);

/// The word that is being compared.
pub fn at() -> Vec<u8> {
    unsafe { std::slice::from_raw_parts(AT.0, AT.1).to_vec() }
}

/// Memory between two pages that can be neither read nor written.
struct Fenced {
    start: *mut u8,
}

impl Fenced {
    fn new() -> Fenced {
        unsafe {
            // PROT_NONE, MAP_PRIVATE | MAP_ANONYMOUS; then PROT_READ | PROT_WRITE for the pages inside
            let all = mmap(std::ptr::null_mut(), (PAGES + 2) * PAGE, 0, 0x22, -1, 0);
            assert!(all as isize != -1, "no memory");
            assert!(mprotect(all.add(PAGE), PAGES * PAGE, 3) == 0, "no memory");
            Fenced { start: all.add(PAGE) }
        }
    }

    /// A place of `len` bytes that touches the fence behind it, or the one in front of it.
    fn place(&self, len: usize, behind: bool) -> *mut u8 {
        assert!(len + BESIDE <= PAGES * PAGE);
        unsafe { self.start.add(if behind { PAGES * PAGE - len } else { 0 }) }
    }
}

/// What the Rust answers, given the word without its floating marks; finishing gets it as it is.
pub enum Expected {
    Refused(u32),
    Given { defined: bool, endings: u32, texts: [String; 3] },
}

pub fn stem(word: &str) -> String {
    let mut env = SnowballEnv::create(word);
    arabic::stem(&mut env);
    env.get_current().into_owned()
}

pub fn expected(word: &[u8]) -> Result<Expected, String> {
    if word.len() > LONGEST {
        return Ok(Expected::Refused(1));
    }
    let word = match std::str::from_utf8(word) {
        Ok(word) => word,
        Err(_) => return Ok(Expected::Refused(2)),
    };
    catch_unwind(|| {
        let finished = arabic_test_copy::finished(word);
        let word = &unmarked(word);
        Expected::Given {
            defined: arabic_test_copy::is_defined(word),
            endings: arabic_test_copy::endings_cut(word),
            texts: [stem(word), arabic_test_copy::normalised(word), finished],
        }
    })
    .map_err(|_| "the Rust panicked".to_string())
}

pub struct Difference {
    pub entry: &'static str,
    pub out_len: Option<usize>,
    pub ours: String,
    pub rust: String,
}

pub struct Checker {
    word: Fenced,
    out: Fenced,
    pattern: Vec<u8>,
    /// Chooses the pattern and the places; each call moves it on.
    pub turn: usize,
    /// Whether each word is tried with all lengths of the output; otherwise with the result's own length and one other, in turn.
    pub all_lengths: bool,
}

const NAMES: [&'static str; 3] = ["stem", "normalise", "finish"];

impl Checker {
    pub fn new() -> Checker {
        let mut pattern = Vec::new();
        let mut x: u64 = 0x9E3779B97F4A7C15;
        for _ in 0..2048 {
            x ^= x << 13;
            x ^= x >> 7;
            x ^= x << 17;
            pattern.push((x >> 32) as u8);
        }
        Checker { word: Fenced::new(), out: Fenced::new(), pattern: pattern, turn: 0, all_lengths: true }
    }

    /// One call with an output of the given length, which holds a pattern before. `result` is the Rust's text and its number of endings, or a refusal's code;
    /// an entry that gives no such number counts none.
    fn call<F: FnMut(*mut u8, usize) -> StemAnswer>(&mut self, name: &'static str, out_len: usize, result: Result<(&[u8], u32), u32>, mut entry: F) -> Option<Difference> {
        self.turn += 1;
        let behind = self.turn % 4 != 0;
        let old = &self.pattern[self.turn % 997..][..out_len + BESIDE];
        // The bytes beside the output belong to the comparison too: an entry must leave them alone.
        let place = self.out.place(out_len, behind);
        let from = if behind { place as usize - BESIDE } else { place as usize } as *mut u8;
        let now = unsafe {
            std::ptr::copy_nonoverlapping(old.as_ptr(), from, out_len + BESIDE);
            std::slice::from_raw_parts(from, out_len + BESIDE)
        };
        let answer = entry(place, out_len);
        let (want, text): (StemAnswer, &[u8]) = match result {
            Err(code) => (StemAnswer { code: code, endings: 0, count: 0 }, b""),
            Ok((text, _)) if text.len() > out_len => (StemAnswer { code: 3, endings: 0, count: 0 }, b""),
            Ok((text, endings)) => (StemAnswer { code: 0, endings: endings, count: text.len() }, text),
        };
        let at = if behind { BESIDE } else { 0 };
        if answer == want && now[..at] == old[..at] && now[at..at + text.len()] == *text && now[at + text.len()..] == old[at + text.len()..] {
            return None;
        }
        let mut good = old.to_vec();
        good[at..at + text.len()].copy_from_slice(text);
        let show = |a: StemAnswer, all: &[u8]| {
            let told = format!("code {}, count {}, endings {}, text {}", a.code, a.count, a.endings, hex(&all[at..at + a.count.min(out_len)]));
            match (0..all.len()).find(|i| now[*i] != good[*i]) {
                None => told,
                Some(i) => format!("{}, byte {} of the output is {:02X}", told, i as isize - at as isize, all[i]),
            }
        };
        Some(Difference { entry: name, out_len: Some(out_len), ours: show(answer, now), rust: show(want, &good) })
    }

    fn lengths(&self, result: Result<(&[u8], u32), u32>) -> Vec<usize> {
        let n = match result {
            Err(_) => (self.turn * 7) % 341,
            Ok((text, _)) => text.len(),
        };
        let mut all = vec![n, 0, n + 1, ROOM, 400];
        if n > 0 {
            all.push(n - 1);
        }
        if !self.all_lengths {
            let other = all[1 + self.turn / 3 % (all.len() - 1)];
            return vec![n, other];
        }
        all
    }

    /// The first difference on this word.
    pub fn compare(&mut self, word: &[u8]) -> Option<Difference> {
        let expected = match expected(word) {
            Ok(expected) => expected,
            Err(why) => return Some(Difference { entry: "stem, kind, normalise or finish", out_len: None, ours: "not asked".to_string(), rust: why }),
        };
        self.turn += 1;
        let place = self.word.place(word.len(), self.turn % 4 != 0);
        let given = unsafe {
            std::ptr::copy_nonoverlapping(word.as_ptr(), place, word.len());
            AT = (place, word.len());
            std::slice::from_raw_parts(place, word.len())
        };
        let (p, n) = (given.as_ptr(), given.len());
        let kind = unsafe { arabic_stemmer_kind(p, n) };
        let want = match expected {
            Expected::Refused(code) => KindAnswer { code: code, kind: 0 },
            Expected::Given { defined, .. } => KindAnswer { code: 0, kind: defined as u32 },
        };
        if kind != want {
            let show = |k: KindAnswer| format!("code {}, kind {}", k.code, k.kind);
            return Some(Difference { entry: "kind", out_len: None, ours: show(kind), rust: show(want) });
        }
        let entries: [&Fn(*mut u8, usize) -> StemAnswer; 3] = [
            &|out, len| unsafe { arabic_stemmer_stem(p, n, out, len) },
            &|out, len| unsafe { arabic_stemmer_normalise(p, n, out, len) }.into(),
            &|out, len| unsafe { arabic_stemmer_finish(p, n, out, len) }.into(),
        ];
        for i in 0..3 {
            let result = match expected {
                Expected::Refused(code) => Err(code),
                Expected::Given { endings, ref texts, .. } => Ok((texts[i].as_bytes(), if i == 0 { endings } else { 0 })),
            };
            for out_len in self.lengths(result) {
                let difference = self.call(NAMES[i], out_len, result, entries[i]);
                if difference.is_some() {
                    return difference;
                }
            }
        }
        if given != word {
            return Some(Difference { entry: "an entry", out_len: None, ours: format!("the word became {}", hex(given)), rust: "the word stays".to_string() });
        }
        None
    }

    /// The version's text with an output of the given length.
    pub fn version(&mut self, out_len: usize, text: &[u8]) -> Option<Difference> {
        self.call("version", out_len, Ok((text, 0)), |out, len| unsafe { arabic_stemmer_version(out, len) }.into())
    }

    /// A word on which the two still differ and from which no letter and no byte can be dropped, with the difference.
    pub fn shrink(&mut self, word: &[u8], difference: Difference) -> (Vec<u8>, Difference) {
        self.all_lengths = true;
        let (mut word, mut difference) = (word.to_vec(), difference);
        'again: loop {
            for part in parts(&word) {
                let mut shorter = word.clone();
                shorter.drain(part);
                if let Some(d) = self.compare(&shorter) {
                    word = shorter;
                    difference = d;
                    continue 'again;
                }
            }
            return (word, difference);
        }
    }
}

/// The parts to drop, large ones first: runs of letters where the word is UTF-8, then runs of bytes.
fn parts(word: &[u8]) -> Vec<std::ops::Range<usize>> {
    let mut edges: Vec<Vec<usize>> = Vec::new();
    if let Ok(text) = std::str::from_utf8(word) {
        edges.push(text.char_indices().map(|(i, _)| i).chain(Some(word.len())).collect());
    }
    edges.push((0..word.len() + 1).collect());
    let mut parts = Vec::new();
    for edges in edges {
        let n = edges.len() - 1;
        let mut size = n;
        while size > 0 {
            let mut i = 0;
            while i + size <= n {
                parts.push(edges[i]..edges[i + size]);
                i += if size > 8 { size } else { 1 };
            }
            size = if size > 8 { size / 2 } else { size - 1 };
        }
    }
    parts
}
