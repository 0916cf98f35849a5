//! Stems the words that it is given as arguments: a line for each, with the stem, the kind and the number of endings cut, or what refused the word.

use std::os::unix::ffi::OsStringExt;

#[repr(C)]
struct Answer {
    code: u32,
    count: usize,
}

#[repr(C)]
struct StemAnswer {
    code: u32,
    endings: u32,
    count: usize,
}

#[repr(C)]
struct KindAnswer {
    code: u32,
    kind: u32,
}

extern "C" {
    fn arabic_stemmer_stem(word: *const u8, word_length: usize, output: *mut u8, output_length: usize) -> StemAnswer;
    fn arabic_stemmer_kind(word: *const u8, word_length: usize) -> KindAnswer;
    fn arabic_stemmer_version(output: *mut u8, output_length: usize) -> Answer;
}

#[derive(Debug)]
enum Refused {
    TooLong,
    NotWellFormed,
    NoRoom,
}

/// The stem of the word, in front of the output, and the number of endings cut.
fn stem<'a>(word: &[u8], output: &'a mut [u8]) -> Result<(&'a str, u32), Refused> {
    let answer = unsafe { arabic_stemmer_stem(word.as_ptr(), word.len(), output.as_mut_ptr(), output.len()) };
    match answer.code {
        0 => Ok((std::str::from_utf8(&output[..answer.count]).expect("a stem is well-formed UTF-8"), answer.endings)),
        1 => Err(Refused::TooLong),
        2 => Err(Refused::NotWellFormed),
        _ => Err(Refused::NoRoom),
    }
}

fn is_defined(word: &[u8]) -> bool {
    let answer = unsafe { arabic_stemmer_kind(word.as_ptr(), word.len()) };
    answer.code == 0 && answer.kind == 1
}

fn main() {
    let mut output = [0u8; 340];
    let version = unsafe { arabic_stemmer_version(output.as_mut_ptr(), output.len()) };
    println!("{}", String::from_utf8_lossy(&output[..version.count]));
    for word in std::env::args_os().skip(1) {
        let word = word.into_vec();
        match stem(&word, &mut output) {
            Ok((stem, endings)) => println!("{} ({}, endings cut: {})", stem, if is_defined(&word) { "defined" } else { "open" }, endings),
            Err(Refused::TooLong) => println!("refused: more than 255 bytes"),
            Err(Refused::NotWellFormed) => println!("refused: not well-formed UTF-8"),
            Err(Refused::NoRoom) => println!("refused: no room for the result"),
        }
    }
}
