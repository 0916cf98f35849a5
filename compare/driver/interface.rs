// The C interface of the library, and its bytes as they are shown.

#[repr(C)]
#[derive(Clone, Copy, PartialEq, Debug)]
pub struct Answer {
    pub code: u32,
    pub count: usize,
}

#[repr(C)]
#[derive(Clone, Copy, PartialEq, Debug)]
pub struct StemAnswer {
    pub code: u32,
    pub endings: u32,
    pub count: usize,
}

impl From<Answer> for StemAnswer {
    fn from(a: Answer) -> StemAnswer {
        StemAnswer { code: a.code, endings: 0, count: a.count }
    }
}

#[repr(C)]
#[derive(Clone, Copy, PartialEq, Debug)]
pub struct KindAnswer {
    pub code: u32,
    pub kind: u32,
}

#[repr(C)]
#[derive(Clone, Copy, PartialEq, Debug)]
pub struct PlacesAnswer {
    pub code: u32,
    pub endings: u32,
    pub count: usize,
    pub letters: usize,
}

/// The most bytes that a word may have.
pub const LONGEST: usize = 255;

pub fn hex(bytes: &[u8]) -> String {
    if bytes.is_empty() {
        return "(empty)".to_string();
    }
    bytes.iter().map(|b| format!("{:02X}", b)).collect::<Vec<_>>().join(" ")
}

pub type Entry = unsafe extern "C" fn(*const u8, usize, *mut u8, usize) -> Answer;

extern "C" {
    pub fn arabic_stemmer_stem(word: *const u8, word_len: usize, out: *mut u8, out_len: usize) -> StemAnswer;
    pub fn arabic_stemmer_stem_places(word: *const u8, word_len: usize, out: *mut u8, out_len: usize, places: *mut u16, places_len: usize) -> PlacesAnswer;
    pub fn arabic_stemmer_normalise(word: *const u8, word_len: usize, out: *mut u8, out_len: usize) -> Answer;
    pub fn arabic_stemmer_finish(word: *const u8, word_len: usize, out: *mut u8, out_len: usize) -> Answer;
    pub fn arabic_stemmer_story(word: *const u8, word_len: usize, out: *mut u8, out_len: usize) -> Answer;
    pub fn arabic_stemmer_kind(word: *const u8, word_len: usize) -> KindAnswer;
    pub fn arabic_stemmer_version(out: *mut u8, out_len: usize) -> Answer;
}
