// The word as the Rust is given it: without its floating marks (request A5), one letter of FE70 to FE72, FE74 and FE76 to FE7F each.

pub fn floating(c: char) -> bool {
    match c as u32 {
        0xFE70...0xFE72 | 0xFE74 | 0xFE76...0xFE7F => true,
        _ => false,
    }
}

pub fn unmarked(word: &str) -> String {
    word.chars().filter(|c| !floating(*c)).collect()
}
