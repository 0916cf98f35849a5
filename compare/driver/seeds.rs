// seeds SEED COUNT FOLDER DICTIONARY: writes random words, good and damaged, as files into FOLDER, and the tables' keys as a dictionary of libFuzzer.

#[path = "source/mod.rs"]
mod snowball;
#[path = "random.rs"]
mod random;
#[path = "words.rs"]
mod words;

use std::fs;

fn main() {
    let a: Vec<String> = std::env::args().collect();
    let mut words = words::Words::new(a[1].parse().expect("a number"));
    for i in 0..a[2].parse::<usize>().expect("a number") {
        let word = if i % 4 == 0 { words.damaged() } else { words.word() };
        fs::write(format!("{}/seed{}", a[3], i), word).expect("a seed written");
    }
    let marks: Vec<String> = (0xFE70..0xFE80).map(|n| words::character(n).to_string()).collect();
    let mut keys = snowball::algorithms::arabic_test_copy::keys().concat();
    keys.extend(marks.iter().map(|mark| mark.as_str()));
    keys.sort();
    keys.dedup();
    let lines: Vec<String> = keys.iter().map(|k| format!("\"{}\"\n", k.bytes().map(|b| format!("\\x{:02X}", b)).collect::<String>())).collect();
    fs::write(&a[4], lines.concat()).expect("the dictionary written");
}
