// The function that libFuzzer calls with each input: all entries of the library and of the Rust on the input as a word, as compare/run compares
// them. A difference ends the run with the smallest word that shows it. compare/fuzz builds it.
#![no_main]

#[path = "check.rs"]
mod check;
#[path = "interface.rs"]
mod interface;
#[path = "marks.rs"]
mod marks;
#[path = "source/mod.rs"]
mod snowball;

use check::Checker;
use interface::hex;

static mut CHECKER: Option<Checker> = None;

#[no_mangle]
#[allow(static_mut_refs)]
pub extern "C" fn LLVMFuzzerTestOneInput(data: *const u8, size: usize) -> i32 {
    let word = if size == 0 { &[] } else { unsafe { std::slice::from_raw_parts(data, size) } };
    let checker = unsafe { CHECKER.get_or_insert_with(Checker::new) };
    // The same input is always tried in the same way.
    checker.turn = word.iter().map(|b| *b as usize).sum();
    if let Some(difference) = checker.compare(word) {
        println!("a difference at the word {}", hex(word));
        let (least, difference) = checker.shrink(word, difference);
        println!("smallest word found: {}", hex(&least));
        println!("entry: {}, output: {:?}", difference.entry, difference.out_len);
        println!("the library: {}", difference.ours);
        println!("the Rust: {}", difference.rust);
        std::process::abort();
    }
    0
}
