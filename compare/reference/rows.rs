// The rows that the steps of the Rust find in words on standard input (lines.rs), by a copy whose searches record them (compare/rows.py).

mod lines;
#[path = "source/mod.rs"]
mod snowball;

fn main() {
    lines::answer_each(snowball::algorithms::arabic_test_copy::rows);
}
