// Answers of the Rust for words on standard input (lines.rs).
// Each answer is a line of five fields parted by tabs: stem, kind, normalised word, finished word, number of endings cut.
// The stem comes from the unchanged source, the others from a copy to which test_copy.rs is appended (compare/reference/copy).
// All but finishing is asked of the word without its floating marks (marks.rs).

mod lines;
mod marks;
#[path = "source/mod.rs"]
mod snowball;

use lines::{answer_each, hex};
use marks::unmarked;
use snowball::algorithms::{arabic, arabic_test_copy};
use snowball::SnowballEnv;

fn stem(word: &str) -> String {
    let mut env = SnowballEnv::create(word);
    arabic::stem(&mut env);
    env.get_current().into_owned()
}

fn main() {
    answer_each(|word| {
        let finished = arabic_test_copy::finished(word);
        let word = &unmarked(word);
        let kind = if arabic_test_copy::is_defined(word) { "DEFINED" } else { "OPEN" };
        format!("{}\t{}\t{}\t{}\t{}", hex(&stem(word)), kind, hex(&arabic_test_copy::normalised(word)), hex(&finished), arabic_test_copy::endings_cut(word))
    });
}
