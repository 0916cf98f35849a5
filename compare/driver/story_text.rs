// The story of a word (request A3) as the Rust makes it: a line for each floating mark that is taken out before it, and for each change that its traced copy tells of.

use marks::{floating, unmarked};
use std::fmt::Write;
use traced::algorithms::arabic;
use traced::searches::SEARCHES;
use traced::trace::changes;
use traced::SnowballEnv;

const FLOATING: &'static str = "Floating mark";

/// The name of a step: its function's, with spaces for underscores. The two halves of r_Normalize_post are two steps, of which the last letter's searches backwards.
fn name(step: &str, backwards: bool) -> String {
    let half = match (step, backwards) {
        ("Normalize_post", true) => "_last",
        ("Normalize_post", false) => "_other",
        _ => "",
    };
    format!("{}{}", step, half).replace("_", " ")
}

/// A line without its number: the step's name and the row's letters.
fn deed(name: &str, row: &str) -> String {
    let letters: Vec<String> = row.chars().map(|c| format!("{:04X}", c as u32)).collect();
    format!("{} {}", name, letters.join("+"))
}

pub struct Story {
    pub text: String,
    /// What the traced copy leaves of the word.
    pub stem: String,
}

pub fn story(word: &str) -> Story {
    let mut text = String::new();
    let mut left = word.chars().count();
    for mark in word.chars().filter(|c| floating(*c)) {
        left -= 1;
        writeln!(text, "{} {}", deed(FLOATING, &mark.to_string()), left).expect("a line");
    }
    let unmarked = unmarked(word);
    let mut env = SnowballEnv::create(&unmarked);
    arabic::stem(&mut env);
    for change in changes() {
        writeln!(text, "{} {}", deed(&name(change.step, change.backwards), change.row), change.left).expect("a line");
    }
    Story { text: text, stem: env.get_current().into_owned() }
}

/// Every step with every row, as its line begins. `tables` are the rows of A_0 to A_21.
pub fn deeds(tables: &[Vec<&'static str>], marks: &[char]) -> Vec<String> {
    let marks = marks.iter().map(|mark| deed(FLOATING, &mark.to_string()));
    let rows = SEARCHES.iter().flat_map(|&(step, backwards, table)| tables[table].iter().map(move |row| deed(&name(step, backwards), row)));
    marks.chain(rows).collect()
}
