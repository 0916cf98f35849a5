
// Appended to a copy of arabic.rs, whose steps are private: the kind after r_Checks1, r_Normalize_pre alone,
// r_Normalize_post with i_word_len set to the word's number of letters, the number of endings that stem cuts, and the keys of the tables.

use std::cell::Cell;

fn fresh_context() -> Context {
    Context { b_is_defined: false, b_is_verb: true, b_is_noun: true, i_word_len: 0 }
}

pub fn is_defined(word: &str) -> bool {
    let mut context = fresh_context();
    r_Checks1(&mut SnowballEnv::create(word), &mut context);
    context.b_is_defined
}

pub fn normalised(word: &str) -> String {
    let mut env = SnowballEnv::create(word);
    r_Normalize_pre(&mut env, &mut fresh_context());
    env.get_current().into_owned()
}

pub fn finished(word: &str) -> String {
    let mut context = fresh_context();
    context.i_word_len = word.chars().count();
    let mut env = SnowballEnv::create(word);
    r_Normalize_post(&mut env, &mut context);
    env.get_current().into_owned()
}

thread_local!(static ENDINGS_CUT: Cell<u32> = Cell::new(0));

// Stands in the suffix steps of the copy for `env.slice_del()` (reference/copy).
fn counted_slice_del(env: &mut SnowballEnv) -> bool {
    ENDINGS_CUT.with(|n| n.set(n.get() + 1));
    env.slice_del()
}

/// How often the suffix steps call slice_del, whether the alternative that called it fails later or not.
pub fn endings_cut(word: &str) -> u32 {
    ENDINGS_CUT.with(|n| n.set(0));
    stem(&mut SnowballEnv::create(word));
    ENDINGS_CUT.with(|n| n.get())
}

pub fn keys() -> Vec<Vec<&'static str>> {
    fn of(table: &'static [Among<Context>]) -> Vec<&'static str> {
        table.iter().map(|row| row.0).collect()
    }
    vec![
        of(A_0), of(A_1), of(A_2), of(A_3), of(A_4), of(A_5), of(A_6), of(A_7), of(A_8), of(A_9), of(A_10), of(A_11), of(A_12), of(A_13), of(A_14),
        of(A_15), of(A_16), of(A_17), of(A_18), of(A_19), of(A_20), of(A_21),
    ]
}
