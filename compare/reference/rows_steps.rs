
// Appended by compare/rows.py to a copy of arabic.rs, behind test_copy.rs and with the lists ENDINGS and FRONTS of its steps: the rows that the steps find.

use lines::hex;
use snowball::snowball_env::rows_found;

type Step = fn(&mut SnowballEnv, &mut Context) -> bool;

// Takes a step as its callers do: where it fails, the cursor goes back. Answers the row of each search, parted by commas, or `-` where none was made,
// the cursor before the step, 1 where it succeeded and 0 where it failed, and the letters that stood at the cursor; parted by spaces.
fn taken(step: Step, env: &mut SnowballEnv, context: &mut Context) -> String {
    let cursor = env.cursor;
    let letters = hex(&env.current[cursor..]);
    let succeeded = step(env, context);
    if !succeeded {
        env.cursor = cursor;
    }
    let rows: Vec<String> = rows_found().iter().map(|row| row.to_string()).collect();
    let searches = if rows.is_empty() { "-".to_string() } else { rows.join(",") };
    format!("{} {} {} {}", searches, cursor, succeeded as u8, letters)
}

// The answers of r_Checks1 and of each ending, each in a fresh environment, and of the fronts, one after the other in one; parted by tabs.
pub fn rows(word: &str) -> String {
    let mut answers = vec![taken(r_Checks1, &mut SnowballEnv::create(word), &mut fresh_context())];
    for step in ENDINGS.iter() {
        let mut env = SnowballEnv::create(word);
        env.limit_backward = env.cursor;
        env.cursor = env.limit;
        answers.push(taken(*step, &mut env, &mut fresh_context()));
    }
    let (mut env, mut context) = (SnowballEnv::create(word), fresh_context());
    for step in FRONTS.iter() {
        answers.push(taken(*step, &mut env, &mut context));
    }
    answers.join("\t")
}
