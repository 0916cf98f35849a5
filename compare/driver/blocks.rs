// The laws for index builders on one word: cut in two at every byte, and its results handed in again. The Rust says what must come out.

use check::ROOM;
use interface::*;
use marks::unmarked;
use snowball::algorithms::arabic_test_copy;

fn call(entry: Entry, word: &[u8], out: &mut [u8]) -> Answer {
    unsafe { entry(word.as_ptr(), word.len(), out.as_mut_ptr(), out.len()) }
}

fn filled() -> Vec<u8> {
    (0..ROOM).map(|i| (i % 251) as u8).collect()
}

/// Two calls into the first `room` bytes of one output, the second behind the first one's count: the first refusal or 0, the sum of the counts, and the output.
fn in_turn(u: &[u8], v: &[u8], room: usize) -> (u32, usize, Vec<u8>) {
    let mut out = filled();
    let first = call(arabic_stemmer_normalise, u, &mut out[..room]);
    if first.code != 0 {
        return (first.code, 0, out);
    }
    let second = call(arabic_stemmer_normalise, v, &mut out[first.count..room]);
    if second.code != 0 {
        return (second.code, 0, out);
    }
    (0, first.count + second.count, out)
}

fn normalised(word: &str) -> String {
    arabic_test_copy::normalised(&unmarked(word))
}

fn cut(word: &str, at: usize, room: usize) -> Result<(), String> {
    let (u, v) = word.as_bytes().split_at(at);
    if !word.is_char_boundary(at) {
        let codes = [u, v].iter().map(|part| call(arabic_stemmer_normalise, part, &mut filled()).code).collect::<Vec<_>>();
        return if codes == [2, 2] { Ok(()) } else { Err(format!("cut inside a letter, the blocks get the codes {:?}", codes)) };
    }
    let text = normalised(word).into_bytes();
    for out_len in &[ROOM, room] {
        let (code, count, out) = in_turn(u, v, *out_len);
        if text.len() > *out_len {
            if code != 3 {
                return Err(format!("with an output of {} bytes two calls give code {}, and the Rust's text has {} bytes", out_len, code, text.len()));
            }
            continue;
        }
        let mut want = filled();
        want[..text.len()].copy_from_slice(&text);
        if code != 0 || count != text.len() || out != want {
            return Err(format!("with an output of {} bytes two calls give code {}, count {}, output {}; the Rust gives {}", out_len, code, count, hex(&out), hex(&text)));
        }
    }
    Ok(())
}

fn again(name: &str, entry: Entry, rust: fn(&str) -> String, word: &str) -> Result<(), String> {
    let text = rust(word);
    if rust(&text) != text {
        return Err(format!("the Rust's {} is another when made again", name));
    }
    let mut out = filled();
    let answer = call(entry, text.as_bytes(), &mut out);
    let mut want = filled();
    let expected = if text.len() > LONGEST { Answer { code: 1, count: 0 } } else { Answer { code: 0, count: text.len() } };
    want[..expected.count].copy_from_slice(&text.as_bytes()[..expected.count]);
    if answer != expected || out != want {
        return Err(format!("{} again gives {:?}, output {}; expected {:?}, text {}", name, answer, hex(&out), expected, hex(text.as_bytes())));
    }
    Ok(())
}

/// Every cut of the word, each with an output of 340 bytes and with one of a changing length; and its normalised and finished form once more.
pub fn compare(word: &str, turn: usize) -> Result<u64, String> {
    for at in 0..word.len() + 1 {
        cut(word, at, (turn + at * 7) % (ROOM + 1)).map_err(|why| format!("cut at byte {}: {}", at, why))?;
    }
    again("normalise", arabic_stemmer_normalise, normalised, word)?;
    again("finish", arabic_stemmer_finish, arabic_test_copy::finished, word)?;
    Ok(word.len() as u64 + 3)
}
