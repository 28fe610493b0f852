// Compares the proved reader of texts with an ordinary one on random texts: the same answer, and the same rows after it.
mod ordinary;
mod proved;
mod rows;
mod texts;

use rows::{Answer, Rows};
use std::process::ExitCode;
use texts::Random;

const TEXTS: usize = 100_000;
const SEED: u64 = 0x5eed_c0de_1234_5678;

// Each kind of answer must come up this often, or the texts show too little.
const OFTEN: usize = 50;

fn main() -> ExitCode {
    let mut random = Random(SEED);
    let mut differ = 0;
    let mut kinds = [0; 16];
    for _ in 0..TEXTS {
        let text = texts::text(&mut random);
        let before = rooms(&mut random, &text);
        let (mut first, mut second) = (before.clone(), before);
        let expected = ordinary::read(&text, &mut first);
        let answer = proved::read(&text, &mut second);
        kinds[kind(&expected)] += 1;
        if answer != expected || second != first {
            differ += 1;
            if differ <= 5 {
                let shown = text.escape_ascii();
                eprintln!(
                    "{shown}\n  expected {expected:?}, was {answer:?}, same rows: {}",
                    second == first
                );
            }
        }
    }
    println!("compared {TEXTS} texts, {differ} differ");
    let rare = [0, 9, 10, 11, 12, 13, 14]
        .into_iter()
        .find(|&kind| kinds[kind] < OFTEN);
    if let Some(kind) = rare {
        eprintln!("too few texts with answer {kind}: {}", kinds[kind]);
    }
    match (differ, rare) {
        (0, None) => ExitCode::SUCCESS,
        _ => ExitCode::FAILURE,
    }
}

// The number of a refusal, or 0.
fn kind(answer: &Answer) -> usize {
    match answer {
        Ok(_) => 0,
        Err((number, _)) => *number,
    }
}

// Rows that are long enough for every text, or about as long as the first line asks.
fn rooms(random: &mut Random, text: &[u8]) -> Rows {
    if random.below(4) > 0 {
        return Rows::marked(1_000, 200);
    }
    let number = |i: usize| -> usize {
        let line = text.split(|&byte| byte == b'\n').next().unwrap_or_default();
        let word = line
            .split(|byte| !byte.is_ascii_digit())
            .filter(|word| !word.is_empty())
            .nth(i);
        let number = word.and_then(|word| std::str::from_utf8(word).ok()?.parse().ok());
        number.unwrap_or(3).min(1_000)
    };
    let (nodes, arcs) = (number(0), number(1));
    let mut near = |size: usize| (size + 2).saturating_sub(random.below(4)).min(1_000);
    Rows::marked(near(arcs), near(nodes))
}
