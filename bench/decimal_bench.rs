//! What `reader_bench read|print ROUNDS` does, with `str::parse::<f64>` and `i128::to_string` of Rust: the same texts and
//! numbers in the same order, and a checksum of what came out.
use std::hint::black_box;
use std::process::ExitCode;

static TEXTS: [&str; 8] = [
    "1234567890",
    "9.876543210",
    "31415.92654",
    "2718281828",
    "57721566.49",
    "1414213562",
    "161803398.9",
    "6931471806",
];

static NUMBERS: [i128; 8] = [
    1_234_567_890,
    -9_876_543_210,
    3_141_592_654,
    -2_718_281_828,
    5_772_156_649,
    -1_414_213_562,
    1_618_033_989,
    -6_931_471_806,
];

/// The sum of the bits of the floats, which wraps at 64 bits.
fn sum_of_readings(rounds: u64) -> Option<u64> {
    let mut sum = 0u64;
    for round in 0..rounds {
        let text = black_box(TEXTS[(round % 8) as usize]);
        sum = sum.wrapping_add(text.parse::<f64>().ok()?.to_bits());
    }
    Some(sum)
}

/// The sum of the lengths and of the middle bytes of the texts, which wraps at 64 bits.
fn sum_of_printings(rounds: u64) -> u64 {
    let mut sum = 0u64;
    for round in 0..rounds {
        let text = black_box(NUMBERS[(round % 8) as usize]).to_string();
        sum = sum.wrapping_add(text.len() as u64 + u64::from(text.as_bytes()[text.len() / 2]));
    }
    sum
}

fn checksum(words: &[String]) -> Option<u64> {
    let [question, rounds] = words else {
        return None;
    };
    let rounds = rounds.parse::<u64>().ok()?;
    match question.as_str() {
        "read" => sum_of_readings(rounds),
        "print" => Some(sum_of_printings(rounds)),
        _ => None,
    }
}

fn main() -> ExitCode {
    let words: Vec<String> = std::env::args().skip(1).collect();
    match checksum(&words) {
        Some(sum) => {
            println!("checksum {sum}");
            ExitCode::SUCCESS
        }
        None => {
            eprintln!("usage: decimal_bench read|print ROUNDS");
            ExitCode::FAILURE
        }
    }
}
