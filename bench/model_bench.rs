//! The loops of `model_bench feasible|value` in plain Rust with `checked_` arithmetic: the same words, model, checksum.
use std::hint::black_box;
use std::process::ExitCode;

const UPPER: u32 = 9;
const SIDE: i128 = 1_000_000;

struct Row {
    terms: Vec<(u32, i128)>,
    lo: Option<i128>,
    hi: Option<i128>,
}

fn terms_of(row: u32, variables: u32) -> Vec<(u32, i128)> {
    (0..variables)
        .map(|var| (var, i128::from((u64::from(var) * 7 + u64::from(row) * 13) % 19) + 1))
        .collect()
}

fn point_of(variables: u32, first: u32) -> Vec<i64> {
    (0..variables)
        .map(|var| ((u64::from(var) + u64::from(first)) % u64::from(UPPER + 1)) as i64)
        .collect()
}

/// The sum of the terms at a point, or `None` where it passes 128 bits.
fn sum_of(terms: &[(u32, i128)], point: &[i64]) -> Option<i128> {
    let mut sum = 0i128;
    for (var, coefficient) in terms {
        let product = coefficient.checked_mul(i128::from(*point.get(*var as usize)?))?;
        sum = sum.checked_add(product)?;
    }
    Some(sum)
}

fn is_feasible(rows: &[Row], point: &[i64]) -> Option<bool> {
    for row in rows {
        let sum = sum_of(&row.terms, point)?;
        if row.lo.is_some_and(|lo| sum < lo) || row.hi.is_some_and(|hi| sum > hi) {
            return Some(false);
        }
    }
    Some(true)
}

fn checksum(words: &[String]) -> Option<i128> {
    let [question, variables, terms, rounds] = words else {
        return None;
    };
    let variables = variables.parse::<u32>().ok()?;
    let terms = terms.parse::<u32>().ok()?;
    let rounds = rounds.parse::<u64>().ok()?;
    let rows: Vec<Row> = (0..terms.checked_div(variables)?)
        .map(|row| Row { terms: terms_of(row, variables), lo: None, hi: Some(SIDE) })
        .collect();
    let cost = terms_of(0, variables);
    let points = [point_of(variables, 0), point_of(variables, 5)];
    let mut sum = 0i128;
    for round in 0..rounds {
        let point = black_box(&points[(round % 2) as usize]);
        let answer = match question.as_str() {
            "feasible" => i128::from(is_feasible(&rows, point)?),
            "value" => sum_of(&cost, point)?,
            _ => return None,
        };
        sum = sum.wrapping_add(answer);
    }
    Some(sum)
}

fn main() -> ExitCode {
    let words: Vec<String> = std::env::args().skip(1).collect();
    match checksum(&words) {
        Some(sum) => {
            println!("checksum {sum}");
            ExitCode::SUCCESS
        }
        None => {
            eprintln!("usage: model_bench feasible|value VARIABLES TERMS ROUNDS");
            ExitCode::FAILURE
        }
    }
}
