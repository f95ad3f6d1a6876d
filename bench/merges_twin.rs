// The merge of sorted rows in plain Rust (merging.rs). The words, the rows and what is printed are those of `time_merges`.
#[allow(dead_code)]
mod merging;

use merging::{merge_sorted, Aggregating, Collapsing, Plain, Replacing, Row, Rule, Summing, Value, Versioned};
use std::env;
use std::process::ExitCode;

fn row(number: u64, alike: u64) -> Row {
    let place = number % alike;
    let sign = if place % 2 == 0 { 1 } else { -1 };
    let text = number.wrapping_mul(7919).to_le_bytes().to_vec();
    vec![Value::UInt64(number / alike), Value::UInt64(place), Value::Int8(sign), Value::Text(text)]
}

fn repeated<R: Rule>(inputs: &[Vec<Row>], rule: &R, times: u64) -> usize {
    let mut left = 0;
    for _ in 0..times {
        left = merge_sorted(inputs, &[0], rule).len();
    }
    left
}

fn main() -> ExitCode {
    let words: Vec<String> = env::args().collect();
    let number = |place: usize| words[place].parse::<u64>().expect("a number");
    let (rows, inputs, alike, times) = (number(2), number(3), number(4), number(5));
    let mut lists: Vec<Vec<Row>> = (0..inputs).map(|_| Vec::new()).collect();
    for n in 0..rows {
        lists[(n % inputs) as usize].push(row(n, alike));
    }
    let left = match words[1].as_str() {
        "plain" => repeated(&lists, &Plain, times),
        "replacing" => repeated(&lists, &Replacing(None), times),
        "versions" => repeated(&lists, &Replacing(Some(1)), times),
        "summing" => repeated(&lists, &Summing(vec![1]), times),
        "collapsing" => repeated(&lists, &Collapsing(2), times),
        "versioned" => repeated(&lists, &Versioned(2), times),
        "aggregating" => repeated(&lists, &Aggregating, times),
        _ => return ExitCode::from(2),
    };
    println!("{left}");
    ExitCode::SUCCESS
}
