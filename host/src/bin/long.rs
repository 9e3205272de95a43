//! A long run of the library against the model: `long SEED COUNT` makes at least COUNT calls and counts differences.

use std::env;
use std::process::ExitCode;
use wort_host::differ::{times, Differ, NUMBERS};

/// So many differences end the run: what broke is clear by then.
const MOST_SHOWN: u64 = 10;

fn main() -> ExitCode {
    let words: Vec<String> = env::args().skip(1).collect();
    let numbers: Vec<u64> = words.iter().filter_map(|word| word.parse().ok()).collect();
    let [seed, count] = numbers[..] else {
        eprintln!("usage: long SEED COUNT (two numbers: where chance begins, and the calls to make)");
        return ExitCode::from(2);
    };
    let mut differ = Differ::new(seed);
    let mut differences = 0;
    while differ.calls < count && differences < MOST_SHOWN {
        if let Err(difference) = differ.case() {
            println!("{difference}");
            differences += 1;
        }
    }
    show(&differ);
    println!("seed {seed}: {} calls, {differences} differences", differ.calls);
    ExitCode::from(u8::from(differences > 0))
}

/// A line for each call: how often it gave each number.
fn show(differ: &Differ) {
    for (call, numbers) in NUMBERS {
        let given: Vec<String> =
            numbers.iter().map(|number| format!("{number}: {}", times(&differ.tally, call, *number))).collect();
        println!("{call:<12} {}", given.join("  "));
    }
}
