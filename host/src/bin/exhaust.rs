//! Demand 3 on pools of three places, every state, with all that was left in the free slots: `exhaust MOST` tries at most
//! MOST states of each key set (a hundred thousand take one or two seconds and about 100 MB).

use std::env;
use std::process::ExitCode;
use wort_host::exhaust::{search, Bounds, KEY_SETS};
use wort_host::Library;

fn main() -> ExitCode {
    let Some(most) = env::args().nth(1).and_then(|word| word.parse().ok()) else {
        eprintln!("usage: exhaust MOST (how many states to try of each key set)");
        return ExitCode::from(2);
    };
    for (what, keys) in KEY_SETS {
        for count in 3..=keys.len() {
            let bounds = Bounds { n: 3, keys: &keys[..count], values: &[1], free: None, most };
            match search(&Library, &bounds) {
                Ok(seen) => println!("{what}; {count} keys: {seen:?}"),
                Err(difference) => {
                    println!("{what}; {count} keys: {difference}");
                    return ExitCode::FAILURE;
                }
            }
        }
    }
    ExitCode::SUCCESS
}
