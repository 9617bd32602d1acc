//! Calls over words of any kind and of any length, in any order, for as long as asked.
//!
//!     garbage --calls N [--seed S]

use layer_comparison::garbage::run;
use std::process::ExitCode;
use std::time::Instant;

const USAGE: &str = "\
usage: garbage --calls N [--seed S]

  --calls N  how many calls are made, 1 or more
  --seed S   the first episode's seed (1 where it is not given); the next ones
             have the seeds that follow

exit status: 0 where all held, 1 where something did not, 2 where the arguments
are not these";

fn main() -> ExitCode {
    let arguments: Vec<String> = std::env::args().skip(1).collect();
    let Some((calls, seed)) = parse(&arguments) else {
        eprintln!("{USAGE}");
        return ExitCode::from(2);
    };
    let begun = Instant::now();
    match run(seed, calls) {
        Ok(met) => {
            println!("{met}all held, {:.0?}", begun.elapsed());
            ExitCode::SUCCESS
        }
        Err(fault) => {
            println!("{fault}");
            ExitCode::FAILURE
        }
    }
}

/// The calls and the seed.
fn parse(arguments: &[String]) -> Option<(u64, u64)> {
    let (mut calls, mut seed) = (None, None);
    for pair in arguments.chunks(2) {
        let [name, number] = pair else {
            return None;
        };
        let place = match name.as_str() {
            "--calls" => &mut calls,
            "--seed" => &mut seed,
            _ => return None,
        };
        if place.replace(number.parse::<u64>().ok()?).is_some() {
            return None;
        }
    }
    Some((calls.filter(|calls| *calls > 0)?, seed.unwrap_or(1)))
}
