//! Times two programs on two plans each, in turn: timing first second plan empty [runs]
//! Prints for each program the least time of the plan less that of the empty plan, in ns.

use std::error::Error;
use std::fs::File;
use std::process::{Command, Stdio};
use std::time::{Duration, Instant};

fn main() -> Result<(), Box<dyn Error>> {
    let args: Vec<String> = std::env::args().skip(1).collect();
    let [first, second, plan, empty, rest @ ..] = &args[..] else {
        return Err("usage: timing first second plan empty [runs]".into());
    };
    let runs: u32 = rest.first().map_or(Ok(200), |text| text.parse())?;
    let mut least = [[Duration::MAX; 2]; 2];
    // In turn, so that what else the machine does falls on all alike.
    for _ in 0..runs {
        for (program, least) in [first, second].into_iter().zip(&mut least) {
            for (plan, least) in [plan, empty].into_iter().zip(least) {
                *least = (*least).min(time(program, plan)?);
            }
        }
    }
    let [[first, first_empty], [second, second_empty]] = least;
    let net = [first.saturating_sub(first_empty), second.saturating_sub(second_empty)];
    println!("{} {}", net[0].as_nanos(), net[1].as_nanos());
    Ok(())
}

fn time(program: &str, plan: &str) -> Result<Duration, Box<dyn Error>> {
    let mut command = Command::new(program);
    command.stdin(File::open(plan)?).stdout(Stdio::null());
    let start = Instant::now();
    let status = command.status()?;
    let time = start.elapsed();
    if status.success() { Ok(time) } else { Err(format!("{program} ended with {status}").into()) }
}
