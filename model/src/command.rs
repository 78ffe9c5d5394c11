//! The command line of the comparing programs.

use crate::answers::Implementation;
use crate::comparison::Comparison;
use std::process::ExitCode;
use std::time::Instant;

const SEED: u64 = 2_006;
const COUNT: u64 = 200_000;
/// Enough for every recursion of the model.
const STACK: usize = 256 << 20;

/// `--seed S --count N`, with their defaults.
fn options() -> Result<(u64, u64), String> {
    let (mut seed, mut count) = (SEED, COUNT);
    let mut arguments = std::env::args().skip(1);
    while let Some(option) = arguments.next() {
        let value = arguments.next().and_then(|text| text.parse().ok());
        match (option.as_str(), value) {
            ("--seed", Some(value)) => seed = value,
            ("--count", Some(value)) => count = value,
            _ => return Err("usage: [--seed NUMBER] [--count NUMBER]".to_owned()),
        }
    }
    Ok((seed, count))
}

/// Compares, prints what came, and exits with 1 on the first difference.
pub fn compare<I: Implementation + Sync>(name: &str, implementation: I) -> ExitCode {
    let (seed, count) = match options() {
        Ok(options) => options,
        Err(usage) => {
            eprintln!("{usage}");
            return ExitCode::from(2);
        }
    };
    on_deep_stack(|| run(name, &implementation, seed, count))
}

/// Runs the work on a thread with a deep stack: expressions of 4,096 levels are walked by recursion.
pub fn on_deep_stack<T: Send>(work: impl FnOnce() -> T + Send) -> T {
    std::thread::scope(|scope| {
        let builder = std::thread::Builder::new().stack_size(STACK);
        let worker = builder.spawn_scoped(scope, work).expect("a thread starts");
        match worker.join() {
            Ok(result) => result,
            Err(panic) => std::panic::resume_unwind(panic),
        }
    })
}

fn run<I: Implementation>(name: &str, implementation: &I, seed: u64, count: u64) -> ExitCode {
    let begin = Instant::now();
    let mut comparison = Comparison::new(implementation);
    let result = comparison.compare(seed, count);
    println!("{name} and the model, seed {seed}, {count} recipes");
    println!("{}", comparison.counts);
    println!("{:.1} seconds", begin.elapsed().as_secs_f64());
    match result {
        Ok(()) => {
            println!("no difference");
            ExitCode::SUCCESS
        }
        Err(difference) => {
            println!("difference: {}", difference.0);
            ExitCode::FAILURE
        }
    }
}
