//! The differential test of the product: `differ [SEED] [TABLES] [REQUESTS]`.

#[cfg(product)]
use bench::{
    compare::{Differ, Difference},
    planner::Independent,
    product::Product,
    report::{counts, run},
};
use std::process::ExitCode;

#[cfg(not(product))]
fn main() -> ExitCode {
    eprintln!("no libstellarsnare.a: run tools/staticlib.sh first, then build again");
    ExitCode::from(2)
}

#[cfg(product)]
fn main() -> ExitCode {
    let mut numbers = std::env::args().skip(1).map(|a| a.parse::<u64>());
    let mut next = |otherwise| numbers.next().unwrap_or(Ok(otherwise));
    let (Ok(seed), Ok(tables), Ok(requests)) = (next(1), next(100_000), next(1_000_000)) else {
        eprintln!("differ [SEED] [TABLES] [REQUESTS]");
        return ExitCode::from(2);
    };
    println!("seed {seed}, {tables} tables, {requests} requests");
    let mut differ = Differ::new(Product, Independent, seed);
    let result = run(&mut differ, tables, requests);
    print!("{}", counts(&differ));
    match result {
        Ok(()) => {
            println!("no difference");
            ExitCode::SUCCESS
        }
        Err(Difference(shown)) => {
            println!("a difference (product and independent)\n{shown}");
            ExitCode::FAILURE
        }
    }
}
