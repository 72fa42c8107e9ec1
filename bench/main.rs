//! The bench's driver. `bench/run` builds it and calls it.
mod check;
mod count;
mod growth;
mod old;
mod piles;
mod sides;
mod table;
mod tables;

use std::process::exit;
use table::Work;

fn main() {
    let args: Vec<String> = std::env::args().skip(1).collect();
    let word = |i: usize| args.get(i).map(String::as_str).unwrap_or("");
    let number = |i: usize| word(i).parse::<u64>().unwrap_or_else(|_| usage());
    let good = match word(0) {
        "check" => check::run(number(1), number(2)),
        "self-test" => check::self_test(number(1)),
        "table" => table::run(word(1) == "quick", Work::Time),
        "instructions" => table::run(word(1) == "quick", Work::Nothing),
        "growth" => growth::run(word(1) == "quick", Work::Time),
        "count" if word(1) == "table" => table::run(word(2) == "quick", Work::Count),
        "count" if word(1) == "growth" => growth::run(word(2) == "quick", Work::Count),
        "hashes" => table::hashes(word(1) == "quick", word(2)),
        _ => usage(),
    };
    exit(if good { 0 } else { 1 });
}

fn usage() -> ! {
    eprintln!("driver check SEED TIMES | self-test SEED | table|instructions|growth full|quick");
    eprintln!("its own children: hashes full|quick LABEL | count table|growth full|quick");
    exit(2);
}
