//! Compares the library with the second implementation: `check [--seed N] [--small COUNT] [--medium COUNT] [--large 0|1]`.
mod answer;
mod bare;
mod calls;
mod case;
mod large;
mod next_calls;
mod random;
mod sides;
mod small;

fn argument(name: &str, default: u64) -> u64 {
    let all: Vec<String> = std::env::args().collect();
    match all.iter().position(|a| a == name) {
        Some(at) => all[at + 1].parse().expect("a number"),
        None => default,
    }
}

fn main() {
    let (seed, small, medium, large) =
        (argument("--seed", 1), argument("--small", 100000), argument("--medium", 300), argument("--large", 1));
    let mut tally = calls::Tally::default();
    if large != 0 {
        large::run(&mut tally, seed);
    }
    sides::run(&mut tally);
    small::run(&mut tally, seed, medium, case::medium);
    small::run(&mut tally, seed, small, case::small);
    let kinds = ["accepted", "failed", "refused", "written"];
    println!("{:<16}{:<10}{:>8}{:>12}", "call", "answer", "number", "times");
    for ((call, kind, number), times) in &tally.seen {
        let number = if (*kind, *number) == (0, 1) { "above 0".to_string() } else { number.to_string() };
        println!("{call:<16}{:<10}{number:>8}{times:>12}", kinds[*kind as usize]);
    }
    let calls: u64 = tally.seen.values().sum();
    let folds = 4 * (small + medium);
    println!("all equal: {calls} calls, seed {seed}, {folds} folds of {small} small and {medium} medium statements, large {}", if large != 0 { "yes" } else { "no" });
}
