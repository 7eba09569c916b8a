//! Prints how often the random inputs reach each refusal.
//! Arguments: seed, rounds.

use reference::coverage::cover;

fn main() {
    let mut arguments = std::env::args().skip(1).flat_map(|text| text.parse().ok());
    let seed = arguments.next().unwrap_or(1);
    let rounds = arguments.next().unwrap_or(20_000) as usize;
    let coverage = cover(seed, rounds);
    let mut entries: Vec<(&str, u8)> = coverage.counts.keys().map(|&(e, n, _)| (e, n)).collect();
    entries.dedup();
    println!(
        "{:<12}{:>6}{:>10}{:>10}",
        "entry", "number", "times", "indices"
    );
    for (entry, number) in entries {
        let (times, indices) = coverage.of(entry, number);
        println!("{entry:<12}{number:>6}{times:>10}{indices:>10}");
    }
    for ((entry, answer), times) in &coverage.answers {
        println!("{entry:<12}{answer:>10}{times:>10}");
    }
}
