// The comparison itself: every group of calls, the port against the original, bit for bit.
// It has its own main, so that counts and seed are printed whether it passes or not.

use std::process::exit;
use std::time::Instant;

use comparison::groups;
use comparison::settings::{self, Settings};
use comparison::stack;
use comparison::tally::Tally;

fn main() {
    if !stack::with_room(passes) {
        exit(1);
    }
}

/// Compares every group, prints the counts, and says whether nothing differs and nothing is missing.
fn passes() -> bool {
    let settings = Settings::from_environment();
    let mut tally = Tally::new();
    let start = Instant::now();
    println!(
        "seed {} ({} gives another), size {} ({})",
        settings.seed,
        settings::SEED,
        settings.size,
        settings::SIZE
    );
    for group in groups::ALL {
        (group.compare)(&settings, &mut tally);
    }
    tally.print();
    let missing = tally.missing();
    for answer in &missing {
        println!("MISSING {answer}");
    }
    println!(
        "{} cases, seed {}, size {}, {:.1} s: {} differences, {} answers missing",
        tally.cases(),
        settings.seed,
        settings.size,
        start.elapsed().as_secs_f64(),
        tally.differences(),
        missing.len()
    );
    tally.differences() == 0 && missing.is_empty()
}
