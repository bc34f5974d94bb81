// Measures the port beside the original: the same inputs, both built for release, interleaved, medians.
// The table goes to standard output in Markdown, progress to standard error.

use std::env;
use std::fs;
use std::hint::black_box;
use std::ops::Range;
use std::time::{Duration, Instant, SystemTime, UNIX_EPOCH};

use comparison::random::Random;
use comparison::stack;
use comparison::timed::blocks::BLOCKS;
use comparison::timed::factors::FACTORS;
use comparison::timed::fills::FILLS;
use comparison::timed::plates::PLATES;
use comparison::timed::solvers::SOLVERS;
use comparison::timed::{ordinary, Inputs, Side, Timed};
use comparison::words;

/// The calls of one pair of tables, and what its columns and its times are.
struct Section {
    calls: &'static [Timed],
    columns: &'static str,
    times: &'static str,
}

const SECTIONS: [Section; 5] = [
    Section {
        calls: BLOCKS,
        columns: "by count of blocks (values for the root)",
        times: "Nanoseconds for a block (a value for the root)",
    },
    Section {
        calls: PLATES,
        columns: "by rows of a vector or of a square plate whose nodes have 8 neighbours",
        times: "Nanoseconds for a row (for an element of merge)",
    },
    Section {
        calls: FILLS,
        columns: "by rows of a pattern, which is that of the plate where no other is named",
        times: "Nanoseconds for a row",
    },
    Section {
        calls: FACTORS,
        columns: "by rows of a plate whose factor is filled to level k (at k = 2 the last is of 3,600 rows, so that 14 is linear)",
        times: "Nanoseconds for a row",
    },
    Section {
        calls: SOLVERS,
        columns: "by rows of a plate whose factor is filled to level k (at k = 2 the last is of 3,600 rows, so that 14 is linear)",
        times: "Nanoseconds for a row, of a whole solve",
    },
];

const SIZES: [usize; 4] = [64, 256, 1024, 4096];

/// The sizes that growth is taken between, as places in `SIZES`.
const GROWTH: (usize, usize) = (1, 3);

/// Timed runs of each side in a round, and rounds. A round goes through the whole table, so that a
/// disturbance of some seconds meets few runs of any one row. BENCH_ROUNDS gives another count of rounds.
const RUNS: usize = 41;
const ROUNDS: usize = 7;
const ROUNDS_VARIABLE: &str = "BENCH_ROUNDS";

/// BENCH_ONLY gives a part of a name: calls whose names lack it are not measured.
const ONLY_VARIABLE: &str = "BENCH_ONLY";

/// A side has fewer runs in a round, but no fewer than the least, where all of them would take longer than this.
const ROUND_TIME: Duration = Duration::from_millis(80);
const LEAST_RUNS: usize = 5;

/// A run repeats its call until it takes about this long.
const RUN_TIME: Duration = Duration::from_micros(100);

const SEED: u64 = 1;

/// Values in front of an output in the first round, and as many more in each round after it. Where buffers lie
/// to each other within a page can double the time of a short loop, on either side, as its loads and stores
/// happen to meet; so each round has another place, and the median is over all of them.
const APART: usize = 72;

/// What a call reads and writes at one N and one size.
struct Buffers {
    dim: usize,
    inputs: Inputs,
    /// What is written, and room in front of it.
    out: Vec<f64>,
    length: usize,
    apart: usize,
}

impl Buffers {
    /// Where the output lies in this round.
    fn place(&self) -> Range<usize> {
        self.apart..self.apart + self.length
    }

    fn call(&mut self, side: Side) {
        let at = self.place();
        side(
            self.dim,
            black_box(&mut self.inputs),
            black_box(&mut self.out[at]),
        );
        black_box(&mut self.out);
    }

    /// Seconds of one call, over `repeats` calls.
    fn seconds(&mut self, side: Side, repeats: usize) -> f64 {
        if self.inputs.is_changed() {
            return self.seconds_by_itself(side, repeats);
        }
        let start = Instant::now();
        for _ in 0..repeats {
            self.call(side);
        }
        start.elapsed().as_secs_f64() / repeats as f64
    }

    /// The same, with each call measured by itself, since what it changes is put back before it.
    fn seconds_by_itself(&mut self, side: Side, repeats: usize) -> f64 {
        let mut spent = Duration::ZERO;
        for _ in 0..repeats {
            self.inputs.restore();
            let start = Instant::now();
            self.call(side);
            spent += start.elapsed();
        }
        spent.as_secs_f64() / repeats as f64
    }

    /// The words that a side writes, on buffers as they are; they are then as before.
    fn words_by(&mut self, side: Side) -> Vec<u64> {
        let (at, before) = (self.place(), self.out.clone());
        side(self.dim, &mut self.inputs, &mut self.out[at]);
        let words = words::words_of(&self.out);
        self.out = before;
        words
    }
}

/// The runs of one side.
struct Runs {
    side: Side,
    repeats: usize,
    seconds: Vec<f64>,
}

impl Runs {
    fn new(side: Side, buffers: &mut Buffers) -> Runs {
        let mut repeats = 1;
        while buffers.seconds(side, repeats) * (repeats as f64) < RUN_TIME.as_secs_f64() {
            repeats *= 2;
        }
        Runs {
            side,
            repeats,
            seconds: Vec::new(),
        }
    }

    /// How many runs a round has time for.
    fn runs(&self, buffers: &mut Buffers) -> usize {
        let time = buffers.seconds(self.side, self.repeats) * self.repeats as f64;
        ((ROUND_TIME.as_secs_f64() / time) as usize).clamp(LEAST_RUNS, RUNS)
    }

    fn warm(&self, buffers: &mut Buffers) {
        buffers.seconds(self.side, self.repeats);
    }

    fn run(&mut self, buffers: &mut Buffers) {
        self.seconds.push(buffers.seconds(self.side, self.repeats));
    }
}

/// One call at one N and one size, with both sides.
struct Row {
    timed: &'static Timed,
    dim: usize,
    size: usize,
    buffers: Buffers,
    port: Runs,
    rust: Option<Runs>,
    /// Of each side in a round.
    runs: usize,
}

impl Row {
    fn new(
        timed: &'static Timed,
        dim: usize,
        size: usize,
        rounds: usize,
        random: &mut Random,
    ) -> Row {
        let length = (timed.output)(dim, size);
        let mut buffers = Buffers {
            dim,
            inputs: (timed.inputs)(dim, size, random),
            out: ordinary(APART * rounds + length, random),
            length,
            apart: APART,
        };
        // Both sides have to do the same work: they give the same words.
        let expected = timed.rust.map(|rust| buffers.words_by(rust));
        let got = buffers.words_by(timed.port);
        assert!(
            expected.is_none_or(|expected| expected == got),
            "{}, N = {dim}: the sides differ",
            timed.name
        );
        let port = Runs::new(timed.port, &mut buffers);
        let rust = timed.rust.map(|rust| Runs::new(rust, &mut buffers));
        Row {
            timed,
            dim,
            size,
            runs: port.runs(&mut buffers),
            port,
            rust,
            buffers,
        }
    }

    /// One round: a run of each side for warmth, then runs that take turns, and turns at being first.
    fn round(&mut self, round: usize) {
        let buffers = &mut self.buffers;
        buffers.apart = APART * round;
        self.port.warm(buffers);
        let Some(rust) = &mut self.rust else {
            (0..self.runs).for_each(|_| self.port.run(buffers));
            return;
        };
        rust.warm(buffers);
        for turn in 0..self.runs {
            if turn % 2 == 0 {
                self.port.run(buffers);
                rust.run(buffers);
            } else {
                rust.run(buffers);
                self.port.run(buffers);
            }
        }
    }
}

/// One call at one N, with a row for each size that it is measured at.
struct Line {
    timed: &'static Timed,
    dim: usize,
    rows: [Option<Row>; SIZES.len()],
}

/// Medians of a row, in seconds for the whole call; none for the original where it has no such call.
struct Medians {
    port: f64,
    rust: Option<f64>,
}

fn median(runs: &Runs) -> f64 {
    let mut sorted = runs.seconds.clone();
    sorted.sort_by(f64::total_cmp);
    sorted[sorted.len() / 2]
}

fn rounds() -> usize {
    match env::var(ROUNDS_VARIABLE) {
        Err(_) => ROUNDS,
        Ok(text) => match text.parse() {
            Ok(rounds) if rounds > 0 => rounds,
            _ => panic!("{ROUNDS_VARIABLE} cannot be read: {text:?}"),
        },
    }
}

fn main() {
    stack::with_room(measure);
}

fn measure() {
    let random = &mut Random::new(SEED);
    let rounds = rounds();
    let only = env::var(ONLY_VARIABLE).unwrap_or_default();
    let mut sections = SECTIONS.map(|section| lines(&section, &only, rounds, random));
    assert!(
        sections.iter().any(|lines| !lines.is_empty()),
        "{ONLY_VARIABLE} is in no call's name: {only:?}"
    );
    for round in 1..=rounds {
        let lines = sections.iter_mut().flatten();
        for row in lines.flat_map(|line| line.rows.iter_mut().flatten()) {
            eprint!(
                "\rround {round} of {rounds}: {}, N = {}, size {}          ",
                row.timed.name, row.dim, row.size
            );
            row.round(round);
        }
    }
    eprintln!();
    println!("Date: {}. Processor: {}.", today(), processor());
    println!(
        "Medians of {} runs of each side, interleaved; of a call that takes long, of at least {}.",
        rounds * RUNS,
        rounds * LEAST_RUNS
    );
    let filled = |(_, lines): &(&Section, &Vec<Line>)| !lines.is_empty();
    for (section, lines) in SECTIONS.iter().zip(&sections).filter(filled) {
        print_tables(section, lines);
    }
}

/// Every call of a section whose name has the part `only`, at every N, and at every size that it has.
fn lines(section: &Section, only: &str, rounds: usize, random: &mut Random) -> Vec<Line> {
    let mut lines = Vec::new();
    let measured = |timed: &&Timed| timed.name.contains(only);
    for timed in section.calls.iter().filter(measured) {
        for &dim in timed.dims {
            let rows = SIZES.map(|size| {
                let measured = (timed.units)(size) > 0;
                measured.then(|| Row::new(timed, dim, size, rounds, random))
            });
            lines.push(Line { timed, dim, rows });
        }
    }
    lines
}

fn print_tables(section: &Section, lines: &[Line]) {
    println!();
    println!(
        "Time of the port / time of the Rust, {}, and growth: the time at 4,096 over the time at 256, 16 where it is linear.",
        section.columns
    );
    println!();
    println!("| call | N | 64 | 256 | 1,024 | 4,096 | growth, port | growth, Rust |");
    println!("|---|---|---|---|---|---|---|---|");
    for line in lines {
        print_ratios(line);
    }
    println!();
    println!("{}, port / Rust:", section.times);
    println!();
    println!("| call | N | 64 | 256 | 1,024 | 4,096 |");
    println!("|---|---|---|---|---|---|");
    for line in lines {
        print_times(line);
    }
    if lines.iter().any(|line| line.steps().is_some()) {
        print_steps(lines);
    }
}

fn print_steps(lines: &[Line]) {
    println!();
    println!("Steps of a solve:");
    println!();
    println!("| call | N | 64 | 256 | 1,024 | 4,096 |");
    println!("|---|---|---|---|---|---|");
    for line in lines {
        if let Some(steps) = line.steps() {
            println!("| {} | {} |", line.name(), steps.join(" | "));
        }
    }
}

impl Line {
    /// At each size.
    fn medians(&self) -> Vec<Option<Medians>> {
        let each = |row: &Row| Medians {
            port: median(&row.port),
            rust: row.rust.as_ref().map(median),
        };
        self.rows.iter().map(|row| row.as_ref().map(each)).collect()
    }

    /// How many steps its solves take at each size, if they are solves.
    fn steps(&self) -> Option<Vec<String>> {
        let steps = |row: &Option<Row>| row.as_ref().and_then(|row| row.buffers.inputs.steps);
        let steps: Vec<Option<usize>> = self.rows.iter().map(steps).collect();
        let shown = |steps: &Option<usize>| steps.map_or("-".to_string(), |n| n.to_string());
        let any = steps.iter().any(Option::is_some);
        any.then(|| steps.iter().map(shown).collect())
    }

    /// The call and its N, as the first two fields of a table's line.
    fn name(&self) -> String {
        let call = self.timed.name.trim_start_matches("timed_");
        if self.timed.dims.len() > 1 {
            format!("{call} | {}", self.dim)
        } else {
            format!("{call} | -")
        }
    }
}

/// A number with so many decimals, or a dash.
fn shown(number: Option<f64>, decimals: usize) -> String {
    number.map_or("-".to_string(), |number| format!("{number:.decimals$}"))
}

/// The larger over the smaller, if both were measured.
fn growth(large: Option<f64>, small: Option<f64>) -> String {
    shown(large.zip(small).map(|(large, small)| large / small), 1)
}

fn print_ratios(line: &Line) {
    let medians = line.medians();
    let ratio = |m: &Medians| m.rust.map(|rust| m.port / rust);
    let ratios: Vec<String> = medians
        .iter()
        .map(|m| shown(m.as_ref().and_then(ratio), 2))
        .collect();
    let (small, large) = (&medians[GROWTH.0], &medians[GROWTH.1]);
    let port = |m: &Option<Medians>| m.as_ref().map(|m| m.port);
    let rust = |m: &Option<Medians>| m.as_ref().and_then(|m| m.rust);
    println!(
        "| {} | {} | {} | {} |",
        line.name(),
        ratios.join(" | "),
        growth(port(large), port(small)),
        growth(rust(large), rust(small))
    );
}

fn print_times(line: &Line) {
    let medians = line.medians();
    let times: Vec<String> = medians
        .iter()
        .zip(SIZES)
        .map(|(m, size)| {
            let each = 1e9 / (line.timed.units)(size) as f64;
            let time = |m: &Medians| {
                let rust = m.rust.map(|rust| rust * each);
                format!("{:.2} / {}", m.port * each, shown(rust, 2))
            };
            m.as_ref().map_or("-".to_string(), time)
        })
        .collect();
    println!("| {} | {} |", line.name(), times.join(" | "));
}

fn processor() -> String {
    let about = fs::read_to_string("/proc/cpuinfo").unwrap_or_default();
    let line = about.lines().find(|line| line.starts_with("model name"));
    let model = line.and_then(|line| line.split_once(':'));
    model.map_or("unknown".to_string(), |(_, name)| name.trim().to_string())
}

/// The date in UTC. Years are counted from March, so that the leap day is a year's last.
fn today() -> String {
    let now = SystemTime::now().duration_since(UNIX_EPOCH);
    let days = now.map_or(0, |now| now.as_secs() / 86_400) + 719_468;
    let (era, day) = (days / 146_097, days % 146_097);
    let year = (day - day / 1_460 + day / 36_524 - day / 146_096) / 365;
    let day = day - (365 * year + year / 4 - year / 100);
    let month = (5 * day + 2) / 153;
    let day = day - (153 * month + 2) / 5 + 1;
    let month = if month < 10 { month + 3 } else { month - 9 };
    let year = 400 * era + year + u64::from(month <= 2);
    format!("{year}-{month:02}-{day:02}")
}
