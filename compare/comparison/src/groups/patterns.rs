// The pattern checkers and the sorting of a row, which the original does not have: document 01's own rules decide.
// All small patterns are tried, valid or not, and larger ones that are wrong by one rule each.

use super::Group;
use crate::answered::Besides;
use crate::list::Line;
use crate::random::Random;
use crate::rules::{self, Counts, Length, Pattern};
use crate::settings::Settings;
use crate::slice_call::{
    self, change, every, read, resize, Fill, Given, Reading, SliceCall, TypedCall, Worked,
};
use crate::sparse::{self, Sparse, DAMAGES};
use crate::tally::Tally;
use crate::words::Element::Index;

pub const GROUP: Group = Group {
    name: "patterns",
    compare,
    sample,
    about: || slice_call::about(CALLS),
    input_words: |name, _, words| slice_call::input_words(CALLS, name, words),
    replay: |line| slice_call::replay(CALLS, line),
};

const CALLS: &[SliceCall] = &[PATTERN, ENTRIES, FACTOR, SORT];

/// The three that check.
const CHECKERS: [&SliceCall; 3] = [&PATTERN, &ENTRIES, &FACTOR];

const PATTERN: SliceCall = SliceCall {
    name: "check_pattern",
    has_dim: false,
    takes: &[
        read("offsets", Index, Length::Any),
        read("columns", Index, Length::Any),
    ],
    besides: Besides::Nothing,
    answers: &[0, 1, 2, 3],
    refusal: |r| refusal_by(r, rules::is_valid),
    oracle: |_| Worked::default(),
    panics: |_, _| false,
    port: |_, s| {
        let [offsets, columns] = every(s);
        port::check_pattern(offsets.bytes(), columns.bytes()).into()
    },
    typed: &[TypedCall {
        name: "timed_check_pattern",
        // Whole words are all that it can be lent.
        answers: &[0, 1, 3],
        port: |_, s| {
            let [offsets, columns] = every(s);
            port::timed_check_pattern(offsets.indexes(), columns.indexes()).into()
        },
    }],
};

const ENTRIES: SliceCall = SliceCall {
    name: "check_entries",
    refusal: |r| refusal_by(r, rules::is_valid_with_own_columns),
    port: |_, s| {
        let [offsets, columns] = every(s);
        port::check_entries(offsets.bytes(), columns.bytes()).into()
    },
    typed: &[],
    ..PATTERN
};

const FACTOR: SliceCall = SliceCall {
    name: "check_factor",
    takes: &[
        read("offsets", Index, Length::Any),
        read("columns", Index, Length::Any),
        read("splits", Index, Length::Splits),
    ],
    answers: &[0, 1, 2, 3, 11],
    refusal: refusal_of_factor,
    port: |_, s| {
        let [offsets, columns, splits] = every(s);
        port::check_factor(offsets.bytes(), columns.bytes(), splits.bytes()).into()
    },
    typed: &[],
    ..PATTERN
};

const SORT: SliceCall = SliceCall {
    name: "sort_row",
    takes: &[change("columns", Index, Length::Any)],
    answers: &[0, 1, 2],
    refusal: refusal_of_sort,
    oracle: sorted,
    port: |_, s| {
        let [columns] = every(s);
        port::sort_row(columns.bytes_mut()).into()
    },
    typed: &[],
    ..PATTERN
};

fn refusal_by(reading: &Reading, is_valid: fn(&Pattern) -> bool) -> u32 {
    let (offsets, columns) = (reading.indexes("offsets"), reading.indexes("columns"));
    let pattern = Pattern {
        offsets: &offsets,
        columns: &columns,
    };
    rules::first_refusal(&[
        (rules::SIZE, rules::is_too_large(&pattern)),
        (rules::SHAPE, reading.is_misshapen()),
        (rules::PATTERN, !is_valid(&pattern)),
    ])
}

fn refusal_of_factor(reading: &Reading) -> u32 {
    let (offsets, columns) = (reading.indexes("offsets"), reading.indexes("columns"));
    let pattern = Pattern {
        offsets: &offsets,
        columns: &columns,
    };
    let splits = reading.indexes("splits");
    rules::first_refusal(&[
        (rules::SIZE, rules::is_too_large(&pattern)),
        (rules::SHAPE, reading.is_misshapen()),
        (rules::PATTERN, !rules::is_valid(&pattern)),
        (rules::SPLIT, rules::is_wrongly_split(&pattern, &splits)),
    ])
}

fn refusal_of_sort(reading: &Reading) -> u32 {
    let entries = reading.indexes("columns").len();
    rules::first_refusal(&[
        (rules::SIZE, !rules::entries_in_range(entries)),
        (rules::SHAPE, reading.is_misshapen()),
    ])
}

fn sorted(reading: &Reading) -> Worked {
    let mut columns = reading.indexes("columns");
    columns.sort_unstable();
    let words = columns.into_iter().map(u64::from);
    Worked {
        written: vec![words.collect()],
        ..Worked::default()
    }
}

/// Random patterns, each valid and then wrong by each rule.
const CASES: usize = 1_000;

/// How often each large pattern is taken.
const LARGE: usize = 4;

/// Patterns of which every slice is tried at every wrong length, and some at once.
const WRONG_LENGTHS: usize = 30;

/// Random rows to sort.
const ROWS: usize = 10_000;

fn compare(settings: &Settings, tally: &mut Tally) {
    for call in CHECKERS {
        let random = &mut settings.random(call.name);
        call.can_answer(tally);
        eprintln!("comparing {}: all small patterns", call.name);
        compare_every_list(call, random, tally);
        compare_every_pattern(call, random, tally);
        eprintln!(
            "comparing {}: patterns that are wrong by one rule",
            call.name
        );
        for _ in 0..settings.cases(CASES) {
            let pattern = sparse::any_small(random);
            try_damaged(call, &pattern, random, tally);
        }
        for pattern in large_patterns(random) {
            for _ in 0..LARGE {
                try_damaged(call, &pattern, random, tally);
            }
        }
        compare_lengths(call, settings, random, tally);
        compare_ends(call, random, tally);
    }
    compare_sorting(settings, tally);
}

fn given(call: &SliceCall, pattern: &Sparse, splits: &[u32], random: &mut Random) -> Given {
    let counts = Counts {
        dim: 1,
        ..Counts::default()
    };
    let indexes = [
        ("offsets", &pattern.offsets[..]),
        ("columns", &pattern.columns),
        ("splits", splits),
    ];
    call.given(&counts, &indexes, Fill::Mixed, random)
}

/// Every list of so many numbers below a limit.
fn every_list(length: usize, limit: u32) -> Vec<Vec<u32>> {
    let mut lists = vec![Vec::new()];
    for _ in 0..length {
        let longer = |list: Vec<u32>| (0..limit).map(move |last| [&list[..], &[last]].concat());
        lists = lists.into_iter().flat_map(longer).collect();
    }
    lists
}

/// The columns that are tried with each n, and as many as the offsets may say.
const MOST_COLUMNS: [(usize, u32); 4] = [(0, 2), (1, 4), (2, 4), (3, 3)];

/// For n up to 3 all offsets and all columns up to n + 1, as long as they are few; splits are any small numbers.
fn compare_every_list(call: &SliceCall, random: &mut Random, tally: &mut Tally) {
    for (n, most) in MOST_COLUMNS {
        let lengths = 0..=most as usize;
        let columns: Vec<Vec<u32>> = lengths
            .flat_map(|length| every_list(length, n as u32 + 2))
            .collect();
        for offsets in every_list(n + 1, most + 1) {
            for columns in &columns {
                let pattern = Sparse {
                    offsets: offsets.clone(),
                    columns: columns.clone(),
                };
                let splits: Vec<u32> = (0..n).map(|_| random.below(5) as u32).collect();
                let given = given(call, &pattern, &splits, random);
                call.try_given(&given, random, tally);
            }
        }
    }
}

/// Every valid pattern of up to 3 rows; for factors with all splits up to one beyond the entries.
fn compare_every_pattern(call: &SliceCall, random: &mut Random, tally: &mut Tally) {
    for n in 1..=3 {
        for pattern in sparse::every_pattern(n) {
            let splits = match call.name {
                "check_factor" => every_list(n, pattern.entries() as u32 + 2),
                _ => vec![Vec::new()],
            };
            for splits in splits {
                let given = given(call, &pattern, &splits, random);
                call.try_given(&given, random, tally);
            }
        }
    }
}

/// The pattern itself, then with each fault, with the splits of its sorted rows; and with splits one off.
fn try_damaged(call: &SliceCall, pattern: &Sparse, random: &mut Random, tally: &mut Tally) {
    let sorted = pattern.clone().sorted();
    let splits = sorted.splits();
    for right in [pattern, &sorted] {
        let given = given(call, right, &splits, random);
        call.try_given(&given, random, tally);
    }
    for damage in DAMAGES {
        if let Some(pattern) = sparse::damaged(&sorted, damage, random) {
            let given = given(call, &pattern, &splits, random);
            call.try_given(&given, random, tally);
        }
    }
    let mut off = splits;
    let at = random.below(off.len());
    off[at] = off[at].wrapping_add(*random.pick(&[1, u32::MAX]));
    let given = given(call, &sorted, &off, random);
    call.try_given(&given, random, tally);
}

/// Some at 64, 256, 300 and 4,096 rows; one is dense with unsorted rows, and one as full as can be.
fn large_patterns(random: &mut Random) -> Vec<Sparse> {
    vec![
        sparse::plate(8),
        sparse::scattered(64, 5, random).shuffled(random),
        sparse::dense(256).shuffled(random),
        sparse::with_entries(300, 200, random),
        sparse::plate(64).shuffled(random),
        sparse::chain(4096),
        sparse::empty(4096),
        sparse::full(random),
    ]
}

fn compare_lengths(call: &SliceCall, settings: &Settings, random: &mut Random, tally: &mut Tally) {
    for _ in 0..settings.cases(WRONG_LENGTHS) {
        let pattern = sparse::any_small(random).sorted();
        let given = given(call, &pattern, &pattern.splits(), random);
        call.try_lengths(&given, random, tally);
        for _ in 0..10 {
            call.try_some_lengths(&given, random, tally);
        }
    }
}

/// Both limits and what is next to them, also with bytes that are no whole word.
fn compare_ends(call: &SliceCall, random: &mut Random, tally: &mut Tally) {
    let mut ends = sparse::ends(random);
    ends.extend([sparse::empty(5000), sparse::dense(257)]);
    for pattern in ends {
        let splits = pattern.splits();
        let given = given(call, &pattern, &splits, random);
        call.try_given(&given, random, tally);
        for at in 0..given.slices.len() {
            for more in 1..=3 {
                let mut given = given.clone();
                let length = given.slices[at].len() + more;
                resize(&mut given.slices[at], length, random);
                call.try_given(&given, random, tally);
            }
        }
    }
}

fn compare_sorting(settings: &Settings, tally: &mut Tally) {
    let random = &mut settings.random(SORT.name);
    SORT.can_answer(tally);
    eprintln!("comparing {}", SORT.name);
    for length in 0..=5 {
        for row in every_list(length, 4) {
            try_row(&row, random, tally);
        }
    }
    for _ in 0..settings.cases(ROWS) {
        let length = random.below(40);
        try_row(&any_row(length, random), random, tally);
    }
    for length in [64, 300, 1000, 4095, 4096, 65_535, 65_536, 65_537, 70_000] {
        for _ in 0..3 {
            try_row(&any_row(length, random), random, tally);
        }
    }
}

/// A row to sort: any numbers, few different ones, or already in order, rising or falling.
fn any_row(length: usize, random: &mut Random) -> Vec<u32> {
    let limit = *random.pick(&[2, 10, 4096, 1 << 32]);
    let mut row: Vec<u32> = (0..length).map(|_| random.below(limit) as u32).collect();
    match random.below(6) {
        0 => row.sort_unstable(),
        1 => {
            row.sort_unstable();
            row.reverse();
        }
        _ => (),
    }
    row
}

/// The row, and for some of them also bytes that are no whole word.
fn try_row(row: &[u32], random: &mut Random, tally: &mut Tally) {
    let pattern = Sparse {
        offsets: Vec::new(),
        columns: row.to_vec(),
    };
    let mut given = given(&SORT, &pattern, &[], random);
    SORT.try_given(&given, random, tally);
    if random.below(8) == 0 || row.len() > 65_000 {
        let length = given.slices[0].len() + 1 + random.below(3);
        resize(&mut given.slices[0], length, random);
        SORT.try_given(&given, random, tally);
    }
}

fn sample(seed: u64) -> Vec<Line> {
    let mut lines = Vec::new();
    for call in CHECKERS {
        lines.extend(checker_lines(call, &mut Random::named(seed, call.name)));
    }
    let random = &mut Random::named(seed, SORT.name);
    for length in [0, 1, 2, 3, 5, 8, 13, 21] {
        let pattern = Sparse {
            offsets: Vec::new(),
            columns: any_row(length, random),
        };
        lines.push(SORT.line(&given(&SORT, &pattern, &[], random)));
    }
    lines
}

/// Some valid patterns, one of them with unsorted rows and with each fault, with wrong splits, and of no row.
fn checker_lines(call: &SliceCall, random: &mut Random) -> Vec<Line> {
    let pattern = sparse::scattered(5, 9, random);
    let splits = pattern.splits();
    let mut tried: Vec<(Sparse, Vec<u32>)> = Vec::new();
    for valid in [sparse::empty(3), sparse::chain(5), sparse::dense(4)] {
        let splits = valid.splits();
        tried.push((valid, splits));
    }
    tried.push((pattern.clone(), splits.clone()));
    tried.push((pattern.clone().shuffled(random), splits.clone()));
    for damage in DAMAGES {
        let wrong = sparse::damaged(&pattern, damage, random);
        tried.extend(wrong.map(|wrong| (wrong, splits.clone())));
    }
    let (off, short) = (splits.iter().map(|split| split + 1), &splits[1..]);
    tried.push((pattern.clone(), off.collect()));
    tried.push((pattern, short.to_vec()));
    tried.push((sparse::empty(0), Vec::new()));
    let each = tried.iter();
    each.map(|(pattern, splits)| call.line(&given(call, pattern, splits, random)))
        .collect()
}
