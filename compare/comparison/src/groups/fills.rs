// The calls that write the pattern of a factor: without fill, full, and filled to level k. The oracle is the
// original's Preconditioner; how many entries it has says what room is needed, which it does not know itself.

use del_msh_cpu::sparse_solver::sparse_ilu::Preconditioner;
use del_msh_cpu::sparse_solver::sparse_square::MatrixOwned;

use super::Group;
use crate::answered::Besides;
use crate::list::Line;
use crate::random::Random;
use crate::rules::{self, Counts, Length, Pattern};
use crate::settings::Settings;
use crate::slice_call::{
    self, every, read, resize, write, Access, Fill, Given, Reading, SliceCall, Take, TypedCall,
    Worked,
};
use crate::sparse::{self, Damage, Sparse, DAMAGES};
use crate::tally::Tally;
use crate::words::Element::{Index, Level};

pub const GROUP: Group = Group {
    name: "fills",
    compare,
    sample,
    about: || slice_call::about(CALLS),
    input_words: |name, _, words| slice_call::input_words(CALLS, name, words),
    replay: |line| slice_call::replay(CALLS, line),
};

const CALLS: &[SliceCall] = &[ILU0, FULL, ILUK];

const STARTS: Take = read("starts", Index, Length::Any);
const ENTRIES: Take = read("entries", Index, Length::Any);
const OFFSETS: Take = write("offsets", Index, Length::Offsets);
const COLUMNS: Take = write("columns", Index, Length::Room);
const SPLITS: Take = write("splits", Index, Length::Splits);

const ILU0: SliceCall = SliceCall {
    name: "initialize_ilu0",
    has_dim: false,
    takes: &[STARTS, ENTRIES, OFFSETS, COLUMNS, SPLITS],
    besides: Besides::Nothing,
    answers: &[0, 1, 2, 3, 4],
    refusal: |r| {
        refusal(
            refusal_of_pattern(r),
            || r.indexes("entries").len() as u128,
            r,
        )
    },
    oracle: |r| written(&ilu0(r), r),
    panics: |_, _| false,
    port: |_, s| {
        let [starts, entries, offsets, columns, splits] = every(s);
        port::initialize_ilu0(
            starts.bytes(),
            entries.bytes(),
            offsets.bytes_mut(),
            columns.bytes_mut(),
            splits.bytes_mut(),
        )
        .into()
    },
    typed: &[TypedCall {
        name: "timed_initialize_ilu0",
        answers: &[0, 1, 2, 3, 4],
        port: |_, s| {
            let [starts, entries, offsets, columns, splits] = every(s);
            port::timed_initialize_ilu0(
                starts.indexes(),
                entries.indexes(),
                offsets.indexes_mut(),
                columns.indexes_mut(),
                splits.indexes_mut(),
            )
            .into()
        },
    }],
};

const FULL: SliceCall = SliceCall {
    name: "initialize_full",
    has_dim: false,
    takes: &[Take::Count("n"), OFFSETS, COLUMNS, SPLITS],
    besides: Besides::Nothing,
    answers: &[0, 1, 2, 4],
    refusal: |r| refusal(refusal_of_n(r), || rules::entries_of_full(r.count("n")), r),
    oracle: |r| written(&full(r), r),
    panics: |_, _| false,
    port: |g, s| {
        let [offsets, columns, splits] = every(s);
        port::initialize_full(
            g.count(0),
            offsets.bytes_mut(),
            columns.bytes_mut(),
            splits.bytes_mut(),
        )
        .into()
    },
    typed: &[TypedCall {
        name: "timed_initialize_full",
        answers: &[0, 1, 2, 4],
        port: |g, s| {
            let [offsets, columns, splits] = every(s);
            port::timed_initialize_full(
                g.count(0),
                offsets.indexes_mut(),
                columns.indexes_mut(),
                splits.indexes_mut(),
            )
            .into()
        },
    }],
};

const ILUK: SliceCall = SliceCall {
    name: "initialize_iluk",
    has_dim: false,
    takes: &[
        STARTS,
        ENTRIES,
        Take::Count("k"),
        OFFSETS,
        COLUMNS,
        SPLITS,
        write("levels", Level, Length::Levels),
        write("row", Index, Length::Marks),
    ],
    besides: Besides::Nothing,
    // 5 never occurs: no level reaches the row's own number.
    answers: &[0, 1, 2, 3, 4],
    refusal: |r| refusal(refusal_of_pattern(r), || iluk(r).idx2col.len() as u128, r),
    oracle: |r| written(&iluk(r), r),
    panics: |_, _| false,
    port: |g, s| {
        let [starts, entries, offsets, columns, splits, levels, row] = every(s);
        port::initialize_iluk(
            starts.bytes(),
            entries.bytes(),
            g.count(0),
            offsets.bytes_mut(),
            columns.bytes_mut(),
            splits.bytes_mut(),
            levels.bytes_mut(),
            row.bytes_mut(),
        )
        .into()
    },
    typed: &[TypedCall {
        name: "timed_initialize_iluk",
        answers: &[0, 1, 2, 3, 4],
        port: |g, s| {
            let [starts, entries, offsets, columns, splits, levels, row] = every(s);
            port::timed_initialize_iluk(
                starts.indexes(),
                entries.indexes(),
                g.count(0),
                offsets.indexes_mut(),
                columns.indexes_mut(),
                splits.indexes_mut(),
                levels.levels_mut(),
                row.indexes_mut(),
            )
            .into()
        },
    }],
};

/// What refuses the input itself, or else 4 if what is to be written has no room. Its entries are counted only
/// if the input is accepted, since the original is no measure on other input.
fn refusal(of_input: u32, entries: impl Fn() -> u128, reading: &Reading) -> u32 {
    if of_input != rules::DONE {
        return of_input;
    }
    rules::first_refusal(&[(rules::ROOM, rules::lacks_room(entries(), reading.room()))])
}

fn refusal_of_pattern(reading: &Reading) -> u32 {
    let (offsets, columns) = (reading.indexes("starts"), reading.indexes("entries"));
    let pattern = Pattern {
        offsets: &offsets,
        columns: &columns,
    };
    rules::first_refusal(&[
        (rules::SIZE, rules::is_too_large(&pattern)),
        (rules::SHAPE, reading.is_misshapen()),
        (rules::PATTERN, !rules::is_valid(&pattern)),
    ])
}

fn refusal_of_n(reading: &Reading) -> u32 {
    let n = u128::from(reading.count("n"));
    rules::first_refusal(&[
        (rules::SIZE, !rules::rows_in_range(n)),
        (rules::SHAPE, reading.is_misshapen()),
    ])
}

/// A pattern does not depend on N.
type Matrix = MatrixOwned<[f64; 1]>;
type Factor = Preconditioner<[f64; 1]>;

fn matrix(reading: &Reading) -> Matrix {
    Matrix::from_vtx2vtx(&reading.wide("starts"), &reading.wide("entries"))
}

fn ilu0(reading: &Reading) -> Factor {
    let mut factor = Factor::new();
    factor.initialize_ilu0(&matrix(reading));
    factor
}

fn full(reading: &Reading) -> Factor {
    let mut factor = Factor::new();
    factor.initialize_full(reading.count("n") as usize);
    factor
}

fn iluk(reading: &Reading) -> Factor {
    let mut factor = Factor::new();
    factor.initialize_iluk(&matrix(reading), reading.count("k") as usize);
    factor
}

/// The original's pattern in the lent slices: "output columns past the last entry are 0", and so are work words.
fn written(factor: &Factor, reading: &Reading) -> Worked {
    let words = |list: &[usize]| -> Vec<u64> { list.iter().map(|&word| word as u64).collect() };
    let mut columns = words(&factor.idx2col);
    columns.resize(reading.room(), 0);
    let mut written = vec![words(&factor.row2idx), columns, words(&factor.row2idx_dia)];
    if reading.name() == ILUK.name {
        written.push(vec![0; reading.room()]);
        written.push(vec![0; factor.num_blk]);
    }
    Worked {
        written,
        ..Worked::default()
    }
}

/// Random patterns: of any kind, and sparse ones with long walks, at so many levels each.
const CASES: usize = 1_500;
const LONG: usize = 3_000;
const LEVELS_EACH: usize = 5;

/// Cases of which every slice is tried at every wrong length, and some at once; and whose pattern is tried with
/// every fault.
const WRONG_LENGTHS: usize = 25;
const DAMAGED: usize = 120;

/// The most room that may be lent.
const MOST_ROOM: usize = 65_535;

fn compare(settings: &Settings, tally: &mut Tally) {
    for call in CALLS {
        call.can_answer(tally);
    }
    compare_full(settings, tally);
    compare_ilu0(settings, tally);
    compare_iluk(settings, tally);
}

fn compare_ilu0(settings: &Settings, tally: &mut Tally) {
    let random = &mut settings.random(ILU0.name);
    eprintln!("comparing {}: all patterns up to n = 4", ILU0.name);
    for pattern in (1..=4).flat_map(sparse::every_pattern) {
        let room = any_room(pattern.entries(), random);
        try_room(&ILU0, &pattern, 0, room, random, tally);
    }
    eprintln!("comparing {}: other patterns", ILU0.name);
    for _ in 0..settings.cases(CASES) {
        let pattern = sparse::any_small(random);
        try_rooms(&ILU0, &pattern, 0, random, tally);
    }
    for pattern in large_patterns(random) {
        try_every_room(&ILU0, &pattern, 0, random, tally);
    }
    compare_refused(&ILU0, settings, random, tally);
}

fn compare_iluk(settings: &Settings, tally: &mut Tally) {
    let random = &mut settings.random(ILUK.name);
    eprintln!("comparing {}: all patterns up to n = 4", ILUK.name);
    for pattern in (1..=4).flat_map(sparse::every_sorted_pattern) {
        for k in 0..=4 {
            let pattern = pattern.clone().shuffled(random);
            try_rooms(&ILUK, &pattern, k, random, tally);
        }
    }
    eprintln!("comparing {}: long walks", ILUK.name);
    for _ in 0..settings.cases(LONG) {
        let pattern = sparse::any_long(random);
        for _ in 0..LEVELS_EACH {
            let k = any_level(random);
            try_rooms(&ILUK, &pattern, k, random, tally);
        }
    }
    eprintln!("comparing {}: other patterns", ILUK.name);
    for _ in 0..settings.cases(CASES) {
        let (pattern, k) = (sparse::any_small(random), any_level(random));
        try_rooms(&ILUK, &pattern, k, random, tally);
    }
    for pattern in large_patterns(random) {
        try_every_room(&ILUK, &pattern, 0, random, tally);
    }
    for (pattern, k) in large_fills(random) {
        try_every_room(&ILUK, &pattern, k, random, tally);
    }
    compare_refused(&ILUK, settings, random, tally);
}

/// Levels that matter for up to 14 rows, and some that are so large that all is filled.
fn any_level(random: &mut Random) -> u32 {
    match random.below(6) {
        0 => *random.pick(&[u32::MAX, u32::MAX - 1, 1 << 31, 65_536, 65_535, 4096]),
        1 | 2 => random.below(15) as u32,
        _ => random.below(7) as u32,
    }
}

/// Some at 64 to 4,096 rows, sorted or not; one is as full as can be.
fn large_patterns(random: &mut Random) -> Vec<Sparse> {
    vec![
        sparse::plate(8),
        sparse::plate(64).shuffled(random),
        sparse::dense(256).shuffled(random),
        sparse::chain(4096).shuffled(random),
        sparse::empty(4096),
        sparse::full(random),
    ]
}

/// Patterns and levels at which most rows are filled, but the original ends soon.
fn large_fills(random: &mut Random) -> Vec<(Sparse, u32)> {
    let mut fills = Vec::new();
    for k in 1..=3 {
        for side in [8, 16, 32] {
            fills.push((sparse::plate(side).shuffled(random), k));
        }
        fills.push((sparse::with_entries(300, 2, random), k));
        fills.push((sparse::scattered(64, 1, random).shuffled(random), k));
    }
    fills.extend([
        // 47,628 entries, and 70,440 for which there is never room.
        (sparse::plate(64), 1),
        (sparse::plate(64), 2),
        (sparse::chain(4096), u32::MAX),
        (sparse::band(512, 20).shuffled(random), u32::MAX),
        (sparse::plate(8), u32::MAX),
        (sparse::plate(12).shuffled(random), 65_536),
        (sparse::arrow(1000, 999), 5),
        (sparse::arrow(300, 150).shuffled(random), 1),
        // All of 65,280 entries.
        (sparse::arrow(256, 0), 1),
        (sparse::dense(64).shuffled(random), 3),
        (sparse::empty(4096), u32::MAX),
    ]);
    fills
}

fn compare_full(settings: &Settings, tally: &mut Tally) {
    let random = &mut settings.random(FULL.name);
    eprintln!("comparing {}", FULL.name);
    for _ in 0..settings.cases(40) {
        for n in 1..=24 {
            try_rooms(&FULL, &sparse::empty(n), 0, random, tally);
        }
    }
    for n in [64, 100, 200, 255, 256, 257, 300, 4096] {
        try_every_room(&FULL, &sparse::empty(n), 0, random, tally);
    }
    compare_lengths(&FULL, settings, random, tally);
    compare_ends(&FULL, random, tally);
    // n by itself: no lengths are right for it.
    for n in [0, 4095, 4097, 65_536, 65_537, 1 << 31, u32::MAX] {
        for room in [0, 12, MOST_ROOM, MOST_ROOM + 1] {
            let mut given = given(&FULL, &sparse::empty(4), 0, room, random);
            given.numbers[0] = u64::from(n);
            FULL.try_given(&given, random, tally);
        }
    }
}

fn compare_refused(call: &SliceCall, settings: &Settings, random: &mut Random, tally: &mut Tally) {
    compare_lengths(call, settings, random, tally);
    compare_damaged(call, settings, random, tally);
    compare_ends(call, random, tally);
}

/// What a call is given with this room. `initialize_full` has of the pattern only its n.
fn given(call: &SliceCall, pattern: &Sparse, k: u32, room: usize, random: &mut Random) -> Given {
    let counts = Counts {
        dim: 1,
        rows: pattern.n(),
        entries: room,
        ..Counts::default()
    };
    let indexes = [
        ("starts", &pattern.offsets[..]),
        ("entries", &pattern.columns),
    ];
    let mut given = call.given(&counts, &indexes, Fill::Mixed, random);
    if call.name == ILUK.name {
        given.numbers[0] = u64::from(k);
    }
    given
}

/// How many entries the original writes for a valid pattern.
fn needed(call: &SliceCall, pattern: &Sparse, k: u32) -> usize {
    match call.name {
        "initialize_ilu0" => pattern.entries(),
        "initialize_full" => rules::entries_of_full(pattern.n() as u32) as usize,
        _ => {
            let given = given(call, pattern, k, 0, &mut Random::new(0));
            iluk(&call.reading(&given)).idx2col.len()
        }
    }
}

fn try_room(
    call: &SliceCall,
    pattern: &Sparse,
    k: u32,
    room: usize,
    random: &mut Random,
    tally: &mut Tally,
) {
    let given = given(call, pattern, k, room, random);
    call.try_given(&given, random, tally);
}

/// Room that is enough, one short, none, or more.
fn any_room(needed: usize, random: &mut Random) -> usize {
    match random.below(6) {
        0 => needed.saturating_sub(1),
        1 => needed + 1,
        2 => needed + 1 + random.below(9),
        3 => random.below(needed + 1),
        _ => needed,
    }
}

/// Room that is just enough, and some other.
fn try_rooms(call: &SliceCall, pattern: &Sparse, k: u32, random: &mut Random, tally: &mut Tally) {
    let needed = needed(call, pattern, k);
    for room in [needed, any_room(needed, random)] {
        try_room(call, pattern, k, room, random, tally);
    }
}

/// Room that is just enough, one short, and as large as can be.
fn try_every_room(
    call: &SliceCall,
    pattern: &Sparse,
    k: u32,
    random: &mut Random,
    tally: &mut Tally,
) {
    let needed = needed(call, pattern, k);
    let just = [needed, needed.saturating_sub(1)].map(|room| room.min(MOST_ROOM));
    for room in just.into_iter().chain([MOST_ROOM]) {
        try_room(call, pattern, k, room, random, tally);
    }
}

fn compare_lengths(call: &SliceCall, settings: &Settings, random: &mut Random, tally: &mut Tally) {
    for _ in 0..settings.cases(WRONG_LENGTHS) {
        let (pattern, k) = (sparse::any_small(random), any_level(random));
        let needed = needed(call, &pattern, k);
        for room in [needed, needed.saturating_sub(1)] {
            let given = given(call, &pattern, k, room, random);
            call.try_lengths(&given, random, tally);
            for _ in 0..10 {
                call.try_some_lengths(&given, random, tally);
            }
        }
    }
}

/// The pattern wrong by one rule, with room and without; then lengths are wrong too, which are asked before.
fn compare_damaged(call: &SliceCall, settings: &Settings, random: &mut Random, tally: &mut Tally) {
    let mut patterns: Vec<Sparse> = (0..settings.cases(DAMAGED))
        .map(|_| sparse::any_small(random))
        .collect();
    patterns.push(sparse::plate(16));
    for pattern in patterns {
        for damage in DAMAGES {
            let Some(wrong) = sparse::damaged(&pattern, damage, random) else {
                continue;
            };
            let k = random.below(3) as u32;
            for room in [pattern.entries() + random.below(9), 0] {
                let given = given(call, &wrong, k, room, random);
                call.try_given(&given, random, tally);
                call.try_some_lengths(&given, random, tally);
            }
        }
    }
}

/// Both limits and what is next to them, of rows, entries and room, also with bytes that are no whole word.
fn compare_ends(call: &SliceCall, random: &mut Random, tally: &mut Tally) {
    for pattern in sparse::ends(random) {
        for room in [pattern.entries(), 0, MOST_ROOM, MOST_ROOM + 1] {
            let given = given(call, &pattern, 0, room, random);
            call.try_given(&given, random, tally);
            call.try_some_lengths(&given, random, tally);
        }
        let given = given(call, &pattern, 0, pattern.entries().min(MOST_ROOM), random);
        for at in 0..given.slices.len() {
            let mut given = given.clone();
            let length = given.slices[at].len() + 1 + random.below(3);
            resize(&mut given.slices[at], length, random);
            call.try_given(&given, random, tally);
        }
    }
}

fn sample(seed: u64) -> Vec<Line> {
    let each = CALLS.iter().map(|call| {
        let random = &mut Random::named(seed, call.name);
        let mut lines = accepted_lines(call, random);
        lines.extend(length_lines(call, random));
        if call.name != FULL.name {
            lines.extend(pattern_lines(call, random));
        }
        lines
    });
    each.flatten().collect()
}

/// Pairs of rows, both ways.
fn of_pairs(n: usize, pairs: &[(usize, usize)]) -> Sparse {
    sparse::where_stands(n, |i, j| pairs.contains(&(i, j)) || pairs.contains(&(j, i)))
}

/// 01's pattern P.
fn pattern_p() -> Sparse {
    of_pairs(5, &[(0, 2), (0, 3), (1, 2), (1, 4)])
}

/// The pattern of 01's case 5.
fn pattern_of_case_5() -> Sparse {
    of_pairs(5, &[(0, 3), (0, 1), (1, 2), (2, 4)])
}

/// A pattern, a level and a room.
type Listed = (Sparse, u32, usize);

/// Small patterns and 01's cases, with room that is enough, more or one short.
fn accepted_lines(call: &SliceCall, random: &mut Random) -> Vec<Line> {
    let listed = match call.name {
        "initialize_full" => listed_full(),
        "initialize_ilu0" => listed_ilu0(random),
        _ => listed_iluk(random),
    };
    let each = listed.iter();
    each.map(|(pattern, k, room)| call.line(&given(call, pattern, *k, *room, random)))
        .collect()
}

fn listed_full() -> Vec<Listed> {
    let rooms = [
        (1, vec![0, 2]),
        (2, vec![2, 1]),
        (3, vec![6, 8, 5]),
        (4, vec![12]),
        (5, vec![20]),
    ];
    let each = rooms.into_iter();
    each.flat_map(|(n, rooms)| {
        rooms
            .into_iter()
            .map(move |room| (sparse::empty(n), 0, room))
    })
    .collect()
}

fn listed_ilu0(random: &mut Random) -> Vec<Listed> {
    vec![
        (sparse::empty(1), 0, 0),
        (sparse::empty(3), 0, 2),
        (sparse::chain(5), 0, 8),
        (sparse::dense(4).shuffled(random), 0, 12),
        (pattern_p(), 0, 8),
        (pattern_p().shuffled(random), 0, 10),
        (pattern_p(), 0, 7),
        (pattern_p(), 0, 0),
    ]
}

fn listed_iluk(random: &mut Random) -> Vec<Listed> {
    let mut listed = vec![
        (sparse::empty(1), 0, 0),
        (sparse::empty(1), 1, 2),
        (sparse::empty(1), u32::MAX, 0),
        (sparse::empty(3), 2, 1),
        (sparse::dense(4).shuffled(random), 1, 12),
        (sparse::arrow(4, 0), 1, 12),
        (sparse::arrow(4, 0), 0, 6),
        (pattern_p().shuffled(random), 2, 16),
        (pattern_p(), u32::MAX, 14),
        (pattern_p(), 0, 7),
        (pattern_p(), 1, 0),
    ];
    for room in [13, 14] {
        listed.extend([0, 1, 2].map(|k| (pattern_p(), k, room)));
    }
    listed.extend([0, 1, 2, 3].map(|k| (pattern_of_case_5(), k, 14)));
    listed.extend([2, 3].map(|k| (pattern_of_case_5(), k, 12)));
    listed
}

/// No row; n alone; and each written slice but the columns a word short, or a word long without enough room.
fn length_lines(call: &SliceCall, random: &mut Random) -> Vec<Line> {
    let mut lines = vec![call.line(&given(call, &sparse::empty(0), 0, 0, random))];
    if call.name == FULL.name {
        for n in [257, 4096, 4097, u32::MAX] {
            let mut given = given(call, &sparse::empty(2), 0, 2, random);
            given.numbers[0] = u64::from(n);
            lines.push(call.line(&given));
        }
    }
    for (at, slice) in call.slices().enumerate() {
        if slice.access != Access::Write || slice.name == "columns" {
            continue;
        }
        for (room, longer) in [(6, false), (3, true)] {
            let mut given = given(call, &sparse::chain(3), 1, room, random);
            let (length, word) = (given.slices[at].len(), slice.element.bytes());
            let wrong = if longer { length + word } else { length - word };
            resize(&mut given.slices[at], wrong, random);
            lines.push(call.line(&given));
        }
    }
    lines
}

/// A pattern with each fault; one of them without room, and one with wrong lengths; and no offset at all.
fn pattern_lines(call: &SliceCall, random: &mut Random) -> Vec<Line> {
    let pattern = sparse::scattered(4, 9, random);
    let room = pattern.entries() + 1;
    let mut tried = Vec::new();
    for damage in DAMAGES {
        let wrong = sparse::damaged(&pattern, damage, random);
        tried.extend(wrong.map(|wrong| given(call, &wrong, 1, room, random)));
    }
    let wrong = sparse::damaged(&pattern, Damage::FallingOffset, random).expect("a middle offset");
    tried.push(given(call, &wrong, 1, 0, random));
    let mut misshapen = given(call, &wrong, 1, room, random);
    misshapen.slices[2].clear();
    tried.push(misshapen);
    let none = Sparse {
        offsets: Vec::new(),
        columns: vec![0],
    };
    tried.push(given(call, &none, 1, 2, random));
    tried.iter().map(|given| call.line(given)).collect()
}
