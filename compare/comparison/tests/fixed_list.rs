// The fixed list: its lines read back, and the port answers each of them as the original does.
// So the form that the header documents is the form that the lines have.

use comparison::groups;
use comparison::list::{Line, SEED};
use comparison::stack;
use comparison::words;

/// How many of a line's words are inputs, by the group of its call.
fn input_words(call: &str, dim: usize, words: &[u64]) -> Option<usize> {
    let mut groups = groups::ALL.iter();
    groups.find_map(|group| (group.input_words)(call, dim, words))
}

fn agree(a: &Line, b: &Line) -> bool {
    let mut pairs = a.outputs.iter().zip(&b.outputs);
    (a.number, a.row, a.outputs.len()) == (b.number, b.row, b.outputs.len())
        && pairs.all(|(&a, &b)| words::agree(a, b))
}

#[test]
fn the_port_answers_every_line() {
    stack::with_room(|| {
        for group in groups::ALL {
            for line in (group.sample)(SEED) {
                let text = line.text();
                let read = Line::parse(&text, input_words).expect(&text);
                assert_eq!(read, line);
                let made = (group.replay)(&read);
                assert!(
                    agree(&made, &line),
                    "expected {text}\ngot      {}",
                    made.text()
                );
            }
        }
    });
}

fn all_lines() -> Vec<Line> {
    let lines = groups::ALL.iter().map(|group| (group.sample)(SEED));
    lines.flatten().collect()
}

#[test]
fn the_list_has_every_call_and_answer() {
    let lines = all_lines();
    assert!((1500..1900).contains(&lines.len()), "{} lines", lines.len());
    let has = |call: &str, dim: u32, number: u32| {
        let mut lines = lines.iter();
        lines.any(|line| (line.call.as_str(), line.dim, line.number) == (call, dim, number))
    };
    for dim in 1..=3 {
        assert!(has("inverse", dim, 9));
        for number in [0, 1, 2] {
            assert!(has("dot", dim, number), "dot {number}");
        }
        for number in [0, 1, 2, 3] {
            assert!(has("mult_vec", dim, number), "mult_vec {number}");
        }
    }
    for call in ["merge", "csrdia", "blkcsr"] {
        for number in [0, 1, 2, 3, 6, 7] {
            assert!(has(call, 1, number), "{call} {number}");
        }
    }
    assert!(has("check_factor", 1, 11));
    for number in [0, 1, 2, 3, 4] {
        assert!(has("initialize_ilu0", 1, number), "ilu0 {number}");
        assert!(has("initialize_iluk", 1, number), "iluk {number}");
    }
    for number in [0, 1, 2, 4] {
        assert!(has("initialize_full", 1, number), "full {number}");
    }
    for dim in 1..=3 {
        for number in [0, 1, 2, 3, 11] {
            for call in ["copy_value", "decompose", "solve_preconditioning_vec"] {
                assert!(has(call, dim, number), "{call} {dim} {number}");
            }
        }
        assert!(has("copy_value", dim, 8) && has("decompose", dim, 9));
        for number in [0, 1, 10, 2, 3] {
            assert!(has(PLAIN, dim, number), "{PLAIN} {dim} {number}");
        }
        for number in [0, 1, 10, 2, 3, 11] {
            assert!(
                has(PRECONDITIONED, dim, number),
                "{PRECONDITIONED} {dim} {number}"
            );
        }
    }
}

const PLAIN: &str = "conjugate_gradient";
const PRECONDITIONED: &str = "preconditioned_conjugate_gradient";

/// The second output of a solver is its verdict.
#[test]
fn the_list_has_every_verdict() {
    let lines = all_lines();
    for call in [PLAIN, PRECONDITIONED] {
        for dim in 1..=3 {
            for verdict in 1..=3 {
                let mut lines = lines.iter();
                assert!(
                    lines.any(|line| (line.call.as_str(), line.dim) == (call, dim)
                        && line.number == 0
                        && line.outputs[1] == verdict),
                    "{call} {dim}: {verdict}"
                );
            }
        }
    }
}

/// A reader without Rust keeps a line's words in a place of fixed length.
#[test]
fn no_line_is_long() {
    for line in all_lines() {
        let words = line.inputs.len() + 2 + line.outputs.len();
        assert!(words <= 123, "{} {}: {words} words", line.call, line.dim);
    }
}
