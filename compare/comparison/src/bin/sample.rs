// Prints the fixed list of the original's answers, which the port's own tests replay without Rust.
// The seed is fixed too, so that the list is the same whenever it is made.

use comparison::groups;
use comparison::list::{Line, SEED};

fn header(count: usize) -> Vec<String> {
    let mut lines = vec![
        "Answers of the original, one case a line: the fixed list that is replayed without Rust.".into(),
        "Made by `cargo run --release --bin sample` in compare/, from nobuyuki83/del-msh cab8861116".into(),
        "over stand-ins for num_traits and del_geo_core written from document 01.".into(),
        format!("Seed {SEED}, {count} cases. Do not edit: make it again."),
        String::new(),
        "Lines that start with # are to be passed over.".into(),
        "A line is: call N words. Fields are separated by one space. N is one decimal digit, and a".into(),
        "word is 16 hexadecimal digits, capital letters, the highest first. The words are the call's".into(),
        "inputs in order, then the number that it answers, then that number's row, then its outputs.".into(),
        "A value is the 64 bits of a double. A NaN comes in as any pattern; an output that is a NaN is".into(),
        "7FF8000000000000, and there any NaN is right. After number 9 the output is the block as given, and that".into(),
        "of `decompose` the values at that moment.".into(),
        "An index or a flag is a word too: its 32 bits, with zeros above; so is a level, of 16 bits. Calls with".into(),
        "`counts of` begin with a word for each slice that they are lent: how many words it has. Then come".into(),
        "their numbers and slices in order, also those that are only written, as they stood before. The".into(),
        "outputs are the slices that are written, as they stand after the call: after a refusal as before it,".into(),
        "after number 4 all words 0. A sum is 0 after a refusal.".into(),
        "A solver has three words before its slices: the count of its history's numbers, the verdict (1 Empty,".into(),
        "2 Settled, 3 Unsettled) and the last of the numbers, as a value, +0 if there is none; all three are 0 after".into(),
        "a refusal. Of `history` the first words, as many as the count, are written, and the rest stands as before.".into(),
        String::new(),
        "Calls, with their inputs; and their outputs:".into(),
    ];
    lines.extend(groups::ALL.iter().flat_map(|group| (group.about)()));
    lines
}

fn main() {
    let lines: Vec<Line> = groups::ALL
        .iter()
        .flat_map(|group| (group.sample)(SEED))
        .collect();
    for text in header(lines.len()) {
        println!("{}", format!("# {text}").trim_end());
    }
    for line in lines {
        println!("{}", line.text());
    }
}
