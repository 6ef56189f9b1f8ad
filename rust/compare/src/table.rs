//! Counts for a person to read.
//! Clauses: [S-47, S-49]

use crate::pair::{Counts, Sizes, GROUPS, HOMES};
use reference::lent::Kind;

/// The answers that a call's questions lead to.
fn answers(kind: Kind) -> &'static [usize] {
    match kind {
        Kind::Format => &[0, 1, 9],
        Kind::Open => &[0, 1, 3, 9, 10],
        Kind::Begin => &[0, 1, 2, 4, 6],
        Kind::Reserve => &[0, 1, 2, 4, 6, 17],
        Kind::Abort => &[0, 1, 2, 4, 7],
        Kind::Store => &[0, 1, 2, 4, 5, 7, 8, 9, 19],
        Kind::Commit => &[0, 1, 2, 4, 7, 8, 9],
        Kind::Flush => &[0, 1, 2, 9, 18],
        Kind::Settle | Kind::StepRound => &[0, 1, 2, 9, 21],
        Kind::BeginRound => &[0, 1, 2, 21],
        Kind::Confirm => &[0, 1, 2],
        Kind::Trim => &[0, 1, 2, 9, 10],
        Kind::Read => &[0, 1, 2, 4, 5, 20],
    }
}

/// All answers that calls give.
const ANSWERS: [usize; 16] = [0, 1, 2, 3, 4, 5, 6, 7, 8, 9, 10, 17, 18, 19, 20, 21];

/// One row for each call, one column for each answer.
pub fn show(title: &str, counts: &Counts) {
    println!("{title}: calls compared, by answer (0 is done)");
    print!("{:11}", "");
    ANSWERS.iter().for_each(|answer| print!("{answer:>8}"));
    println!();
    for kind in Kind::ALL {
        print!("{:11}", kind.name());
        for answer in ANSWERS {
            let count = counts[kind as usize][answer];
            let possible = count > 0 || answers(kind).contains(&answer);
            print!("{:>8}", if possible { count.to_string() } else { "-".to_string() });
        }
        println!();
    }
    println!();
}

/// One row for each G, one column for each D.
pub fn show_sizes(sizes: &Sizes) {
    let name = |letter: char, marks: &[usize], at: usize| match marks.get(at) {
        Some(mark) => format!("{letter} {mark}"),
        None => format!("other {letter}"),
    };
    println!("Calls compared, by size");
    print!("{:9}", "");
    (0..=HOMES.len()).for_each(|at| print!("{:>10}", name('D', &HOMES, at)));
    println!();
    for (at, row) in sizes.iter().enumerate() {
        print!("{:9}", name('G', &GROUPS, at));
        row.iter().for_each(|count| print!("{count:>10}"));
        println!();
    }
    println!();
}

/// Names each answer that a call can give and that was not compared.
pub fn show_missing(all: &[&Counts]) {
    let met = |kind: Kind, answer: usize| all.iter().any(|counts| counts[kind as usize][answer] > 0);
    let of = |&kind: &Kind| answers(kind).iter().map(move |&answer| (kind, answer));
    let possible = Kind::ALL.iter().flat_map(of);
    let missing: Vec<String> = possible
        .filter(|&(kind, answer)| !met(kind, answer))
        .map(|(kind, answer)| format!("{} {answer}", kind.name()))
        .collect();
    if !missing.is_empty() {
        println!("not met in this run: {}\n", missing.join(", "));
    }
}
