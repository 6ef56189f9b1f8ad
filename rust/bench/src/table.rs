//! The results for people and for other programs.

use crate::cases::Table;
use crate::row::Row;
use std::fmt::Write;

/// Ratios of instructions above which a row is marked.
const MARKS: [(f64, &str); 2] = [(1.5, "**"), (1.2, "*")];

fn mark(row: &Row) -> String {
    let ratio = row.ratio(1).unwrap_or(0.0);
    let found = MARKS.iter().find(|(above, _)| ratio > *above);
    found.map_or("", |(_, mark)| mark).to_string()
}

/// Rounded, with commas between thousands.
fn whole(number: Option<f64>) -> String {
    let number = match number {
        Some(number) => number,
        None => return "-".to_string(),
    };
    let digits = (number.round() as u64).to_string();
    let mut text = String::new();
    for (index, digit) in digits.chars().enumerate() {
        if index > 0 && (digits.len() - index) % 3 == 0 {
            text.push(',');
        }
        text.push(digit);
    }
    text
}

/// To two decimals; to none from a hundred on.
fn ratio(number: Option<f64>) -> String {
    match number {
        Some(number) if number < 100.0 => format!("{number:.2}"),
        number => whole(number),
    }
}

/// Lines of cells under a head; the first `left` columns align left.
fn aligned(title: &str, left: usize, head: &[&str], lines: Vec<Vec<String>>) -> String {
    let mut rows = vec![head.iter().map(|cell| cell.to_string()).collect()];
    rows.extend(lines);
    let width = |column: usize| rows.iter().map(|row: &Vec<String>| row[column].len()).max();
    let widths: Vec<usize> = (0..head.len()).filter_map(width).collect();
    let mut text = format!("{title}\n");
    for row in &rows {
        let mut line = String::new();
        for (column, (cell, &width)) in row.iter().zip(&widths).enumerate() {
            match column < left {
                true => write!(line, "  {cell:<width$}").unwrap(),
                false => write!(line, "  {cell:>width$}").unwrap(),
            }
        }
        text += line.trim_end();
        text.push('\n');
    }
    text
}

fn of(rows: &[Row], table: Table) -> impl Iterator<Item = &Row> {
    rows.iter().filter(move |row| row.table == table)
}

/// Library against reference and floor, by instructions and time.
fn calls(rows: &[Row], table: Table, title: &str) -> String {
    let head = [
        "case", "call", "calls", "batch", "library", "reference", "floor", "lib/ref", "", "lib/floor", "lib ns",
        "ref ns", "lib/ref",
    ];
    let line = |row: &Row| {
        let time = |side: usize| whole(row.times.map(|times| times[side] as f64));
        vec![
            row.case.clone(),
            row.call.to_string(),
            whole(Some(row.calls as f64)),
            whole(Some(row.mean_batch())),
            whole(row.mean(0)),
            whole(row.mean(1)),
            whole(row.mean(2)),
            ratio(row.ratio(1)),
            mark(row),
            ratio(row.ratio(2)),
            time(0),
            time(1),
            ratio(row.time_ratio()),
        ]
    };
    aligned(title, 2, &head, of(rows, table).map(line).collect())
}

/// The library's instructions in all, per group of the ring and per group in use.
fn sizes(rows: &[Row]) -> String {
    let head = ["call", "G", "in use", "library", "per group", "per used", "reference", "lib/ref", ""];
    let mut sorted: Vec<&Row> = of(rows, Table::Size).collect();
    sorted.sort_by_key(|row| (row.call, row.used > 1, row.groups));
    let line = |row: &Row| {
        let per = |groups: u64| whole(row.mean(0).map(|mean| mean / groups as f64));
        vec![
            row.call.to_string(),
            whole(Some(row.groups as f64)),
            whole(Some(row.used as f64)),
            whole(row.mean(0)),
            per(row.groups),
            per(row.used),
            whole(row.mean(1)),
            ratio(row.ratio(1)),
            mark(row),
        ]
    };
    let title = "Cost against size (D 4,096), instructions per call";
    aligned(title, 1, &head, sorted.into_iter().map(line).collect())
}

/// All tables. `clock` is the clock's own cost in nanoseconds.
pub fn show(rows: &[Row], clock: u64) -> String {
    let notes = format!(
        "\
library, reference, floor  instructions per call, mean
floor                      one memcpy of the bytes that the call must move
batch                      bytes that the call asks the driver to write, mean
ns                         median per call, less the {clock} ns that the clock itself takes; short ones are rough
per commit                 all calls of the steady state, shared out among its commits
* and **                   above 1.2 and 1.5 times the reference implementation\n"
    );
    let parts = [
        calls(rows, Table::Calls, "Calls (G 1,024, D 4,096)"),
        calls(rows, Table::Durable, "Each commit durable by itself (G 1,024, D 4,096)"),
        calls(rows, Table::Worst, "Worst logs (G 1,024, D 4,096, full)"),
        notes,
        sizes(rows),
    ];
    parts.join("\n")
}

const COLUMNS: [&str; 12] = [
    "table", "case", "groups", "used", "call", "calls", "batch", "library", "reference", "floor", "library_ns",
    "reference_ns",
];

/// One line for each row, numbers plain, empty where there is none.
pub fn tsv(rows: &[Row]) -> String {
    let mut text = COLUMNS.join("\t") + "\n";
    for row in rows {
        let mean = |column| row.mean(column).map_or(String::new(), |mean| format!("{mean:.1}"));
        let time = |side: usize| row.times.map_or(String::new(), |times| times[side].to_string());
        let cells: [String; COLUMNS.len()] = [
            format!("{:?}", row.table).to_lowercase(),
            row.case.clone(),
            row.groups.to_string(),
            row.used.to_string(),
            row.call.to_string(),
            row.calls.to_string(),
            format!("{:.1}", row.mean_batch()),
            mean(0),
            mean(1),
            mean(2),
            time(0),
            time(1),
        ];
        text += &cells.join("\t");
        text.push('\n');
    }
    text
}
