//! Instruction counts: this program runs itself under callgrind, which counts
//! only inside the measured functions and writes one file for each case.

use crate::row::{Row, PER_COMMIT};
use crate::sides::PREFIXES;
use std::collections::HashMap;
use std::fs;
use std::io::ErrorKind;
use std::path::Path;
use std::process::Command;

/// Fills in the counts of each case's rows. False if there is no valgrind.
pub fn count(seed: u64, folder: &Path, cases: &mut [Vec<Row>]) -> bool {
    let (out, log) = (folder.join("callgrind.out"), folder.join("callgrind.log"));
    let mut command = Command::new("valgrind");
    command.args(["--tool=callgrind", "--collect-atstart=no", "--dump-line=no"]);
    command.args(["--compress-strings=no", "--compress-pos=no", "--dump-after=bench_dump"]);
    command.args(PREFIXES.map(|prefix| format!("--toggle-collect={prefix}*")));
    command.arg(format!("--callgrind-out-file={}", out.display()));
    command.arg(format!("--log-file={}", log.display()));
    command.arg(std::env::current_exe().expect("this program"));
    command.args(["--play", "--seed", &seed.to_string()]);
    // The environment lies above the stack and would shift it. "rep movsb" and
    // "rep stosb" count once for each byte; without them the C library's memcpy
    // and memset are loops of wide moves.
    command.env_clear().env("PATH", std::env::var_os("PATH").unwrap_or_default());
    command.env("GLIBC_TUNABLES", "glibc.cpu.hwcaps=-ERMS");
    match command.status() {
        Err(error) if error.kind() == ErrorKind::NotFound => return false,
        status => assert!(status.map_or(false, |status| status.success()), "see {}", log.display()),
    }
    for (index, rows) in cases.iter_mut().enumerate() {
        let path = folder.join(format!("callgrind.out.{}", index + 1));
        let profile = fs::read_to_string(&path).expect("a profile of each case");
        let costs = inclusive(&profile);
        for row in rows {
            row.counts = Some(PREFIXES.map(|prefix| cost(&costs, prefix, row.call)));
        }
        fs::remove_file(&path).expect("a profile that can be removed");
    }
    let _ = (fs::remove_file(out), fs::remove_file(log));
    true
}

/// The cost of the call's function, or of all calls.
fn cost(costs: &HashMap<&str, u64>, prefix: &str, call: &str) -> u64 {
    let wanted = |name: &str| match name.strip_prefix(prefix) {
        Some(rest) => rest == call || call == PER_COMMIT,
        None => false,
    };
    costs.iter().filter(|(name, _)| wanted(name)).map(|(_, cost)| cost).sum()
}

/// Instructions in each function and all that it called. A function's block has
/// a line of cost for itself and one after each line of calls.
fn inclusive(profile: &str) -> HashMap<&str, u64> {
    let mut costs = HashMap::new();
    let mut function = "";
    for line in profile.lines() {
        if let Some(name) = line.strip_prefix("fn=") {
            function = name;
        } else if line.starts_with(|first: char| first.is_ascii_digit()) {
            let cost = line.split_whitespace().nth(1).and_then(|word| word.parse().ok());
            *costs.entry(function).or_insert(0) += cost.unwrap_or(0);
        }
    }
    costs
}
