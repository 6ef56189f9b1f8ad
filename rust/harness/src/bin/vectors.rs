//! `vectors --seed S --count N --several M --usages U`: test cases, one line of
//! JSON each; M of calls on several homes behind the others, then U of usage.

use harness::cases::{several, Cases};
use harness::options::Words;
use harness::rng::Rng;
use std::io::{BufWriter, Write};

fn main() -> std::io::Result<()> {
    let mut words = Words::new("usage: vectors [--seed S] [--count N] [--several M] [--usages U]");
    let seed = words.number("--seed", 1);
    let count = words.number("--count", 1000);
    let more = words.number("--several", 0);
    let usages = words.number("--usages", 0);
    words.done();
    let (mut cases, mut rng) = (Cases::new(seed), Rng::new(seed));
    let mut out = BufWriter::new(std::io::stdout().lock());
    for _ in 0..count {
        writeln!(out, "{}", cases.case().json())?;
    }
    for _ in 0..more {
        writeln!(out, "{}", several(&mut rng))?;
    }
    for _ in 0..usages {
        writeln!(out, "{}", cases.usage())?;
    }
    out.flush()
}
