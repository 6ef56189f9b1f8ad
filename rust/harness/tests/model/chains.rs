//! The plain model of calls on several homes: the questions one by one, then
//! the model's own calls one after the other.

use super::rights::{may_read, may_store_lent_newest};
use super::{in_order, lengths, mode_of, places, promised, read, writers, Outcome};
use reference::chains::Chain;
use reference::lent::{Kind, Lent};
use reference::Answer;

pub fn run(chain: Chain, writer: u64, home: u64, before: &Lent) -> (Answer, Lent) {
    let mut after = before.clone();
    match attempt(chain, writer, home, before, &mut after) {
        Ok((figure, batch)) if batch.len() <= before.batch.len() => {
            after.batch[..batch.len()].copy_from_slice(&batch);
            (Answer { code: 0, figure, len: batch.len() }, after)
        }
        Ok(_) => (Answer { code: 9, figure: 0, len: 0 }, before.clone()),
        Err(code) => (Answer { code, figure: 0, len: 0 }, before.clone()),
    }
}

fn attempt(chain: Chain, writer: u64, home: u64, before: &Lent, after: &mut Lent) -> Outcome {
    let blocks = before.block.len() / 64;
    if !lengths(Kind::Commit, before) || before.block.len() != 64 * blocks || !(1..=7).contains(&blocks) {
        return Err(1);
    }
    if !in_order(before) {
        return Err(2);
    }
    if writer > 7 {
        return Err(4);
    }
    if i128::from(home) + blocks as i128 > before.data.len() as i128 / 64 {
        return Err(5);
    }
    let homes = home..home + blocks as u64;
    if chain != Chain::Fetch && homes.clone().any(|home| !may_store_lent_newest(before, writer, home)) {
        return Err(19);
    }
    if chain != Chain::Transact && homes.clone().any(|home| !may_read(before, writer, home)) {
        return Err(20);
    }
    if chain == Chain::Transact {
        return transact(writer, homes, before, after);
    }
    let mut one = before.clone();
    let mut all = Vec::new();
    for home in homes {
        read(before, &mut one, writer, home)?;
        all.extend(&one.block);
    }
    after.block = all;
    Ok((0, Vec::new()))
}

fn transact(writer: u64, homes: std::ops::Range<u64>, before: &Lent, after: &mut Lent) -> Outcome {
    if mode_of(&before.state, writer as usize) != 0 {
        return Err(6);
    }
    if (homes.end - homes.start) as i128 > places(&before.state) - promised(&before.state) {
        return Err(8);
    }
    let mut batch = Vec::new();
    writers::writer_call(Kind::Begin, writer, 0, before, after)?;
    for (index, home) in homes.enumerate() {
        let mut now = after.clone();
        now.block = before.block[64 * index..64 * index + 64].to_vec();
        batch.extend(writers::writer_call(Kind::Store, writer, home, &now, after)?.1);
    }
    let now = after.clone();
    let (ticket, last) = writers::writer_call(Kind::Commit, writer, 0, &now, after)?;
    batch.extend(last);
    Ok((ticket, batch))
}
