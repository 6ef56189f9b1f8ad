//! The book of commits: the paper's abstract model. It is fed the calls'
//! arguments and answers and which blocks of group writes landed, nothing else.

use crate::landing::Landed;

pub type Block = [u8; 64];

#[derive(Clone)]
pub struct Entry {
    pub home: u64,
    pub block: Block,
    /// The call whose group write carries it, once submitted, and its place there.
    pub call: Option<usize>,
    pub place: usize,
    pub landed: bool,
}

/// An open transaction: logged entries, and at most one pending block.
#[derive(Clone, Default)]
pub struct Open {
    pub logged: Vec<usize>,
    pub held: Option<(u64, Block)>,
}

#[derive(Clone, Default)]
pub struct Book {
    pub entries: Vec<Entry>,
    /// The commits, each a list of entries.
    pub commits: Vec<Vec<usize>>,
    pub row: Vec<usize>,
    pub writers: [Option<Open>; 8],
}

impl Book {
    pub fn begin(&mut self, writer: u64) {
        self.writers[writer as usize] = Some(Open::default());
    }

    pub fn abort(&mut self, writer: u64) {
        self.writers[writer as usize] = None;
    }

    /// Would a store of this home log the pending block first?
    pub fn store_logs(&self, writer: u64, home: u64) -> bool {
        let held = self.writers[writer as usize].as_ref().and_then(|open| open.held);
        matches!(held, Some((other, _)) if other != home)
    }

    pub fn store(&mut self, call: usize, writer: u64, home: u64, block: Block) {
        if self.store_logs(writer, home) {
            self.log(call, writer);
        }
        self.writers[writer as usize].as_mut().unwrap().held = Some((home, block));
    }

    fn log(&mut self, call: usize, writer: u64) {
        let open = self.writers[writer as usize].as_mut().unwrap();
        let (home, block) = open.held.take().unwrap();
        let index = self.entries.len();
        self.entries.push(Entry { home, block, call: None, place: self.row.len(), landed: false });
        open.logged.push(index);
        self.row.push(index);
        if self.row.len() == 7 {
            self.submit(call);
        }
    }

    fn submit(&mut self, call: usize) {
        for index in self.row.drain(..) {
            self.entries[index].call = Some(call);
        }
    }

    /// Says whether the commit went into the list.
    pub fn commit(&mut self, call: usize, writer: u64) -> bool {
        let held = self.writers[writer as usize].as_ref().unwrap().held.is_some();
        if held {
            self.log(call, writer);
        }
        let open = self.writers[writer as usize].take().unwrap();
        if held {
            self.commits.push(open.logged);
        }
        held
    }

    pub fn flush(&mut self, call: usize) {
        self.submit(call);
    }

    /// An entry has landed when its tag's block and its data block both have.
    /// What stays in the list is the surviving prefix (the paper's "run").
    pub fn crash(&mut self, landed: &[Landed]) {
        for entry in &mut self.entries {
            if let Some(call) = entry.call {
                let found = landed.binary_search_by_key(&call, |group| group.call);
                entry.landed |= found.map_or(false, |at| landed[at].has_entry(entry.place));
            }
        }
        let entries = &self.entries;
        let whole = |commit: &Vec<usize>| commit.iter().all(|&index| entries[index].landed);
        let keep = self.commits.iter().take_while(|commit| whole(commit)).count();
        self.commits.truncate(keep);
        self.row.clear();
        self.writers = Default::default();
    }

    /// D blocks of zeros with the entries of the first `count` commits
    /// written in, in order.
    pub fn homes_after(&self, count: usize, homes: u64) -> Vec<u8> {
        let mut data = vec![0; 64 * homes as usize];
        for &index in self.commits[..count].iter().flatten() {
            let entry = &self.entries[index];
            let from = 64 * entry.home as usize;
            data[from..from + 64].copy_from_slice(&entry.block);
        }
        data
    }

    /// What a read by this writer must give.
    pub fn read(&self, writer: u64, home: u64) -> Block {
        if let Some(open) = &self.writers[writer as usize] {
            if let Some((held, block)) = open.held {
                if held == home {
                    return block;
                }
            }
            if let Some(block) = self.newest(&open.logged, home) {
                return block;
            }
        }
        self.committed(home)
    }

    /// The newest committed block of a home.
    pub fn committed(&self, home: u64) -> Block {
        let newest = self.commits.iter().rev().find_map(|commit| self.newest(commit, home));
        newest.unwrap_or([0; 64])
    }

    fn newest(&self, list: &[usize], home: u64) -> Option<Block> {
        let mut back = list.iter().rev().map(|&index| &self.entries[index]);
        back.find(|entry| entry.home == home).map(|entry| entry.block)
    }
}
