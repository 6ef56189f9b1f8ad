//! One call by every build of the library and by the reference implementation, on
//! equal memory, compared.

use crate::build::{views, Build};
use bindings::library::Reply;
use bindings::trap;
use reference::layout::refuse;
use reference::lent::{Kind, Lent, Runner};
use reference::usage::usage;
use reference::Answer;
use std::cell::RefCell;
use std::rc::Rc;

/// How many calls were compared: by call, by answer.
pub type Counts = [[u64; refuse::END]; Kind::COUNT];

/// Sizes that are counted apart, and one more row and column for all others.
pub const GROUPS: [usize; 4] = [4, 5, 64, 1024];
pub const HOMES: [usize; 6] = [1, 7, 13, 64, 4096, 65535];
pub type Sizes = [[u64; HOMES.len() + 1]; GROUPS.len() + 1];

pub struct Pair {
    builds: Vec<Build>,
    seed: u64,
    /// Calls compared so far.
    pub case: u64,
    pub counts: Counts,
    pub sizes: Sizes,
    /// Usages compared: done, refused.
    pub usages: [u64; 2],
    /// While false, only the reference implementation is called.
    pub comparing: bool,
    /// The first difference found.
    pub difference: Option<String>,
}

impl Pair {
    pub fn new(seed: u64, builds: Vec<Build>) -> Rc<RefCell<Pair>> {
        Rc::new(RefCell::new(Pair {
            builds,
            seed,
            case: 0,
            counts: Counts::default(),
            sizes: Sizes::default(),
            usages: [0; 2],
            comparing: true,
            difference: None,
        }))
    }

    /// Performs the call with all. The lent memory becomes what the reference
    /// implementation makes of it.
    pub fn run(&mut self, lent: &mut Lent, kind: Kind, writer: u64, home: u64) -> Answer {
        if !self.comparing || self.difference.is_some() {
            return lent.run(kind, writer, home);
        }
        self.case += 1;
        trap::note(self.seed, self.case);
        let perform = |build: &mut Build| build.perform(lent, kind, writer, home);
        let replies: Vec<Reply> = self.builds.iter_mut().map(perform).collect();
        let answer = lent.run(kind, writer, home);
        self.counts[kind as usize][answer.code as usize] += 1;
        self.compare_usage(lent);
        let row = GROUPS.iter().position(|groups| lent.log.len() == 64 + 512 * groups);
        let column = HOMES.iter().position(|homes| lent.data.len() == 64 * homes);
        self.sizes[row.unwrap_or(GROUPS.len())][column.unwrap_or(HOMES.len())] += 1;
        for (build, reply) in self.builds.iter().zip(replies) {
            let what = match build.compare(kind, reply, answer, lent) {
                Some(what) => what,
                None => continue,
            };
            let lengths = views(lent).map(<[u8]>::len);
            let seed_case = format!("seed {}, case {}", self.seed, self.case);
            let arguments = format!("writer {writer}, home {home}, lengths {lengths:?}");
            self.difference = Some(format!(
                "{} ({seed_case}): {what}\n  {arguments}\n  {} {reply:?}\n  reference {:?}",
                kind.name(),
                build.name,
                Reply::from(answer)
            ));
            break;
        }
        answer
    }

    /// What fills the log after the call, told by all.
    fn compare_usage(&mut self, lent: &Lent) {
        let want = usage(&lent.log, &lent.data, &lent.state);
        self.usages[usize::from(want.code != 0)] += 1;
        for build in &self.builds {
            let got = build.calls.usage(lent);
            if got != want {
                let seed_case = format!("seed {}, after case {}", self.seed, self.case);
                self.difference = Some(format!("usage ({seed_case}):\n  {} {got:?}\n  reference {want:?}", build.name));
            }
        }
    }

    /// The first difference, if any, as an error.
    pub fn verdict(&self) -> Result<(), String> {
        self.difference.clone().map_or(Ok(()), Err)
    }
}

/// A runner that compares every call.
pub fn runner(pair: &Rc<RefCell<Pair>>) -> Runner {
    let pair = Rc::clone(pair);
    Box::new(move |lent, kind, writer, home| pair.borrow_mut().run(lent, kind, writer, home))
}
