//! The kinds of calls, by one list that other programs go through as well.

/// Hands the list of calls to another macro. A row: kind, name, the names of its C function, of the reference behind
/// the same interface and of the bench's floor; the parts that it is lent, each with its length; the numbers it takes.
#[macro_export]
macro_rules! each_call {
    ($then:ident) => {
        $then! {
            Format format kagutin_format reference_format floor_format [log g area d batch n] [];
            Open open kagutin_open reference_open floor_open [log g area d state s newest p batch n] [];
            Begin begin kagutin_begin reference_begin floor_begin [log g area d state s] [writer];
            Reserve reserve kagutin_reserve reference_reserve floor_reserve [log g area d state s] [writer places];
            Abort abort kagutin_abort reference_abort floor_abort [log g area d state s] [writer];
            Store store kagutin_store reference_store floor_store [log g area d state s block k batch n] [writer home];
            Commit commit kagutin_commit reference_commit floor_commit [log g area d state s newest p batch n] [writer];
            Flush flush kagutin_flush reference_flush floor_flush [log g area d state s batch n] [];
            Confirm confirm kagutin_confirm reference_confirm floor_confirm [log g area d state s] [];
            Settle settle kagutin_settle reference_settle floor_settle [log g area d state s batch n] [];
            BeginRound begin_round kagutin_begin_round reference_begin_round floor_begin_round [log g area d state s] [];
            StepRound step_round kagutin_step_round reference_step_round floor_step_round [log g area d state s batch n] [homes];
            Trim trim kagutin_trim reference_trim floor_trim [log g area d state s newest p batch n] [];
            Read read kagutin_read reference_read floor_read [log g area d state s newest p block k] [writer home];
        }
    };
}

/// What calls are lent, by the names of the list.
pub struct Parts<T> {
    pub log: T,
    pub area: T,
    pub state: T,
    pub newest: T,
    pub block: T,
    pub batch: T,
}

/// The numbers that calls take, by the names of the list.
#[derive(Clone, Copy)]
pub struct Numbers {
    pub writer: u64,
    pub home: u64,
    pub places: u64,
    pub homes: u64,
}

impl Numbers {
    /// `home` is the number of places for a reserve, and of homes for a step.
    pub fn new(writer: u64, home: u64) -> Numbers {
        Numbers { writer, home, places: home, homes: home }
    }
}

macro_rules! kinds {
    ($($kind:ident $name:ident $c:ident $reference:ident $floor:ident [$($part:ident $len:ident)*] [$($number:ident)*];)*) => {
        #[derive(Clone, Copy, Debug, PartialEq, Eq)]
        pub enum Kind {
            $($kind,)*
        }

        impl Kind {
            pub const ALL: [Kind; Kind::COUNT] = [$(Kind::$kind),*];
            pub const COUNT: usize = [$(stringify!($kind)),*].len();

            pub fn name(self) -> &'static str {
                match self {
                    $(Kind::$kind => stringify!($name),)*
                }
            }

            /// Is it lent a part, or given a number, of this name?
            fn takes(self, word: &str) -> bool {
                match self {
                    $(Kind::$kind => [$(stringify!($part),)* $(stringify!($number),)*].contains(&word),)*
                }
            }
        }

        /// The call on what is lent.
        pub(crate) fn run(kind: Kind, lent: Parts<&mut Vec<u8>>, numbers: Numbers) -> crate::Answer {
            match kind {
                $(Kind::$kind => crate::$name($(lent.$part,)* $(numbers.$number,)*),)*
            }
        }
    };
}

each_call!(kinds);

impl Kind {
    pub fn takes_state(self) -> bool {
        self.takes("state")
    }

    pub fn takes_newest(self) -> bool {
        self.takes("newest")
    }

    pub fn takes_block(self) -> bool {
        self.takes("block")
    }

    pub fn takes_batch(self) -> bool {
        self.takes("batch")
    }

    pub fn takes_writer(self) -> bool {
        self.takes("writer")
    }

    pub fn takes_home(self) -> bool {
        self.takes("home")
    }

    /// Does it take a number in place of a home?
    pub fn takes_number(self) -> bool {
        self.takes("places") || self.takes("homes")
    }

    /// Does it open a transaction?
    pub fn begins(self) -> bool {
        matches!(self, Kind::Begin | Kind::Reserve)
    }
}

#[cfg(test)]
mod tests {
    use super::Kind;

    /// The list of the C programs has the same calls in the same order.
    #[test]
    fn as_the_c_list() {
        let list = include_str!("../../../tests/common/calls.h");
        let rows = list.lines().filter_map(|line| line.trim().strip_prefix("CALL("));
        let names: Vec<&str> = rows.map(|row| row.split(", ").nth(1).expect("a name")).collect();
        assert_eq!(names, Kind::ALL.map(Kind::name));
    }
}
