//! What a call of any function is given, and the call itself, by either library.

use crate::functions::Function;

/// All that a call can be given. Each function takes some of the numbers and lists; the others must stay as they are.
#[derive(Clone, Debug, Default, PartialEq, Eq)]
pub struct Given {
    pub ticks: u16,
    pub gap: u16,
    pub hours: [u16; 4],
    /// The numbers of a held table: ticks and gap are those above.
    pub rows: usize,
    pub count: usize,
    /// The row withdrawn, or that which is added.
    pub row: usize,
    pub start: u16,
    pub end: u16,
    pub mark: u8,
    /// The first tick of a player, or that of its next step.
    pub tick: u16,
    pub heard: u64,
    pub receiver: u64,
    pub starts: Vec<u16>,
    pub ends: Vec<u16>,
    pub marks: Vec<u8>,
    pub labels: Vec<u8>,
    pub candidate_starts: Vec<u16>,
    pub candidate_ends: Vec<u16>,
    pub candidate_marks: Vec<u8>,
    pub numbers: Vec<u8>,
    pub counts: Vec<u8>,
    pub tape: Vec<u8>,
    pub out: Vec<u8>,
    pub space: Vec<u8>,
    pub words: Vec<u64>,
}

/// An enum of some names, and the list of all of them.
macro_rules! all_of {
    ($(#[$text:meta])* $name:ident, $all:ident: $($variant:ident,)*) => {
        $(#[$text])*
        #[derive(Clone, Copy, Debug, PartialEq, Eq)]
        pub enum $name {
            $($variant),*
        }
        pub const $all: &[$name] = &[$($name::$variant),*];
    };
}
pub(crate) use all_of;

all_of! {
    /// The lists of a call, in the order of the records for other processors.
    List, LISTS:
    Starts,
    Ends,
    Marks,
    Labels,
    CandidateStarts,
    CandidateEnds,
    CandidateMarks,
    Numbers,
    Counts,
    Tape,
    Out,
    Space,
    Words,
}

/// Does the same with a list of a call, whatever the width of its places.
macro_rules! with_list {
    ($given:expr, $list:expr, $name:ident => $done:expr) => {
        match $list {
            $crate::given::List::Starts => with_list!(@ $name $given.starts, $done),
            $crate::given::List::Ends => with_list!(@ $name $given.ends, $done),
            $crate::given::List::Marks => with_list!(@ $name $given.marks, $done),
            $crate::given::List::Labels => with_list!(@ $name $given.labels, $done),
            $crate::given::List::CandidateStarts => with_list!(@ $name $given.candidate_starts, $done),
            $crate::given::List::CandidateEnds => with_list!(@ $name $given.candidate_ends, $done),
            $crate::given::List::CandidateMarks => with_list!(@ $name $given.candidate_marks, $done),
            $crate::given::List::Numbers => with_list!(@ $name $given.numbers, $done),
            $crate::given::List::Counts => with_list!(@ $name $given.counts, $done),
            $crate::given::List::Tape => with_list!(@ $name $given.tape, $done),
            $crate::given::List::Out => with_list!(@ $name $given.out, $done),
            $crate::given::List::Space => with_list!(@ $name $given.space, $done),
            $crate::given::List::Words => with_list!(@ $name $given.words, $done),
        }
    };
    (@ $name:ident $list:expr, $done:expr) => {{
        let $name = &mut $list;
        $done
    }};
}
pub(crate) use with_list;

impl Given {
    /// The places of a list as numbers.
    pub fn places(&mut self, list: List) -> Vec<u64> {
        with_list!(self, list, places => places.iter().map(|place| u64::from(*place)).collect())
    }
}

/// A list as its places up to the last that differs from the one at its end, and what all after these are.
pub fn front_and_rest(places: &[u64]) -> (&[u64], u64) {
    let rest = places.last().copied().unwrap_or(0);
    let front = places
        .iter()
        .rposition(|place| *place != rest)
        .map_or(0, |last| last + 1);
    (&places[..front], rest)
}

/// The fields of an answer as numbers.
macro_rules! fields {
    ($answer:expr; $($($field:ident).+),*) => {{
        let answer = $answer;
        vec![$(answer.$($field).+ as u64),*]
    }};
}

/// The call of each function, once for both libraries: `$call` takes the name and the arguments in their order, n before a number, r before
/// a list that is read and w before one that is written. The structs and functions are those in scope.
macro_rules! called {
    ($call:ident, $function:expr, $g:expr) => {{
        let g: &mut Given = $g;
        let [p1, q1, p2, q2] = g.hours;
        let player = HubPlayer { tick: g.tick };
        let held = HubHeldNumbers { ticks: g.ticks, gap: g.gap, rows: g.rows, count: g.count };
        match $function {
            Function::PlanRound => {
                fields!($call!(hub_plan_round; n g.ticks, n g.gap, r g.starts, r g.ends, r g.marks, w g.labels, w g.space,); refusal, count)
            }
            Function::PlanRun => {
                fields!($call!(hub_plan_run; n g.ticks, n g.gap, n p1, n q1, n p2, n q2, r g.starts, r g.ends, r g.marks, w g.labels, w g.space,); refusal, count)
            }
            Function::WritePlanRound => {
                fields!($call!(hub_write_plan_round; n g.ticks, n g.gap, r g.starts, r g.ends, r g.marks, r g.labels, w g.out,); refusal, count)
            }
            Function::WritePlanRun => {
                fields!($call!(hub_write_plan_run; n g.ticks, n g.gap, n p1, n q1, n p2, n q2, r g.starts, r g.ends, r g.marks, r g.labels, w g.out,); refusal, count)
            }
            Function::ReadFleet => {
                fields!($call!(hub_read_fleet; r g.tape, w g.starts, w g.ends, w g.marks,); refusal, run, ticks, p1, q1, p2, q2, rows)
            }
            Function::Reply => vec![$call!(hub_reply; r g.tape, w g.out, w g.space,) as u64],
            Function::PlayerStart => fields!($call!(hub_player_start; r g.tape, n g.tick,); refusal, player.tick),
            Function::PlayerStep => fields!(
                $call!(hub_player_step; r g.tape, n player,);
                finished, receiver1.listening, receiver1.row, receiver1.until, receiver2.listening, receiver2.row, receiver2.until, player.tick
            ),
            Function::HeldBegin => {
                fields!($call!(hub_held_begin; n g.ticks, n g.gap,); refusal, numbers.ticks, numbers.gap, numbers.rows, numbers.count)
            }
            Function::HeldAdd => fields!(
                $call!(hub_held_add; n held, w g.starts, w g.ends, w g.marks, w g.labels, n g.start, n g.end, n g.mark, w g.space,);
                refusal, count, numbers.ticks, numbers.gap, numbers.rows, numbers.count
            ),
            Function::HeldWithdraw => fields!(
                $call!(hub_held_withdraw; n held, w g.starts, w g.ends, w g.marks, w g.labels, n g.row, w g.space,);
                refusal, count, numbers.ticks, numbers.gap, numbers.rows, numbers.count
            ),
            Function::TryCandidatesRound => fields!(
                $call!(hub_try_candidates_round; n g.ticks, n g.gap, r g.starts, r g.ends, r g.marks, r g.candidate_starts, r g.candidate_ends, r g.candidate_marks,
                    w g.numbers, w g.counts, w g.space,);
                refusal, rows
            ),
            Function::TryCandidatesRun => fields!(
                $call!(hub_try_candidates_run; n g.ticks, n g.gap, n p1, n q1, n p2, n q2, r g.starts, r g.ends, r g.marks, r g.candidate_starts, r g.candidate_ends,
                    r g.candidate_marks, w g.numbers, w g.counts, w g.space,);
                refusal, rows
            ),
            Function::WordsOfLabels => fields!($call!(hub_words_of_labels; r g.labels,); refusal, count, heard, receiver),
            Function::LabelsOfWords => fields!($call!(hub_labels_of_words; n g.heard, n g.receiver, w g.labels,); refusal, count),
            Function::MustOfMarks => fields!($call!(hub_must_of_marks; r g.marks,); refusal, word),
            Function::ClashWordsRound => {
                vec![$call!(hub_clash_words_round; n g.ticks, n g.gap, r g.starts, r g.ends, w g.words,) as u64]
            }
            Function::ClashWordsRun => {
                vec![$call!(hub_clash_words_run; n g.ticks, n g.gap, r g.starts, r g.ends, w g.words,) as u64]
            }
        }
    }};
}

/// A call in C's way: a list is its address and its length.
macro_rules! c_call {
    (@ $f:ident [$($done:expr),*]) => { unsafe { $f($($done),*) } };
    (@ $f:ident [$($done:expr),*] n $x:expr, $($rest:tt)*) => { c_call!(@ $f [$($done,)* $x] $($rest)*) };
    (@ $f:ident [$($done:expr),*] r $x:expr, $($rest:tt)*) => { c_call!(@ $f [$($done,)* $x.as_ptr(), $x.len()] $($rest)*) };
    (@ $f:ident [$($done:expr),*] w $x:expr, $($rest:tt)*) => { c_call!(@ $f [$($done,)* $x.as_mut_ptr(), $x.len()] $($rest)*) };
    ($f:ident; $($args:tt)*) => { c_call!(@ $f [] $($args)*) };
}

/// A call in Rust's way: a list is a slice.
macro_rules! slice_call {
    (@ $f:ident [$($done:expr),*]) => { $f($($done),*) };
    (@ $f:ident [$($done:expr),*] n $x:expr, $($rest:tt)*) => { slice_call!(@ $f [$($done,)* $x] $($rest)*) };
    (@ $f:ident [$($done:expr),*] r $x:expr, $($rest:tt)*) => { slice_call!(@ $f [$($done,)* &$x] $($rest)*) };
    (@ $f:ident [$($done:expr),*] w $x:expr, $($rest:tt)*) => { slice_call!(@ $f [$($done,)* &mut $x] $($rest)*) };
    ($f:ident; $($args:tt)*) => { slice_call!(@ $f [] $($args)*) };
}

/// Calls the proved library: the answer as numbers; the lists are as it leaves them.
pub fn by_proved(function: Function, given: &mut Given) -> Vec<u64> {
    use hubplan::c::*;
    use hubplan::held::Numbers as HubHeldNumbers;
    // SAFETY: each address comes with its list's length, and the lists are apart.
    called!(c_call, function, given)
}

/// Calls the portable crate.
pub fn by_portable(function: Function, given: &mut Given) -> Vec<u64> {
    use hubplan_portable::hub_c::words::*;
    use hubplan_portable::hub_c::*;
    called!(slice_call, function, given)
}
