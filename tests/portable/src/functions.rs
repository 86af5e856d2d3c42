//! The functions of the library, the lists that each takes, and the refusals that each gives.

use crate::given::{all_of, List};

all_of! {
    /// The functions in the order of their numbers in the records for other processors (tests/processors/calls.c).
    Function, FUNCTIONS:
    PlanRound,
    PlanRun,
    WritePlanRound,
    WritePlanRun,
    ReadFleet,
    Reply,
    PlayerStart,
    PlayerStep,
    HeldBegin,
    HeldAdd,
    HeldWithdraw,
    TryCandidatesRound,
    TryCandidatesRun,
    WordsOfLabels,
    LabelsOfWords,
    MustOfMarks,
    ClashWordsRound,
    ClashWordsRun,
}

use Function::*;

/// What a step of a player gives in place of a refusal.
pub const FINISHED: u64 = 1;
pub const LISTENS: u64 = 2;
pub const IDLE: u64 = 3;

impl Function {
    pub fn name(self) -> &'static str {
        match self {
            PlanRound => "hub_plan_round",
            PlanRun => "hub_plan_run",
            WritePlanRound => "hub_write_plan_round",
            WritePlanRun => "hub_write_plan_run",
            ReadFleet => "hub_read_fleet",
            Reply => "hub_reply",
            PlayerStart => "hub_player_start",
            PlayerStep => "hub_player_step",
            HeldBegin => "hub_held_begin",
            HeldAdd => "hub_held_add",
            HeldWithdraw => "hub_held_withdraw",
            TryCandidatesRound => "hub_try_candidates_round",
            TryCandidatesRun => "hub_try_candidates_run",
            WordsOfLabels => "hub_words_of_labels",
            LabelsOfWords => "hub_labels_of_words",
            MustOfMarks => "hub_must_of_marks",
            ClashWordsRound => "hub_clash_words_round",
            ClashWordsRun => "hub_clash_words_run",
        }
    }

    /// Whether its table is of a run.
    pub fn is_of_run(self) -> bool {
        matches!(self, PlanRun | WritePlanRun | TryCandidatesRun | ClashWordsRun)
    }

    /// Whether its table is of a round.
    pub fn is_of_round(self) -> bool {
        matches!(self, PlanRound | WritePlanRound | TryCandidatesRound | ClashWordsRound) || self.has_places()
    }

    /// Whether it takes a plan, or what is made of one.
    pub fn is_of_plan(self) -> bool {
        self.is_of_player() || matches!(self, WritePlanRound | WritePlanRun | WordsOfLabels | LabelsOfWords)
    }

    pub fn is_of_player(self) -> bool {
        matches!(self, PlayerStart | PlayerStep)
    }

    /// The lists that it takes.
    pub fn takes(self) -> &'static [List] {
        use List::*;
        match self {
            PlanRound | PlanRun | HeldAdd | HeldWithdraw => &[Starts, Ends, Marks, Labels, Space],
            WritePlanRound | WritePlanRun => &[Starts, Ends, Marks, Labels, Out],
            ReadFleet => &[Tape, Starts, Ends, Marks],
            Reply => &[Tape, Out, Space],
            PlayerStart | PlayerStep => &[Tape],
            HeldBegin => &[],
            TryCandidatesRound | TryCandidatesRun => &[
                Starts,
                Ends,
                Marks,
                CandidateStarts,
                CandidateEnds,
                CandidateMarks,
                Numbers,
                Counts,
                Space,
            ],
            WordsOfLabels | LabelsOfWords => &[Labels],
            MustOfMarks => &[Marks],
            ClashWordsRound | ClashWordsRun => &[Starts, Ends, Words],
        }
    }

    /// Whether its lists have 64 places.
    pub fn has_places(self) -> bool {
        matches!(self, ReadFleet | HeldBegin | HeldAdd | HeldWithdraw)
    }

    /// All refusals that include/hubplan.h names for it, 0 for accepted among them.
    pub fn gives(self) -> &'static [u64] {
        match self {
            PlanRound => &[0, 1, 2, 3, 4, 6, 7, 8, 14],
            PlanRun => &[0, 1, 2, 3, 4, 5, 6, 7, 8, 14],
            WritePlanRound => &[0, 1, 2, 4, 6, 7, 9, 10, 14],
            WritePlanRun => &[0, 1, 2, 4, 5, 6, 7, 9, 10, 14],
            ReadFleet => &[0, 1, 2, 11],
            Reply => &[0, 2, 3, 4, 5, 6, 8, 10, 11],
            PlayerStart => &[0, 12, 13],
            PlayerStep => &[FINISHED, LISTENS, IDLE],
            HeldBegin => &[0, 4, 14],
            HeldAdd => &[0, 1, 2, 3, 4, 6, 7, 8, 14],
            HeldWithdraw => &[0, 1, 2, 3, 4, 6, 7, 8, 14, 15],
            TryCandidatesRound => &[0, 1, 2, 3, 4, 6, 7, 8, 14, 16],
            TryCandidatesRun => &[0, 1, 2, 3, 4, 5, 6, 7, 8, 14, 16],
            WordsOfLabels | LabelsOfWords => &[0, 2, 9],
            MustOfMarks => &[0, 2],
            ClashWordsRound | ClashWordsRun => &[0, 1, 2, 4, 6, 14],
        }
    }

    /// The refusal that an answer has, by what was written to the output where it is a reply.
    pub fn refusal(self, answer: &[u64], out: &[u8]) -> u64 {
        match self {
            PlayerStep if answer[0] == 1 => FINISHED,
            PlayerStep if answer[1] == 1 || answer[4] == 1 => LISTENS,
            PlayerStep => IDLE,
            Reply => refusal_told(&out[..answer[0] as usize]),
            _ => answer[0],
        }
    }
}

/// The refusal that a reply tells; 10 where there was no room for one.
fn refusal_told(reply: &[u8]) -> u64 {
    match reply.strip_prefix(b"refused ") {
        Some(number) => String::from_utf8_lossy(number)
            .trim_end()
            .parse()
            .expect("a number after `refused`"),
        None if reply.is_empty() => 10,
        None => 0,
    }
}
