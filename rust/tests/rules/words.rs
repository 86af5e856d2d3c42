//! Words (docs/RULES.md, Words) once more, from the rules alone: words are made and read bit by bit. Which two rows
//! clash is found as for a plan, by the ticks of their windows and by walking from window to window.

use super::{allowed, too_close, window_holds, RULES};
use hubplan::tables::Table;

/// What a call is lent: labels for words; the heard and the receiver word for the labels of so many rows; marks for a
/// must word; windows, which are starts and ends of a table, for so many places of clash words.
#[derive(Clone, Debug, PartialEq)]
pub enum Call {
    Labels(Vec<u8>),
    Words { heard: u64, receiver: u64, rows: usize },
    Marks(Vec<u8>),
    Windows { table: Table, places: usize },
}

/// What a call gives that is not refused: the heard and the receiver word, the must word, or the clash words; the
/// labels; and the number heard. What it does not give is left out.
#[derive(Clone, Debug, Default, PartialEq)]
pub struct Given {
    pub words: Vec<u64>,
    pub labels: Vec<u8>,
    pub count: usize,
}

/// How a call is understood: the place in its words of row i of so many rows; the heard and the receiver bit of a
/// label, and the label of these bits, none where it cannot be carried; whether a one from the row count up is carried;
/// the number heard, by the two words and the rows; whether 9 is looked at before 2; the must bit of a mark, or its
/// refusal; for each two rows whether the word of the one has the other; and the refusals of windows, each with whether
/// it applies.
#[derive(Clone, Copy)]
pub struct Meaning {
    pub place: fn(usize, usize) -> usize,
    pub bits: fn(u8) -> Option<[bool; 2]>,
    pub label: fn([bool; 2]) -> Option<u8>,
    pub ones_above: bool,
    pub count: fn([u64; 2], usize) -> usize,
    pub carried_first: bool,
    pub must: fn(u8) -> Result<bool, u8>,
    pub others: fn(&Table) -> Vec<Vec<bool>>,
    pub refusals: fn(&Table, usize) -> Vec<(u8, bool)>,
}

pub const RIGHT: Meaning = Meaning {
    // bit i is row i's
    place: |i, _| i,
    bits,
    label,
    // no bit from the row count up is 1
    ones_above: false,
    // as many are heard as there are ones
    count: |[heard, _], _| ones(heard),
    // 2, more than 64 rows, comes before 9
    carried_first: false,
    // these marks alone; there is no refusal of a mark
    must: |mark| Ok(mark == 1 || mark == 3 || mark == 5),
    others,
    refusals,
};

/// The receiver bit is 1 where receiver 2 hears the row. A label above 2 has no bits.
fn bits(label: u8) -> Option<[bool; 2]> {
    match label {
        0 => Some([false, false]),
        1 => Some([true, false]),
        2 => Some([true, true]),
        _ => None,
    }
}

/// A row that is not heard has no receiver bit.
fn label(bits: [bool; 2]) -> Option<u8> {
    match bits {
        [false, false] => Some(0),
        [true, false] => Some(1),
        [true, true] => Some(2),
        [false, true] => None,
    }
}

/// For each row the others whose windows overlap its own or lie fewer than g ticks from it. Marks and hours do not
/// count.
fn others(table: &Table) -> Vec<Vec<bool>> {
    not_own(too_close(&RULES, table))
}

/// No row is in its own word.
pub fn not_own(mut close: Vec<Vec<bool>>) -> Vec<Vec<bool>> {
    for (i, others) in close.iter_mut().enumerate() {
        others[i] = false;
    }
    close
}

/// What is looked at, in its order: no marks, hours or working space are lent.
fn refusals(table: &Table, places: usize) -> Vec<(u8, bool)> {
    let rows = table.rows();
    vec![
        (1, table.ends.len() != rows || places != rows),
        (2, rows > 64),
        (4, table.ticks < 2 || table.ticks > 43_200),
        (14, table.gap > 600),
        (6, (0..rows.min(table.ends.len())).any(|i| !window_holds(table, i))),
    ]
}

pub fn is_one(word: u64, place: usize) -> bool {
    word / 2u64.pow(place as u32) % 2 == 1
}

pub fn ones(word: u64) -> usize {
    (0..64).filter(|&place| is_one(word, place)).count()
}

/// The word of bits, one a row.
fn word(meaning: &Meaning, bits: &[bool]) -> u64 {
    let worth = |i: usize| 2u64.pow((meaning.place)(i, bits.len()) as u32);
    (0..bits.len()).filter(|&i| bits[i]).map(worth).sum()
}

/// What can be carried, or the refusal.
fn carried<T>(meaning: &Meaning, rows: usize, what: Option<T>) -> Result<T, u8> {
    match what {
        None if rows <= 64 || meaning.carried_first => Err(9),
        Some(what) if rows <= 64 => Ok(what),
        _ => Err(2),
    }
}

impl Call {
    /// What a call gives, or the number of its refusal, which writes nothing and gives words of 0.
    pub fn given(&self, meaning: &Meaning) -> Result<Given, u8> {
        match self {
            Call::Labels(labels) => of_labels(meaning, labels),
            &Call::Words { heard, receiver, rows } => to_labels(meaning, [heard, receiver], rows),
            Call::Marks(marks) => of_marks(meaning, marks),
            Call::Windows { table, places } => of_windows(meaning, table, *places),
        }
    }
}

fn of_labels(meaning: &Meaning, labels: &[u8]) -> Result<Given, u8> {
    let rows = labels.len();
    let bits: Option<Vec<[bool; 2]>> = labels.iter().map(|&label| (meaning.bits)(label)).collect();
    let bits = carried(meaning, rows, bits)?;
    let words = [0, 1].map(|which| word(meaning, &bits.iter().map(|pair| pair[which]).collect::<Vec<bool>>()));
    Ok(Given {
        words: words.to_vec(),
        count: (meaning.count)(words, rows),
        ..Given::default()
    })
}

fn to_labels(meaning: &Meaning, words: [u64; 2], rows: usize) -> Result<Given, u8> {
    let places: Vec<usize> = (0..rows.min(64)).map(|i| (meaning.place)(i, rows)).collect();
    let of_place = |&place: &usize| (meaning.label)(words.map(|word| is_one(word, place)));
    let labels: Option<Vec<u8>> = places.iter().map(of_place).collect();
    let is_above = |place: &usize| !places.contains(place);
    let one_above = (0..64)
        .filter(is_above)
        .any(|place| words.iter().any(|&word| is_one(word, place)));
    let labels = carried(meaning, rows, labels.filter(|_| meaning.ones_above || !one_above))?;
    Ok(Given {
        count: labels.iter().filter(|&&label| label > 0).count(),
        labels,
        ..Given::default()
    })
}

fn of_marks(meaning: &Meaning, marks: &[u8]) -> Result<Given, u8> {
    if marks.len() > 64 {
        return Err(2);
    }
    let bits: Vec<bool> = marks
        .iter()
        .map(|&mark| (meaning.must)(mark))
        .collect::<Result<_, u8>>()?;
    Ok(Given {
        words: vec![word(meaning, &bits)],
        ..Given::default()
    })
}

fn of_windows(meaning: &Meaning, table: &Table, places: usize) -> Result<Given, u8> {
    if let Some((number, _)) = (meaning.refusals)(table, places)
        .into_iter()
        .find(|&(_, applies)| applies)
    {
        return Err(number);
    }
    Ok(Given {
        words: (meaning.others)(table).iter().map(|bits| word(meaning, bits)).collect(),
        ..Given::default()
    })
}

/// Whether labels of a table that passes its checks are a plan, judged by words: every must row is heard, each row may
/// have its label, and of the rows that a receiver hears none is in the clash word of another.
pub fn is_plan(table: &Table, labels: &[u8], [heard, receiver]: [u64; 2], must: u64, clashes: &[u64]) -> bool {
    let alone = |hears: u64| (0..table.rows()).all(|i| !is_one(hears, i) || hears & clashes[i] == 0);
    must & !heard == 0
        && (0..table.rows()).all(|i| allowed(table, i, labels[i]))
        && alone(heard & !receiver)
        && alone(heard & receiver)
}
