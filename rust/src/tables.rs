//! Tables of windows from fixed pseudo-random sequences, for the benchmark and the tests.

use crate::{label_by_label, Kind, Refusal, SPACE_BYTES};

/// SplitMix64: the same numbers on every machine.
pub struct Sequence(u64);

impl Sequence {
    pub fn new(seed: u64) -> Sequence {
        Sequence(seed)
    }

    pub fn next(&mut self) -> u64 {
        self.0 = self.0.wrapping_add(0x9e37_79b9_7f4a_7c15);
        let mut z = self.0;
        z = (z ^ (z >> 30)).wrapping_mul(0xbf58_476d_1ce4_e5b9);
        z = (z ^ (z >> 27)).wrapping_mul(0x94d0_49bb_1331_11eb);
        z ^ (z >> 31)
    }

    /// A number from `low` to `high`, both included.
    pub fn within(&mut self, low: u32, high: u32) -> u32 {
        low + (self.next() % (high - low + 1) as u64) as u32
    }

    pub fn one_in(&mut self, n: u32) -> bool {
        self.within(1, n) == 1
    }
}

/// `crate::plan`, or its port.
pub type Planner = fn(Kind, u16, u16, &[u16], &[u16], &[u8], &mut [u8], &mut [u8]) -> Result<usize, Refusal>;

#[derive(Clone, Debug, PartialEq)]
pub struct Table {
    pub kind: Kind,
    pub ticks: u16,
    pub gap: u16,
    pub starts: Vec<u16>,
    pub ends: Vec<u16>,
    pub marks: Vec<u8>,
}

pub const DAY: u32 = 43_200;

impl Table {
    /// No rows, and a gap of 0.
    pub fn empty(kind: Kind, ticks: u16) -> Table {
        Table {
            kind,
            ticks,
            gap: 0,
            starts: vec![],
            ends: vec![],
            marks: vec![],
        }
    }

    pub fn with_gap(self, gap: u16) -> Table {
        Table { gap, ..self }
    }

    pub fn rows(&self) -> usize {
        self.starts.len()
    }

    /// The first so many rows.
    pub fn first(mut self, rows: usize) -> Table {
        self.starts.truncate(rows);
        self.ends.truncate(rows);
        self.marks.truncate(rows);
        self
    }

    pub fn plan(&self, planner: Planner, labels: &mut [u8], space: &mut [u8]) -> Result<usize, Refusal> {
        planner(
            self.kind,
            self.ticks,
            self.gap,
            &self.starts,
            &self.ends,
            &self.marks,
            labels,
            space,
        )
    }

    pub fn write_plan(&self, labels: &[u8], tape: &mut [u8]) -> Result<usize, Refusal> {
        crate::write_plan(
            self.kind,
            self.ticks,
            self.gap,
            &self.starts,
            &self.ends,
            &self.marks,
            labels,
            tape,
        )
    }

    /// A row that starts at a tick, which in a round may be past the end of the day, and is so many ticks long, up to
    /// R.
    fn push_arc(&mut self, start: u32, length: u32) {
        let ticks = self.ticks as u32;
        let (start, end) = match self.kind {
            Kind::Round => (start % ticks, (start + length) % ticks),
            Kind::Run(_) => (start, start + length),
        };
        self.starts.push(start as u16);
        self.ends.push(end as u16);
        self.marks.push(0);
    }

    /// Rows of a round with scattered starts that send all day but for `low` to `high` ticks.
    fn push_long(&mut self, rows: u32, low: u32, high: u32, sequence: &mut Sequence) {
        for _ in 0..rows {
            self.push_arc(sequence.within(0, DAY - 1), DAY - sequence.within(low, high));
        }
    }

    /// Puts the rows into a pseudo-random order.
    fn shuffle(&mut self, sequence: &mut Sequence) {
        for i in (1..self.rows()).rev() {
            let j = sequence.within(0, i as u32) as usize;
            self.starts.swap(i, j);
            self.ends.swap(i, j);
            self.marks.swap(i, j);
        }
    }

    /// The fewest and the most windows over one tick.
    pub fn depth(&self) -> (usize, usize) {
        let mut over = vec![0usize; self.ticks as usize];
        for i in 0..self.rows() {
            let mut tick = self.starts[i] as usize;
            loop {
                over[tick] += 1;
                tick = (tick + 1) % over.len();
                if tick == self.ends[i] as usize % over.len() {
                    break;
                }
            }
        }
        (*over.iter().min().unwrap(), *over.iter().max().unwrap())
    }
}

/// Windows over the whole day that start at scattered ticks; each ends between the start of the `low`th and the
/// `high`th window after it, so that from `low` to `high` windows lie over every tick.
pub fn deep(rows: u32, low: u32, high: u32, seed: u64) -> Table {
    let mut sequence = Sequence::new(seed);
    let step = DAY / rows;
    let starts: Vec<u32> = (0..rows).map(|i| i * step + sequence.within(0, step - 1)).collect();
    let start_after = |i: u32, n: u32| starts[((i + n) % rows) as usize] + (i + n) / rows * DAY;
    let mut table = Table::empty(Kind::Round, DAY as u16);
    for i in 0..rows {
        let end = sequence.within(start_after(i, low), start_after(i, high));
        table.push_arc(start_after(i, 0), (end - start_after(i, 0)).clamp(1, DAY - 1));
    }
    table.shuffle(&mut sequence);
    table
}

/// Windows that start and end at scattered ticks and are so many percent deep on average.
pub fn scattered(rows: u32, percent: u32, seed: u64) -> Table {
    let mut sequence = Sequence::new(seed);
    let mut table = Table::empty(Kind::Round, DAY as u16);
    let mean = DAY / rows * percent / 100;
    for _ in 0..rows {
        table.push_arc(sequence.within(0, DAY - 1), sequence.within(mean / 2, mean * 3 / 2));
    }
    table
}

/// Half the rows spread one to two deep, the other half from `low` to `high` ticks less than all day.
pub fn half_long(rows: u32, low: u32, high: u32, seed: u64) -> Table {
    let mut sequence = Sequence::new(seed);
    let mut table = deep(rows / 2, 1, 2, seed + 1);
    table.push_long(rows - rows / 2, low, high, &mut sequence);
    table.shuffle(&mut sequence);
    table
}

/// Rows that send all day but for `low` to `high` ticks.
pub fn all_long(rows: u32, low: u32, high: u32, seed: u64) -> Table {
    let mut table = Table::empty(Kind::Round, DAY as u16);
    table.push_long(rows, low, high, &mut Sequence::new(seed));
    table
}

/// Rows that send all day, with scattered starts.
pub fn all_day(rows: u32, seed: u64) -> Table {
    let mut sequence = Sequence::new(seed);
    let mut table = Table::empty(Kind::Round, DAY as u16);
    for _ in 0..rows {
        table.push_arc(sequence.within(0, DAY - 1), DAY);
    }
    table
}

/// A run in which receiver 1 is open for the first two thirds and receiver 2 for the last three quarters; windows about
/// three deep.
pub fn uneven_run(rows: u32, seed: u64) -> Table {
    let mut sequence = Sequence::new(seed);
    let hours = [[0, 28_800], [10_800, DAY as u16]];
    let mut table = Table::empty(Kind::Run(hours), DAY as u16);
    let step = DAY / rows;
    for i in 0..rows {
        let start = (i * step + sequence.within(0, step - 1)).min(DAY - 1);
        table.starts.push(start as u16);
        table
            .ends
            .push((start + sequence.within(step, 5 * step)).min(DAY) as u16);
        table.marks.push(0);
    }
    table.shuffle(&mut sequence);
    table
}

/// Three deep and all marked must: there is no plan.
pub fn all_must(rows: u32, seed: u64) -> Table {
    let mut table = deep(rows, 2, 4, seed);
    table.marks.fill(1);
    table
}

/// One to two deep, with marks 0 to 5 in turn, so half the rows are must: few seeds give a table that has a plan.
pub fn all_marks(rows: u32, seed: u64) -> Table {
    let mut table = deep(rows, 1, 2, seed);
    table.marks = (0..=5).cycle().take(table.rows()).collect();
    table
}

/// Rows 0 to 31 are windows of 100 to 5,400 ticks, seven or eight deep in the stretch where they lie (so many and so
/// short, they cannot be that deep all day); rows 32 to 63 are arcs longer than 38,000 ticks; all marks 0.
pub fn long_arcs(seed: u64) -> Table {
    let mut sequence = Sequence::new(seed);
    let mut table = Table::empty(Kind::Round, DAY as u16);
    let starts: Vec<u32> = (0..40).map(|i| i * 640 + sequence.within(0, 99)).collect();
    for i in 0..32 {
        let end = sequence.within(starts[i + 7], starts[i + 8]);
        table.push_arc(starts[i], end - starts[i]);
    }
    for _ in 32..64 {
        table.push_arc(sequence.within(0, DAY - 1), sequence.within(38_001, DAY - 1));
    }
    table
}

/// 64 windows over the whole day, and labels that give them to receivers 1 and 2 in turn: a window of 600 to 1,350
/// ticks at every 675th tick.
pub fn in_turn(seed: u64) -> (Table, Vec<u8>) {
    let mut sequence = Sequence::new(seed);
    let mut table = Table::empty(Kind::Round, DAY as u16);
    for i in 0..64 {
        table.push_arc(i * 675, sequence.within(600, 1_350));
    }
    (table, [1, 2].repeat(32))
}

/// Rows with one and the same window, of half the day.
pub fn equal(rows: u32, start: u32) -> Table {
    let mut table = Table::empty(Kind::Round, DAY as u16);
    for _ in 0..rows {
        table.push_arc(start, DAY / 2);
    }
    table
}

/// Rows each of which lies within the one before it, in a pseudo-random order; the longest leaves a stretch of the day
/// free.
pub fn nested(rows: u32, seed: u64) -> Table {
    let mut sequence = Sequence::new(seed);
    let mut table = Table::empty(Kind::Round, DAY as u16);
    let step = DAY / (2 * rows + 4);
    let from = sequence.within(0, DAY - 1);
    for i in 0..rows {
        let start = i * step + sequence.within(0, step - 1);
        let end = DAY - (i + 2) * step + sequence.within(0, step - 1);
        table.push_arc(from + start, end - start);
    }
    table.shuffle(&mut sequence);
    table
}

/// Windows over the whole day of which no two overlap.
pub fn disjoint(rows: u32, seed: u64) -> Table {
    let mut sequence = Sequence::new(seed);
    let mut table = Table::empty(Kind::Round, DAY as u16);
    let step = DAY / rows;
    for i in 0..rows {
        let start = sequence.within(0, step / 2);
        table.push_arc(i * step + start, sequence.within(1, step - start));
    }
    table.shuffle(&mut sequence);
    table
}

/// A table that has a plan, with every second row that is heard in it marked must, which leaves the plan as it is. It
/// is planned label by label, so that a count of the planner's or the port's instructions has no plan more in it.
pub fn half_heard_must(mut table: Table) -> Table {
    let mut labels = vec![0; table.rows()];
    let planned = table.plan(label_by_label::plan, &mut labels, &mut vec![0; SPACE_BYTES]);
    planned.expect("a table that has a plan");
    let heard = (0..table.rows()).filter(|&i| labels[i] > 0);
    for i in heard.step_by(2) {
        table.marks[i] |= 1;
    }
    table
}

/// The same for the table with marks for either receiver, receiver 1 only and receiver 2 only in turn.
pub fn mixed_marks(mut table: Table) -> Table {
    table.marks = [0, 2, 4].into_iter().cycle().take(table.rows()).collect();
    half_heard_must(table)
}

/// Open hours of a run of so many ticks, for each receiver all of the run in one case of three.
pub fn random_hours(sequence: &mut Sequence, ticks: u32) -> [[u16; 2]; 2] {
    [0, 1].map(|_| {
        if sequence.one_in(3) {
            return [0, ticks as u16];
        }
        let (a, b) = (sequence.within(0, ticks), sequence.within(0, ticks));
        [a.min(b) as u16, a.max(b) as u16]
    })
}

/// What a row of a mixture can be: a short window, a long arc, a window of a row before it once more, one within that
/// of a row before it, or one that sends all day.
#[derive(Clone, Copy)]
enum Shape {
    Short,
    Long,
    Equal,
    Nested,
    AllDay,
}

/// What the rows of a mixture are drawn from: each shape as often as this has it, at least one.
fn random_shapes(sequence: &mut Sequence) -> Vec<Shape> {
    let mut shapes = vec![];
    for (shape, most) in [
        (Shape::Short, 8),
        (Shape::Long, 8),
        (Shape::Equal, 4),
        (Shape::Nested, 4),
        (Shape::AllDay, 2),
    ] {
        let times = if sequence.one_in(2) {
            0
        } else {
            sequence.within(1, most)
        };
        shapes.extend(vec![shape; times as usize]);
    }
    if shapes.is_empty() {
        shapes.push(Shape::Short);
    }
    shapes
}

/// Start and length of a row of a mixture; `before` has those of the rows before it. Where there are none, a row that
/// rests on one is a long arc.
fn random_arc(sequence: &mut Sequence, table: &Table, shape: Shape, before: &[(u32, u32)]) -> (u32, u32) {
    let (round, ticks) = (table.kind == Kind::Round, table.ticks as u32);
    let (low, high) = match shape {
        Shape::Equal | Shape::Nested if !before.is_empty() => {
            let (start, length) = before[sequence.within(0, before.len() as u32 - 1) as usize];
            if matches!(shape, Shape::Equal) {
                return (start, length);
            }
            let [first, last] = [0, 1].map(|_| sequence.within(0, (length - 1) / 4));
            return ((start + first) % ticks, length - first - last);
        }
        Shape::Short => (1, ticks / 16),
        Shape::AllDay => (ticks, ticks),
        _ => (ticks / 8, ticks - 1),
    };
    let length = sequence.within(low, high);
    (
        sequence.within(0, if round { ticks - 1 } else { ticks - length }),
        length,
    )
}

/// So many rows of random shapes in a round or a run, with any marks, of which few are must, and in one table of two
/// with a gap.
pub fn mixture(sequence: &mut Sequence, rows: usize) -> Table {
    let ticks = [60, 1_440, DAY, DAY][sequence.within(0, 3) as usize];
    let kind = if sequence.one_in(4) {
        Kind::Run(random_hours(sequence, ticks))
    } else {
        Kind::Round
    };
    let gap = if sequence.one_in(2) {
        0
    } else {
        sequence.within(1, ticks.min(600))
    };
    let mut table = Table::empty(kind, ticks as u16).with_gap(gap as u16);
    let shapes = random_shapes(sequence);
    let must = [40, 200, 1_000][sequence.within(0, 2) as usize];
    let only = [1, 2, 4, 1_000][sequence.within(0, 3) as usize];
    let mut arcs = vec![];
    for i in 0..rows {
        let shape = shapes[sequence.within(0, shapes.len() as u32 - 1) as usize];
        let arc = random_arc(sequence, &table, shape, &arcs);
        arcs.push(arc);
        table.push_arc(arc.0, arc.1);
        let receivers = if sequence.one_in(only) {
            sequence.within(0, 2) as u8
        } else {
            0
        };
        table.marks[i] = 2 * receivers + u8::from(sequence.one_in(must));
    }
    table
}

/// The benchmark's mixtures, of 64 rows.
pub fn benchmark_mixtures() -> Vec<Table> {
    let mut sequence = Sequence::new(20);
    (0..1_000).map(|_| mixture(&mut sequence, 64)).collect()
}

/// The benchmark's tables of 64 rows, with their names.
pub fn benchmark_tables() -> Vec<(&'static str, Table)> {
    vec![
        ("1 to 2 deep", deep(64, 1, 2, 1)),
        ("1 to 2 deep, another", deep(64, 1, 2, 9)),
        ("scattered, 1.5 deep on average", scattered(64, 150, 2)),
        ("4 to 5 deep", deep(64, 4, 5, 3)),
        ("16 deep", deep(64, 15, 17, 4)),
        ("32 deep", deep(64, 31, 33, 10)),
        ("half the rows almost all day", half_long(64, 1, 3_000, 5)),
        ("half the rows send all day", half_long(64, 0, 0, 13)),
        ("all rows send all day", all_day(64, 14)),
        ("run with uneven hours", uneven_run(64, 6)),
        ("all must, no plan", all_must(64, 7)),
        ("32 windows and 32 long arcs", long_arcs(8)),
        ("1 to 2 deep, marks 0 to 5 in turn", all_marks(64, 51)),
        ("1 to 2 deep, gap 60", deep(64, 1, 2, 1).with_gap(60)),
        ("run with uneven hours, gap 60", uneven_run(64, 6).with_gap(60)),
        ("32 windows and 32 long arcs, gap 60", long_arcs(8).with_gap(60)),
        ("64 equal arcs", equal(64, 30_000)),
        ("nested arcs", nested(64, 16)),
        ("all rows almost all day", all_long(64, 1, 3_000, 17)),
        ("8 deep, marks 0 to 5", mixed_marks(deep(64, 7, 9, 18))),
        (
            "4 to 5 deep, half of the heard must",
            half_heard_must(deep(64, 4, 5, 3)),
        ),
        ("16 deep, half of the heard must", half_heard_must(deep(64, 15, 17, 4))),
        ("disjoint windows", disjoint(64, 19)),
    ]
}

/// The benchmark's tables of 63 rows, each with 64 candidates, which are the rows of a table drawn in the same way from
/// another sequence.
pub fn candidate_tables() -> Vec<(&'static str, Table, Table)> {
    vec![
        ("1 to 2 deep", deep(64, 1, 2, 1).first(63), deep(64, 1, 2, 101)),
        ("1 to 2 deep, another", deep(64, 1, 2, 9).first(63), deep(64, 1, 2, 109)),
        (
            "scattered, 1.5 deep on average",
            scattered(64, 150, 2).first(63),
            scattered(64, 150, 102),
        ),
        ("4 to 5 deep", deep(64, 4, 5, 3).first(63), deep(64, 4, 5, 103)),
        ("5 deep", deep(64, 5, 5, 15).first(63), deep(64, 5, 5, 115)),
        (
            "run with uneven hours",
            uneven_run(64, 6).first(63),
            uneven_run(64, 106),
        ),
        (
            "1 to 2 deep, marks 0 to 5 in turn",
            all_marks(64, 51).first(63),
            all_marks(64, 151),
        ),
        (
            "1 to 2 deep, gap 60",
            deep(64, 1, 2, 1).first(63).with_gap(60),
            deep(64, 1, 2, 101),
        ),
        (
            "5 deep, gap 60",
            deep(64, 5, 5, 15).first(63).with_gap(60),
            deep(64, 5, 5, 115),
        ),
        (
            "run with uneven hours, gap 60",
            uneven_run(64, 6).first(63).with_gap(60),
            uneven_run(64, 106),
        ),
    ]
}
