//! The benchmark: `cargo run --release --bin benchmark` prints every table of docs/BENCHMARKS.md. Times are processor
//! time of this thread, or of the child process for glpsol, so that other work on the machine counts as little as
//! possible.

use hubplan::candidates::{try_lists, Candidates, Tried};
use hubplan::distance::{Remainder, Sums};
use hubplan::held::{HeldTable, Row};
use hubplan::tables::{benchmark_mixtures, benchmark_tables, candidate_tables, deep, in_turn, Planner, Table, DAY};
use hubplan::{
    first_free, label_by_label, player_port, port, Kind, Player, Refusal, Stepped, MAX_CANDIDATES, PLAN_TAPE_BYTES,
    SPACE_BYTES,
};
use std::fmt::Write as _;
use std::hint::black_box;
use std::path::{Path, PathBuf};
use std::process::{Command, Stdio};
use std::{env, fs};

#[repr(C)]
struct Timespec {
    seconds: i64,
    nanoseconds: i64,
}

#[repr(C)]
struct Rusage {
    user: [i64; 2],
    system: [i64; 2],
    rest: [i64; 14],
}

extern "C" {
    fn clock_gettime(clock: i32, time: *mut Timespec) -> i32;
    fn getrusage(who: i32, usage: *mut Rusage) -> i32;
}

/// Processor time of this thread in nanoseconds.
fn thread_time() -> f64 {
    let mut time = Timespec {
        seconds: 0,
        nanoseconds: 0,
    };
    unsafe { clock_gettime(3, &mut time) };
    time.seconds as f64 * 1e9 + time.nanoseconds as f64
}

/// Processor time of all ended children in nanoseconds.
fn children_time() -> f64 {
    let mut usage = Rusage {
        user: [0; 2],
        system: [0; 2],
        rest: [0; 14],
    };
    unsafe { getrusage(-1, &mut usage) };
    let micros = |t: [i64; 2]| t[0] as f64 * 1e6 + t[1] as f64;
    (micros(usage.user) + micros(usage.system)) * 1e3
}

#[derive(Clone, Copy)]
struct Spread {
    low: f64,
    median: f64,
    high: f64,
}

impl Spread {
    fn words(self) -> String {
        format!(
            "{} ({} to {})",
            micros(self.median),
            micros(self.low),
            micros(self.high)
        )
    }
}

/// The median, and the lower and upper quartile.
fn spread(mut times: Vec<f64>) -> Spread {
    times.sort_by(f64::total_cmp);
    let at = |share: f64| times[((times.len() - 1) as f64 * share).round() as usize];
    Spread {
        low: at(0.25),
        median: at(0.5),
        high: at(0.75),
    }
}

/// Nanoseconds for one call.
fn time_of(calls: u32, call: &mut dyn FnMut()) -> f64 {
    let began = thread_time();
    for _ in 0..calls {
        call();
    }
    (thread_time() - began) / calls as f64
}

/// Times the calls in turn, so that a slow stretch of the machine falls on all of them.
fn measure(calls: &mut [&mut dyn FnMut()], rounds: usize) -> Vec<Spread> {
    let counts: Vec<u32> = calls
        .iter_mut()
        .map(|call| {
            let once = time_of(1, *call).max(100.0);
            (2e6 / once).clamp(1.0, 10_000.0) as u32
        })
        .collect();
    measure_each(calls, &counts, rounds)
}

/// The same where it is known how often each is called for one time.
fn measure_each(calls: &mut [&mut dyn FnMut()], counts: &[u32], rounds: usize) -> Vec<Spread> {
    let mut times = vec![vec![]; calls.len()];
    for _ in 0..rounds {
        for (i, call) in calls.iter_mut().enumerate() {
            times[i].push(time_of(counts[i], *call));
        }
    }
    times.into_iter().map(spread).collect()
}

/// The planner, the hand port, and the port that tries one label after another.
const PLANNERS: [Planner; 3] = [hubplan::plan, port::plan, label_by_label::plan];

/// The times of some planners for a table; they must agree.
fn planners<const N: usize>(
    table: &Table,
    planners: [Planner; N],
    time: impl FnOnce(&mut [&mut dyn FnMut()]) -> Vec<Spread>,
) -> ([Spread; N], Result<usize, Refusal>) {
    let mut plans = planners.map(|_| (Ok(0), vec![0; table.rows()]));
    let calls = planners.iter().zip(&mut plans).map(|(planner, (answer, labels))| {
        let mut space = vec![0; SPACE_BYTES];
        move || *answer = black_box(black_box(table).plan(*planner, labels, &mut space))
    });
    let mut calls: Vec<_> = calls.collect();
    let mut calls: Vec<&mut dyn FnMut()> = calls.iter_mut().map(|call| call as &mut dyn FnMut()).collect();
    let times = time(&mut calls);
    assert!(plans.iter().all(|plan| *plan == plans[0]), "{plans:?}");
    (std::array::from_fn(|i| times[i]), plans[0].0)
}

fn words(answer: Result<usize, Refusal>) -> String {
    match answer {
        Ok(count) => count.to_string(),
        Err(refusal) => format!("refused {}", refusal.number()),
    }
}

fn micros(time: f64) -> String {
    let time = time / 1e3;
    if time >= 100.0 {
        format!("{time:.0}")
    } else if time >= 10.0 {
        format!("{time:.1}")
    } else {
        format!("{time:.2}")
    }
}

/// The most rows that can be heard, as an integer program: a variable for each row and receiver; at each window's start
/// at most one of the windows over it, each with the gap after it, on each receiver (two windows are too close exactly
/// if one, with the gap after it, covers the other's start); a must row's two add up to 1, and a receiver that hours or
/// mark exclude has 0.
fn integer_program(table: &Table) -> String {
    let rows = table.rows();
    let reaches = |i: usize, tick: u16| {
        first_free::reaches(
            table.kind,
            table.ticks,
            table.gap,
            [table.starts[i], table.ends[i]],
            tick,
        )
    };
    let name = |i: usize, receiver: usize| format!("x{i}_{receiver}");
    let sum = |names: Vec<String>| names.join(" + ");
    let mut text = String::from("Maximize\n heard: ");
    let all: Vec<String> = (0..rows).flat_map(|i| [name(i, 1), name(i, 2)]).collect();
    text += &all.join("\n + ");
    text += "\nSubject To\n";
    for i in 0..rows {
        let relation = if port::allows(table.marks[i], 0) { "<=" } else { "=" };
        writeln!(text, " row{i}: {} {relation} 1", sum(vec![name(i, 1), name(i, 2)])).unwrap();
        for receiver in [1, 2] {
            let over: Vec<String> = (0..rows)
                .filter(|&j| reaches(j, table.starts[i]))
                .map(|j| name(j, receiver))
                .collect();
            if over.len() > 1 {
                writeln!(text, " tick{i}_{receiver}: {} <= 1", over.join("\n + ")).unwrap();
            }
            let open = match table.kind {
                Kind::Round => true,
                Kind::Run(hours) => {
                    hours[receiver - 1][0] <= table.starts[i] && table.ends[i] <= hours[receiver - 1][1]
                }
            };
            if !open || !port::allows(table.marks[i], receiver as u8) {
                writeln!(text, " shut{i}_{receiver}: {} = 0", name(i, receiver)).unwrap();
            }
        }
    }
    text += "Binary\n ";
    text += &all.join("\n ");
    text + "\nEnd\n"
}

fn glpsol_version() -> Option<String> {
    let output = Command::new("glpsol").arg("--version").output().ok()?;
    Some(String::from_utf8_lossy(&output.stdout).lines().next()?.to_string())
}

/// Nanoseconds of processor time for one run of glpsol on a file, from its start to its end.
fn glpsol_once(file: &Path) -> f64 {
    let began = children_time();
    let status = Command::new("glpsol")
        .arg("--lp")
        .arg(file)
        .stdout(Stdio::null())
        .stderr(Stdio::null())
        .status();
    assert!(status.expect("glpsol runs").success());
    children_time() - began
}

/// The maximum that glpsol finds; none where there is no solution.
fn glpsol_maximum(file: &Path) -> Option<usize> {
    let solution = file.with_extension("sol");
    let status = Command::new("glpsol")
        .arg("--lp")
        .arg(file)
        .arg("-w")
        .arg(&solution)
        .stdout(Stdio::null())
        .status();
    assert!(status.expect("glpsol runs").success());
    let text = fs::read_to_string(&solution).expect("glpsol wrote its solution");
    // s mip ROWS COLUMNS STATUS VALUE
    let line: Vec<&str> = text
        .lines()
        .find(|line| line.starts_with("s mip"))?
        .split_whitespace()
        .collect();
    if line[4] == "o" {
        line[5].parse().ok()
    } else {
        None
    }
}

/// The time of placing each row on the first receiver that is free, and how many rows fewer that hears or that it finds
/// no plan.
fn by_first_free(table: &Table, answer: Result<usize, Refusal>) -> (Spread, String) {
    let mut labels = vec![0; table.rows()];
    let mut placed = Ok(0);
    let mut call = || {
        let table = black_box(table);
        placed = black_box(first_free::plan(
            table.kind,
            table.ticks,
            table.gap,
            &table.starts,
            &table.ends,
            &table.marks,
            &mut labels,
        ));
    };
    let time = measure(&mut [&mut call], 41)[0];
    let fewer = match (answer, placed) {
        (Ok(count), Ok(heard)) => (count - heard).to_string(),
        (_, placed) => words(placed),
    };
    (time, fewer)
}

/// The time of glpsol for one maximum of the table, and the same without the time that it needs for a program of one
/// variable, run in turn.
fn solver(folder: &Path, table: &Table, answer: Result<usize, Refusal>) -> (Spread, f64) {
    let (least, file) = (folder.join("least.lp"), folder.join("table.lp"));
    fs::write(
        &least,
        "Maximize\n heard: x\nSubject To\n row: x <= 1\nBinary\n x\nEnd\n",
    )
    .unwrap();
    fs::write(&file, integer_program(table)).unwrap();
    assert_eq!(glpsol_maximum(&file), answer.ok(), "glpsol's maximum");
    let pairs: Vec<(f64, f64)> = (0..31).map(|_| (glpsol_once(&least), glpsol_once(&file))).collect();
    let start = spread(pairs.iter().map(|pair| pair.0).collect()).median;
    let whole = spread(pairs.iter().map(|pair| pair.1).collect());
    (whole, (whole.median - start).max(1.0))
}

fn tables_of_64_rows(folder: &Path) {
    let version = glpsol_version();
    println!("## Tables of 64 rows\n");
    println!(
        "One whole plan in microseconds of processor time: the median of repeated runs (lower to upper quartile).\n"
    );
    println!(
        "| table | windows over a tick | heard | planner | hand port | planner / port | label by label | planner / label by label | first free | it hears fewer by \
         | glpsol, one maximum | planner / glpsol | glpsol without its start | planner / that |"
    );
    println!("|---|---|---|---|---|---|---|---|---|---|---|---|---|---|");
    for (name, table) in benchmark_tables() {
        let ([proved, ported, by_label], answer) = planners(&table, PLANNERS, |calls| measure(calls, 41));
        let (placed, fewer) = by_first_free(&table, answer);
        let solved = match version {
            None => "not installed | | |".to_string(),
            Some(_) => {
                let (whole, solving) = solver(folder, &table, answer);
                let (of_whole, of_solving) = (proved.median / whole.median, proved.median / solving);
                format!(
                    "{} | {of_whole:.3} | {} | {of_solving:.3}",
                    whole.words(),
                    micros(solving)
                )
            }
        };
        let (low, high) = table.depth();
        println!(
            "| {name} | {low} to {high} | {} | {} | {} | {:.2} | {} | {:.3} | {} | {fewer} | {solved} |",
            words(answer),
            proved.words(),
            ported.words(),
            proved.median / ported.median,
            micros(by_label.median),
            proved.median / by_label.median,
            micros(placed.median),
        );
    }
    match version {
        Some(version) => println!("\nglpsol is {version}."),
        None => println!("\nglpsol is not installed (Debian: apt-get install glpk-utils)."),
    }
}

/// Mean and worst time over all mixtures, of each planner.
fn mixtures() {
    println!("\n## Mixtures\n");
    let tables = benchmark_mixtures();
    let (mut sums, mut worst, mut planned) = ([0.0; 3], [0.0; 3], 0);
    for table in &tables {
        let (times, answer) = planners(table, PLANNERS, |calls| measure_each(calls, &[1; 3], 3));
        for (i, time) in times.iter().enumerate() {
            sums[i] += time.median;
            worst[i] = time.median.max(worst[i]);
        }
        planned += u32::from(answer.is_ok());
    }
    println!(
        "One whole plan of each of {} random tables of 64 rows, of which {planned} have a plan, in microseconds of processor time: the median of three plans of each table.\n",
        tables.len()
    );
    println!("| | planner | hand port | planner / port | label by label | planner / label by label |");
    println!("|---|---|---|---|---|---|");
    for (what, [proved, ported, by_label]) in [
        ("mean", sums.map(|sum: f64| sum / tables.len() as f64)),
        ("worst", worst),
    ] {
        println!(
            "| {what} | {} | {} | {:.2} | {} | {:.3} |",
            micros(proved),
            micros(ported),
            proved / ported,
            micros(by_label),
            proved / by_label
        );
    }
}

fn growth() {
    println!("\n## From 8 to 64 rows\n");
    println!("The planner in microseconds of processor time, and its ratio to the hand port.\n");
    println!("| rows | 1 to 2 deep | / port | 4 to 5 deep | / port | a quarter of the rows deep | / port |");
    println!("|---|---|---|---|---|---|---|");
    for rows in [8, 16, 24, 32, 48, 64] {
        let mut line = format!("| {rows} ");
        for (low, high) in [(1, 2), (4, 5), (rows / 4, rows / 4)] {
            // the median over five tables, since one table more or less says little
            let times: Vec<(f64, f64)> = (0..5)
                .map(|seed| {
                    let table = deep(rows, low, high, 900 + seed);
                    let ([proved, ported], _) =
                        planners(&table, [hubplan::plan, port::plan], |calls| measure(calls, 11));
                    (proved.median, proved.median / ported.median)
                })
                .collect();
            let time = spread(times.iter().map(|t| t.0).collect()).median;
            let ratio = spread(times.iter().map(|t| t.1).collect()).median;
            write!(line, "| {} | {ratio:.2} ", micros(time)).unwrap();
        }
        println!("{line}|");
    }
}

/// Runs one plan, for callgrind to count.
fn one_plan(index: usize, planner: Planner) {
    let (_, table) = &benchmark_tables()[index];
    let (mut labels, mut space) = (vec![0; 64], vec![0; SPACE_BYTES]);
    let _ = black_box(table.plan(planner, &mut labels, &mut space));
}

/// The instructions of a function, and of what it calls, while this program runs with these words.
fn counted(folder: &Path, words: &[&str], function: &str) -> Option<u64> {
    let output = Command::new("valgrind")
        .arg("--tool=callgrind")
        .arg(format!("--toggle-collect={function}"))
        .arg(format!(
            "--callgrind-out-file={}",
            folder.join("callgrind.out").display()
        ))
        .arg(env::current_exe().ok()?)
        .args(words)
        .output()
        .ok()?;
    let text = String::from_utf8_lossy(&output.stderr).to_string();
    text.lines()
        .find(|line| line.contains("Collected"))?
        .split_whitespace()
        .last()?
        .parse()
        .ok()
}

fn instructions(folder: &Path) {
    println!("\n## Instructions\n");
    let Ok(version) = Command::new("valgrind").arg("--version").output() else {
        println!("valgrind is not installed.");
        return;
    };
    println!(
        "Instructions of one plan, counted by {}; runs differ by a dozen or so.\n",
        String::from_utf8_lossy(&version.stdout).trim()
    );
    println!("| table | planner | hand port | planner / port |");
    println!("|---|---|---|---|");
    for index in [0, 4, 13] {
        let name = benchmark_tables()[index].0;
        let number = index.to_string();
        let proved = counted(folder, &["one", &number, "planner"], "hub_plan_round");
        let ported = counted(folder, &["one", &number, "port"], "hubplan::port::plan_by");
        match (proved, ported) {
            (Some(proved), Some(ported)) => println!(
                "| {name} | {proved} | {ported} | {:.2} |",
                proved as f64 / ported as f64
            ),
            _ => println!("| {name} | not counted | | |"),
        }
    }
}

type Start = fn(&[u8], u16) -> Result<Player, Refusal>;
type Step = fn(&[u8], Player) -> Stepped;

/// A round of 43,200 ticks with 32 LISTENs for each receiver.
fn player_tape() -> Vec<u8> {
    let (table, labels) = in_turn(12);
    let mut tape = vec![0; PLAN_TAPE_BYTES];
    let length = table.write_plan(&labels, &mut tape);
    assert_eq!(length, Ok(PLAN_TAPE_BYTES));
    tape
}

/// A whole day of steps.
fn one_day(step: Step, tape: &[u8]) {
    let mut player = Player { tick: 0 };
    for _ in 0..DAY {
        player = black_box(step(black_box(tape), player)).player;
    }
}

fn one_start(start: Start, tape: &[u8]) {
    let _ = black_box(start(black_box(tape), 0));
}

fn check_day(tape: &[u8]) {
    for tick in 0..DAY as u16 {
        assert_eq!(
            hubplan::step(tape, Player { tick }),
            player_port::step(tape, Player { tick })
        );
    }
    assert_eq!(hubplan::start(tape, 0), player_port::start(tape, 0));
}

/// A line of a table: two times and their ratio, two counts of instructions and theirs.
fn line_of_two(name: &str, times: &[Spread], counts: [Option<u64>; 2]) {
    let instructions = match counts {
        [Some(first), Some(second)] => format!("{first} | {second} | {:.2}", first as f64 / second as f64),
        _ => "not counted | |".to_string(),
    };
    let ratio = times[0].median / times[1].median;
    println!(
        "| {name} | {} | {} | {ratio:.2} | {instructions} |",
        times[0].words(),
        times[1].words()
    );
}

fn players(folder: &Path) {
    println!("\n## Player\n");
    println!("Microseconds of processor time: the median of repeated runs (lower to upper quartile). Instructions are counted by valgrind.\n");
    println!("| | player | hand port | player / port | instructions | of the port | ratio |");
    println!("|---|---|---|---|---|---|---|");
    let tape = player_tape();
    check_day(&tape);
    let mut proved = || one_day(hubplan::step, &tape);
    let mut ported = || one_day(player_port::step, &tape);
    let steps = measure(&mut [&mut proved, &mut ported], 81);
    let counts = [("player", "hub_player_step"), ("port", "hubplan::player_port::step_by")]
        .map(|(who, name)| counted(folder, &["day", who], name));
    line_of_two("a day of 43,200 steps", &steps, counts);
    let mut proved = || one_start(hubplan::start, &tape);
    let mut ported = || one_start(player_port::start, &tape);
    let starts = measure(&mut [&mut proved, &mut ported], 81);
    let counts = [("player", "hub_player_start"), ("port", "hubplan::player_port::start")]
        .map(|(who, name)| counted(folder, &["start", who], name));
    line_of_two("a start", &starts, counts);
    let of_step = |time: Spread| time.median / DAY as f64;
    println!(
        "\nA step takes {:.0} nanoseconds, and {:.0} in the hand port.",
        of_step(steps[0]),
        of_step(steps[1])
    );
}

/// The hand ports with the remainder beside the same with sums; they must agree.
fn distances(folder: &Path) {
    println!("\n## Distance with a remainder\n");
    println!(
        "The hand ports with (tick + R - start) mod R as a remainder, beside the same ports with a comparison and at most two sums. Microseconds of processor time: the \
         median of repeated runs (lower to upper quartile). Instructions are counted by valgrind.\n"
    );
    println!("| | remainder | sums | remainder / sums | instructions | with sums | ratio |");
    println!("|---|---|---|---|---|---|---|");
    let tape = player_tape();
    for tick in 0..DAY as u16 {
        let told = |step: Step| step(&tape, Player { tick });
        assert_eq!(
            told(player_port::step_by::<Remainder>),
            told(player_port::step_by::<Sums>)
        );
    }
    let mut remainder = || one_day(player_port::step_by::<Remainder>, &tape);
    let mut sums = || one_day(player_port::step_by::<Sums>, &tape);
    let times = measure(&mut [&mut remainder, &mut sums], 81);
    let counts = ["remainder", "port"].map(|who| counted(folder, &["day", who], "hubplan::player_port::step_by"));
    line_of_two("a day of 43,200 steps", &times, counts);
    for index in [0, 4] {
        let (name, table) = &benchmark_tables()[index];
        let times = ports(table);
        let number = index.to_string();
        let counts = ["remainder", "port"].map(|who| counted(folder, &["one", &number, who], "hubplan::port::plan_by"));
        line_of_two(&format!("a plan of 64 rows, {name}"), &times, counts);
    }
}

/// The port's time for a table, with the remainder and with sums.
fn ports(table: &Table) -> Vec<Spread> {
    let plan = |planner: Planner, labels: &mut [u8], space: &mut [u8]| {
        black_box(black_box(table).plan(planner, labels, space))
    };
    let (mut labels, mut space) = (vec![0; table.rows()], vec![0; SPACE_BYTES]);
    let (mut labels2, mut space2) = (labels.clone(), space.clone());
    let answer = plan(port::plan_by::<Remainder>, &mut labels, &mut space);
    assert_eq!(answer, plan(port::plan_by::<Sums>, &mut labels2, &mut space2));
    assert_eq!(labels, labels2);
    let mut remainder = || {
        let _ = plan(port::plan_by::<Remainder>, &mut labels, &mut space);
    };
    let mut sums = || {
        let _ = plan(port::plan_by::<Sums>, &mut labels2, &mut space2);
    };
    measure(&mut [&mut remainder, &mut sums], 81)
}

/// A held table of the first rows of a round that has a plan, so each of its additions is accepted.
fn held_of(table: &Table, rows: usize) -> HeldTable {
    let (mut held, begun) = HeldTable::begin(table.ticks, table.gap);
    begun.expect("R and gap of a table that has a plan");
    for i in 0..rows {
        held.add(row_of(table, i), &mut vec![0; SPACE_BYTES]).expect("a plan");
    }
    held
}

fn row_of(table: &Table, i: usize) -> Row {
    Row {
        start: table.starts[i],
        end: table.ends[i],
        mark: table.marks[i],
    }
}

/// The rows of a held table, for the port.
fn table_of(held: &HeldTable) -> Table {
    Table {
        starts: held.starts().to_vec(),
        ends: held.ends().to_vec(),
        marks: held.marks().to_vec(),
        ..Table::empty(Kind::Round, held.numbers().ticks).with_gap(held.numbers().gap)
    }
}

type Change<'a> = &'a dyn Fn(&mut HeldTable, &mut [u8]) -> Result<usize, Refusal>;

/// A line of the table: the time of a change, made of a copy each time, and those of the planner and the port for the
/// whole table that is held then. The plans must agree.
fn held_line(name: &str, what: &str, held: &HeldTable, change: Change) {
    let mut space = vec![0; SPACE_BYTES];
    let mut changed = held.clone();
    let answer = change(&mut changed, &mut space);
    let table = table_of(&changed);
    let (mut labels, mut port_labels) = (vec![0; table.rows()], vec![0; table.rows()]);
    let (mut plan_space, mut port_space) = (space.clone(), space.clone());
    assert_eq!(answer, table.plan(port::plan, &mut port_labels, &mut port_space));
    assert_eq!(changed.labels(), port_labels);
    let mut change_call = || {
        let mut copy = black_box(held).clone();
        let _ = black_box(change(&mut copy, &mut space));
        black_box(&copy);
    };
    let mut plan_call = || {
        let _ = black_box(black_box(&table).plan(hubplan::plan, &mut labels, &mut plan_space));
    };
    let mut port_call = || {
        let _ = black_box(black_box(&table).plan(port::plan, &mut port_labels, &mut port_space));
    };
    let times = measure(&mut [&mut change_call, &mut plan_call, &mut port_call], 21);
    let ratio = |i: usize| times[0].median / times[i].median;
    println!(
        "| {name} | {what} | {} | {} | {:.2} | {} | {:.2} |",
        times[0].words(),
        times[1].words(),
        ratio(1),
        times[2].words(),
        ratio(2)
    );
}

fn held_tables() {
    println!("\n## Held tables\n");
    println!(
        "A change in microseconds of processor time, beside the planner's and the hand port's for planning the whole table that is held then: the median of \
         repeated runs (lower to upper quartile).\n"
    );
    println!("| table | change | held table | planner | held table / planner | hand port | held table / port |");
    println!("|---|---|---|---|---|---|---|");
    for (name, table) in benchmark_tables() {
        let has_plan = table
            .plan(hubplan::plan, &mut [0; 64], &mut vec![0; SPACE_BYTES])
            .is_ok();
        if table.kind != Kind::Round || !has_plan {
            continue;
        }
        held_line(name, "row 0 of 64 withdrawn", &held_of(&table, 64), &|held, space| {
            held.withdraw(0, space)
        });
        held_line(name, "64th row added", &held_of(&table, 63), &|held, space| {
            held.add(row_of(&table, 63), space)
        });
    }
}

/// Number and count of each candidate.
#[derive(Clone, PartialEq, Debug)]
struct Answers {
    numbers: [u8; MAX_CANDIDATES],
    counts: [u8; MAX_CANDIDATES],
}

const NO_ANSWERS: Answers = Answers {
    numbers: [0; MAX_CANDIDATES],
    counts: [0; MAX_CANDIDATES],
};

/// Tries the rows of one table as candidates for another, in one call.
fn try_candidates(table: &Table, candidates: &Table, answers: &mut Answers, space: &mut [u8]) -> Tried {
    let Table {
        starts, ends, marks, ..
    } = candidates;
    try_lists(
        table.kind,
        table.ticks,
        table.gap,
        &table.starts,
        &table.ends,
        &table.marks,
        Candidates { starts, ends, marks },
        &mut answers.numbers,
        &mut answers.counts,
        space,
    )
}

/// The table with each candidate as its last row, which must be heard.
fn longer_tables(table: &Table, candidates: &Table) -> Vec<Table> {
    let longer = |j: usize| {
        let mut longer = table.clone();
        longer.starts.push(candidates.starts[j]);
        longer.ends.push(candidates.ends[j]);
        longer.marks.push(candidates.marks[j] | 1);
        longer
    };
    (0..candidates.rows()).map(longer).collect()
}

/// The same answers by planning each longer table whole.
fn plan_each(planner: Planner, tables: &[Table], answers: &mut Answers, space: &mut [u8]) {
    for (j, table) in tables.iter().enumerate() {
        let answer = black_box(table).plan(planner, &mut [0; 64], space);
        answers.numbers[j] = answer.map_or_else(Refusal::number, |_| 0);
        answers.counts[j] = answer.unwrap_or(0) as u8;
    }
}

/// A line of the table: the time of trying 64 candidates, and those of the planner and the port for the 64 longer
/// tables. The answers must agree.
fn candidates_line(name: &str, table: &Table, candidates: &Table) {
    let longer = longer_tables(table, candidates);
    let [mut answers, mut planned, mut ported] = [NO_ANSWERS; 3];
    let mut space = [0; 3].map(|byte| vec![byte; SPACE_BYTES]);
    let [try_space, plan_space, port_space] = &mut space;
    let mut try_call = || {
        let tried = try_candidates(black_box(table), black_box(candidates), &mut answers, try_space);
        assert_eq!(
            black_box(tried),
            Tried {
                refusal: None,
                rows: 127
            }
        );
    };
    let mut plan_call = || plan_each(hubplan::plan, &longer, &mut planned, plan_space);
    let mut port_call = || plan_each(port::plan, &longer, &mut ported, port_space);
    let times = measure(&mut [&mut try_call, &mut plan_call, &mut port_call], 21);
    assert!(answers == planned && answers == ported, "{name}");
    let placed = answers.numbers.iter().filter(|&&number| number == 0).count();
    println!(
        "| {name} | {placed} | {} | {} | {:.2} | {} | {:.2} |",
        times[0].words(),
        times[1].words(),
        times[0].median / times[1].median,
        times[2].words(),
        times[0].median / times[2].median
    );
}

/// Runs one call with 64 candidates, or 64 plans, for callgrind to count.
fn one_try(index: usize, planner: Option<Planner>) {
    let (_, table, candidates) = &candidate_tables()[index];
    let (mut answers, mut space) = (NO_ANSWERS, vec![0; SPACE_BYTES]);
    if let Some(planner) = planner {
        plan_each(planner, &longer_tables(table, candidates), &mut answers, &mut space);
    } else {
        black_box(try_candidates(table, candidates, &mut answers, &mut space));
    }
    black_box(&answers);
}

fn candidates(folder: &Path) {
    println!("\n## Candidates\n");
    println!(
        "64 candidates tried against 63 rows in one call, in microseconds of processor time, beside 64 whole plans of the tables with one of them more, by the planner and by the \
         hand port: the median of repeated runs (lower to upper quartile).\n"
    );
    println!("| table | candidates that can be placed | one call | 64 plans | call / plans | 64 plans of the hand port | call / those |");
    println!("|---|---|---|---|---|---|---|");
    for (name, table, candidates) in candidate_tables() {
        candidates_line(name, &table, &candidates);
    }
    println!("\nInstructions of the same, counted by valgrind.\n");
    println!("| table | one call | 64 plans | call / plans | 64 plans of the hand port | call / those |");
    println!("|---|---|---|---|---|---|");
    let functions = [
        ("call", "hub_try_candidates_round"),
        ("planner", "hub_plan_round"),
        ("port", "hubplan::port::plan_by"),
    ];
    for index in [0, 4, 6] {
        let (name, number) = (candidate_tables()[index].0, index.to_string());
        match functions.map(|(who, function)| counted(folder, &["tried", &number, who], function)) {
            [Some(call), Some(plans), Some(port)] => {
                let of = |other: u64| call as f64 / other as f64;
                println!(
                    "| {name} | {call} | {plans} | {:.2} | {port} | {:.2} |",
                    of(plans),
                    of(port)
                );
            }
            _ => println!("| {name} | not counted | | | | |"),
        }
    }
}

fn main() {
    let words: Vec<String> = env::args().skip(1).collect();
    let words: Vec<&str> = words.iter().map(String::as_str).collect();
    match words[..] {
        ["one", index, "planner"] => return one_plan(index.parse().expect("a table's number"), hubplan::plan),
        ["one", index, "port"] => return one_plan(index.parse().expect("a table's number"), port::plan),
        ["one", index, "remainder"] => {
            return one_plan(index.parse().expect("a table's number"), port::plan_by::<Remainder>)
        }
        ["day", "player"] => return one_day(hubplan::step, &player_tape()),
        ["day", "port"] => return one_day(player_port::step, &player_tape()),
        ["day", "remainder"] => return one_day(player_port::step_by::<Remainder>, &player_tape()),
        ["start", "player"] => return one_start(hubplan::start, &player_tape()),
        ["start", "port"] => return one_start(player_port::start, &player_tape()),
        ["tried", index, "call"] => return one_try(index.parse().expect("a table's number"), None),
        ["tried", index, "planner"] => return one_try(index.parse().expect("a table's number"), Some(hubplan::plan)),
        ["tried", index, "port"] => return one_try(index.parse().expect("a table's number"), Some(port::plan)),
        [] | ["mixtures"] | ["held"] | ["candidates"] | ["player"] => {}
        _ => {
            eprintln!(
                "usage: benchmark [mixtures | held | candidates | player | one NUMBER planner|port|remainder | day player|port|remainder | start player|port | tried NUMBER call|planner|port]"
            );
            std::process::exit(2);
        }
    }
    let folder: PathBuf = env::temp_dir().join(format!("hubplan-benchmark-{}", std::process::id()));
    fs::create_dir_all(&folder).expect("a folder for glpsol's files");
    if words.is_empty() {
        tables_of_64_rows(&folder);
    }
    let asked = |word: &str| words.is_empty() || words == [word];
    if asked("mixtures") {
        mixtures();
    }
    if words.is_empty() {
        growth();
        instructions(&folder);
    }
    if asked("held") {
        held_tables();
    }
    if asked("candidates") {
        candidates(&folder);
    }
    if asked("player") {
        players(&folder);
        distances(&folder);
    }
    fs::remove_dir_all(&folder).expect("the folder goes");
}
