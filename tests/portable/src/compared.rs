//! Random calls of every function by both libraries: the same answer, and the same bytes in every list.

use crate::drawn::drawn;
use crate::functions::{Function, FUNCTIONS};
use crate::given::{by_portable, by_proved, front_and_rest, with_list, Given, LISTS};
use hubplan::tables::Sequence;
use std::collections::BTreeMap;
use std::panic::catch_unwind;

/// How often each refusal was given, and how many calls differed.
#[derive(Default)]
struct Tally {
    gave: BTreeMap<u64, usize>,
    differ: usize,
}

/// A list as it is printed.
fn told(places: &[u64]) -> String {
    let (front, rest) = front_and_rest(places);
    format!("{front:?} and {} times {rest}", places.len() - front.len())
}

/// Prints what a call was given, and each list that differs after it.
fn print_call(function: Function, mut given: Given, mut proved: Given, mut portable: Given) {
    for list in function.takes() {
        println!("    given {list:?}: {}", told(&given.places(*list)));
    }
    for &list in LISTS {
        let (places, other) = (proved.places(list), portable.places(list));
        if places != other {
            println!(
                "    {list:?}: {}, by the portable crate {}",
                told(&places),
                told(&other)
            );
        }
        with_list!(given, list, places => places.clear());
    }
    println!("    given {given:?}");
}

/// One call by both libraries. Gives the refusal; where they differ, the call is printed.
fn compare(function: Function, given: &Given) -> Option<u64> {
    let mut proved = given.clone();
    let answer = by_proved(function, &mut proved);
    let called = catch_unwind(|| {
        let mut portable = given.clone();
        (by_portable(function, &mut portable), portable)
    });
    let Ok((other, portable)) = called else {
        println!(
            "calls: FAILED: {}: {answer:?}, and a panic in the portable crate",
            function.name()
        );
        print_call(function, given.clone(), proved.clone(), proved);
        return None;
    };
    if (&other, &portable) == (&answer, &proved) {
        return Some(function.refusal(&answer, &proved.out));
    }
    println!(
        "calls: FAILED: {}: {answer:?}, by the portable crate {other:?}",
        function.name()
    );
    print_call(function, given.clone(), proved, portable);
    None
}

/// So many calls, from a sequence of their own.
fn compare_many(function: Function, calls: usize, seed: u64) -> Tally {
    let mut sequence = Sequence::new(seed);
    let mut tally = Tally::default();
    for _ in 0..calls {
        match compare(function, &drawn(&mut sequence, function)) {
            Some(refusal) => *tally.gave.entry(refusal).or_default() += 1,
            None => tally.differ += 1,
        }
        if tally.differ == 3 {
            break;
        }
    }
    tally
}

/// So many calls of a function, on all processors; prints how often each refusal was given, and gives whether all were given and nothing differs.
fn compare_function(function: Function, calls: usize) -> bool {
    let threads = std::thread::available_parallelism().map_or(1, usize::from);
    let tallies: Vec<Tally> = std::thread::scope(|scope| {
        let started: Vec<_> = (0..threads)
            .map(|t| {
                let part = calls / threads + usize::from(t < calls % threads);
                scope.spawn(move || compare_many(function, part, (function as u64) << 32 | t as u64))
            })
            .collect();
        started
            .into_iter()
            .map(|thread| thread.join().expect("a thread that ends"))
            .collect()
    });
    let mut gave: BTreeMap<u64, usize> = function.gives().iter().map(|refusal| (*refusal, 0)).collect();
    for (refusal, times) in tallies.iter().flat_map(|tally| &tally.gave) {
        *gave.entry(*refusal).or_default() += times;
    }
    let differ: usize = tallies.iter().map(|tally| tally.differ).sum();
    let times: Vec<String> = gave
        .iter()
        .map(|(refusal, times)| format!("{refusal}: {times}"))
        .collect();
    println!(
        "{}: {} calls, {differ} differ; refusals {}",
        function.name(),
        gave.values().sum::<usize>() + differ,
        times.join(", ")
    );
    let missed = gave.values().any(|times| *times == 0);
    if missed {
        println!(
            "calls: FAILED: {} was not called so that it gives each of its refusals",
            function.name()
        );
    }
    differ == 0 && !missed
}

/// So many calls of every function.
pub fn compare_all(calls: usize) -> bool {
    std::panic::set_hook(Box::new(|_| {}));
    let same: Vec<bool> = FUNCTIONS
        .iter()
        .map(|function| compare_function(*function, calls))
        .collect();
    !same.contains(&false)
}
