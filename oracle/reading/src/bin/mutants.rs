//! For each wrong reading, random scripts until its output differs from the right one's: `mutants [SEED [CALLS [domain]]]`.
//! CALLS is the limit for each mutant; `domain` takes only scripts for the original, and only wrong readings of the rules. Exit code 1 if one is not found.
use std::panic::{AssertUnwindSafe, catch_unwind};

use reading::replay::Replay;
use reading::scripts::{Mode, broken, lines, script};
use reading::wrong::{WRONGS, Wrong};

/// A script and what each of its lines prints by the right reading.
struct Trial {
    name: String,
    script: Vec<u8>,
    printed: Vec<Vec<u8>>,
    calls: u64,
}

const CALLS_OF_SCRIPT: u64 = 2000;

fn trial(name: String, script: Vec<u8>) -> Trial {
    let mut right = Replay::new(Wrong::None);
    let printed = lines(&script).zip(1..).map(|(line, number)| print(&mut right, number, line)).collect();
    Trial { name, printed, calls: right.calls, script }
}

fn print(replay: &mut Replay, number: u64, line: &[u8]) -> Vec<u8> {
    let mut out = vec![];
    replay.line(&mut out, number, line);
    out
}

/// Which scripts a mutant meets.
#[derive(Clone, Copy, PartialEq, Eq)]
enum Kind {
    /// What the original can answer.
    Domain,
    /// By turns what the original can answer, everything, broken caches.
    Turns,
    /// Everything, damaged lines too.
    Full,
}

fn trials(seed: u64, n: u64, kind: Kind) -> Trial {
    let seed_of = seed.wrapping_mul(1_000_003).wrapping_add(n);
    match (kind, n % 4) {
        (Kind::Full, _) | (Kind::Turns, 1) => trial(format!("full {seed_of}"), script(seed_of, CALLS_OF_SCRIPT, Mode::Full)),
        (Kind::Domain, _) | (Kind::Turns, 0 | 2) => trial(format!("domain {seed_of}"), script(seed_of, CALLS_OF_SCRIPT, Mode::Domain)),
        (Kind::Turns, _) => trial(format!("unsound {seed_of}"), broken::unsound(seed_of).lines),
    }
}

/// The number of calls after which the mutant prints something else.
fn first_difference(wrong: Wrong, trial: &Trial) -> Option<u64> {
    let mut mutant = Replay::new(wrong);
    for ((line, number), right) in lines(&trial.script).zip(1..).zip(&trial.printed) {
        // A mutant that can't go on is found too.
        let printed = catch_unwind(AssertUnwindSafe(|| print(&mut mutant, number, line)));
        if printed.ok().as_ref() != Some(right) {
            return Some(mutant.calls);
        }
    }
    None
}

/// The number of calls after which a mutant was found, and the script; or the number of calls that did not find it.
fn search(wrong: Wrong, limit: u64, made: &mut Vec<Trial>, make: impl Fn(u64) -> Trial) -> Result<(u64, String), u64> {
    let (mut calls, mut n) = (0, 0);
    while calls < limit {
        if made.len() == n {
            made.push(make(n as u64));
        }
        if let Some(more) = first_difference(wrong, &made[n]) {
            return Ok((calls + more, made[n].name.clone()));
        }
        calls += made[n].calls;
        n += 1;
    }
    Err(calls)
}

fn main() {
    let args: Vec<String> = std::env::args().collect();
    let number = |n: usize, default| args.get(n).map_or(default, |a| a.parse::<u64>().expect("mutants [SEED [CALLS [domain]]]"));
    let (seed, limit, domain) = (number(1, 1), number(2, 200_000), args.get(3).is_some_and(|a| a == "domain"));
    std::panic::set_hook(Box::new(|_| ()));
    let (mut turns, mut full) = (vec![], vec![]);
    let wrongs: Vec<_> = WRONGS.iter().filter(|(wrong, _)| !(domain && wrong.is_of_lines())).collect();
    let mut found = 0;
    for (wrong, words) in &wrongs {
        let difference = match wrong.is_of_lines() {
            _ if domain => search(*wrong, limit, &mut turns, |n| trials(seed, n, Kind::Domain)),
            true => search(*wrong, limit, &mut full, |n| trials(seed, n, Kind::Full)),
            false => search(*wrong, limit, &mut turns, |n| trials(seed, n, Kind::Turns)),
        };
        match &difference {
            Ok((calls, script)) => println!("{wrong:?}: {words}: found after {calls} calls ({script})"),
            Err(calls) => println!("{wrong:?}: {words}: NOT FOUND in {calls} calls"),
        }
        found += usize::from(difference.is_ok());
    }
    println!("mutants {} found {found}", wrongs.len());
    std::process::exit(i32::from(found != wrongs.len()));
}
