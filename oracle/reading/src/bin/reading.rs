//! Answers a script on standard input, by the second reading of the rules. With the word `lines`, each line that it prints begins with the number of the script's line.
//! With the word `counts`, the numbers of calls and of bad lines go to standard error.
use std::io::{BufRead, BufReader, Write};

use reading::replay::Replay;
use reading::wrong::Wrong;

/// The printed lines, each with the number of the script's line before it.
fn numbered(printed: &[u8], number: u64) -> Vec<u8> {
    let lines = printed.split_inclusive(|b| *b == b'\n');
    lines.flat_map(|l| [format!("{number}\t").as_bytes(), l].concat()).collect()
}

fn main() {
    let mode = std::env::args().nth(1).unwrap_or_default();
    let mut input = BufReader::with_capacity(1 << 20, std::io::stdin().lock());
    let mut output = std::io::stdout().lock();
    let mut replay = Replay::new(Wrong::None);
    let (mut line, mut out, mut number) = (vec![], vec![], 0);
    while {
        line.clear();
        input.read_until(b'\n', &mut line).expect("input") > 0
    } {
        number += 1;
        replay.line(&mut out, number, line.strip_suffix(b"\n").unwrap_or(&line));
        if mode == "lines" {
            output.write_all(&numbered(&out, number)).expect("output");
            out.clear();
        }
        if out.len() > 1 << 20 {
            output.write_all(&out).expect("output");
            out.clear();
        }
    }
    output.write_all(&out).expect("output");
    if mode == "counts" {
        eprintln!("{} {}", replay.calls, replay.bad);
    }
}
