//! Writes a random script: `scripts SEED CALLS [domain|full]`, or `scripts unsound SEED`.
use std::io::Write;

use reading::scripts::{Mode, Script, broken};

fn usage() -> ! {
    eprintln!("scripts SEED CALLS [domain|full] | scripts unsound SEED");
    std::process::exit(2)
}

fn number(text: Option<&String>) -> u64 {
    text.and_then(|t| t.parse().ok()).unwrap_or_else(|| usage())
}

fn main() {
    let args: Vec<String> = std::env::args().skip(1).collect();
    let mut output = std::io::stdout().lock();
    if args.first().is_some_and(|a| a == "unsound") {
        let script = broken::unsound(number(args.get(1)));
        return output.write_all(&script.lines).expect("output");
    }
    let (seed, calls) = (number(args.first()), number(args.get(1)));
    let mut script = match args.get(2).map(String::as_str) {
        None | Some("domain") => Script::new(seed, calls, Mode::Domain),
        Some("full") => Script::new(seed, calls, Mode::Full),
        Some(_) => usage(),
    };
    while !script.is_done() {
        script.part();
        output.write_all(&script.lines).expect("output");
        script.lines.clear();
    }
}
