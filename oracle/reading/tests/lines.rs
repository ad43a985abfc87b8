//! The language: which lines are bad, and what a bad line leaves as it is.
use reading::replay::Replay;
use reading::scripts::lines;
use reading::wrong::Wrong;

const ID: &str =
    "-1:8000000000000000:5:0101010101010101010101010101010101010101010101010101010101010101:0202020202020202020202020202020202020202020202020202020202020202";
const BLOCK: &str =
    "0:8000000000000000:5:0101010101010101010101010101010101010101010101010101010101010101:0202020202020202020202020202020202020202020202020202020202020202";
const REST: &str = "anchor=- pay=0 kind=received collated_after=0 additional=-";

/// What a script prints.
fn run(script: &str) -> String {
    let (mut replay, mut out) = (Replay::new(Wrong::None), vec![]);
    for (line, number) in lines(script.as_bytes()).zip(1..) {
        replay.line(&mut out, number, line);
    }
    String::from_utf8(out).expect("ASCII")
}

fn is_bad(line: &str) {
    assert_eq!(run(line), "line 1: bad\n", "{line:?}");
}

fn entry(id: &str) -> String {
    format!("entry {id} ref=5 prev=- top=- {REST}")
}

#[test]
fn a_nul_is_a_byte_like_others() {
    for line in ["pop\0 0", "collect\0", "collect\0junk", "raw zero\0x", "new 0\0", "\0", "dump\0", "slice 5\0", "\0# no comment"] {
        is_bad(line);
    }
    is_bad(&format!("validation {ID} skipped\0"));
    is_bad(&format!("sync {}", ID.replacen('0', "\0", 40)));
    assert_eq!(run("#\0\n"), "");
}

#[test]
fn words_and_values_stand_exactly() {
    for line in [
        "collect ",
        " collect",
        "dump ",
        "dump  raw",
        "dump raw ",
        "sound ",
        "load ",
        "raw",
        "raw zero ",
        "Collect",
        "time 5",
        "number",
        "number on ",
        "pop\t0",
    ] {
        is_bad(line);
    }
    for line in [
        "pop 05",
        "pop +5",
        "pop -0",
        "pop 4294967296",
        "pop 18446744073709551616",
        "pop",
        "pop ",
        "slice 161",
        "slice -",
        "raw head zerostate=0 range=- ids=0 shards=",
    ] {
        is_bad(line);
    }
    for workchain in ["-0", "00", "4294967295", "2147483648", "-2147483649", "+1", "", "-"] {
        is_bad(&format!("tail_ids {workchain}:8000000000000000:5"));
    }
    for workchain in ["0", "2147483647", "-2147483648", "-1"] {
        assert_eq!(run(&format!("tail_ids {workchain}:8000000000000000:5")), "refused 12\n");
    }
}

#[test]
fn a_line_has_8192_bytes_at_most() {
    let comment = |n: usize| format!("#{}", "x".repeat(n - 1));
    assert_eq!(run(&comment(8192)), "");
    is_bad(&comment(8193));
    assert_eq!(run(&format!("{}\r\n", comment(8191))), "");
    is_bad(&format!("{}\r\n", comment(8192)));
}

#[test]
fn one_carriage_return_is_dropped() {
    assert_eq!(run("collect\r\n\r\n# c\r\nsound\r"), "done\nsound\n");
    assert_eq!(run("collect\r\r\n\r\r\nsou\rnd\n\rsound"), "line 1: bad\nline 2: bad\nline 3: bad\nline 4: bad\n");
}

#[test]
fn a_long_list_is_no_bad_line() {
    let keys = vec!["0:8000000000000000:5"; 10].join(",");
    assert_eq!(run(&format!("boundary {keys}")), "refused 3\n");
    let long = format!("entry {ID} ref=5 prev={ID},{ID},{ID} top=- {REST}");
    let printed = run(&format!("load\nmasters mark=- boundary=- range=-\n{long}\nend\nsound\ndump raw\n"));
    assert!(printed.starts_with("loaded\nunsound\n") && printed.contains(" prev_count=3 prev="), "{printed}");
    for prev in [ID.to_string(), [ID, ID, ID].join(","), "-".into()] {
        is_bad(&format!("raw entry m 0 {ID} ref=5 prev_count=2 prev={prev} {REST}"));
    }
}

#[test]
fn a_bad_line_leads_entries_nowhere() {
    let (masters, shard) = ("masters mark=- boundary=- range=-", "shard 0:8000000000000000 mark=- boundary=-");
    let none = run(&format!("load\nmasters x\n{}\nend\ndump\n", entry(ID)));
    assert_eq!(none, format!("line 2: bad\nline 3: bad\nloaded\nzerostate 0\n{masters}\nend\n"));
    let script = format!("load\n{masters}\n{shard}\nmasters x\n{}\n{masters}\nshard 0\n{}\nend\ndump\n", entry(BLOCK), entry(ID));
    let dump = format!("zerostate 0\n{masters}\n{}\n{shard}\n{}\nend\n", entry(ID), entry(BLOCK));
    assert_eq!(run(&script), format!("line 4: bad\nline 7: bad\nloaded\n{dump}"));
}

#[test]
fn a_list_takes_as_many_lines_as_it_has_places() {
    let masters = "masters mark=- boundary=- range=-\n";
    let bad = |n: usize, more: usize| (n..n + more).map(|n| format!("line {n}: bad\n")).collect::<String>() + "loaded\n";
    let shards = "shard 0:8000000000000000 mark=- boundary=-\n".repeat(9);
    assert_eq!(run(&format!("load\n{shards}end\n")), bad(10, 1));
    assert_eq!(run(&format!("load\n{}end\n", format!("id {ID}\n").repeat(34))), bad(34, 2));
    assert_eq!(run(&format!("load\n{masters}{}end\n", format!("{}\n", entry(ID)).repeat(17))), bad(19, 1));
}

#[test]
fn lines_have_their_places() {
    assert_eq!(run("end\nload\ncollect\nnumber on\n# c\n\nload\nend\nend\n"), "line 1: bad\nline 3: bad\nline 4: bad\nline 7: bad\nloaded\nline 9: bad\n");
    let tops = format!("entry {BLOCK} ref=5 prev=- top=5/{BLOCK}/1 {REST}");
    assert_eq!(run(&format!("load\nshard 0:8000000000000000 mark=- boundary=-\n{tops}\nend\n")), "line 3: bad\nloaded\n");
}

#[test]
fn numbers_lead_answers_alone() {
    let printed = run("number on\n# c\ncollect\npop 0\nnumber\nload\nend\ndump\nnew 4294967295\nnumber off\nsound");
    let dump = "zerostate 0\nmasters mark=- boundary=- range=-\nend\n";
    assert_eq!(printed, format!("3: done\n4: refused 11\nline 5: bad\n7: loaded\n{dump}9: refused 2\nsound\n"));
}
