//! Damaged lines: most are bad, some happen to be good still.
use crate::places::{ENTRIES, IDS, SHARDS};
use crate::random::Random;
use crate::script::LINE;

/// Bytes that end a word or a value, and bytes that stand nowhere.
const BYTES: &[u8] = b"\0\0\0\t\r   +,-/0:=#x\x7f\x80\xff";
/// What may follow a whole line.
const TAILS: &[&[u8]] = &[b" ", b"  ", b"\t", b"\r", b"\r\r", b"\0", b"\0junk", b" x", b" 0", b",", b"0", b"\x80", b" # why"];
/// Numbers at the limits of places, widths and signs.
const NUMBERS: &[&[u8]] = &[
    b"-0",
    b"2",
    b"8",
    b"16",
    b"32",
    b"160",
    b"161",
    b"2147483647",
    b"2147483648",
    b"-2147483648",
    b"-2147483649",
    b"4294967295",
    b"4294967296",
    b"18446744073709551615",
    b"18446744073709551616",
    b"100000000000000000000",
];
/// Commands of `cachereplay` alone.
const OTHERS: [&[u8]; 3] = [b"help", b"graph", b"explain"];

/// The line with something wrong, at one place mostly.
pub fn damage(r: &mut Random, line: &[u8]) -> Vec<u8> {
    let mut bytes = line.to_vec();
    for _ in 0..if r.chance(90) { 1 } else { 2 } {
        bytes = once(r, bytes);
    }
    bytes.retain(|b| *b != b'\n');
    if OTHERS.iter().any(|o| bytes.starts_with(o)) {
        bytes.insert(0, b' ');
    }
    bytes
}

fn once(r: &mut Random, mut bytes: Vec<u8>) -> Vec<u8> {
    match r.weighted(&[10, 10, 10, 8, 8, 5, 5, 20, 10, 6, 10, 10, 10]) {
        0 => {
            let at = r.below(bytes.len() + 1);
            bytes.insert(at, any_byte(r));
        }
        1 => {
            let at = edge(r, &bytes);
            bytes.insert(at, r.pick(BYTES));
        }
        2 => change_byte(r, &mut bytes),
        3 => cut(r, &mut bytes),
        4 => double(r, &mut bytes),
        5 => bytes = with_fields(&bytes, |f| swap_two(r, f)),
        6 => remove(r, &mut bytes),
        7 => change_number(r, &mut bytes),
        8 => bytes = with_fields(&bytes, |f| change_items(r, f)),
        9 => bytes = long(r, bytes),
        10 => change_space(r, &mut bytes),
        11 => bytes = with_fields(&bytes, |f| end_word(r, f)),
        _ => bytes.extend_from_slice(r.pick(TAILS)),
    }
    bytes
}

fn any_byte(r: &mut Random) -> u8 {
    if r.chance(60) { r.pick(BYTES) } else { r.below(256) as u8 }
}

fn is_between(byte: u8) -> bool {
    b" =:,/.".contains(&byte)
}

/// Where a word or a value begins or ends.
fn edge(r: &mut Random, bytes: &[u8]) -> usize {
    let is_edge = |i: &usize| *i == 0 || *i == bytes.len() || is_between(bytes[*i]) || is_between(bytes[*i - 1]);
    let edges: Vec<usize> = (0..=bytes.len()).filter(is_edge).collect();
    r.pick(&edges)
}

/// Another byte, another case, or the highest bit.
fn change_byte(r: &mut Random, bytes: &mut [u8]) {
    let letters = r.chance(50);
    let places: Vec<usize> = (0..bytes.len()).filter(|i| !letters || bytes[*i].is_ascii_alphabetic()).collect();
    if places.is_empty() {
        return;
    }
    let at = r.pick(&places);
    bytes[at] = match r.below(3) {
        _ if letters => bytes[at] ^ 0x20,
        0 => any_byte(r),
        _ => bytes[at] | 0x80,
    };
}

/// A space is doubled, left out, or another byte.
fn change_space(r: &mut Random, bytes: &mut Vec<u8>) {
    let spaces: Vec<usize> = (0..bytes.len()).filter(|i| bytes[*i] == b' ').collect();
    if spaces.is_empty() {
        return bytes.insert(0, b' ');
    }
    let at = r.pick(&spaces);
    let new: &[u8] = r.pick(&[b"  ", b"  ", b"\t", b"\t", b"\0", b"\0 ", b" \0", b""]);
    bytes.splice(at..=at, new.iter().copied());
}

/// A NUL directly after one of the first words, and perhaps something after it.
fn end_word(r: &mut Random, fields: &mut [Vec<u8>]) {
    let at = r.below(fields.len().min(2));
    fields[at].push(0);
    if r.chance(40) {
        fields[at].push(any_byte(r));
    }
}

fn cut(r: &mut Random, bytes: &mut Vec<u8>) {
    let at = if r.chance(50) { edge(r, bytes) } else { r.below(bytes.len() + 1) };
    if r.chance(80) {
        bytes.truncate(at);
    } else {
        bytes.drain(..at);
    }
}

/// The whole line or a part of it twice.
fn double(r: &mut Random, bytes: &mut Vec<u8>) {
    let (mut from, mut to) = (0, bytes.len());
    if r.chance(60) {
        let (a, b) = (edge(r, bytes), edge(r, bytes));
        (from, to) = (a.min(b), a.max(b));
    }
    let mut part = bytes[from..to].to_vec();
    if r.chance(40) {
        part.insert(0, b' ');
    }
    bytes.splice(to..to, part);
}

fn with_fields(bytes: &[u8], change: impl FnOnce(&mut Vec<Vec<u8>>)) -> Vec<u8> {
    let mut fields: Vec<Vec<u8>> = bytes.split(|b| *b == b' ').map(<[u8]>::to_vec).collect();
    change(&mut fields);
    fields.join(&b' ')
}

fn swap_two<T>(r: &mut Random, items: &mut [T]) {
    let (a, b) = (r.below(items.len()), r.below(items.len()));
    items.swap(a, b);
}

/// A field is left out, or only its value.
fn remove(r: &mut Random, bytes: &mut Vec<u8>) {
    *bytes = with_fields(bytes, |f| {
        let at = r.below(f.len());
        match f[at].iter().position(|b| *b == b'=') {
            Some(n) if r.chance(60) => f[at].truncate(n + 1),
            _ => drop(f.remove(at)),
        }
    });
}

/// A number gets a spare zero or a sign, is gone, or is one of the limits.
fn change_number(r: &mut Random, bytes: &mut Vec<u8>) {
    let mut numbers = vec![];
    let mut from = 0;
    for to in 0..=bytes.len() {
        if to == bytes.len() || is_between(bytes[to]) {
            let text = &bytes[from..to];
            let digits = text.strip_prefix(b"-").unwrap_or(text);
            if !digits.is_empty() && digits.len() < 16 && digits.iter().all(u8::is_ascii_digit) {
                numbers.push((from, to));
            }
            from = to + 1;
        }
    }
    if numbers.is_empty() {
        return bytes.push(b'0');
    }
    let (from, to) = r.pick(&numbers);
    let old = bytes[from..to].to_vec();
    let new = match r.below(10) {
        0 | 1 => [b"0", &old[..]].concat(),
        2 => [b"+", &old[..]].concat(),
        3 => [b"-", &old[..]].concat(),
        4 => [&old[..], b"0"].concat(),
        5 => vec![],
        _ => r.pick(NUMBERS).to_vec(),
    };
    bytes.splice(from..to, new);
}

/// An item of a list is left out or stands more than once, or a comma has no item after it.
fn change_items(r: &mut Random, fields: &mut [Vec<u8>]) {
    let lists: Vec<usize> = (0..fields.len()).filter(|i| fields[*i].contains(&b':')).collect();
    if lists.is_empty() {
        return;
    }
    let field = &mut fields[r.pick(&lists)];
    let value = field.iter().position(|b| *b == b'=').map_or(0, |n| n + 1);
    let mut items: Vec<Vec<u8>> = field.split_off(value).split(|b| *b == b',').map(<[u8]>::to_vec).collect();
    let at = r.below(items.len());
    match r.below(4) {
        0 => items.push(vec![]),
        1 => drop(items.remove(at)),
        _ => {
            let more = vec![items[at].clone(); r.pick(&[1, 1, 2, 7, 8, 9])];
            items.splice(at..at, more);
        }
    }
    field.extend(items.join(&b','));
}

/// About as long as a line may be, or longer: a comment, a good call, or the line with something after it.
fn long(r: &mut Random, mut bytes: Vec<u8>) -> Vec<u8> {
    let length = r.pick(&[LINE - 1, LINE, LINE, LINE, LINE + 1, LINE + 1, LINE + 2, 3 * LINE]);
    match r.below(3) {
        0 => bytes.insert(0, b'#'),
        1 => bytes = long_keys(length),
        _ => {}
    }
    bytes.resize(length, r.pick(b" \0\r0x"));
    if r.chance(40) {
        bytes.push(b'\r');
    }
    bytes
}

/// A call of exactly that length.
fn long_keys(length: usize) -> Vec<u8> {
    let (word, shard) = ("boundary ", "0:8000000000000000:");
    let rest = length - word.len() + 1;
    // Each key has about five digits of seqno, and a comma after it.
    let count = rest / (shard.len() + 6);
    let digits = rest - count * (shard.len() + 1);
    let seqno = |i: usize| 10u64.pow((digits / count + usize::from(i < digits % count)) as u32 - 1);
    let keys: Vec<String> = (0..count).map(|i| format!("{shard}{}", seqno(i))).collect();
    [word, &keys.join(",")].concat().into_bytes()
}

/// Lines that are bad within a load, or skipped.
const STRAYS: &[&[u8]] = &[
    b"# within",
    b"",
    b"\r",
    b"\0",
    b" ",
    b"#\0",
    b"collect",
    b"sound",
    b"pop 0",
    b"new 3",
    b"load",
    b"dump",
    b"dump raw",
    b"dump slice",
    b"slice 5",
    b"number on",
    b"number off",
    b"number",
    b"number  on",
    b"raw zero",
    b"raw",
    b"time 5",
    b"jump 5",
    b"loaded",
];

fn word(line: &[u8]) -> &[u8] {
    line.split(|b| *b == b' ').next().unwrap_or(line)
}

fn is_group(line: &[u8]) -> bool {
    [&b"masters"[..], b"shard"].contains(&word(line))
}

/// The place of a line that `is`, if there is one.
fn some_line(r: &mut Random, lines: &[Vec<u8>], is: impl Fn(&[u8]) -> bool) -> Option<usize> {
    let places: Vec<usize> = (0..lines.len()).filter(|i| is(&lines[*i])).collect();
    (!places.is_empty()).then(|| r.pick(&places))
}

/// Changes the lines of a load at one place.
pub fn change_load(r: &mut Random, lines: &mut Vec<Vec<u8>>) {
    let groups = r.chance(60);
    let Some(at) = some_line(r, lines, |l| !groups || is_group(l)) else { return };
    match r.weighted(&[16, 10, 8, 8, 12, 16, 30]) {
        0 => lines[at] = damage(r, &lines[at]),
        1 => {
            let damaged = damage(r, &lines[at]);
            lines.insert(at, damaged);
        }
        2 => swap_two(r, lines),
        3 => drop(lines.remove(at)),
        4 => crowd(r, lines),
        5 => lines.insert(at, r.pick(STRAYS).to_vec()),
        _ => turn(r, lines),
    }
}

/// A line as often as its list has places, which is too often.
fn crowd(r: &mut Random, lines: &mut Vec<Vec<u8>>) {
    let (kind, places) = r.pick(&[(&b"entry"[..], ENTRIES), (b"id", IDS), (b"shard", SHARDS)]);
    if let Some(at) = some_line(r, lines, |l| word(l) == kind) {
        let more = vec![lines[at].clone(); places];
        lines.splice(at..at, more);
    }
}

/// A group's line, a damaged one, and an entry: to which group does it go?
fn turn(r: &mut Random, lines: &mut Vec<Vec<u8>>) {
    let (first, second) = (some_line(r, lines, is_group), some_line(r, lines, is_group));
    let entry = some_line(r, lines, |l| word(l) == b"entry");
    let (Some(first), Some(second), Some(entry)) = (first, second, entry) else { return };
    let added = [lines[first].clone(), damage(r, &lines[second]), lines[entry].clone()];
    let at = r.below(lines.len() + 1);
    lines.splice(at..at, added);
}
