//! The lines of a script.
use std::borrow::Cow;

use crate::places::*;
use crate::questions::KEYS;
use crate::records::*;
use crate::text::{Read, Reader};
use crate::wrong::Wrong;

/// A group of places: the masters, or the shard group of a place.
#[derive(Clone, Copy, PartialEq, Eq, Debug)]
pub enum GroupPlace {
    Masters,
    Shard(usize),
}

#[derive(Clone, PartialEq, Eq, Debug)]
pub enum Raw {
    Zero,
    Head { zerostate: u32, range: Option<(u32, u32)>, ids: u64, shards: u64 },
    Id(usize, Id),
    Group { place: GroupPlace, shard: Shard, count: u64, mark: Option<u32>, boundary: Option<Key> },
    Entry(GroupPlace, usize, Box<PlaceEntry>),
    Tops(usize, Box<PlaceTops>),
    Slice(usize, Box<PlaceEntry>),
}

/// A line of a dump, within a load.
#[derive(Clone, PartialEq, Eq, Debug)]
pub enum DumpLine {
    Zerostate(u32),
    Masters { mark: Option<u32>, boundary: Option<Key>, range: Option<(u32, u32)> },
    Entry(Box<Entry>),
    Id(Id),
    Shard { shard: Shard, mark: Option<u32>, boundary: Option<Key> },
    End,
}

#[derive(Clone, PartialEq, Eq, Debug)]
pub enum Command {
    Skip,
    Call(Request),
    Slice(usize),
    /// How often the next line's call is made and timed: a line of the original alone.
    Time(u32),
    Dump,
    DumpRaw,
    DumpSlice,
    Load,
    Loading(DumpLine),
    Raw(Raw),
}

/// Bytes of a line, without its line end.
pub const LINE: usize = 8192;

/// A line of the reading: a command, or whether answers are led by the number of their line, which the original doesn't know.
#[derive(Clone, PartialEq, Eq, Debug)]
pub enum Line {
    Command(Command),
    Number(bool),
}

/// Reads a line without its `\n`, for the original.
pub fn command(line: &[u8]) -> Read<Command> {
    match read(line, Wrong::None)? {
        Line::Command(command) => Ok(command),
        Line::Number(_) => Err("a command"),
    }
}

/// Reads a line without its `\n`; an error names what was expected.
pub fn read(line: &[u8], wrong: Wrong) -> Read<Line> {
    let line = &*bytes(line, wrong)?;
    if line.is_empty() && wrong != Wrong::EmptyLineBad || line.first() == Some(&b'#') {
        return Ok(Line::Command(Command::Skip));
    }
    let mut r = Reader::new(line, wrong);
    let line = match r.word() {
        "number" => Line::Number(number(&mut r)?),
        word => Line::Command(words(word, &mut r)?),
    };
    r.end()?;
    Ok(line)
}

fn words(word: &str, r: &mut Reader) -> Read<Command> {
    Ok(match word {
        "slice" => Command::Slice(slice(r)?),
        "time" => Command::Time(time(r)?),
        "dump" if r.has(" raw") => Command::DumpRaw,
        "dump" if r.has(" slice") => Command::DumpSlice,
        "dump" => Command::Dump,
        "load" => Command::Load,
        "raw" => Command::Raw(raw(r)?),
        "zerostate" | "masters" | "entry" | "id" | "shard" | "end" => Command::Loading(dump_line(word, r)?),
        _ => Command::Call(request(word, r)?),
    })
}

/// The line's bytes: not too many, and without one `\r` at the end.
fn bytes(line: &[u8], wrong: Wrong) -> Read<Cow<'_, [u8]>> {
    let without = line.strip_suffix(b"\r").unwrap_or(line);
    let counted = if wrong == Wrong::CrNotCounted { without.len() } else { line.len() };
    let limit = match wrong {
        Wrong::LongLineTaken => LINE + 1,
        Wrong::LongestLineBad => LINE - 1,
        _ => LINE,
    };
    if counted > limit && !(wrong == Wrong::LongCommentSkipped && line[0] == b'#') {
        return if wrong == Wrong::LongLineCut { Ok(line[..LINE].into()) } else { Err("a line of 8192 bytes at most") };
    }
    Ok(match wrong {
        Wrong::CrKept => line.into(),
        Wrong::TwoCrDropped => without.strip_suffix(b"\r").unwrap_or(without).into(),
        _ => seen(without, wrong),
    })
}

/// The bytes as a wrong reading sees them.
fn seen(line: &[u8], wrong: Wrong) -> Cow<'_, [u8]> {
    let without = |byte| Cow::from(line.iter().copied().filter(|b| *b != byte).collect::<Vec<u8>>());
    match wrong {
        Wrong::NulEndsLine => line.split(|b| *b == 0).next().unwrap_or(line).into(),
        Wrong::NulLeftOut => without(0),
        Wrong::CrLeftOut => without(b'\r'),
        Wrong::TabIsSpace => line.iter().map(|b| if *b == b'\t' { b' ' } else { *b }).collect(),
        Wrong::HighBitDropped => line.iter().map(|b| b & 0x7f).collect(),
        Wrong::SpacesBefore => line.trim_ascii_start().into(),
        Wrong::SpacesAfter => line.trim_ascii_end().into(),
        _ => line.into(),
    }
}

fn slice(r: &mut Reader) -> Read<usize> {
    r.expect(" ")?;
    index(r, SLICE + 1)
}

fn time(r: &mut Reader) -> Read<u32> {
    r.expect(" ")?;
    match r.u32()? {
        0 => Err("a number of times"),
        times => Ok(times),
    }
}

fn number(r: &mut Reader) -> Read<bool> {
    if r.has(" on") {
        return Ok(true);
    }
    r.expect(" off").map(|()| false)
}

fn index(r: &mut Reader, below: usize) -> Read<usize> {
    match usize::try_from(r.u64()?) {
        Ok(n) if n < below => Ok(n),
        _ if r.is(Wrong::LastPlace) => Ok(below - 1),
        _ => Err("a place"),
    }
}

fn request(word: &str, r: &mut Reader) -> Read<Request> {
    match word {
        "collect" => return Ok(Request::Collect),
        "sound" => return Ok(Request::Sound),
        _ => r.expect(" ")?,
    }
    Ok(match word {
        "new" => Request::New(r.u32()?),
        "store_collated" => Request::StoreCollated(Box::new(candidate(r)?)),
        "store_received" => Request::StoreReceived(Box::new(received(r)?)),
        "validation" => validation(r)?,
        "pop" => Request::Pop(r.u32()?),
        "sync" => Request::Sync(r.id()?),
        "peek" => Request::Peek(r.u32()?),
        "tail_ids" => Request::TailIds(r.key()?),
        "boundary" => Request::Boundary(keys(r)?),
        "remove_next" => Request::RemoveNext(keys(r)?),
        _ => return Err("a command"),
    })
}

fn validation(r: &mut Reader) -> Read<Request> {
    let id = r.id()?;
    if r.has(" skipped") {
        return Ok(Request::Validation(id, Verdict::Skipped));
    }
    r.expect(" complete ")?;
    let handle = r.u64()?;
    r.expect(" ")?;
    Ok(Request::Validation(id, Verdict::Complete { handle, weight: r.u64()? }))
}

/// A list may be longer than its record: the call then answers.
fn keys(r: &mut Reader) -> Read<Vec<Key>> {
    let keys = r.keys()?;
    if keys.len() > KEYS && r.is(Wrong::LongKeysBad) { Err("9 keys at most") } else { Ok(keys) }
}

/// A block's id and the master that it names.
fn named(r: &mut Reader) -> Read<(Id, u32)> {
    let id = r.id()?;
    r.expect(" ref=")?;
    Ok((id, r.u32()?))
}

/// Previous ids, top items and the top anchor.
fn lists(r: &mut Reader) -> Read<(Vec<Id>, Vec<Top>, Option<u32>)> {
    r.expect(" prev=")?;
    let prev = r.ids()?;
    r.expect(" top=")?;
    let tops = r.tops()?;
    if r.is(Wrong::LongListsBad) && (prev.len() > PREV_IDS || tops.len() > TOPS) {
        return Err("2 previous ids and 8 top items at most");
    }
    r.expect(" anchor=")?;
    Ok((prev, tops, r.opt()?))
}

fn candidate(r: &mut Reader) -> Read<Candidate> {
    let (id, reference) = named(r)?;
    let (prev, tops, anchor) = lists(r)?;
    r.expect(" pta=")?;
    let processed_to = r.u32()?;
    r.expect(" pay=")?;
    Ok(Candidate { id, reference, prev, tops, anchor, processed_to, payload: r.u64()? })
}

fn received(r: &mut Reader) -> Read<Received> {
    let id = r.id()?;
    r.expect(" mc=")?;
    let reference = r.id()?;
    let (prev, tops, anchor) = lists(r)?;
    r.expect(" pay=")?;
    Ok(Received { id, reference, prev, tops, anchor, payload: r.u64()? })
}

fn dump_line(word: &str, r: &mut Reader) -> Read<DumpLine> {
    if word == "end" {
        return Ok(DumpLine::End);
    }
    r.expect(" ")?;
    Ok(match word {
        "zerostate" => DumpLine::Zerostate(r.u32()?),
        "masters" => {
            let (mark, boundary) = mark_and_boundary(r)?;
            r.expect(" range=")?;
            DumpLine::Masters { mark, boundary, range: r.range()? }
        }
        "id" => DumpLine::Id(r.id()?),
        "shard" => {
            let shard = r.shard()?;
            r.expect(" ")?;
            let (mark, boundary) = mark_and_boundary(r)?;
            DumpLine::Shard { shard, mark, boundary }
        }
        _ => DumpLine::Entry(Box::new(entry(r)?)),
    })
}

fn mark_and_boundary(r: &mut Reader) -> Read<(Option<u32>, Option<Key>)> {
    r.expect("mark=")?;
    let mark = r.opt()?;
    r.expect(" boundary=")?;
    Ok((mark, r.bound()?))
}

fn entry(r: &mut Reader) -> Read<Entry> {
    let (id, reference) = named(r)?;
    let (prev, tops, anchor) = lists(r)?;
    r.expect(" pay=")?;
    let payload = r.u64()?;
    r.expect(" ")?;
    Ok(Entry { id, reference, prev, tops, anchor, payload, kind: r.kind()? })
}

fn raw(r: &mut Reader) -> Read<Raw> {
    r.expect(" ")?;
    let word = r.word();
    if word == "zero" {
        return Ok(Raw::Zero);
    }
    r.expect(" ")?;
    match word {
        "head" => raw_head(r),
        "id" => {
            let place = index(r, IDS)?;
            r.expect(" ")?;
            Ok(Raw::Id(place, r.id()?))
        }
        "group" => raw_group(r),
        "entry" => {
            let group = group_place(r)?;
            r.expect(" ")?;
            let place = index(r, ENTRIES)?;
            r.expect(" ")?;
            Ok(Raw::Entry(group, place, Box::new(place_entry(r)?)))
        }
        "tops" => raw_tops(r),
        "slice" => {
            let place = index(r, SLICE)?;
            r.expect(" ")?;
            Ok(Raw::Slice(place, Box::new(place_entry(r)?)))
        }
        _ => Err("a raw record"),
    }
}

fn raw_head(r: &mut Reader) -> Read<Raw> {
    r.expect("zerostate=")?;
    let zerostate = r.u32()?;
    r.expect(" range=")?;
    let range = r.range()?;
    r.expect(" ids=")?;
    let ids = r.u64()?;
    r.expect(" shards=")?;
    Ok(Raw::Head { zerostate, range, ids, shards: r.u64()? })
}

fn raw_tops(r: &mut Reader) -> Read<Raw> {
    let place = index(r, ENTRIES)?;
    r.expect(" count=")?;
    let count = r.u64()?;
    r.expect(" top=")?;
    let items = exactly(r.tops()?, r.is(Wrong::RawTopsAny)).ok_or("8 top items")?;
    Ok(Raw::Tops(place, Box::new(PlaceTops { count, items })))
}

/// As many items as there are places.
fn exactly<T: Copy + Default, const N: usize>(mut items: Vec<T>, any: bool) -> Option<[T; N]> {
    if any {
        items.resize(N, T::default());
    }
    items.try_into().ok()
}

fn group_place(r: &mut Reader) -> Read<GroupPlace> {
    if r.has("m") { Ok(GroupPlace::Masters) } else { index(r, SHARDS).map(GroupPlace::Shard) }
}

fn raw_group(r: &mut Reader) -> Read<Raw> {
    let place = group_place(r)?;
    r.expect(" ")?;
    let shard = match place {
        GroupPlace::Masters => r.expect("-").map(|()| Shard::default())?,
        GroupPlace::Shard(_) => r.shard()?,
    };
    r.expect(" count=")?;
    let count = r.u64()?;
    r.expect(" ")?;
    let (mark, boundary) = mark_and_boundary(r)?;
    Ok(Raw::Group { place, shard, count, mark, boundary })
}

fn place_entry(r: &mut Reader) -> Read<PlaceEntry> {
    let (id, reference) = named(r)?;
    r.expect(" prev_count=")?;
    let prev_count = r.u64()?;
    r.expect(" prev=")?;
    let prev = exactly(r.ids()?, r.is(Wrong::RawPrevAny)).ok_or("2 previous ids")?;
    r.expect(" anchor=")?;
    let anchor = r.opt()?;
    r.expect(" pay=")?;
    let payload = r.u64()?;
    r.expect(" ")?;
    Ok(PlaceEntry { id, reference, prev_count, prev, anchor, payload, kind: r.kind()? })
}
