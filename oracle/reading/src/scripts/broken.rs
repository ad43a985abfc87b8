//! Caches that question 1 refuses: each clause broken singly.
use super::caches::entry;
use super::scene::Scene;
use super::{Mode, Script};
use crate::places::*;
use crate::random::Random;
use crate::records::*;

pub type Break = fn(&mut Places, &mut Random);

/// Each break of `rich` caches, by the clause that it breaks.
pub const BREAKS: &[(&str, Break)] = &[
    // Order, of seqnos and of shards.
    ("masters out of order", |p, _| swap_masters(p)),
    ("two masters of one seqno", |p, _| p.masters.entries[1].id.key.seqno = p.masters.entries[0].id.seqno()),
    ("shard blocks out of order", |p, _| p.shards[0].entries.swap(0, 1)),
    ("two shard blocks of one seqno", |p, _| p.shards[1].entries[1].id.key.seqno = p.shards[1].entries[0].id.seqno()),
    ("ids out of order", |p, _| p.ids.swap(0, 1)),
    ("two ids of one seqno", |p, _| p.ids[1].key.seqno = p.ids[0].seqno()),
    ("shards out of order", |p, _| p.shards.swap(0, 1)),
    ("a shard twice", |p, _| p.shards[1] = p.shards[0]),
    // Counts.
    ("17 masters counted", |p, _| p.masters.count = 17),
    ("all numbers of masters counted", |p, _| p.masters.count = u64::MAX),
    ("a master less counted", |p, _| p.masters.count = p.masters.count.wrapping_sub(1)),
    ("a master more counted", |p, _| p.masters.count = p.masters.count.wrapping_add(1)),
    ("17 shard blocks counted", |p, _| p.shards[1].count = 17),
    ("2^32 shard blocks counted", |p, _| p.shards[0].count = 1 << 32),
    ("a shard block less counted", |p, _| p.shards[0].count = p.shards[0].count.wrapping_sub(1)),
    ("a shard block more counted", |p, _| p.shards[1].count = p.shards[1].count.wrapping_add(1)),
    ("33 ids counted", |p, _| p.ids_count = 33),
    ("all numbers of ids counted", |p, _| p.ids_count = u64::MAX),
    ("an id less counted", |p, _| p.ids_count = p.ids_count.wrapping_sub(1)),
    ("an id more counted", |p, _| p.ids_count = p.ids_count.wrapping_add(1)),
    ("9 shards counted", |p, _| p.shards_count = 9),
    ("2^63 shards counted", |p, _| p.shards_count = 1 << 63),
    ("a shard less counted", |p, _| p.shards_count = p.shards_count.wrapping_sub(1)),
    ("a shard more counted", |p, _| p.shards_count = p.shards_count.wrapping_add(1)),
    // Keys and shards.
    ("a master of workchain 0", |p, _| p.masters.entries[0].id.key.shard.workchain = 0),
    ("a block of another prefix", |p, _| p.shards[0].entries[0].id.key.shard.prefix ^= 1),
    ("a block of another workchain", |p, _| p.shards[1].entries[1].id.key.shard.workchain ^= 2),
    ("a masterchain block in a shard", |p, _| p.shards[0].entries[1].id.key.shard.workchain = -1),
    ("a masterchain shard group", masterchain_group),
    ("an id of a shard", |p, _| p.ids[0].key.shard.workchain = 0),
    ("a boundary of a shard at the masters", |p, _| p.masters.boundary = Some(Key { shard: p.shards[0].shard, seqno: 3 })),
    ("a boundary of another shard", |p, _| p.shards[0].boundary = Some(Key { shard: p.shards[1].shard, seqno: 3 })),
    ("a masterchain boundary at a shard", |p, _| p.shards[1].boundary = Some(Key { shard: p.masters.entries[0].id.shard(), seqno: 3 })),
    // Questions 2 to 4 of an entry.
    ("2: seqno of a master", |p, _| last(&mut p.masters).id.key.seqno = u32::MAX),
    ("2: seqno of a block", |p, _| last(&mut p.shards[0]).id.key.seqno = u32::MAX),
    ("2: reference of a master", |p, _| p.masters.entries[0].reference = u32::MAX),
    ("2: reference of a block", |p, _| p.shards[1].entries[0].reference = u32::MAX),
    ("2: previous id", |p, _| p.shards[0].entries[1].prev[0].key.seqno = u32::MAX),
    ("2: reference of a top", |p, _| p.tops[0].items[0].reference = u32::MAX),
    ("2: seqno of a top", |p, _| p.tops[0].items[0].id.key.seqno = u32::MAX),
    ("3: 3 previous ids of a master", |p, _| p.masters.entries[1].prev_count = 3),
    ("3: all numbers of previous ids", |p, _| p.shards[0].entries[0].prev_count = u64::MAX),
    ("3: 9 tops", |p, _| p.tops[1].count = 9),
    ("3: all numbers of tops", |p, _| p.tops[0].count = u64::MAX),
    ("4: previous id of the same seqno", |p, _| p.masters.entries[1].prev[0].key.seqno = p.masters.entries[1].id.seqno()),
    ("4: previous id of a higher seqno", |p, _| p.shards[1].entries[1].prev[0].key.seqno = p.shards[1].entries[1].id.seqno().wrapping_add(1)),
    ("4: previous id of the other side", |p, _| p.shards[0].entries[1].prev[0].key.shard.workchain = -1),
    ("4: a master's previous id in a shard", |p, _| p.masters.entries[1].prev[0].key.shard.workchain = 7),
    ("4: a top in the masterchain", |p, _| p.tops[1].items[0].id.key.shard.workchain = -1),
    // Range and mark.
    ("range start above end", |p, _| p.range = p.range.map(|(_, end)| (end.wrapping_add(1), end))),
    ("range end above the mark", |p, _| p.range = Some((0, p.masters.mark.unwrap_or(0).wrapping_add(1)))),
    ("range without a mark", |p, _| p.masters.mark = None),
    // Something in an unused place, each field in turn.
    ("spare master", |p, r| spoil_entry(&mut p.masters.entries[15], r)),
    ("spare block", |p, r| spoil_entry(&mut p.shards[0].entries[15], r)),
    ("spare block of a spare shard", |p, r| spoil_entry(&mut p.shards[7].entries[0], r)),
    ("spare id", |p, r| p.ids[31] = spoiled_id(r)),
    ("next spare id", |p, r| p.ids[(p.ids_count as usize).min(IDS - 1)] = spoiled_id(r)),
    ("spare shard's shard", |p, _| p.shards[7].shard.prefix = 1),
    ("spare shard's count", |p, _| p.shards[7].count = 1),
    ("spare shard's mark", |p, _| p.shards[2].mark = Some(0)),
    ("spare shard's boundary", |p, _| p.shards[7].boundary = Some(Key::default())),
    ("spare tops' count", |p, _| p.tops[15].count = 1),
    ("spare tops' item", |p, r| spoil_top(&mut p.tops[15].items[7], r)),
    ("top item past the count", |p, r| spoil_top(&mut p.tops[0].items[7], r)),
    ("previous id past the count", |p, r| p.masters.entries[1].prev[1] = spoiled_id(r)),
    ("block's previous id past the count", |p, r| p.shards[1].entries[1].prev[1] = spoiled_id(r)),
];

fn last(g: &mut PlaceGroup) -> &mut PlaceEntry {
    &mut g.entries[(g.count as usize).clamp(1, ENTRIES) - 1]
}

fn swap_masters(p: &mut Places) {
    p.masters.entries.swap(0, 1);
    p.tops.swap(0, 1);
}

/// The whole group moves into the masterchain, its blocks and their previous ids too.
fn masterchain_group(p: &mut Places, _: &mut Random) {
    let g = &mut p.shards[0];
    g.shard.workchain = -1;
    g.boundary = None;
    for e in g.entries.iter_mut().take(g.count as usize) {
        e.id.key.shard.workchain = -1;
        for prev in e.prev.iter_mut().take(e.prev_count as usize) {
            prev.key.shard.workchain = -1;
        }
    }
}

fn spoiled_id(r: &mut Random) -> Id {
    let mut id = Id::default();
    match r.below(5) {
        0 => id.key.shard.workchain = -1,
        1 => id.key.shard.prefix = 1 << r.below(64),
        2 => id.key.seqno = 1 << r.below(32),
        3 => id.root[r.below(32)] = 1,
        _ => id.file[r.below(32)] = 1,
    }
    id
}

fn spoil_top(t: &mut Top, r: &mut Random) {
    match r.below(3) {
        0 => t.reference = 1,
        1 => t.updated = true,
        _ => t.id = spoiled_id(r),
    }
}

fn spoil_entry(e: &mut PlaceEntry, r: &mut Random) {
    let fresh = |status, received_after, handle, weight, processed_to| Kind::Collated { status, received_after, handle, weight, processed_to };
    match r.below(15) {
        0 => e.reference = 1,
        1 => e.prev_count = 1,
        2 => e.anchor = Some(0),
        3 => e.payload = 1 << r.below(64),
        4 => e.kind = fresh(Status::Validated, false, 0, 0, 0),
        5 => e.kind = fresh(Status::Synced, false, 0, 0, 0),
        6 => e.kind = fresh(Status::Collated, true, 0, 0, 0),
        7 => e.kind = fresh(Status::Collated, false, 1 << r.below(64), 0, 0),
        8 => e.kind = fresh(Status::Collated, false, 0, 1 << r.below(64), 0),
        9 => e.kind = fresh(Status::Collated, false, 0, 0, 1 << r.below(32)),
        10 => e.kind = Kind::Received { collated_after: false, additional: None },
        11 => e.prev[r.below(PREV_IDS)] = spoiled_id(r),
        _ => e.id = spoiled_id(r),
    }
}

/// A sound cache in which every break breaks something: two groups and masters of several entries with one previous id, tops, ids, range, mark.
fn rich(scene: &Scene, r: &mut Random) -> Cache {
    let mut cache = Cache::empty(1);
    let shards = [Shard { workchain: 0, prefix: 1 << 62 }, Shard { workchain: 0, prefix: 3 << 62 }];
    let with_prev = |r: &mut Random, shard, seqno| {
        let mut e = entry(scene, r, shard, seqno);
        (e.prev, e.reference) = (vec![scene.id(shard, seqno - 1)], 5);
        e
    };
    for s in shards {
        let entries = (3..6).map(|n| with_prev(r, s, n)).collect();
        cache.shards.push((s, Group { entries, mark: Some(2), boundary: Some(Key { shard: s, seqno: 4 }) }));
    }
    let top = |s| Top { reference: 5, id: scene.id(s, 5), updated: true };
    for n in 4..7 {
        let mut e = with_prev(r, scene.masterchain, n);
        e.tops = shards.iter().map(|s| top(*s)).collect();
        e.kind = Kind::Received { collated_after: false, additional: None };
        cache.masters.entries.push(e);
    }
    cache.masters.mark = Some(6);
    cache.masters.boundary = Some(Key { shard: scene.masterchain, seqno: 5 });
    cache.ids = (5..8).map(|n| scene.id(scene.masterchain, n)).collect();
    cache.range = Some((4, 6));
    cache
}

/// One of each call, such as the sound cache would take.
fn calls(scene: &Scene) -> Vec<Request> {
    let master = scene.id(scene.masterchain, 7);
    let block = scene.id(Shard { workchain: 0, prefix: 1 << 62 }, 6);
    let collated = |id: Id| Candidate { id, reference: 7, prev: vec![], tops: vec![], anchor: None, processed_to: 1, payload: 2 };
    let received = |id: Id| Received { id, reference: master, prev: vec![], tops: vec![], anchor: None, payload: 2 };
    let mut calls = vec![];
    for id in [master, block] {
        calls.push(Request::StoreCollated(Box::new(collated(id))));
        calls.push(Request::StoreReceived(Box::new(received(id))));
    }
    let keys = vec![Key { shard: scene.masterchain, seqno: 5 }, block.key];
    calls.push(Request::Validation(scene.id(scene.masterchain, 5), Verdict::Skipped));
    calls.extend([Request::Pop(0), Request::Sync(scene.id(scene.masterchain, 5)), Request::Peek(0)]);
    calls.push(Request::TailIds(Key { shard: scene.masterchain, seqno: 5 }));
    calls.extend([Request::Boundary(keys.clone()), Request::Collect, Request::RemoveNext(keys), Request::Sound]);
    calls
}

/// Every break with every call: `dump raw`, the call, `dump raw` again. The answer is `refused 1`, and nothing changes.
pub fn unsound(seed: u64) -> Script {
    let mut script = Script::new(seed, u64::MAX, Mode::Full);
    script.damages = false;
    let mut scene = Scene::new(&mut script);
    (scene.zerostate, scene.base, scene.shard_base, scene.reach) = (1, 4, 3, 3);
    let requests = calls(&scene);
    for (name, break_it) in BREAKS {
        let cache = rich(&scene, &mut script.random);
        script.line(&format!("# {name}"));
        script.load(&cache);
        let whole = Places::of(&cache);
        for request in &requests {
            let mut broken = whole.clone();
            break_it(&mut broken, &mut script.random);
            script.raw_changes(&whole, &broken);
            script.line("dump raw");
            let answer = script.call(request.clone());
            assert!(matches!(answer, Some(Answer::Refused(1) | Answer::Soundness(false))), "{name}: {answer:?}");
            script.line("dump raw");
            script.raw_changes(&broken, &whole);
            script.call(Request::Sound);
        }
    }
    script
}
