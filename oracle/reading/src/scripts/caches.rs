//! Random sound caches, such as calls make and such as they don't.
use super::scene::{HIGHEST, Scene};
use crate::places::{ENTRIES, IDS, SHARDS};
use crate::random::Random;
use crate::records::*;

pub fn sound(scene: &Scene, r: &mut Random) -> Cache {
    let mut cache = Cache::empty(if r.chance(95) { scene.zerostate } else { r.pick(&[0, HIGHEST, u32::MAX]) });
    let mut shards = scene.shards.clone();
    shards.sort();
    shards.truncate(SHARDS);
    let most = r.pick(&[1, 3, 5, ENTRIES]);
    for s in shards {
        let mut g = Group::default();
        for seqno in seqnos(r, scene.shard_base, scene.reach, most) {
            g.entries.push(entry(scene, r, s, seqno));
        }
        marked(scene, r, s, &mut g);
        cache.shards.push((s, g));
    }
    let most = r.pick(&[1, 3, 5, ENTRIES]);
    for seqno in seqnos(r, scene.base, scene.reach, most) {
        let mut e = entry(scene, r, scene.masterchain, seqno);
        e.tops = scene.tops(r, &cache, seqno);
        cache.masters.entries.push(e);
    }
    marked(scene, r, scene.masterchain, &mut cache.masters);
    let most = r.pick(&[0, 2, 5, IDS]);
    cache.ids = seqnos(r, scene.base, 2 * scene.reach, most).into_iter().map(|s| scene.id(scene.masterchain, s)).collect();
    // Question 2 is not asked of ids.
    if cache.ids.len() < IDS && r.chance(5) {
        cache.ids.push(scene.id(scene.masterchain, u32::MAX));
    }
    if let Some(mark) = cache.masters.mark.filter(|_| r.chance(70)) {
        let low = scene.base.min(mark);
        let end = r.between(low, mark);
        cache.range = Some((r.between(low, end), end));
    }
    cache
}

/// Some seqnos of a reach, rising.
fn seqnos(r: &mut Random, base: u32, reach: u32, most: usize) -> Vec<u32> {
    let last = base.saturating_add(reach).min(HIGHEST);
    let mut all: Vec<u32> = (base..=last).collect();
    let count = r.below(most + 1);
    while all.len() > count {
        let at = r.below(all.len());
        all.remove(at);
    }
    all
}

/// A mark and a boundary; a mark mostly covers the received blocks, as calls make it.
fn marked(scene: &Scene, r: &mut Random, shard: Shard, g: &mut Group) {
    let covers = g.entries.iter().filter(|e| e.is_applied()).map(Entry::seqno).max();
    g.mark = match r.below(10) {
        0 => None,
        1 => Some(scene.seqno(r)),
        2 => Some(r.pick(&[0, HIGHEST, u32::MAX])),
        _ => covers,
    };
    let at = g.entries.get(g.entries.len() / 2).map_or(scene.base, Entry::seqno);
    g.boundary = r.chance(40).then_some(Key { shard, seqno: if r.chance(95) { at } else { u32::MAX } });
}

pub fn entry(scene: &Scene, r: &mut Random, shard: Shard, seqno: u32) -> Entry {
    let id = scene.maybe_other(r, scene.id(shard, seqno));
    let opt = |r: &mut Random| r.chance(50).then(|| (r.wide() >> 32) as u32);
    let kind = if r.chance(50) {
        let status = r.pick(&[Status::Collated, Status::Validated, Status::ValidationSkipped, Status::Synced]);
        Kind::Collated { status, received_after: r.chance(50), handle: r.wide(), weight: r.wide(), processed_to: (r.wide() >> 32) as u32 }
    } else {
        Kind::Received { collated_after: r.chance(50), additional: opt(r) }
    };
    let reference = scene.reference(r);
    let prev = scene.prev(r, &Cache::default(), &id);
    Entry { id, reference, prev, tops: vec![], anchor: opt(r), payload: r.wide(), kind }
}
