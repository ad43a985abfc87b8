//! Makes a call one that questions 2 to 6 refuse.
use super::scene::Scene;
use crate::places::{PREV_IDS, TOPS};
use crate::questions::KEYS;
use crate::random::Random;
use crate::records::*;

/// One or two faults; two show which question is asked first.
pub fn spoil(scene: &Scene, r: &mut Random, request: &mut Request) {
    for _ in 0..1 + r.below(2) {
        match request {
            Request::New(seqno) | Request::Pop(seqno) | Request::Peek(seqno) => *seqno = u32::MAX,
            Request::StoreCollated(c) => match r.below(8) {
                0 => c.reference = u32::MAX,
                _ => block(scene, r, &mut c.id, &mut c.prev, &mut c.tops),
            },
            Request::StoreReceived(c) => match r.below(8) {
                0 => c.reference.key.seqno = u32::MAX,
                1 => c.reference.root[0] ^= 1,
                2 => c.reference.key.seqno = scene.zerostate.saturating_sub(1),
                _ => block(scene, r, &mut c.id, &mut c.prev, &mut c.tops),
            },
            Request::Validation(id, _) | Request::Sync(id) => id.key.seqno = u32::MAX,
            Request::TailIds(key) => key.seqno = u32::MAX,
            Request::Boundary(keys) | Request::RemoveNext(keys) => spoil_keys(scene, r, keys),
            Request::Collect | Request::Sound => {}
        }
    }
}

fn spoil_keys(scene: &Scene, r: &mut Random, keys: &mut Vec<Key>) {
    if r.chance(60) {
        let count = KEYS + 1 + r.below(2);
        while keys.len() < count {
            keys.push(Key { shard: r.pick(&scene.shards), seqno: scene.base });
        }
    }
    if !keys.is_empty() && r.chance(60) {
        let at = r.below(keys.len());
        keys[at].seqno = u32::MAX;
    }
}

fn block(scene: &Scene, r: &mut Random, id: &mut Id, prev: &mut Vec<Id>, tops: &mut Vec<Top>) {
    let shard = r.pick(&scene.shards);
    let top = Top { reference: scene.current, id: scene.id(shard, scene.shard_base), updated: true };
    match r.below(10) {
        0 => id.key.seqno = u32::MAX,
        1 => prev.resize(PREV_IDS + 1 + r.below(2), scene.id(id.shard(), id.seqno().saturating_sub(1))),
        2 => tops.resize(TOPS + 1 + r.below(2), top),
        3 => tops.push(top),
        4 => tops.push(Top { id: scene.id(scene.masterchain, scene.base), ..top }),
        5 => tops.push(Top { reference: u32::MAX, ..top }),
        6 => tops.push(Top { id: scene.id(shard, u32::MAX), ..top }),
        n => {
            let other_side = if id.is_masterchain() { shard } else { scene.masterchain };
            let wrong = match n {
                7 => scene.id(id.shard(), id.seqno().saturating_add(r.below(2) as u32)),
                8 => scene.id(other_side, id.seqno().saturating_sub(1)),
                _ => scene.id(id.shard(), u32::MAX),
            };
            let at = r.below(prev.len() + 1);
            prev.insert(at, wrong);
        }
    }
}
