//! A scene: some shards, some seqnos, and calls among them that fit the cache as it stands.
use super::spoil::spoil;
use super::{Mode, Script};
use crate::places::{SHARDS, TOPS};
use crate::random::{Random, mix};
use crate::records::*;

/// The highest seqno that passes question 2.
pub const HIGHEST: u32 = u32::MAX - 1;

pub struct Scene {
    pub zerostate: u32,
    pub masterchain: Shard,
    /// By no order; more than 8 in some full scripts.
    pub shards: Vec<Shard>,
    /// The lowest master and shard seqnos, and how far they reach.
    pub base: u32,
    pub shard_base: u32,
    pub reach: u32,
    /// The master that shard blocks name.
    pub current: u32,
    /// In percent: ids of another hash, blocks that name another master, blocks with two parents.
    pub other_hash: usize,
    pub foreign: usize,
    pub two_parents: usize,
    pub weights: [usize; 12],
}

/// Calls by weight: shard and master stores (collated, received), stores at a place that is taken, validation, pop, sync, peek, tail ids, boundary and collect, remove next.
const STORING: [usize; 12] = [30, 14, 10, 10, 12, 6, 4, 3, 3, 5, 3, 2];
const EVENLY: [usize; 12] = [10, 10, 10, 10, 10, 8, 8, 8, 6, 8, 8, 6];
pub const MASTERS: [usize; 12] = [4, 4, 18, 18, 16, 14, 7, 7, 4, 2, 8, 8];

impl Scene {
    pub fn new(script: &mut Script) -> Scene {
        let full = script.mode == Mode::Full;
        let r = &mut script.random;
        let reach = r.pick(&[3, 6, 12, 18, 30]);
        let base = match r.below(6) {
            0 => 0,
            1 => 1,
            2 => HIGHEST - reach,
            3 => HIGHEST - 1 - reach,
            4 => r.between(0, 20),
            _ => r.between(0, HIGHEST - reach),
        };
        let shard_base = match r.below(5) {
            0 => 0,
            1 => HIGHEST - reach,
            2 | 3 => r.between(0, 5),
            _ => r.between(0, HIGHEST - reach),
        };
        let zerostate = match r.below(5) {
            0 => 0,
            1 => base,
            2 => base.saturating_add(2).min(HIGHEST),
            3 => base.saturating_sub(1),
            _ => r.between(0, base),
        };
        let most = if full && r.chance(30) { SHARDS + 2 } else { SHARDS };
        let count = if r.chance(60) { 1 + r.below(3) } else { 1 + r.below(most) };
        let masterchain = Shard { workchain: -1, prefix: r.pick(&[1 << 63, 1 << 63, 0, u64::MAX, 1 << 62]) };
        Scene {
            zerostate,
            masterchain,
            shards: shards(r, count),
            base,
            shard_base,
            reach,
            current: base.max(zerostate),
            other_hash: r.pick(&[0, 3, 10, 30]),
            foreign: r.pick(&[0, 5, 20, 60]),
            two_parents: r.pick(&[0, 20, 60, 100]),
            weights: r.pick(&[STORING, STORING, EVENLY, MASTERS]),
        }
    }

    /// Takes its seqnos from a loaded cache.
    pub fn settle(&mut self, cache: &Cache) {
        self.zerostate = cache.zerostate;
        if let Some(e) = cache.masters.entries.last() {
            self.current = e.seqno();
        }
    }

    /// The block of a shard and seqno: its hashes follow from them.
    pub fn id(&self, shard: Shard, seqno: u32) -> Id {
        let mut id = Id { key: Key { shard, seqno }, ..Id::default() };
        let mut n = mix(u64::from(seqno) ^ shard.prefix ^ (shard.workchain as u64) << 7);
        for bytes in id.root.chunks_exact_mut(8).chain(id.file.chunks_exact_mut(8)) {
            n = mix(n.wrapping_add(1));
            bytes.copy_from_slice(&n.to_be_bytes());
        }
        id
    }

    /// Another block of the same seqno and group: one byte of one hash, first, middle or last, of both, or a master of another prefix.
    pub fn other(&self, r: &mut Random, mut id: Id) -> Id {
        let at = r.pick(&[0, 0, 15, 31]);
        if id.is_masterchain() && r.chance(20) {
            id.key.shard.prefix ^= 1 << 62;
        }
        match r.below(3) {
            0 => id.root[at] ^= 0x81,
            1 => id.file[at] ^= 0x81,
            _ => {
                id.root[at] = 255 - id.root[at];
                id.file[at] = 255 - id.file[at];
            }
        }
        id
    }

    pub fn maybe_other(&self, r: &mut Random, id: Id) -> Id {
        if r.chance(self.other_hash) { self.other(r, id) } else { id }
    }

    fn within(&self, r: &mut Random, base: u32) -> u32 {
        r.between(base, base.saturating_add(self.reach).min(HIGHEST))
    }

    pub fn seqno(&self, r: &mut Random) -> u32 {
        self.within(r, self.base)
    }

    fn shard_seqno(&self, r: &mut Random) -> u32 {
        self.within(r, self.shard_base)
    }

    /// The seqno of a store: mostly the next one, or a gap, a taken place, or any.
    pub fn store_seqno(&self, r: &mut Random, group: Option<&Group>, base: u32) -> u32 {
        let any = self.within(r, base);
        let Some(g) = group else {
            return if r.chance(70) { base } else { any };
        };
        let highest = g.entries.last().map(Entry::seqno);
        match (r.below(20), highest.max(g.mark)) {
            (0..11, Some(h)) => h.saturating_add(1).min(HIGHEST),
            (11..14, Some(h)) => h.saturating_add(2).min(HIGHEST),
            (14..17, _) if !g.entries.is_empty() => g.entries[r.below(g.entries.len())].seqno(),
            _ => any,
        }
    }

    pub fn reference(&self, r: &mut Random) -> u32 {
        if !r.chance(self.foreign) {
            return self.current;
        }
        match r.below(4) {
            0 => self.current.saturating_sub(1),
            1 => self.current.saturating_add(1).min(HIGHEST),
            2 => self.zerostate.min(HIGHEST),
            _ => self.seqno(r),
        }
    }

    /// Up to two previous ids: the block before, the one before that, or a block of another shard (a split or merge).
    pub fn prev(&self, r: &mut Random, cache: &Cache, id: &Id) -> Vec<Id> {
        let mut prev = vec![];
        let seqno = id.seqno();
        if seqno > 0 && r.chance(88) {
            prev.push(self.id(id.shard(), seqno - 1));
        }
        if r.chance(self.two_parents) && seqno > 1 {
            prev.push(self.id(id.shard(), seqno - 2));
        } else if r.chance(25) && seqno > 0 && !id.is_masterchain() {
            let shard = r.pick(&self.shards);
            let cached = cache.shard(shard).and_then(|g| g.entries.iter().rev().find(|e| e.seqno() < seqno));
            let below = seqno - 1 - r.below(2).min(seqno as usize - 1) as u32;
            prev.push(cached.map_or(self.id(shard, below), |e| e.id));
        }
        if r.chance(10) {
            prev.reverse();
        }
        prev.into_iter().map(|p| self.maybe_other(r, p)).collect()
    }

    /// Top items: the highest block of each shard mostly, or another, a missing one, or one taken twice.
    pub fn tops(&self, r: &mut Random, cache: &Cache, seqno: u32) -> Vec<Top> {
        let mut tops: Vec<Top> = vec![];
        for shard in &self.shards {
            if tops.len() == TOPS || r.chance(15) {
                continue;
            }
            let entries = cache.shard(*shard).map_or(&[][..], |g| &g.entries);
            let id = match r.below(10) {
                0..7 if !entries.is_empty() => entries[entries.len() - 1].id,
                7 if !entries.is_empty() => entries[r.below(entries.len())].id,
                _ => self.id(*shard, self.shard_seqno(r)),
            };
            let id = self.maybe_other(r, id);
            let reference = match r.below(12) {
                0 => self.zerostate.min(HIGHEST),
                1 => self.zerostate.saturating_add(1).min(HIGHEST),
                2 => self.seqno(r),
                _ => seqno,
            };
            tops.push(Top { reference, id, updated: r.chance(80) });
        }
        for _ in 0..r.pick(&[0, 0, 1, 1, 2, 3]) {
            if let Some(t) = self.further_top(r, cache, &tops).filter(|_| tops.len() < TOPS) {
                tops.insert(r.below(tops.len() + 1), t);
            }
        }
        tops
    }

    /// One more item of a shard that has one: another hash, a missing block, or a previous id of the other.
    fn further_top(&self, r: &mut Random, cache: &Cache, tops: &[Top]) -> Option<Top> {
        if tops.is_empty() {
            return None;
        }
        let t = tops[r.below(tops.len())];
        let entry = cache.shard(t.id.shard()).and_then(|g| g.at(t.id.seqno()).map(|at| &g.entries[at]));
        let id = match r.below(4) {
            0 => self.other(r, t.id),
            1 => self.id(t.id.shard(), self.shard_seqno(r)),
            _ => *entry?.prev.first()?,
        };
        Some(Top { id, ..t })
    }

    fn anchor(&self, r: &mut Random) -> Option<u32> {
        r.chance(70).then(|| (r.wide() >> 32) as u32)
    }

    /// A block to store; a shard block has no top item.
    pub fn candidate(&self, r: &mut Random, cache: &Cache, id: Id) -> Candidate {
        let master = id.is_masterchain();
        let reference = if master && r.chance(90) { id.seqno() } else { self.reference(r) };
        let tops = if master { self.tops(r, cache, id.seqno()) } else { vec![] };
        let (anchor, processed_to, payload) = (self.anchor(r), (r.wide() >> 32) as u32, r.wide());
        Candidate { id, reference, prev: self.prev(r, cache, &id), tops, anchor, processed_to, payload }
    }

    pub fn received(&self, r: &mut Random, cache: &Cache, id: Id) -> Received {
        let c = self.candidate(r, cache, id);
        let reference = match id.is_masterchain() {
            true if r.chance(97) => id,
            true => self.maybe_other(r, self.id(id.shard(), c.reference)),
            false => self.id(self.masterchain, c.reference),
        };
        let payload = if reference.seqno() == cache.zerostate && r.chance(60) { 0 } else { c.payload };
        Received { id, reference, prev: c.prev, tops: c.tops, anchor: c.anchor, payload }
    }

    pub fn store(&self, r: &mut Random, cache: &Cache, id: Id, collate: bool) -> Request {
        if collate { collated(self.candidate(r, cache, id)) } else { Request::StoreReceived(Box::new(self.received(r, cache, id))) }
    }

    pub fn shard_id(&self, r: &mut Random, cache: &Cache) -> Id {
        let shard = r.pick(&self.shards);
        let seqno = self.store_seqno(r, cache.shard(shard), self.shard_base);
        self.maybe_other(r, self.id(shard, seqno))
    }

    fn master_id(&self, r: &mut Random, cache: &Cache) -> Id {
        let seqno = if r.chance(40) { self.current } else { self.store_seqno(r, Some(&cache.masters), self.base) };
        self.maybe_other(r, self.id(self.masterchain, seqno.min(HIGHEST)))
    }

    /// A store at a place that is taken: mostly of the other kind, under the same id or another.
    fn again(&self, r: &mut Random, cache: &Cache) -> Option<Request> {
        let shard = r.below(cache.shards.len() + 1);
        let group = if shard == cache.shards.len() || r.chance(40) { &cache.masters } else { &cache.shards[shard].1 };
        if group.entries.is_empty() {
            return None;
        }
        let e = &group.entries[r.below(group.entries.len())];
        let id = if r.chance(25) { self.other(r, e.id) } else { e.id };
        let collate = e.is_received() != r.chance(10);
        Some(self.store(r, cache, id, collate))
    }

    /// Where a pop or peek starts.
    fn from(&self, r: &mut Random, cache: &Cache) -> u32 {
        let entries = &cache.masters.entries;
        match r.below(8) {
            0..4 => 0,
            4..6 if !entries.is_empty() => entries[r.below(entries.len())].seqno(),
            6 if !entries.is_empty() => entries[r.below(entries.len())].seqno().saturating_add(1).min(HIGHEST),
            _ => r.pick(&[0, 1, self.base, self.current.min(HIGHEST), HIGHEST]),
        }
    }

    /// A master's seqno, cached or not.
    fn some_master(&self, r: &mut Random, cache: &Cache) -> u32 {
        let entries = &cache.masters.entries;
        if !entries.is_empty() && r.chance(85) { entries[r.below(entries.len())].seqno() } else { self.seqno(r) }
    }

    /// An id of which only the seqno counts.
    fn loose_id(&self, r: &mut Random, seqno: u32) -> Id {
        let shard = if r.chance(90) { self.masterchain } else { r.pick(&self.shards) };
        let id = self.id(shard, seqno);
        if r.chance(20) { self.other(r, id) } else { id }
    }

    fn keys(&self, r: &mut Random, cache: &Cache, seqno: impl Fn(&mut Random, &Group, u32) -> u32) -> Vec<Key> {
        let mut keys = vec![];
        for _ in 0..r.pick(&[0, 1, 1, 2, 2, 3, 9]) {
            if r.chance(45) {
                let seqno = seqno(r, &cache.masters, self.base);
                keys.push(self.maybe_other(r, self.id(self.masterchain, seqno)).key);
            } else {
                let shard = r.pick(&self.shards);
                let empty = Group::default();
                keys.push(Key { shard, seqno: seqno(r, cache.shard(shard).unwrap_or(&empty), self.shard_base) });
            }
        }
        keys
    }

    /// The next call.
    pub fn request(&mut self, script: &mut Script) -> Request {
        let full = script.mode == Mode::Full;
        let mut r = script.random.clone();
        let cache = script.cache();
        let mut request = self.choose(&mut r, cache);
        if full && r.chance(6) {
            spoil(self, &mut r, &mut request);
        }
        if full && r.chance(2) {
            request = Request::Sound;
        }
        script.random = r;
        request
    }

    fn choose(&mut self, r: &mut Random, cache: &Cache) -> Request {
        let call = r.weighted(&self.weights);
        match call {
            0 | 1 => {
                let id = self.shard_id(r, cache);
                self.store(r, cache, id, call == 0)
            }
            2 | 3 => {
                let id = self.master_id(r, cache);
                let request = self.store(r, cache, id, call == 2);
                if r.chance(60) {
                    self.current = id.seqno().saturating_add(1).min(HIGHEST);
                }
                request
            }
            4 => self.again(r, cache).unwrap_or(Request::Collect),
            5 => {
                let seqno = self.some_master(r, cache);
                let verdict = if r.chance(60) { Verdict::Complete { handle: r.wide(), weight: r.wide() } } else { Verdict::Skipped };
                Request::Validation(self.loose_id(r, seqno), verdict)
            }
            6 => Request::Pop(self.from(r, cache)),
            7 => {
                let seqno = self.some_master(r, cache);
                Request::Sync(self.loose_id(r, seqno))
            }
            8 => Request::Peek(self.from(r, cache)),
            9 => {
                let seqno = if r.chance(10) { cache.zerostate.min(HIGHEST) } else { self.some_master(r, cache) };
                Request::TailIds(self.loose_id(r, seqno).key)
            }
            10 if r.chance(50) => Request::Collect,
            10 => Request::Boundary(self.keys(r, cache, low_seqno)),
            _ => Request::RemoveNext(self.keys(r, cache, high_seqno)),
        }
    }
}

pub fn collated(c: Candidate) -> Request {
    Request::StoreCollated(Box::new(c))
}

/// A boundary: mostly within the lower entries.
fn low_seqno(r: &mut Random, g: &Group, base: u32) -> u32 {
    match g.entries.len() {
        0 => base,
        n if r.chance(80) => g.entries[r.below(n.div_ceil(2))].seqno(),
        n => g.entries[r.below(n)].seqno().saturating_add(1).min(HIGHEST),
    }
}

/// What to keep: mostly the upper entries go.
fn high_seqno(r: &mut Random, g: &Group, base: u32) -> u32 {
    match g.entries.len() {
        0 => base,
        n if r.chance(80) => g.entries[n - 1 - r.below(n.div_ceil(2))].seqno(),
        n => g.entries[r.below(n)].seqno().saturating_sub(1),
    }
}

/// Shards of several workchains, each prefix whole, split or odd; all different.
pub fn shards(r: &mut Random, count: usize) -> Vec<Shard> {
    let mut shards: Vec<Shard> = vec![];
    while shards.len() < count {
        let workchain = if r.chance(60) { 0 } else { r.pick(&[0, 1, -2, i32::MAX, i32::MIN]) };
        let depth = r.below(4) as u32;
        let split = (r.number() << 1 | 1) << (63 - depth);
        let prefix = if r.chance(90) { split } else { r.pick(&[0, u64::MAX, 1]) };
        let shard = Shard { workchain, prefix };
        if !shards.contains(&shard) {
            shards.push(shard);
        }
    }
    shards
}
