//! Plots of a scene: what random calls alone would hardly bring about.
use super::scene::{HIGHEST, MASTERS, Scene, collated, shards};
use super::{Mode, Script};
use crate::places::{ENTRIES, IDS, SHARDS};
use crate::records::*;

impl Scene {
    /// A master's life, again and again: shard blocks that name it, the master, looks at it, its extraction; other calls between.
    pub fn rounds(&mut self, script: &mut Script) {
        for _ in 0..1 + script.random.below(6) {
            let masters = &script.cache().masters;
            let highest = masters.entries.last().map(Entry::seqno).max(masters.mark).max(Some(script.cache().zerostate));
            self.current = highest.map_or(self.base, |h| h.saturating_add(1).min(HIGHEST));
            self.blocks(script);
            self.master(script);
            for _ in 0..script.random.below(8) {
                if script.is_done() {
                    return;
                }
                self.step(script);
            }
        }
    }

    /// Some blocks in each shard, mostly each after the one before.
    fn blocks(&mut self, script: &mut Script) {
        let most = script.random.pick(&[2, 3, 5, 9]);
        for shard in self.shards.clone() {
            let count = script.random.below(most);
            for _ in 0..count {
                if script.is_done() {
                    return;
                }
                let (r, cache) = (&mut script.random.clone(), script.cache());
                let group = cache.shard(shard);
                let highest = group.and_then(|g| g.entries.last().map(Entry::seqno).max(g.mark));
                let next = highest.map_or(self.shard_base, |h| h.saturating_add(1).min(HIGHEST));
                let id = self.id(shard, next);
                let id = self.maybe_other(r, id);
                let collate = r.chance(60);
                let request = self.store(r, cache, id, collate);
                script.random = r.clone();
                script.call(request);
            }
        }
    }

    /// The master that the blocks name: collated, received, or both in either order.
    fn master(&mut self, script: &mut Script) {
        let id = self.id(self.masterchain, self.current);
        let (r, cache) = (&mut script.random.clone(), script.cache());
        let tops = self.tops(r, cache, self.current);
        let orders: [&[bool]; 5] = [&[true], &[false], &[true, false], &[false, true], &[true, false, true]];
        let order = r.pick(&orders);
        script.random = r.clone();
        for collate in order {
            let (r, cache) = (&mut script.random.clone(), script.cache());
            let id = self.maybe_other(r, id);
            let mut request = self.store(r, cache, id, *collate);
            match &mut request {
                Request::StoreCollated(c) => c.tops = tops.clone(),
                Request::StoreReceived(c) => c.tops = tops.clone(),
                _ => unreachable!("a store"),
            }
            script.random = r.clone();
            script.call(request);
        }
    }

    /// A look at the master, its extraction, a validation, or any other call.
    fn step(&mut self, script: &mut Script) {
        let id = self.id(self.masterchain, self.current);
        let lowest = script.cache().masters.entries.first().map_or(0, Entry::seqno);
        let complete = Verdict::Complete { handle: script.random.wide(), weight: script.random.wide() };
        let request = match script.random.below(10) {
            0 => Request::Peek(lowest),
            1 => Request::Peek(self.current),
            2 => Request::TailIds(id.key),
            3 => Request::Pop(lowest),
            4 => Request::Pop(self.current),
            5 => Request::Sync(id),
            6 => Request::Validation(id, complete),
            7 => Request::Validation(id, Verdict::Skipped),
            _ => self.request(script),
        };
        script.call(request);
    }

    /// Every group full, every block with two previous ids and naming one master, whose tops reach all: 128 joined blocks, 264 ids taken where there are 8 groups.
    pub fn fill_groups(&mut self, script: &mut Script) {
        self.shards = shards(&mut script.random, SHARDS);
        self.shard_base = self.shard_base.clamp(2, HIGHEST - ENTRIES as u32);
        (self.current, self.two_parents) = (self.current.max(self.zerostate.saturating_add(1)).min(HIGHEST), 100);
        for shard in self.shards.clone() {
            for i in 0..ENTRIES as u32 {
                if script.is_done() {
                    return;
                }
                let id = self.id(shard, self.shard_base + i);
                let (r, cache) = (&mut script.random.clone(), script.cache());
                let mut c = self.candidate(r, cache, id);
                c.prev = vec![self.id(shard, id.seqno() - 1), self.id(shard, id.seqno() - 2)];
                c.reference = self.current;
                script.random = r.clone();
                script.call(collated(c));
            }
        }
        self.ninth_shard(script);
        self.full_master(script);
    }

    /// A block of one shard more than there are groups.
    fn ninth_shard(&mut self, script: &mut Script) {
        let (r, cache) = (&mut script.random.clone(), script.cache());
        let all = shards(r, 3 * SHARDS);
        if let Some(shard) = all.into_iter().find(|s| cache.shard(*s).is_none()) {
            let (id, collate) = (self.id(shard, self.shard_base), r.chance(50));
            let request = self.store(r, cache, id, collate);
            script.random = r.clone();
            script.call(request);
        }
    }

    /// A received master whose tops are the highest blocks of all shards; then what looks at them and takes them.
    fn full_master(&mut self, script: &mut Script) {
        let id = self.id(self.masterchain, self.current);
        let top = |s: &Shard| Top { reference: self.current, id: self.id(*s, self.shard_base + ENTRIES as u32 - 1), updated: true };
        let tops = self.shards.iter().map(top).collect();
        script.call(Request::StoreReceived(Box::new(Received { id, reference: id, prev: vec![], tops, anchor: Some(3), payload: 0 })));
        if script.mode == Mode::Full {
            script.call(Request::TailIds(id.key));
        }
        script.call(Request::Peek(0));
        if script.random.chance(70) {
            script.call(Request::Pop(self.current));
        }
    }

    /// Sixteen masters of both kinds.
    pub fn fill_masters(&mut self, script: &mut Script) {
        let first = self.base.max(self.zerostate).min(HIGHEST - ENTRIES as u32);
        (self.weights, self.base) = (MASTERS, first);
        for i in 0..=ENTRIES as u32 {
            if script.is_done() {
                return;
            }
            let id = self.id(self.masterchain, first + i);
            let (r, cache) = (&mut script.random.clone(), script.cache());
            let collate = r.chance(50);
            let request = self.store(r, cache, id, collate);
            script.random = r.clone();
            script.call(request);
        }
    }

    /// Thirty-two last collated ids: masters are collated downwards and leave by sync extraction, which keeps the ids above.
    pub fn fill_ids(&mut self, script: &mut Script) {
        let first = self.base.min(HIGHEST - 40);
        (self.weights, self.base, self.reach) = (MASTERS, first, 40);
        for i in (0..IDS as u32 + 2).rev() {
            if script.is_done() {
                return;
            }
            let id = self.id(self.masterchain, first + i);
            let (r, cache) = (&mut script.random.clone(), script.cache());
            let c = Candidate { tops: vec![], ..self.candidate(r, cache, id) };
            script.random = r.clone();
            script.call(collated(c));
            script.call(Request::Sync(id));
        }
    }
}
