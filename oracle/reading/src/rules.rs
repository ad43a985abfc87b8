//! RULES.md, from Master data to Removal of collated blocks. `Wrong::None` is the right reading; every other value deviates in the one line that names it.
use std::collections::{BTreeMap, BTreeSet, VecDeque};

use crate::records::*;
use crate::wrong::Wrong;

#[derive(Clone, Copy)]
pub struct Rules {
    pub wrong: Wrong,
}

type Flags = (bool, bool);

impl Rules {
    pub fn is(&self, wrong: Wrong) -> bool {
        self.wrong == wrong
    }

    /// One call: the questions, then the rule. A refusal changes nothing.
    pub fn call(&self, cache: &mut Cache, lent: usize, request: &Request) -> Answer {
        if *request == Request::Sound {
            return Answer::Soundness(self.sound(cache));
        }
        if let Err(n) = self.refusal(cache, lent, request) {
            return Answer::Refused(n);
        }
        match request {
            Request::New(zerostate) => {
                *cache = Cache::empty(*zerostate);
                Answer::Made
            }
            Request::StoreCollated(c) => self.store_collated(cache, c),
            Request::StoreReceived(r) => self.store_received(cache, r),
            Request::Validation(id, verdict) => self.validation(cache, id, *verdict),
            Request::Pop(from) => self.pop(cache, *from),
            Request::Sync(id) => self.sync(cache, id),
            Request::Peek(from) => self.peek(cache, *from),
            Request::TailIds(key) => Answer::Rows(self.tail_ids(cache, key.seqno)),
            Request::Boundary(keys) => self.boundary(cache, keys),
            Request::Collect => self.collect(cache),
            Request::RemoveNext(keys) => self.remove_next(cache, keys),
            Request::Sound => unreachable!("answered above"),
        }
    }

    // Ids and shards.

    /// The lower workchain first, as signed numbers, then the lower prefix.
    pub fn shard_order(&self, s: Shard) -> (i64, u64) {
        if self.is(Wrong::WorkchainUnsigned) { (i64::from(s.workchain as u32), s.prefix) } else { (i64::from(s.workchain), s.prefix) }
    }

    pub fn same_block(&self, a: &Id, b: &Id) -> bool {
        if self.is(Wrong::FileHashIgnored) { (a.key, a.root) == (b.key, b.root) } else { a == b }
    }

    // Group.

    /// The mark's rule: a mark that reaches the seqno is given and stays; any other is raised to the seqno.
    fn refresh(&self, mark: &mut Option<u32>, seqno: u32) -> Option<u32> {
        match *mark {
            Some(m) if m > seqno || m == seqno && !self.is(Wrong::SyncedAboveMark) => Some(m),
            _ => {
                *mark = Some(seqno);
                None
            }
        }
    }

    /// The group of a block; one that is not there yet is made.
    fn group<'a>(&self, cache: &'a mut Cache, shard: Shard) -> &'a mut Group {
        if shard.is_masterchain() {
            return &mut cache.masters;
        }
        let at = match cache.shards.iter().position(|(s, _)| *s == shard) {
            Some(at) => at,
            None => {
                let at = cache.shards.iter().filter(|(s, _)| self.shard_order(*s) < self.shard_order(shard)).count();
                cache.shards.insert(at, (shard, Group::default()));
                at
            }
        };
        &mut cache.shards[at].1
    }

    /// The collated store at its place.
    fn store_collated_in(&self, g: &mut Group, c: &Candidate) -> Flags {
        let kind = Kind::Collated { status: Status::Collated, received_after: false, handle: 0, weight: 0, processed_to: c.processed_to };
        let (prev, tops) = (c.prev.clone(), c.tops.clone());
        let fresh = Entry { id: c.id, reference: c.reference, prev, tops, anchor: c.anchor, payload: c.payload, kind };
        let Some(at) = g.at(c.id.seqno()) else {
            put(g, fresh);
            return (false, false);
        };
        let entry = &mut g.entries[at];
        // Another id was received there: the entry stays.
        if !self.same_block(&entry.id, &c.id) {
            if self.is(Wrong::MismatchReplacesReceived) {
                *entry = fresh;
            }
            return (false, true);
        }
        // The same id was received there: flagged as collated too, and for a shard block with the candidate's processed-to anchor.
        if let Kind::Received { collated_after, additional } = &mut entry.kind {
            *collated_after = true;
            if !c.id.is_masterchain() || self.is(Wrong::AdditionalForMasters) {
                *additional = Some(c.processed_to);
            }
        }
        (true, false)
    }

    /// The received store at its place: a fresh entry, unless the same id was collated there; that one is flagged and Synced.
    fn store_received_in(&self, g: &mut Group, zerostate: u32, r: &Received) -> Flags {
        let fresh = self.fresh_received(zerostate, r);
        let Some(at) = g.at(r.id.seqno()) else {
            put(g, fresh);
            return (false, false);
        };
        let entry = &mut g.entries[at];
        if !self.same_block(&entry.id, &r.id) {
            if !self.is(Wrong::MismatchKeepsCollated) {
                *entry = fresh;
            }
            return (false, true);
        }
        if let Kind::Collated { status, received_after, .. } = &mut entry.kind {
            *received_after = true;
            if !self.is(Wrong::UpdateKeepsStatus) {
                *status = Status::Synced;
            }
        }
        (true, false)
    }

    /// A received block's entry: previous ids are left out at the zerostate's seqno, the top anchor outside the masterchain.
    fn fresh_received(&self, zerostate: u32, r: &Received) -> Entry {
        let reference = r.reference.seqno();
        let at_zerostate = reference == zerostate;
        let prev = if at_zerostate && !self.is(Wrong::PrevKeptAtZerostate) { vec![] } else { r.prev.clone() };
        let anchor = if r.id.is_masterchain() || self.is(Wrong::ShardAnchorKept) { r.anchor } else { None };
        let payload = if at_zerostate && self.is(Wrong::PayloadGoneAtZerostate) { 0 } else { r.payload };
        let kind = Kind::Received { collated_after: false, additional: None };
        Entry { id: r.id, reference, prev, tops: r.tops.clone(), anchor, payload, kind }
    }

    // Master data.

    /// The range moved on past a seqno that is not before it; no range once its end is passed.
    fn move_start(&self, cache: &mut Cache, seqno: u32) {
        if let Some((start, end)) = cache.range
            && seqno >= start
        {
            let start = seqno.checked_add(1).expect("question 2 keeps seqnos below the highest");
            let gone = start > end || self.is(Wrong::RangeOfOneGone) && start == end;
            cache.range = if gone { None } else { Some((start, end)) };
        }
    }

    /// The range with a seqno as its end; without a range, that seqno alone.
    fn move_end(&self, cache: &mut Cache, seqno: u32) {
        match &mut cache.range {
            Some((_, end)) if !self.is(Wrong::EndStays) => *end = seqno,
            Some(_) => {}
            None => cache.range = Some((seqno, seqno)),
        }
    }

    /// The collated store: past a master the range is moved on, and its id is put in.
    fn put_id(&self, cache: &mut Cache, id: &Id) {
        if !self.is(Wrong::StartStaysOnCollated) {
            self.move_start(cache, id.seqno());
        }
        cache.ids.retain(|i| i.seqno() != id.seqno());
        let at = cache.ids.iter().filter(|i| i.seqno() < id.seqno()).count();
        cache.ids.insert(at, *id);
    }

    fn stored(&self, cache: &Cache, (received_and_collated, mismatch): Flags) -> Answer {
        Answer::Stored { received_and_collated, mismatch, last: cache.ids.last().copied(), range: cache.range }
    }

    fn store_collated(&self, cache: &mut Cache, c: &Candidate) -> Answer {
        if let Err(n) = self.place_refusal(cache, &c.id, true) {
            return Answer::Refused(n);
        }
        let flags = self.store_collated_in(self.group(cache, c.id.shard()), c);
        // Not on a mismatch.
        let stores = !flags.1 && !(flags.0 && self.is(Wrong::UpdateStoresNoId));
        if c.id.is_masterchain() && stores {
            self.put_id(cache, &c.id);
        }
        self.stored(cache, flags)
    }

    /// Whether the mark of its group reaches a received block.
    pub fn synced(&self, cache: &Cache, r: &Received) -> bool {
        let group = if r.id.is_masterchain() { Some(&cache.masters) } else { cache.shard(r.id.shard()) };
        let mut mark = group.and_then(|g| g.mark);
        self.refresh(&mut mark, r.id.seqno()).is_some()
    }

    fn store_received(&self, cache: &mut Cache, r: &Received) -> Answer {
        if self.synced(cache, r) {
            return Answer::Synced;
        }
        if let Err(n) = self.place_refusal(cache, &r.id, false) {
            return Answer::Refused(n);
        }
        let zerostate = cache.zerostate;
        let group = self.group(cache, r.id.shard());
        self.refresh(&mut group.mark, r.id.seqno());
        let flags = self.store_received_in(group, zerostate, r);
        if r.id.is_masterchain() {
            self.move_end(cache, r.id.seqno());
        }
        // A mismatch drops ids, from a master's own seqno on or from a shard block's reference on.
        if flags.1 && !self.is(Wrong::MismatchKeepsIds) {
            let own = r.id.is_masterchain() || self.is(Wrong::ShardMismatchOwnSeqno);
            let from = if own { r.id.seqno() } else { r.reference.seqno() };
            cache.ids.retain(|i| i.seqno() < from);
        }
        self.stored(cache, flags)
    }

    // Whole cache.

    /// Status, handle and weight of a collated master are set, unless it is Synced or of that status already.
    fn validation(&self, cache: &mut Cache, id: &Id, verdict: Verdict) -> Answer {
        let Some(at) = cache.masters.at(id.seqno()) else {
            return Answer::NoChange;
        };
        let entry = &mut cache.masters.entries[at];
        if self.is(Wrong::ValidationComparesId) && entry.id != *id {
            return Answer::NoChange;
        }
        let Kind::Collated { status, handle, weight, .. } = &mut entry.kind else {
            return Answer::NoChange;
        };
        let (new, h, w) = match verdict {
            Verdict::Complete { handle, weight } => (Status::Validated, handle, weight),
            Verdict::Skipped if self.is(Wrong::SkippedKeepsWeight) => (Status::ValidationSkipped, *handle, *weight),
            Verdict::Skipped => (Status::ValidationSkipped, 0, 0),
        };
        let synced = *status == Status::Synced && !self.is(Wrong::ValidationChangesSynced);
        if synced || *status == new && !self.is(Wrong::SameStatusSets) {
            return Answer::NoChange;
        }
        (*status, *handle, *weight) = (new, h, w);
        Answer::Changed(new)
    }

    /// The first applied master from f on.
    pub fn front_applied(&self, cache: &Cache, from: u32) -> Option<usize> {
        let fits = |e: &Entry| {
            let in_reach = e.seqno() > from || e.seqno() == from && !self.is(Wrong::PopAbove);
            in_reach && (e.is_applied() || self.is(Wrong::PopAnyEntry))
        };
        let entries = &cache.masters.entries;
        if self.is(Wrong::PopHighest) { entries.iter().rposition(fits) } else { entries.iter().position(fits) }
    }

    /// Pop: that master is taken out, lower ids with it, and the range is moved on past it; the last is one with no applied master after it.
    fn pop(&self, cache: &mut Cache, from: u32) -> Answer {
        let at = self.front_applied(cache, from).expect("question 11");
        let first = if self.is(Wrong::LastCountsItself) { at } else { at + 1 };
        let last = !cache.masters.entries[first..].iter().any(|e| e.is_applied() || self.is(Wrong::LastCountsAll));
        let master = cache.masters.entries.remove(at);
        let seqno = master.seqno();
        cache.ids.retain(|i| i.seqno() > seqno || i.seqno() == seqno && !self.is(Wrong::PopClearsOwnId));
        if !self.is(Wrong::PopKeepsStart) {
            self.move_start(cache, seqno);
        }
        Answer::Popped { last, extracted: self.extract(cache, master) }
    }

    /// Sync extraction: the master at the seqno is taken out, lower ids with it, and refreshes the mark; past an applied one the range is moved on.
    fn sync(&self, cache: &mut Cache, id: &Id) -> Answer {
        let seqno = id.seqno();
        let Some(at) = cache.masters.at(seqno) else {
            if self.is(Wrong::AbsentMovesMark) {
                self.refresh(&mut cache.masters.mark, seqno);
            }
            return Answer::AlreadyExtracted;
        };
        let master = cache.masters.entries.remove(at);
        if (master.is_applied() || self.is(Wrong::SyncMovesUnapplied)) && !self.is(Wrong::SyncKeepsStart) {
            self.move_start(cache, seqno);
        }
        self.refresh(&mut cache.masters.mark, seqno);
        if self.is(Wrong::SyncMarkDown) {
            cache.masters.mark = Some(seqno);
        }
        cache.ids.retain(|i| i.seqno() >= seqno);
        Answer::Extracted(self.extract(cache, master))
    }

    /// The top items from which extraction starts.
    fn starting<'a>(&self, zerostate: u32, master: &'a Entry) -> impl Iterator<Item = &'a Top> {
        let (any, at) = (self.is(Wrong::NotUpdatedStarts), self.is(Wrong::ZerostateStarts));
        master.tops.iter().filter(move |t| (t.updated || any) && (t.reference > zerostate || at && t.reference == zerostate))
    }

    fn extract(&self, cache: &mut Cache, master: Entry) -> Extracted {
        let mut waiting: VecDeque<Id> = self.starting(cache.zerostate, &master).map(|t| t.id).collect();
        let mut blocks = vec![];
        let mut taken = 0;
        while let Some(id) = if self.is(Wrong::DepthFirst) { waiting.pop_back() } else { waiting.pop_front() } {
            taken += u64::from(!self.is(Wrong::TakenCountsFound));
            // The hashes are not looked at.
            let Some(group) = cache.shard_mut(id.shard()) else { continue };
            let Some(at) = group.at(id.seqno()) else { continue };
            if self.is(Wrong::LookupByWholeId) && group.entries[at].id != id {
                continue;
            }
            taken += u64::from(self.is(Wrong::TakenCountsFound));
            // A block that names M joins; any other is lost.
            let joins = group.entries[at].reference == master.seqno();
            if !joins && self.is(Wrong::ForeignStays) {
                continue;
            }
            let block = group.entries.remove(at);
            if joins || self.is(Wrong::ForeignWalked) {
                waiting.extend(&block.prev);
            }
            if joins {
                if !self.is(Wrong::ShardMarkStays) {
                    self.refresh(&mut group.mark, block.seqno());
                }
                blocks.push(block);
            }
        }
        // The newest first.
        if !self.is(Wrong::FirstJoinedFirst) {
            blocks.reverse();
        }
        Extracted { master, blocks, taken }
    }

    /// Peek: a row for each starting item, up to the first whose block is missing or names another master.
    fn peek(&self, cache: &Cache, from: u32) -> Answer {
        let Some(at) = self.front_applied(cache, from) else {
            return Answer::Nothing;
        };
        let m = &cache.masters.entries[at];
        let master = ViewRow { id: m.id, reference: m.reference, payload: m.payload };
        let mut view = View { missing: None, master, tops: vec![] };
        for t in self.starting(cache.zerostate, m) {
            let cached = cached(cache, &t.id).filter(|e| e.reference == m.seqno() || self.is(Wrong::PeekForeign));
            let Some(e) = cached else {
                view.missing = Some(t.id.key);
                if self.is(Wrong::PeekPastGap) {
                    continue;
                }
                break;
            };
            // Id and reference are the item's, the payload is the block's.
            let id = if self.is(Wrong::PeekEntryId) { e.id } else { t.id };
            let reference = if self.is(Wrong::PeekEntryReference) { e.reference } else { t.reference };
            view.tops.push(ViewRow { id, reference, payload: e.payload });
        }
        Answer::Found(view)
    }

    pub fn above_zerostate(&self, cache: &Cache, seqno: u32) -> bool {
        seqno > cache.zerostate || self.is(Wrong::TailAtZerostate) && seqno == cache.zerostate
    }

    /// Tail ids: the tops one by one, then each id of the queue once, even one that was a top.
    fn tail_ids(&self, cache: &Cache, seqno: u32) -> Vec<TailRow> {
        let Some(at) = cache.masters.at(seqno).filter(|_| self.above_zerostate(cache, seqno)) else {
            return vec![];
        };
        let m = &cache.masters.entries[at];
        let mut rows = BTreeMap::new();
        let mut queued: VecDeque<(Id, bool)> = m.tops.iter().map(|t| (t.id, true)).collect();
        let mut known: BTreeSet<Id> = queued.iter().filter(|_| self.is(Wrong::TailTopsOnce)).map(|(id, _)| *id).collect();
        while let Some((id, is_top)) = queued.pop_front() {
            // Seqno 0 gives nothing.
            if id.seqno() == 0 && !self.is(Wrong::TailSeqnoZero) {
                continue;
            }
            let row = match cached(cache, &id) {
                // A top that is not cached is its own previous id.
                None if is_top => (None, vec![id]),
                None => continue,
                Some(e) => {
                    let top_counts = is_top && !self.is(Wrong::TailTopMustName);
                    if !(top_counts || e.reference == seqno || self.is(Wrong::TailForeign)) {
                        continue;
                    }
                    queued.extend(e.prev.iter().filter(|p| known.insert(**p)).map(|p| (*p, false)));
                    (Some(if self.is(Wrong::TailEntryId) { e.id } else { id }), e.prev.clone())
                }
            };
            let held = rows.entry(self.shard_order(id.shard())).or_insert_with(|| (id.shard(), row.clone()));
            if self.replaces(&held.1.0, &row.0) {
                held.1 = row;
            }
        }
        rows.insert(self.shard_order(m.id.shard()), (m.id.shard(), (Some(m.id), m.prev.clone())));
        rows.into_values().map(|(shard, (id, prev))| TailRow { shard, id, prev }).collect()
    }

    /// Whether a row takes the place of the one held: that one has no id, or its own comes before it; no id comes before all.
    fn replaces(&self, held: &Option<Id>, new: &Option<Id>) -> bool {
        match (held, new) {
            (None, _) => !self.is(Wrong::TailAbsentStays),
            (Some(_), None) => !self.is(Wrong::TailAbsentGreatest),
            (Some(h), Some(n)) if self.is(Wrong::TailHighest) => n > h,
            (Some(h), Some(n)) if self.is(Wrong::FileHashFirst) => (n.key, n.file, n.root) < (h.key, h.file, h.root),
            (Some(h), Some(n)) => n < h,
        }
    }

    /// Set boundary: each key for its shard's group, if there is one.
    fn boundary(&self, cache: &mut Cache, keys: &[Key]) -> Answer {
        for k in keys {
            if k.shard.is_masterchain() || cache.shard(k.shard).is_some() || self.is(Wrong::BoundaryMakesGroups) {
                self.group(cache, k.shard).boundary = Some(*k);
            }
        }
        Answer::Done
    }

    /// Collect: every group by its boundary; a collected master takes lower ids along.
    fn collect(&self, cache: &mut Cache) -> Answer {
        let goes = |boundary: Option<Key>, seqno: u32| boundary.is_some_and(|k| seqno < k.seqno || self.is(Wrong::CollectInclusive) && seqno == k.seqno);
        let boundary = cache.masters.boundary;
        let removed: Vec<u32> = cache.masters.entries.extract_if(.., |e| goes(boundary, e.seqno())).map(|e| e.seqno()).collect();
        for s in removed {
            let below = if self.is(Wrong::CollectClearsToBoundary) { boundary.map_or(s, |k| k.seqno) } else { s };
            cache.ids.retain(|i| i.seqno() >= below);
            if self.is(Wrong::CollectMovesRange) {
                self.move_start(cache, s);
            }
        }
        if !self.is(Wrong::CollectMastersOnly) {
            for (_, g) in &mut cache.shards {
                let boundary = g.boundary;
                g.entries.retain(|e| !goes(boundary, e.seqno()));
            }
        }
        Answer::Done
    }

    /// Remove next collated: what is above a key in its shard's group and not Received; a removed master takes its own and higher ids along.
    fn remove_next(&self, cache: &mut Cache, keys: &[Key]) -> Answer {
        for k in keys {
            let goes = |e: &Entry| {
                let above = e.seqno() > k.seqno || self.is(Wrong::RemoveInclusive) && e.seqno() == k.seqno;
                above && (!e.is_received() || self.is(Wrong::RemoveReceived))
            };
            if !k.shard.is_masterchain() {
                if let Some(g) = cache.shard_mut(k.shard) {
                    g.entries.retain(|e| !goes(e));
                }
                continue;
            }
            let removed: Vec<u32> = cache.masters.entries.extract_if(.., |e| goes(e)).map(|e| e.seqno()).collect();
            for s in removed {
                let kept = self.is(Wrong::RemoveKeepsIds);
                cache.ids.retain(|i| i.seqno() < s || kept || i.seqno() == s && self.is(Wrong::RemoveClearsAbove));
            }
        }
        Answer::Done
    }
}

/// The shard block under an id's key.
fn cached<'a>(cache: &'a Cache, id: &Id) -> Option<&'a Entry> {
    let group = cache.shard(id.shard())?;
    group.at(id.seqno()).map(|at| &group.entries[at])
}

fn put(g: &mut Group, entry: Entry) {
    let at = g.entries.iter().filter(|e| e.seqno() < entry.seqno()).count();
    g.entries.insert(at, entry);
}
