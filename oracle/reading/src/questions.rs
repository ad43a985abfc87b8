//! RULES.md, Questions: 1 to 12, in their order.
use crate::places::{ENTRIES, IDS, PREV_IDS, SHARDS, TOPS};
use crate::records::*;
use crate::rules::Rules;
use crate::wrong::Wrong;

pub const KEYS: usize = 9;
pub const LENT: usize = 128;

/// A number where the answer is no.
pub type Refusal = Result<(), u8>;

fn ask(number: u8, yes: bool) -> Refusal {
    if yes { Ok(()) } else { Err(number) }
}

/// What questions 2 to 4 ask of a block, coming in or cached.
struct Block<'a> {
    id: &'a Id,
    reference: u32,
    prev: &'a [Id],
    tops: &'a [Top],
}

impl Rules {
    /// Every question but those of a store's place (7 to 9), which come after the Synced answer.
    pub fn refusal(&self, cache: &Cache, lent: usize, request: &Request) -> Refusal {
        if !matches!(request, Request::New(_)) {
            ask(1, self.sound(cache))?;
        }
        match request {
            Request::New(seqno) | Request::Peek(seqno) => self.seqno(*seqno),
            Request::StoreCollated(c) => self.block(&Block { id: &c.id, reference: c.reference, prev: &c.prev, tops: &c.tops }),
            Request::StoreReceived(r) => {
                self.block(&Block { id: &r.id, reference: r.reference.seqno(), prev: &r.prev, tops: &r.tops })?;
                self.reference(cache, r)
            }
            Request::Validation(id, _) => self.seqno(id.seqno()),
            Request::Pop(from) => {
                self.seqno(*from)?;
                let applied = ask(11, self.front_applied(cache, *from).is_some());
                if self.is(Wrong::ElevenBeforeTen) {
                    applied?;
                }
                self.lent(lent)?;
                applied
            }
            Request::Sync(id) => {
                self.seqno(id.seqno())?;
                let absent = cache.masters.at(id.seqno()).is_none();
                if absent && self.is(Wrong::AbsentBeforeTen) { Ok(()) } else { self.lent(lent) }
            }
            Request::TailIds(key) => {
                self.seqno(key.seqno)?;
                // 12: there is a master at the seqno, unless the zerostate is not passed.
                ask(12, !self.above_zerostate(cache, key.seqno) || cache.masters.at(key.seqno).is_some())
            }
            Request::Boundary(keys) | Request::RemoveNext(keys) => self.keys(keys),
            Request::Collect | Request::Sound => Ok(()),
        }
    }

    /// 2: no seqno is the highest number of 32 bits.
    fn seqno(&self, seqno: u32) -> Refusal {
        ask(2, seqno < u32::MAX || self.is(Wrong::SeqnoMaxPasses))
    }

    /// 10: the lent slice has a place for every shard block of a full cache.
    fn lent(&self, lent: usize) -> Refusal {
        ask(10, lent >= LENT - usize::from(self.is(Wrong::SliceOf127)))
    }

    /// 2, then 3: nine keys. Items past the record's places are not given.
    fn keys(&self, keys: &[Key]) -> Refusal {
        for k in keys.iter().take(KEYS) {
            self.seqno(k.seqno)?;
        }
        ask(3, keys.len() <= KEYS + usize::from(self.is(Wrong::TenKeys)))
    }

    fn block(&self, b: &Block) -> Refusal {
        let lists = self.block_lists(b);
        if self.is(Wrong::ThreeBeforeTwo) {
            lists?;
        }
        self.block_seqnos(b)?;
        if self.is(Wrong::FourBeforeThree) {
            self.block_relations(b)?;
        }
        lists?;
        self.block_relations(b)
    }

    fn block_seqnos(&self, b: &Block) -> Refusal {
        self.seqno(b.id.seqno())?;
        self.seqno(b.reference)?;
        for p in b.prev.iter().take(PREV_IDS) {
            self.seqno(p.seqno())?;
        }
        for t in b.tops.iter().take(TOPS) {
            self.seqno(t.reference)?;
            self.seqno(t.id.seqno())?;
        }
        Ok(())
    }

    /// 3: previous ids and top items fit their places, and only a master has top items.
    fn block_lists(&self, b: &Block) -> Refusal {
        ask(3, b.prev.len() <= PREV_IDS && b.tops.len() <= TOPS && (b.id.is_masterchain() || b.tops.is_empty()))
    }

    /// 4: previous ids are below the block in seqno, and masters exactly if it is one; top items are no masters.
    fn block_relations(&self, b: &Block) -> Refusal {
        for p in b.prev {
            let lower = p.seqno() < b.id.seqno() || self.is(Wrong::PrevEqualSeqno) && p.seqno() == b.id.seqno();
            ask(4, lower && p.is_masterchain() == b.id.is_masterchain())?;
        }
        ask(4, b.tops.iter().all(|t| !t.id.is_masterchain()))
    }

    /// 5: a received block's reference is not below the zerostate. 6: a received master is its own reference.
    fn reference(&self, cache: &Cache, r: &Received) -> Refusal {
        if self.is(Wrong::SyncedBeforeFive) && self.synced(cache, r) {
            return Ok(());
        }
        let own = ask(6, !r.id.is_masterchain() || r.id == r.reference);
        if self.is(Wrong::SixBeforeFive) {
            own?;
        }
        ask(5, r.reference.seqno() >= cache.zerostate)?;
        own
    }

    /// 7 to 9, of a store whose answer is not Synced.
    pub fn place_refusal(&self, cache: &Cache, id: &Id, collated: bool) -> Refusal {
        let group = if id.is_masterchain() { Some(&cache.masters) } else { cache.shard(id.shard()) };
        let entry = group.and_then(|g| g.at(id.seqno()).map(|i| &g.entries[i]));
        if self.is(Wrong::EightBeforeSeven) {
            ask(8, group.is_none_or(|g| g.entries.len() < ENTRIES))?;
        }
        match entry {
            // 7: what stands there is not of the kind that comes in.
            Some(e) => ask(7, e.is_received() == collated)?,
            // 8: a block that comes in anew finds a place in its group, and its group one in the cache.
            None => {
                let entries = ENTRIES + usize::from(self.is(Wrong::SeventeenEntries));
                let shards = SHARDS + usize::from(self.is(Wrong::NineShards));
                ask(8, group.map_or(cache.shards.len() < shards, |g| g.entries.len() < entries))?;
            }
        }
        // 9: the id of a collated master that is no mismatch replaces one of its seqno, or finds a place.
        let stores = entry.is_none_or(|e| self.same_block(&e.id, id));
        if !(collated && id.is_masterchain() && stores) {
            return Ok(());
        }
        let known = cache.ids.iter().any(|i| i.seqno() == id.seqno()) && !self.is(Wrong::KnownIdRefused);
        ask(9, known || cache.ids.len() < IDS + usize::from(self.is(Wrong::IdsFull)))
    }

    /// 1, of the lists; that the places hold nothing else is asked where they are held.
    pub fn sound(&self, c: &Cache) -> bool {
        let mark = c.masters.mark;
        let range = match c.range {
            None => true,
            Some((start, end)) => start <= end && (self.is(Wrong::RangeAboveMark) || mark.is_some_and(|m| end <= m)),
        };
        // The last collated ids: 32 at most, by seqno, of the masterchain.
        let ids = c.ids.len() <= IDS && c.ids.iter().all(Id::is_masterchain) && rising(c.ids.iter().map(Id::seqno));
        let masters = self.sound_group(&c.masters, |s| s.is_masterchain() && (s.prefix == 1 << 63 || !self.is(Wrong::MasterPrefixFixed)));
        // The shard groups: 8 at most, by shard, none of the masterchain.
        let count = c.shards.len() <= SHARDS + usize::from(self.is(Wrong::NineShards));
        let order = rising(c.shards.iter().map(|(s, _)| self.shard_order(*s)));
        // Question 2 is asked of entries alone.
        let asked = |wrong, seqno: Option<u32>| self.is(wrong) && seqno == Some(u32::MAX);
        if asked(Wrong::ZerostateAsked, Some(c.zerostate)) || asked(Wrong::IdsAsked, c.ids.last().map(Id::seqno)) || asked(Wrong::MarkAsked, mark) {
            return false;
        }
        range && ids && masters && count && order && c.shards.iter().all(|(s, g)| !s.is_masterchain() && self.sound_group(g, |x| x == *s))
    }

    fn sound_group(&self, g: &Group, own: impl Fn(Shard) -> bool) -> bool {
        let count = g.entries.len() <= ENTRIES + usize::from(self.is(Wrong::SeventeenEntries));
        let boundary = g.boundary.is_none_or(|k| own(k.shard) && (k.seqno < u32::MAX || !self.is(Wrong::BoundaryAsked)));
        count && boundary && rising(g.entries.iter().map(Entry::seqno)) && g.entries.iter().all(|e| own(e.id.shard()) && self.sound_entry(e))
    }

    /// The entry passes questions 2 to 4.
    fn sound_entry(&self, e: &Entry) -> bool {
        self.block(&Block { id: &e.id, reference: e.reference, prev: &e.prev, tops: &e.tops }).is_ok()
    }
}

fn rising<T: PartialOrd>(items: impl Iterator<Item = T>) -> bool {
    items.is_sorted_by(|a, b| a < b)
}
