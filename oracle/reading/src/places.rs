//! The cache as places with counts, as `raw` lines set it and `dump raw` prints it: it can be anything, sound or not.
use crate::put;
use crate::records::*;
use crate::text::{self, Out};

pub const ENTRIES: usize = 16;
pub const SHARDS: usize = 8;
pub const IDS: usize = 32;
pub const PREV_IDS: usize = 2;
pub const TOPS: usize = 8;
pub const SLICE: usize = 160;

#[derive(Clone, Copy, PartialEq, Eq, Debug)]
pub struct PlaceEntry {
    pub id: Id,
    pub reference: u32,
    pub prev_count: u64,
    pub prev: [Id; PREV_IDS],
    pub anchor: Option<u32>,
    pub payload: u64,
    pub kind: Kind,
}

#[derive(Clone, Copy, PartialEq, Eq, Debug, Default)]
pub struct PlaceTops {
    pub count: u64,
    pub items: [Top; TOPS],
}

#[derive(Clone, Copy, PartialEq, Eq, Debug, Default)]
pub struct PlaceGroup {
    pub shard: Shard,
    pub count: u64,
    pub mark: Option<u32>,
    pub boundary: Option<Key>,
    pub entries: [PlaceEntry; ENTRIES],
}

#[derive(Clone, PartialEq, Eq, Debug, Default)]
pub struct Places {
    pub zerostate: u32,
    pub range: Option<(u32, u32)>,
    pub ids_count: u64,
    pub ids: [Id; IDS],
    pub masters: PlaceGroup,
    /// Top items, beside the masters.
    pub tops: [PlaceTops; ENTRIES],
    pub shards_count: u64,
    pub shards: [PlaceGroup; SHARDS],
}

/// An unused place: Collated is the first kind and the first status.
impl Default for PlaceEntry {
    fn default() -> Self {
        let kind = Kind::Collated { status: Status::Collated, received_after: false, handle: 0, weight: 0, processed_to: 0 };
        PlaceEntry { id: Id::default(), reference: 0, prev_count: 0, prev: Default::default(), anchor: None, payload: 0, kind }
    }
}

/// The first places of a list, as many as the count says and there are.
fn counted<T: Copy>(places: &[T], count: u64) -> Vec<T> {
    places.iter().take(usize::try_from(count).unwrap_or(usize::MAX)).copied().collect()
}

/// The first items in the places there are, zeros after them, and the list's whole count.
fn placed<T: Copy + Default, const N: usize>(items: &[T]) -> (u64, [T; N]) {
    let mut places = [T::default(); N];
    for (place, item) in places.iter_mut().zip(items) {
        *place = *item;
    }
    (items.len() as u64, places)
}

impl PlaceEntry {
    pub fn of(e: &Entry) -> PlaceEntry {
        let (prev_count, prev) = placed(&e.prev);
        PlaceEntry { id: e.id, reference: e.reference, prev_count, prev, anchor: e.anchor, payload: e.payload, kind: e.kind }
    }
    pub fn view(&self, tops: Vec<Top>) -> Entry {
        let prev = counted(&self.prev, self.prev_count);
        Entry { id: self.id, reference: self.reference, prev, tops, anchor: self.anchor, payload: self.payload, kind: self.kind }
    }
    pub fn write(&self, o: &mut Out) {
        put!(o, id &self.id, " ref=", num self.reference, " prev_count=", num self.prev_count, " prev=", ids &self.prev);
        put!(o, " anchor=", opt self.anchor, " pay=", num self.payload, " ", kind &self.kind, "\n");
    }
}

impl PlaceTops {
    pub fn of(tops: &[Top]) -> PlaceTops {
        let (count, items) = placed(tops);
        PlaceTops { count, items }
    }
}

impl PlaceGroup {
    pub fn of(shard: Shard, g: &Group) -> PlaceGroup {
        let entries: Vec<PlaceEntry> = g.entries.iter().map(PlaceEntry::of).collect();
        let (count, entries) = placed(&entries);
        PlaceGroup { shard, count, mark: g.mark, boundary: g.boundary, entries }
    }
    fn view(&self, tops: &[PlaceTops]) -> Group {
        let mut entries = vec![];
        for (i, e) in counted(&self.entries, self.count).iter().enumerate() {
            entries.push(e.view(tops.get(i).map_or(vec![], |t| counted(&t.items, t.count))));
        }
        Group { entries, mark: self.mark, boundary: self.boundary }
    }
    /// The lines that make this group of another.
    fn write_changes(&self, o: &mut Out, from: &PlaceGroup, name: &str, shard: &str) {
        if (self.shard, self.count, self.mark, self.boundary) != (from.shard, from.count, from.mark, from.boundary) {
            o.extend_from_slice(format!("raw group {name} {shard} ").as_bytes());
            put!(o, "count=", num self.count, " mark=", opt self.mark, " boundary=", bound self.boundary, "\n");
        }
        for (i, (e, old)) in self.entries.iter().zip(&from.entries).enumerate() {
            if e != old {
                o.extend_from_slice(format!("raw entry {name} {i} ").as_bytes());
                e.write(o);
            }
        }
    }
}

impl Places {
    pub fn of(c: &Cache) -> Box<Places> {
        let mut p = Box::<Places>::default();
        (p.zerostate, p.range) = (c.zerostate, c.range);
        (p.ids_count, p.ids) = placed(&c.ids);
        p.masters = PlaceGroup::of(Shard::default(), &c.masters);
        for (place, e) in p.tops.iter_mut().zip(&c.masters.entries) {
            *place = PlaceTops::of(&e.tops);
        }
        p.shards_count = c.shards.len() as u64;
        for (place, (s, g)) in p.shards.iter_mut().zip(&c.shards) {
            *place = PlaceGroup::of(*s, g);
        }
        p
    }

    /// The counted view: what `dump` prints.
    pub fn view(&self) -> Cache {
        let mut shards = vec![];
        for g in self.shards.iter().take(usize::try_from(self.shards_count).unwrap_or(usize::MAX)) {
            shards.push((g.shard, g.view(&[])));
        }
        let ids = counted(&self.ids, self.ids_count);
        Cache { zerostate: self.zerostate, masters: self.masters.view(&self.tops), ids, range: self.range, shards }
    }

    /// The lines of `dump raw`; but for the head, a record that is all zeros is left out.
    pub fn write(&self, o: &mut Out) {
        put!(o, "raw zero\n");
        self.write_head(o);
        self.write_records(o, &Places::default());
    }

    fn write_head(&self, o: &mut Out) {
        put!(o, "raw head zerostate=", num self.zerostate, " range=", range self.range);
        put!(o, " ids=", num self.ids_count, " shards=", num self.shards_count, "\n");
    }

    /// The `raw` lines that make these places of others.
    pub fn write_changes(&self, o: &mut Out, from: &Places) {
        if (self.zerostate, self.range, self.ids_count, self.shards_count) != (from.zerostate, from.range, from.ids_count, from.shards_count) {
            self.write_head(o);
        }
        self.write_records(o, from);
    }

    fn write_records(&self, o: &mut Out, from: &Places) {
        for (i, (id, old)) in self.ids.iter().zip(&from.ids).enumerate() {
            if id != old {
                put!(o, "raw id ", num i as u64, " ", id id, "\n");
            }
        }
        self.masters.write_changes(o, &from.masters, "m", "-");
        for (i, (t, old)) in self.tops.iter().zip(&from.tops).enumerate() {
            if t != old {
                put!(o, "raw tops ", num i as u64, " count=", num t.count, " top=", tops &t.items, "\n");
            }
        }
        for (i, (g, old)) in self.shards.iter().zip(&from.shards).enumerate() {
            let mut shard = vec![];
            text::shard(&mut shard, g.shard);
            g.write_changes(o, old, &i.to_string(), &String::from_utf8_lossy(&shard));
        }
    }
}
