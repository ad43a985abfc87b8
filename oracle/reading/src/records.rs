//! RULES.md, from Ids, shards and keys to The whole cache: the records, as lists without a limit; the limits are questions.

/// A shard of a workchain; the derived order is that of the fields.
#[derive(Clone, Copy, PartialEq, Eq, PartialOrd, Ord, Debug, Default)]
pub struct Shard {
    pub workchain: i32,
    pub prefix: u64,
}

/// An id without its hashes.
#[derive(Clone, Copy, PartialEq, Eq, PartialOrd, Ord, Debug, Default)]
pub struct Key {
    pub shard: Shard,
    pub seqno: u32,
}

pub type Hash = [u8; 32];

/// The derived order is that of the fields.
#[derive(Clone, Copy, PartialEq, Eq, PartialOrd, Ord, Debug, Default)]
pub struct Id {
    pub key: Key,
    pub root: Hash,
    pub file: Hash,
}

impl Shard {
    /// Whether the workchain is -1, whatever the prefix.
    pub fn is_masterchain(self) -> bool {
        self.workchain == -1
    }
}

impl Id {
    pub fn shard(&self) -> Shard {
        self.key.shard
    }
    pub fn seqno(&self) -> u32 {
        self.key.seqno
    }
    pub fn is_masterchain(&self) -> bool {
        self.shard().is_masterchain()
    }
}

#[derive(Clone, Copy, PartialEq, Eq, Debug, Default)]
pub struct Top {
    pub reference: u32,
    pub id: Id,
    pub updated: bool,
}

#[derive(Clone, Copy, PartialEq, Eq, Debug)]
pub enum Status {
    Collated,
    Validated,
    ValidationSkipped,
    Synced,
}

#[derive(Clone, Copy, PartialEq, Eq, Debug)]
pub enum Kind {
    Collated { status: Status, received_after: bool, handle: u64, weight: u64, processed_to: u32 },
    Received { collated_after: bool, additional: Option<u32> },
}

#[derive(Clone, PartialEq, Eq, Debug)]
pub struct Entry {
    pub id: Id,
    pub reference: u32,
    pub prev: Vec<Id>,
    pub tops: Vec<Top>,
    pub anchor: Option<u32>,
    pub payload: u64,
    pub kind: Kind,
}

impl Entry {
    /// Received, before it was collated or after.
    pub fn is_applied(&self) -> bool {
        match self.kind {
            Kind::Received { .. } => true,
            Kind::Collated { received_after, .. } => received_after,
        }
    }
    pub fn is_received(&self) -> bool {
        matches!(self.kind, Kind::Received { .. })
    }
    pub fn seqno(&self) -> u32 {
        self.id.seqno()
    }
}

#[derive(Clone, PartialEq, Eq, Debug)]
pub struct Candidate {
    pub id: Id,
    pub reference: u32,
    pub prev: Vec<Id>,
    pub tops: Vec<Top>,
    pub anchor: Option<u32>,
    pub processed_to: u32,
    pub payload: u64,
}

#[derive(Clone, PartialEq, Eq, Debug)]
pub struct Received {
    pub id: Id,
    pub reference: Id,
    pub prev: Vec<Id>,
    pub tops: Vec<Top>,
    pub anchor: Option<u32>,
    pub payload: u64,
}

/// Entries in the order of their seqnos; a list and not a map, so that an unsound one can be held too.
#[derive(Clone, PartialEq, Eq, Debug, Default)]
pub struct Group {
    pub entries: Vec<Entry>,
    pub mark: Option<u32>,
    pub boundary: Option<Key>,
}

#[derive(Clone, PartialEq, Eq, Debug, Default)]
pub struct Cache {
    pub zerostate: u32,
    pub masters: Group,
    /// Last collated ids, in the order of their seqnos.
    pub ids: Vec<Id>,
    pub range: Option<(u32, u32)>,
    /// Shard groups, in the order of their shards.
    pub shards: Vec<(Shard, Group)>,
}

impl Group {
    pub fn at(&self, seqno: u32) -> Option<usize> {
        self.entries.iter().position(|e| e.seqno() == seqno)
    }
}

impl Cache {
    pub fn empty(zerostate: u32) -> Cache {
        Cache { zerostate, ..Cache::default() }
    }
    pub fn shard(&self, shard: Shard) -> Option<&Group> {
        self.shards.iter().find(|(s, _)| *s == shard).map(|(_, g)| g)
    }
    pub fn shard_mut(&mut self, shard: Shard) -> Option<&mut Group> {
        self.shards.iter_mut().find(|(s, _)| *s == shard).map(|(_, g)| g)
    }
}

#[derive(Clone, Copy, PartialEq, Eq, Debug)]
pub enum Verdict {
    Complete { handle: u64, weight: u64 },
    Skipped,
}

#[derive(Clone, PartialEq, Eq, Debug)]
pub enum Request {
    New(u32),
    StoreCollated(Box<Candidate>),
    StoreReceived(Box<Received>),
    Validation(Id, Verdict),
    Pop(u32),
    Sync(Id),
    Peek(u32),
    TailIds(Key),
    Boundary(Vec<Key>),
    Collect,
    RemoveNext(Vec<Key>),
    Sound,
}

#[derive(Clone, PartialEq, Eq, Debug)]
pub struct Extracted {
    pub master: Entry,
    /// In the order handed out: the newest first.
    pub blocks: Vec<Entry>,
    /// The number of ids that the walk took.
    pub taken: u64,
}

#[derive(Clone, PartialEq, Eq, Debug)]
pub struct View {
    pub missing: Option<Key>,
    pub master: ViewRow,
    pub tops: Vec<ViewRow>,
}

#[derive(Clone, Copy, PartialEq, Eq, Debug)]
pub struct ViewRow {
    pub id: Id,
    pub reference: u32,
    pub payload: u64,
}

#[derive(Clone, PartialEq, Eq, Debug)]
pub struct TailRow {
    pub shard: Shard,
    pub id: Option<Id>,
    pub prev: Vec<Id>,
}

#[derive(Clone, PartialEq, Eq, Debug)]
pub enum Answer {
    Refused(u8),
    Made,
    Stored { received_and_collated: bool, mismatch: bool, last: Option<Id>, range: Option<(u32, u32)> },
    Synced,
    NoChange,
    Changed(Status),
    Popped { last: bool, extracted: Extracted },
    Extracted(Extracted),
    AlreadyExtracted,
    Found(View),
    Nothing,
    Rows(Vec<TailRow>),
    Done,
    Soundness(bool),
}
