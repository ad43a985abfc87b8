//! RULES.md, Case table: C1 to C14, on the second reading.
use reading::records::*;
use reading::replay::{Held, Replay};
use reading::wrong::Wrong;

const MASTERCHAIN: Shard = Shard { workchain: -1, prefix: 1 << 63 };
const WHOLE: Shard = Shard { workchain: 0, prefix: 1 << 63 };
const LEFT: Shard = Shard { workchain: 0, prefix: 1 << 62 };
const RIGHT: Shard = Shard { workchain: 0, prefix: 3 << 62 };

fn id(shard: Shard, seqno: u32) -> Id {
    Id { key: Key { shard, seqno }, root: [1; 32], file: [2; 32] }
}
fn m(seqno: u32) -> Id {
    id(MASTERCHAIN, seqno)
}
/// Another root hash.
fn m_other(seqno: u32) -> Id {
    Id { root: [3; 32], ..m(seqno) }
}
fn s(seqno: u32) -> Id {
    id(WHOLE, seqno)
}

struct Case {
    replay: Replay,
}

impl Case {
    fn new() -> Case {
        Case { replay: Replay::new(Wrong::None) }
    }
    fn cache(&self) -> &Cache {
        match &self.replay.held {
            Held::Lists(c) => c,
            Held::Places(_) => panic!("no raw line was given"),
        }
    }
    fn collate_naming(&mut self, id: Id, reference: u32, prev: &[Id]) -> Answer {
        let c = Candidate { id, reference, prev: prev.to_vec(), tops: vec![], anchor: None, processed_to: 0, payload: 0 };
        self.replay.call(&Request::StoreCollated(Box::new(c)))
    }
    fn collate(&mut self, id: Id) -> Answer {
        self.collate_naming(id, id.seqno(), &[])
    }
    fn receive_with(&mut self, id: Id, tops: &[Id]) -> Answer {
        let tops = tops.iter().map(|t| Top { reference: id.seqno(), id: *t, updated: true }).collect();
        let r = Received { id, reference: id, prev: vec![], tops, anchor: None, payload: 0 };
        self.replay.call(&Request::StoreReceived(Box::new(r)))
    }
    fn receive(&mut self, id: Id) -> Answer {
        self.receive_with(id, &[])
    }
    fn pop(&mut self, from: u32) -> (bool, Id, Vec<Id>, u64) {
        match self.replay.call(&Request::Pop(from)) {
            Answer::Popped { last, extracted: x } => (last, x.master.id, x.blocks.iter().map(|b| b.id).collect(), x.taken),
            other => panic!("{other:?}"),
        }
    }
    fn validate(&mut self, verdict: Verdict) -> Answer {
        self.replay.call(&Request::Validation(m(5), verdict))
    }
    fn weight(&self) -> u64 {
        match self.cache().masters.entries[0].kind {
            Kind::Collated { weight, .. } => weight,
            Kind::Received { .. } => panic!("a collated block"),
        }
    }
}

fn stored(received_and_collated: bool, mismatch: bool, last: Option<Id>, range: Option<(u32, u32)>) -> Answer {
    Answer::Stored { received_and_collated, mismatch, last, range }
}

#[test]
fn c1_empty() {
    let mut c = Case::new();
    assert_eq!(c.replay.call(&Request::Peek(0)), Answer::Nothing);
    assert_eq!(c.replay.call(&Request::Pop(0)), Answer::Refused(11));
    assert_eq!(c.replay.call(&Request::Sync(m(5))), Answer::AlreadyExtracted);
    assert_eq!(*c.cache(), Cache::empty(0));
}

#[test]
fn c2_c3_receive() {
    let mut c = Case::new();
    assert_eq!(c.receive(m(5)), stored(false, false, None, Some((5, 5))));
    assert_eq!(c.cache().masters.mark, Some(5));
    assert_eq!(c.receive(m(5)), Answer::Synced);
    assert_eq!(c.receive(m(4)), Answer::Synced);
}

#[test]
fn c4_collate() {
    let mut c = Case::new();
    assert_eq!(c.collate(m(5)), stored(false, false, Some(m(5)), None));
    assert_eq!(c.collate(m(5)), Answer::Refused(7));
    assert_eq!(c.collate(m_other(5)), Answer::Refused(7));
}

#[test]
fn c5_c6_collate_then_receive() {
    let mut c = Case::new();
    c.collate(m(5));
    assert_eq!(c.receive(m(5)), stored(true, false, Some(m(5)), Some((5, 5))));
    let mut c = Case::new();
    c.collate(m(5));
    assert_eq!(c.receive(m_other(5)), stored(false, true, None, Some((5, 5))));
}

#[test]
fn c7_c8_receive_then_collate() {
    let mut c = Case::new();
    c.receive(m(5));
    let before = c.cache().clone();
    assert_eq!(c.collate(m_other(5)), stored(false, true, None, Some((5, 5))));
    assert_eq!(*c.cache(), before);
    assert_eq!(c.collate(m(5)), stored(true, false, Some(m(5)), None));
    assert_eq!(c.pop(0), (true, m(5), vec![], 0));
}

#[test]
fn c9_pops() {
    let mut c = Case::new();
    for n in 5..8 {
        c.receive(m(n));
    }
    assert_eq!(c.pop(0), (false, m(5), vec![], 0));
    assert_eq!(c.cache().range, Some((6, 7)));
    assert_eq!(c.pop(7), (true, m(7), vec![], 0));
    assert_eq!(c.cache().range, None);
    assert_eq!(c.cache().masters.entries[0].id, m(6));
}

#[test]
fn c10_validation() {
    let mut c = Case::new();
    c.collate(m(5));
    assert_eq!(c.validate(Verdict::Complete { handle: 1, weight: 9 }), Answer::Changed(Status::Validated));
    assert_eq!(c.validate(Verdict::Complete { handle: 1, weight: 12 }), Answer::NoChange);
    assert_eq!(c.weight(), 9);
    assert_eq!(c.validate(Verdict::Skipped), Answer::Changed(Status::ValidationSkipped));
    assert_eq!(c.weight(), 0);
}

#[test]
fn c11_collect() {
    let mut c = Case::new();
    for n in 5..8 {
        c.collate(m(n));
    }
    c.replay.call(&Request::Boundary(vec![m(7).key]));
    assert_eq!(c.replay.call(&Request::Collect), Answer::Done);
    assert_eq!(c.cache().ids, [m(6), m(7)]);
}

fn twelve() -> Case {
    let mut c = Case::new();
    c.collate_naming(s(1), 4, &[]);
    c.collate_naming(s(2), 5, &[s(1)]);
    c.collate_naming(s(3), 5, &[s(2)]);
    c.receive_with(m(5), &[s(3)]);
    c
}

#[test]
fn c12_extraction() {
    let mut c = twelve();
    assert_eq!(c.pop(0), (true, m(5), vec![s(2), s(3)], 3));
    let (_, group) = &c.cache().shards[0];
    assert_eq!((group.entries.len(), group.mark), (0, Some(3)));
}

#[test]
fn c13_split() {
    let mut c = Case::new();
    let (p4, l5, r5, r6) = (s(4), id(LEFT, 5), id(RIGHT, 5), id(RIGHT, 6));
    for (block, prev) in [(p4, vec![]), (l5, vec![p4]), (r5, vec![p4]), (r6, vec![r5])] {
        c.collate_naming(block, 5, &prev);
    }
    c.receive_with(m(5), &[l5, r6]);
    assert_eq!(c.pop(0), (true, m(5), vec![r5, p4, r6, l5], 5));
}

#[test]
fn c14_tail_ids() {
    let mut c = twelve();
    let rows = vec![TailRow { shard: MASTERCHAIN, id: Some(m(5)), prev: vec![] }, TailRow { shard: WHOLE, id: Some(s(2)), prev: vec![s(1)] }];
    assert_eq!(c.replay.call(&Request::TailIds(m(5).key)), Answer::Rows(rows));
}

#[test]
fn limits() {
    let mut c = Case::new();
    assert_eq!(c.collate(m(u32::MAX)), Answer::Refused(2));
    assert_eq!(c.collate(m(u32::MAX - 1)), stored(false, false, Some(m(u32::MAX - 1)), None));
    for n in 1..16 {
        c.collate(m(n));
    }
    assert_eq!(c.cache().masters.entries.len(), 16);
    assert_eq!(c.collate(m(16)), Answer::Refused(8));
}
