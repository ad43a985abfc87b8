//! The replay language's records to the original's, and back.
use std::sync::Arc;

use reading::records as language;
use reading::records::{Id, Key, Kind, Shard, Status, Top};
use tycho_block_util::block::{BlockStuff, BlockStuffAug};
use tycho_block_util::queue::{QueueDiffStuff, QueueDiffStuffAug};
use tycho_network::PeerId;
use tycho_types::cell::HashBytes;
use tycho_types::models::{BlockInfo, ShardDescription, ShardHashes};

use super::*;
use crate::manager::types::BlockCandidateStuff;
use crate::types::TopBlockId;
use crate::validator::{BlockSignatures, ValidationComplete};

pub fn shard(s: Shard) -> ShardIdent {
    ShardIdent::new_unchecked(s.workchain, s.prefix)
}
pub fn shard_back(s: &ShardIdent) -> Shard {
    Shard { workchain: s.workchain(), prefix: s.prefix() }
}
pub fn key(k: &Key) -> BlockCacheKey {
    BlockIdShort { shard: shard(k.shard), seqno: k.seqno }
}
pub fn key_back(k: &BlockCacheKey) -> Key {
    Key { shard: shard_back(&k.shard), seqno: k.seqno }
}
pub fn id(i: &Id) -> BlockId {
    BlockId { shard: shard(i.shard()), seqno: i.seqno(), root_hash: HashBytes(i.root), file_hash: HashBytes(i.file) }
}
pub fn id_back(i: &BlockId) -> Id {
    Id { key: key_back(&i.as_short_id()), root: i.root_hash.0, file: i.file_hash.0 }
}
pub fn ids(v: &[Id]) -> Vec<BlockId> {
    v.iter().map(id).collect()
}
pub fn ids_back(v: &[BlockId]) -> Vec<Id> {
    v.iter().map(id_back).collect()
}
pub fn tops(v: &[Top]) -> Vec<TopBlockIdUpdated> {
    let top = |t: &Top| TopBlockIdUpdated { block: TopBlockId { ref_by_mc_seqno: t.reference, block_id: id(&t.id) }, updated: t.updated };
    v.iter().map(top).collect()
}
fn tops_back(v: &[TopBlockIdUpdated]) -> Vec<Top> {
    v.iter().map(|t| Top { reference: t.block.ref_by_mc_seqno, id: id_back(&t.block.block_id), updated: t.updated }).collect()
}

/// A handle is the one key of a map of signatures; 0 is the empty map.
fn signatures(handle: u64) -> BlockSignatures {
    let mut map = BlockSignatures::default();
    if handle != 0 {
        let mut peer = [0; 32];
        peer[..8].copy_from_slice(&handle.to_be_bytes());
        map.insert(PeerId(peer), Arc::new([0; 64]));
    }
    map
}
fn handle(map: &BlockSignatures) -> u64 {
    map.keys().next().map_or(0, |peer| u64::from_be_bytes(peer.0[..8].try_into().unwrap()))
}
pub fn handle_of(result: &ValidationStatus) -> u64 {
    match result {
        ValidationStatus::Complete(complete) => handle(&complete.signatures),
        ValidationStatus::Skipped => 0,
    }
}

pub fn verdict(v: language::Verdict) -> ValidationStatus {
    match v {
        language::Verdict::Skipped => ValidationStatus::Skipped,
        language::Verdict::Complete { handle, weight } => {
            ValidationStatus::Complete(ValidationComplete { signatures: signatures(handle), total_weight: weight })
        }
    }
}

pub fn candidate(block: &Id, reference: u32, prev: &[Id], processed_to: u32, payload: u64) -> BlockCandidate {
    let prev = ids(prev);
    BlockCandidate {
        ref_by_mc_seqno: reference,
        block: BlockStuffAug { data: BlockStuff::make(id(block), prev.clone()) },
        is_key_block: false,
        consensus_config_changed: None,
        prev_blocks_ids: prev,
        top_shard_blocks_ids: vec![],
        collated_file_hash: HashBytes::default(),
        chain_time: 0,
        processed_to_anchor_id: processed_to,
        value_flow: Default::default(),
        created_by: HashBytes::default(),
        queue_diff_aug: QueueDiffStuffAug { data: QueueDiffStuff { payload: Some(payload) } },
        consensus_info: ConsensusInfo,
        processed_upto: Default::default(),
    }
}

/// The original works the top anchor out of the state: the least of the master's and the updated shards' anchors. The shards' are the highest here.
pub fn state(r: &language::Received) -> ShardStateStuff {
    let description = |t: &Top| ShardDescription {
        ext_processed_to_anchor_id: u32::MAX,
        top_sc_block_updated: t.updated,
        reg_mc_seqno: t.reference,
        end_lt: 0,
        seqno: t.id.seqno(),
        root_hash: HashBytes(t.id.root),
        file_hash: HashBytes(t.id.file),
    };
    let shards = r.tops.iter().map(|t| (shard(t.id.shard()), description(t))).collect();
    ShardStateStuff::make(id(&r.id), ShardHashes(shards), r.anchor.unwrap_or(u32::MAX))
}

/// The original's empty diff is spelled as payload 0.
pub fn payload(diff: &QueueDiffStuff) -> u64 {
    diff.payload.unwrap_or(0)
}

pub fn status_back(s: CandidateStatus) -> Status {
    match s {
        CandidateStatus::Collated => Status::Collated,
        CandidateStatus::Validated => Status::Validated,
        CandidateStatus::ValidationSkipped => Status::ValidationSkipped,
        CandidateStatus::Synced => Status::Synced,
    }
}
fn status(s: Status) -> CandidateStatus {
    match s {
        Status::Collated => CandidateStatus::Collated,
        Status::Validated => CandidateStatus::Validated,
        Status::ValidationSkipped => CandidateStatus::ValidationSkipped,
        Status::Synced => CandidateStatus::Synced,
    }
}

pub fn entry(e: &language::Entry) -> BlockCacheEntry {
    let data = match e.kind {
        Kind::Collated { status: s, received_after, handle, weight, processed_to } => BlockCacheEntryData::Collated {
            candidate_stuff: BlockCandidateStuff {
                candidate: candidate(&e.id, e.reference, &e.prev, processed_to, e.payload),
                signatures: signatures(handle),
                total_signature_weight: weight,
            },
            status: status(s),
            received_after_collation: received_after,
        },
        Kind::Received { collated_after, additional } => BlockCacheEntryData::Received {
            cached_state: None,
            queue_diff: QueueDiffStuff { payload: Some(e.payload) },
            out_msgs: Lazy(OutMsgDescr),
            collated_after_receive: collated_after,
            additional_shard_block_cache_info: additional.map(|anchor| AdditionalShardBlockCacheInfo { block_info: BlockInfo, processed_to_anchor_id: anchor }),
            processed_upto: Default::default(),
        },
    };
    BlockCacheEntry {
        block_id: id(&e.id),
        data,
        prev_blocks_ids: ids(&e.prev),
        top_shard_blocks_info: tops(&e.tops),
        top_processed_to_anchor: e.anchor,
        ref_by_mc_seqno: e.reference,
    }
}

pub fn entry_back(e: &BlockCacheEntry) -> language::Entry {
    let (payload, kind) = match &e.data {
        BlockCacheEntryData::Collated { candidate_stuff: c, status, received_after_collation } => {
            let b = &c.candidate;
            // The candidate says the same as the entry around it.
            assert!(b.prev_blocks_ids == e.prev_blocks_ids && *b.block.id() == e.block_id && b.ref_by_mc_seqno == e.ref_by_mc_seqno);
            let (handle, weight) = (handle(&c.signatures), c.total_signature_weight);
            let (status, received_after) = (status_back(*status), *received_after_collation);
            (payload(&b.queue_diff_aug.data), Kind::Collated { status, received_after, handle, weight, processed_to: b.processed_to_anchor_id })
        }
        BlockCacheEntryData::Received { queue_diff, collated_after_receive, additional_shard_block_cache_info: a, .. } => {
            let additional = a.as_ref().map(|a| a.processed_to_anchor_id);
            (payload(queue_diff), Kind::Received { collated_after: *collated_after_receive, additional })
        }
    };
    language::Entry {
        id: id_back(&e.block_id),
        reference: e.ref_by_mc_seqno,
        prev: ids_back(&e.prev_blocks_ids),
        tops: tops_back(&e.top_shard_blocks_info),
        anchor: e.top_processed_to_anchor,
        payload,
        kind,
    }
}

fn group_back<T>(g: &BlocksCacheGroup<T>) -> language::Group {
    let mut entries = vec![];
    for (seqno, e) in &g.blocks {
        assert!(*seqno == e.block_id.seqno);
        entries.push(entry_back(e));
    }
    language::Group { entries, mark: g.last_known_synced, boundary: g.gc_to_boundary.as_ref().map(key_back) }
}

/// The whole cache; the original's map of shards has no order, the language's is by rising shard.
pub fn cache_back(c: &BlocksCache) -> language::Cache {
    let m = c.inner.masters.lock();
    let mut shards: Vec<(Shard, language::Group)> = c.inner.shards.iter().map(|g| (shard_back(g.key()), group_back(g.value()))).collect();
    shards.sort_by_key(|(s, _)| *s);
    let mut ids = vec![];
    for (seqno, i) in &m.data.last_collated_mc_block_ids {
        assert!(*seqno == i.seqno);
        ids.push(id_back(i));
    }
    language::Cache { zerostate: c.inner.zerostate_mc_seqno, masters: group_back(&m), ids, range: m.data.applied_mc_queue_range, shards }
}
