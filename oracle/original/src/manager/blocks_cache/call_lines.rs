//! Writes the calls of `BlocksCache` to a log, each as a line of the replay language (docs/REPLAY.md) and its answer behind it as comments.
//! To be copied into a node, beside its `blocks_cache.rs` (docs/NODE_LOG.md): it needs the collator's own types and std.
use std::fmt::Display;
use std::sync::{Mutex, MutexGuard, PoisonError};

use anyhow::Result;
use tycho_block_util::state::ShardStateStuff;
use tycho_core::global_config::ZerostateId;
use tycho_types::cell::HashBytes;
use tycho_types::models::{BlockId, BlockIdShort, ShardIdent};

use super::{BeforeTailIdsResult, CachedMcBlockSubgraphView};
use crate::manager::types::{BlockCacheStoreResult, CandidateStatus, McBlockSubgraphExtract};
use crate::mempool::MempoolAnchorId;
use crate::types::processed_upto::ProcessedUptoInfoExtension;
use crate::types::{BlockCandidate, ShardHashesExt, ShardHashesReadExt, TopBlockIdUpdated};
use crate::utils::block::detect_top_processed_to_anchor;
use crate::validator::ValidationStatus;

/// The cache has a lock for its masters and one for each shard; this one is held over a whole call, so that the order of lines is the order of calls.
static CALLS: Mutex<u64> = Mutex::new(0);

/// A call that is being made.
pub struct Call(MutexGuard<'static, u64>);

/// To be called before the call's line is written.
pub fn begin() -> Call {
    let mut number = CALLS.lock().unwrap_or_else(PoisonError::into_inner);
    *number += 1;
    Call(number)
}

impl Call {
    /// How many calls were begun: a number for `pay=` and for a validation's handle, which the cache never looks at.
    pub fn number(&self) -> u64 {
        *self.0
    }
    /// The one place that writes: put your log's macro here.
    pub fn line(&self, line: &str) {
        println!("cache-call: {line}");
    }
    /// The answer as comments; the next call may begin.
    pub fn answer(self, answer: &str) {
        answer.lines().for_each(|line| self.line(&format!("# {line}")));
    }
}

// Values.

fn hash(hash: &HashBytes) -> String {
    hash.0.iter().map(|byte| format!("{byte:02x}")).collect()
}
fn shard(shard: &ShardIdent) -> String {
    format!("{}:{:016x}", shard.workchain(), shard.prefix())
}
fn key(key: &BlockIdShort) -> String {
    format!("{}:{}", shard(&key.shard), key.seqno)
}
fn id(id: &BlockId) -> String {
    format!("{}:{}:{}:{}", shard(&id.shard), id.seqno, hash(&id.root_hash), hash(&id.file_hash))
}
fn top(top: &TopBlockIdUpdated) -> String {
    format!("{}/{}/{}", top.block.ref_by_mc_seqno, id(&top.block.block_id), u8::from(top.updated))
}
fn opt<T: Display>(value: Option<T>) -> String {
    value.map_or_else(|| "-".to_owned(), |value| value.to_string())
}
fn list<T>(items: &[T], one: impl Fn(&T) -> String) -> String {
    if items.is_empty() { "-".to_owned() } else { items.iter().map(one).collect::<Vec<_>>().join(",") }
}

// Calls, each from its arguments.

pub fn new(zerostate_id: &ZerostateId) -> String {
    format!("new {}", zerostate_id.seqno)
}

pub fn store_collated(candidate: &BlockCandidate, tops: &[TopBlockIdUpdated], anchor: Option<MempoolAnchorId>, pay: u64) -> String {
    let (block, reference, prev) = (id(candidate.block.id()), candidate.ref_by_mc_seqno, list(&candidate.prev_blocks_ids, id));
    let (tops, anchor, processed_to) = (list(tops, top), opt(anchor), candidate.processed_to_anchor_id);
    format!("store_collated {block} ref={reference} prev={prev} top={tops} anchor={anchor} pta={processed_to} pay={pay}")
}

pub fn store_received(
    block_id: &BlockId,
    mc_block_id: &BlockId,
    prev_ids: &[BlockId],
    tops: &[TopBlockIdUpdated],
    anchor: Option<MempoolAnchorId>,
    pay: u64,
) -> String {
    let (block, reference, prev, tops, anchor) = (id(block_id), id(mc_block_id), list(prev_ids, id), list(tops, top), opt(anchor));
    format!("store_received {block} mc={reference} prev={prev} top={tops} anchor={anchor} pay={pay}")
}

/// Top items and top anchor of a received block, worked out as `BlockCacheEntry::from_received` does.
pub fn tops_and_anchor(state: &ShardStateStuff) -> Result<(Vec<TopBlockIdUpdated>, Option<MempoolAnchorId>)> {
    if !state.block_id().is_masterchain() {
        return Ok((vec![], None));
    }
    let shards = state.shards()?;
    let own = state.state().processed_upto.load()?.get_min_externals_processed_to()?.0;
    let anchor = detect_top_processed_to_anchor(shards.as_vec()?.iter().map(|(_, description)| *description), own);
    Ok((shards.top_shard_blocks_info()?, Some(anchor)))
}

pub fn validation(block_id: &BlockId, result: &ValidationStatus, handle: u64) -> String {
    match result {
        ValidationStatus::Complete(complete) => format!("validation {} complete {handle} {}", id(block_id), complete.total_weight),
        ValidationStatus::Skipped => format!("validation {} skipped", id(block_id)),
    }
}

pub fn pop(from_seqno: u32) -> String {
    format!("pop {from_seqno}")
}
pub fn sync(block_id: &BlockId) -> String {
    format!("sync {}", id(block_id))
}
pub fn peek(from_seqno: u32) -> String {
    format!("peek {from_seqno}")
}
pub fn tail_ids(mc_block_key: &BlockIdShort) -> String {
    format!("tail_ids {}", key(mc_block_key))
}
pub fn boundary(to_blocks_keys: &[BlockIdShort]) -> String {
    format!("boundary {}", list(to_blocks_keys, key))
}
pub fn collect() -> String {
    "collect".to_owned()
}
pub fn remove_next(after_blocks_keys: &[BlockIdShort]) -> String {
    format!("remove_next {}", list(after_blocks_keys, key))
}

// Answers, each from what the call returned; without `taken=`, which the original doesn't count, and of an entry its id alone.

fn or_refused<T>(result: &Result<T>, answer: impl Fn(&T) -> String) -> String {
    result.as_ref().map_or_else(|error| format!("refused: {error}"), answer)
}

fn stored(stored: &BlockCacheStoreResult) -> String {
    let (both, mismatch) = (u8::from(stored.received_and_collated), u8::from(stored.block_mismatch));
    let last = opt(stored.last_collated_mc_block_id.as_ref().map(id));
    let range = opt(stored.applied_mc_queue_range.map(|(start, end)| format!("{start}..{end}")));
    format!("stored received_and_collated={both} mismatch={mismatch} last={last} range={range}")
}
pub fn collated_answer(result: &Result<BlockCacheStoreResult>) -> String {
    or_refused(result, stored)
}
pub fn received_answer(result: &Result<Option<BlockCacheStoreResult>>) -> String {
    or_refused(result, |result| result.as_ref().map_or_else(|| "synced".to_owned(), stored))
}

pub fn validation_answer(result: Option<CandidateStatus>) -> String {
    result.map_or_else(|| "no change".to_owned(), |status| format!("status {status:?}"))
}

fn extracted(extract: &McBlockSubgraphExtract, last: &str) -> String {
    let McBlockSubgraphExtract::Extracted(subgraph) = extract else { return "already extracted".to_owned() };
    let blocks: String = subgraph.shard_blocks.iter().map(|block| format!("\nblock {}", id(&block.block_id))).collect();
    format!("extracted {last}blocks={}\nmaster {}{blocks}", subgraph.shard_blocks.len(), id(&subgraph.master_block.block_id))
}
pub fn pop_answer(result: &Result<(McBlockSubgraphExtract, bool)>) -> String {
    or_refused(result, |(extract, last)| extracted(extract, &format!("last={} ", u8::from(*last))))
}
pub fn sync_answer(extract: &McBlockSubgraphExtract) -> String {
    extracted(extract, "")
}

pub fn peek_answer(result: &Result<Option<CachedMcBlockSubgraphView>>) -> String {
    or_refused(result, |view| {
        let Some(view) = view else { return "nothing".to_owned() };
        let tops: String = view.top_shard_blocks.iter().map(|block| format!("\ntop {}", id(&block.block_id))).collect();
        format!("found missing={}\nmaster {}{tops}", opt(view.missing_top_shard_block.as_ref().map(key)), id(&view.block_id))
    })
}

pub fn tail_ids_answer(result: &Result<BeforeTailIdsResult>) -> String {
    or_refused(result, |rows| {
        let row = |(of, (block, prev)): (&ShardIdent, &(Option<BlockId>, Vec<BlockId>))| {
            format!("\nrow {} {} prev={}", shard(of), opt(block.as_ref().map(id)), list(prev, id))
        };
        format!("rows {}{}", rows.len(), rows.iter().map(row).collect::<String>())
    })
}
