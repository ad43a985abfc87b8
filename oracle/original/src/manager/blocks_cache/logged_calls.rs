//! The calls of `BlocksCache` with a log. Each takes the name of the original's function, which `node_log.sed` has renamed; to be copied into a node with `call_lines.rs`.
use super::*;

impl BlocksCache {
    pub fn new(zerostate_id: &ZerostateId) -> Self {
        let call = call_lines::begin();
        call.line(&call_lines::new(zerostate_id));
        let cache = Self::new_unlogged(zerostate_id);
        call.answer("made");
        cache
    }

    pub fn store_collated(
        &self,
        candidate: Box<BlockCandidate>,
        tops: Vec<TopBlockIdUpdated>,
        anchor: Option<MempoolAnchorId>,
    ) -> Result<BlockCacheStoreResult> {
        let call = call_lines::begin();
        call.line(&call_lines::store_collated(&candidate, &tops, anchor, call.number()));
        let result = self.store_collated_unlogged(candidate, tops, anchor);
        call.answer(&call_lines::collated_answer(&result));
        result
    }

    /// The part of `store_received` after the block was loaded: the lock can't be held while that is waited for.
    pub(super) fn store_loaded(&self, mc_block_id: &BlockId, block_id: BlockId, ctx: ReceivedBlockContext) -> Result<Option<BlockCacheStoreResult>> {
        let call = call_lines::begin();
        call.line(&match call_lines::tops_and_anchor(&ctx.state) {
            Ok((tops, anchor)) => call_lines::store_received(&block_id, mc_block_id, &ctx.prev_ids, &tops, anchor, call.number()),
            Err(error) => format!("# store_received of a state that can't be read: {error}"),
        });
        let result = self.store_loaded_unlogged(block_id, ctx);
        call.answer(&call_lines::received_answer(&result));
        result
    }

    pub fn store_master_block_validation_result(&self, block_id: &BlockId, result: ValidationStatus) -> Option<CandidateStatus> {
        let call = call_lines::begin();
        call.line(&call_lines::validation(block_id, &result, call.number()));
        let status = self.store_master_block_validation_result_unlogged(block_id, result);
        call.answer(&call_lines::validation_answer(status));
        status
    }

    pub fn pop_front_applied_mc_block_subgraph(&self, from_seqno: u32) -> Result<(McBlockSubgraphExtract, bool)> {
        let call = call_lines::begin();
        call.line(&call_lines::pop(from_seqno));
        let result = self.pop_front_applied_mc_block_subgraph_unlogged(from_seqno);
        call.answer(&call_lines::pop_answer(&result));
        result
    }

    pub fn extract_mc_block_subgraph_for_sync(&self, block_id: &BlockId) -> McBlockSubgraphExtract {
        let call = call_lines::begin();
        call.line(&call_lines::sync(block_id));
        let extract = self.extract_mc_block_subgraph_for_sync_unlogged(block_id);
        call.answer(&call_lines::sync_answer(&extract));
        extract
    }

    pub(in crate::manager) fn peek_front_applied_mc_block_subgraph(&self, from_seqno: u32) -> Result<Option<CachedMcBlockSubgraphView>> {
        let call = call_lines::begin();
        call.line(&call_lines::peek(from_seqno));
        let result = self.peek_front_applied_mc_block_subgraph_unlogged(from_seqno);
        call.answer(&call_lines::peek_answer(&result));
        result
    }

    pub fn read_before_tail_ids_of_mc_block(&self, mc_block_key: &BlockCacheKey) -> Result<BeforeTailIdsResult> {
        let call = call_lines::begin();
        call.line(&call_lines::tail_ids(mc_block_key));
        let result = self.read_before_tail_ids_of_mc_block_unlogged(mc_block_key);
        call.answer(&call_lines::tail_ids_answer(&result));
        result
    }

    pub fn set_gc_to_boundary(&self, to_blocks_keys: &[BlockCacheKey]) {
        let call = call_lines::begin();
        call.line(&call_lines::boundary(to_blocks_keys));
        self.set_gc_to_boundary_unlogged(to_blocks_keys);
        call.answer("done");
    }

    pub fn gc_prev_blocks(&self) {
        let call = call_lines::begin();
        call.line(&call_lines::collect());
        self.gc_prev_blocks_unlogged();
        call.answer("done");
    }

    pub fn remove_next_collated_blocks_from_cache(&self, after_blocks_keys: &[BlockCacheKey]) {
        let call = call_lines::begin();
        call.line(&call_lines::remove_next(after_blocks_keys));
        self.remove_next_collated_blocks_from_cache_unlogged(after_blocks_keys);
        call.answer("done");
    }
}
