# Edits a node's collator/src/manager/blocks_cache.rs (broxus/tycho at 0212f7255e) so that logged_calls.rs can stand in: see docs/NODE_LOG.md.
s/^    pub\((super)\)* fn \(new\|store_collated\|store_master_block_validation_result\|pop_front_applied_mc_block_subgraph\)(/    fn \2_unlogged(/
s/^    pub\((super)\)* fn \(extract_mc_block_subgraph_for_sync\|peek_front_applied_mc_block_subgraph\|read_before_tail_ids_of_mc_block\)(/    fn \2_unlogged(/
s/^    pub\((super)\)* fn \(set_gc_to_boundary\|gc_prev_blocks\|remove_next_collated_blocks_from_cache\)(/    fn \2_unlogged(/
# A received block is loaded first; what follows is the call.
/^        \.await?;$/a\
\
        self.store_loaded(mc_block_id, block_id, ctx)\
    }\
\
    fn store_loaded_unlogged(&self, block_id: BlockId, ctx: ReceivedBlockContext) -> Result<Option<BlockCacheStoreResult>> {
