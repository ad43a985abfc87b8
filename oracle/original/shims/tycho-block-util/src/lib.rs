pub mod queue {
    use tycho_types::models::BlockId;
    /// The payload is the diff; `None` is the empty diff of the zerostate.
    #[derive(Debug, Clone)]
    pub struct QueueDiffStuff {
        pub payload: Option<u64>,
    }
    impl QueueDiffStuff {
        pub fn new_empty(_id: &BlockId) -> Self {
            Self { payload: None }
        }
    }
    #[derive(Debug, Clone)]
    pub struct QueueDiffStuffAug {
        pub data: QueueDiffStuff,
    }
    #[derive(Debug, Clone, Copy, PartialEq, Eq, Hash, PartialOrd, Ord)]
    pub struct QueuePartitionIdx(pub u16);
    #[derive(Debug, Clone, Copy, PartialEq, Eq, Hash, PartialOrd, Ord)]
    pub struct QueueKey {
        pub lt: u64,
    }
}
pub mod block {
    use anyhow::Result;
    use tycho_types::cell::Lazy;
    use tycho_types::models::*;
    #[derive(Clone)]
    pub struct BlockExtra {
        pub out_msg_description: Lazy<OutMsgDescr>,
    }
    #[derive(Clone)]
    pub struct BlockStuff {
        pub id: BlockId,
        pub info: BlockInfo,
        pub extra: BlockExtra,
        pub prev: Vec<BlockId>,
    }
    impl BlockStuff {
        pub fn make(id: BlockId, prev: Vec<BlockId>) -> Self {
            Self { id, info: BlockInfo, extra: BlockExtra { out_msg_description: Lazy(OutMsgDescr) }, prev }
        }
        pub fn id(&self) -> &BlockId {
            &self.id
        }
        pub fn load_info(&self) -> Result<&BlockInfo> {
            Ok(&self.info)
        }
        pub fn load_extra(&self) -> Result<&BlockExtra> {
            Ok(&self.extra)
        }
        pub fn construct_prev_id(&self) -> Result<(BlockId, Option<BlockId>)> {
            Ok((self.prev[0], self.prev.get(1).copied()))
        }
    }
    #[derive(Clone)]
    pub struct BlockStuffAug {
        pub data: BlockStuff,
    }
    impl std::ops::Deref for BlockStuffAug {
        type Target = BlockStuff;
        fn deref(&self) -> &BlockStuff {
            &self.data
        }
    }
}
pub mod state {
    use anyhow::Result;
    use std::sync::Arc;
    use tycho_types::cell::Lazy;
    use tycho_types::models::*;
    pub struct ShardStateUnsplit {
        pub processed_upto: Lazy<ProcessedUptoInfo>,
    }
    pub struct McStateExtra {
        pub consensus_info: ConsensusInfo,
    }
    pub struct Inner {
        pub block_id: BlockId,
        pub shards: ShardHashes,
        pub state: ShardStateUnsplit,
        pub extra: McStateExtra,
    }
    #[derive(Clone)]
    pub struct ShardStateStuff {
        pub inner: Arc<Inner>,
    }
    impl ShardStateStuff {
        pub fn make(block_id: BlockId, shards: ShardHashes, anchor: u32) -> Self {
            Self {
                inner: Arc::new(Inner {
                    block_id,
                    shards,
                    state: ShardStateUnsplit { processed_upto: Lazy(ProcessedUptoInfo { min_externals_anchor: anchor }) },
                    extra: McStateExtra { consensus_info: ConsensusInfo },
                }),
            }
        }
        pub fn block_id(&self) -> &BlockId {
            &self.inner.block_id
        }
        pub fn shards(&self) -> Result<&ShardHashes> {
            Ok(&self.inner.shards)
        }
        pub fn state(&self) -> &ShardStateUnsplit {
            &self.inner.state
        }
        pub fn state_extra(&self) -> Result<&McStateExtra> {
            Ok(&self.inner.extra)
        }
    }
}
