use anyhow::Result;
use async_trait::async_trait;
use tycho_block_util::block::BlockStuff;
use tycho_block_util::queue::QueueDiffStuff;
use tycho_core::global_config::ZerostateId;
use tycho_types::models::BlockId;

/// The three methods that the cache calls.
#[async_trait]
pub trait StateNodeAdapter: Send + Sync + 'static {
    async fn load_block(&self, block_id: &BlockId) -> Result<Option<BlockStuff>>;
    async fn load_diff(&self, block_id: &BlockId) -> Result<Option<QueueDiffStuff>>;
    fn zerostate_id(&self) -> &ZerostateId;
}
