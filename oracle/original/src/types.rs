//! The items of the original's `types.rs` that the cache needs; `processed_upto`, which it only carries, is a stand-in.
use std::borrow::Borrow;
use std::collections::BTreeMap;
use std::sync::Arc;

use anyhow::Result;
pub(crate) use processed_upto::{ProcessedUptoInfoExtension, ProcessedUptoInfoStuff};
use tycho_block_util::block::BlockStuffAug;
use tycho_block_util::queue::{QueueDiffStuffAug, QueueKey, QueuePartitionIdx};
use tycho_network::PeerId;
use tycho_types::cell::HashBytes;
use tycho_types::models::*;
use tycho_util::{FastHashMap, FastHashSet};

pub mod processed_upto {
    use std::collections::BTreeMap;

    use anyhow::Result;
    use tycho_block_util::queue::QueuePartitionIdx;
    use tycho_types::models::ProcessedUptoInfo;

    pub type BlockSeqno = u32;

    #[derive(Debug, Default, Clone)]
    pub struct InternalsStuff {
        pub processed_to: super::ProcessedTo,
    }
    #[derive(Debug, Default, Clone)]
    pub struct ProcessedUptoPartitionStuff {
        pub internals: InternalsStuff,
    }
    #[derive(Debug, Default, Clone)]
    pub struct ProcessedUptoInfoStuff {
        pub partitions: BTreeMap<QueuePartitionIdx, ProcessedUptoPartitionStuff>,
    }
    impl ProcessedUptoInfoStuff {
        pub fn get_internals_processed_to_by_partitions(&self) -> super::ProcessedToByPartitions {
            self.partitions.iter().map(|(&i, p)| (i, p.internals.processed_to.clone())).collect()
        }
    }
    pub trait ProcessedUptoInfoExtension {
        fn get_min_externals_processed_to(&self) -> Result<(u32, u64)>;
    }
    impl ProcessedUptoInfoExtension for ProcessedUptoInfo {
        fn get_min_externals_processed_to(&self) -> Result<(u32, u64)> {
            Ok((self.min_externals_anchor, 0))
        }
    }
}

include!(concat!(env!("OUT_DIR"), "/types_items.rs"));
