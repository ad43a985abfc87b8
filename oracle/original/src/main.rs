//! The original block cache, compiled unmodified, answering a script of the replay language. What is not its own code is a stand-in.
#![allow(dead_code, unused_imports, unused_variables, private_interfaces)]

mod counted;
mod state_node;
mod types;

mod collator {
    pub struct CollatorResult;
}
mod mempool {
    pub type MempoolAnchorId = u32;
}
mod tracing_targets {
    include!(concat!(env!("OUT_DIR"), "/tracing_targets.rs"));
}
mod utils {
    pub mod block {
        include!(concat!(env!("OUT_DIR"), "/utils_block.rs"));
    }
}
mod validator {
    use std::sync::Arc;

    use tycho_network::PeerId;
    use tycho_util::FastHashMap;

    #[derive(Debug, Clone)]
    pub enum ValidationStatus {
        Skipped,
        Complete(ValidationComplete),
    }
    #[derive(Debug, Clone)]
    pub struct ValidationComplete {
        pub signatures: BlockSignatures,
        pub total_weight: u64,
    }
    pub type BlockSignatures = FastHashMap<PeerId, Arc<[u8; 64]>>;
}
mod manager {
    pub mod types {
        include!(concat!(env!("OUT_DIR"), "/manager_types.rs"));
    }
    pub mod blocks_cache {
        include!(concat!(env!("OUT_DIR"), "/blocks_cache.rs"));
        // Child modules see the cache's private fields.
        mod call_lines;
        mod convert;
        pub mod driver;
        mod lines;
        #[cfg(feature = "logged")]
        mod logged_calls;
        mod timing;
    }
}

fn main() {
    manager::blocks_cache::driver::main()
}
