//! Only what the cache touches. The order of fields in ShardIdent, BlockIdShort and BlockId is the one of tycho_types
//! (derive Ord, so: workchain signed, prefix, seqno, root hash, file hash).
pub mod error {
    #[derive(Debug)]
    pub struct Error;
    impl std::fmt::Display for Error {
        fn fmt(&self, f: &mut std::fmt::Formatter<'_>) -> std::fmt::Result {
            f.write_str("err")
        }
    }
    impl std::error::Error for Error {}
}
pub mod cell {
    use crate::error::Error;
    #[derive(Debug, Default, Clone, Copy, PartialEq, Eq, Hash, PartialOrd, Ord)]
    pub struct HashBytes(pub [u8; 32]);
    #[derive(Debug, Clone)]
    pub struct Lazy<T>(pub T);
    impl<T: Clone> Lazy<T> {
        pub fn new(t: &T) -> Result<Self, Error> {
            Ok(Lazy(t.clone()))
        }
        pub fn load(&self) -> Result<T, Error> {
            Ok(self.0.clone())
        }
    }
}
pub mod models {
    use crate::cell::HashBytes;
    use crate::error::Error;
    #[derive(Debug, Clone, Copy, PartialEq, Eq, Hash, PartialOrd, Ord)]
    pub struct ShardIdent {
        workchain: i32,
        prefix: u64,
    }
    impl ShardIdent {
        pub const fn new_unchecked(workchain: i32, prefix: u64) -> Self {
            Self { workchain, prefix }
        }
        pub const fn is_masterchain(&self) -> bool {
            self.workchain == -1
        }
        pub const fn workchain(&self) -> i32 {
            self.workchain
        }
        pub const fn prefix(&self) -> u64 {
            self.prefix
        }
    }
    impl std::fmt::Display for ShardIdent {
        fn fmt(&self, f: &mut std::fmt::Formatter<'_>) -> std::fmt::Result {
            write!(f, "{}:{:016x}", self.workchain, self.prefix)
        }
    }
    #[derive(Debug, Clone, Copy, PartialEq, Eq, Hash, PartialOrd, Ord)]
    pub struct BlockIdShort {
        pub shard: ShardIdent,
        pub seqno: u32,
    }
    impl BlockIdShort {
        pub const fn is_masterchain(&self) -> bool {
            self.shard.is_masterchain()
        }
    }
    impl std::fmt::Display for BlockIdShort {
        fn fmt(&self, f: &mut std::fmt::Formatter<'_>) -> std::fmt::Result {
            write!(f, "{}:{}", self.shard, self.seqno)
        }
    }
    #[derive(Debug, Clone, Copy, PartialEq, Eq, Hash, PartialOrd, Ord)]
    pub struct BlockId {
        pub shard: ShardIdent,
        pub seqno: u32,
        pub root_hash: HashBytes,
        pub file_hash: HashBytes,
    }
    impl BlockId {
        pub const fn is_masterchain(&self) -> bool {
            self.shard.is_masterchain()
        }
        pub const fn as_short_id(&self) -> BlockIdShort {
            BlockIdShort { shard: self.shard, seqno: self.seqno }
        }
    }
    impl std::fmt::Display for BlockId {
        fn fmt(&self, f: &mut std::fmt::Formatter<'_>) -> std::fmt::Result {
            write!(f, "{}:{}", self.shard, self.seqno)
        }
    }
    #[derive(Debug, Clone, Copy, Default)]
    pub struct ConsensusInfo;
    #[derive(Debug, Clone, Default)]
    pub struct OutMsgDescr;
    impl OutMsgDescr {
        pub fn new() -> Self {
            Self
        }
    }
    #[derive(Debug, Clone, Default)]
    pub struct CurrencyCollection(pub u64);
    impl CurrencyCollection {
        pub fn try_add_assign(&mut self, o: &Self) -> Result<(), Error> {
            self.0 = self.0.checked_add(o.0).ok_or(Error)?;
            Ok(())
        }
    }
    #[derive(Debug, Clone, Default)]
    pub struct ValueFlow {
        pub fees_collected: CurrencyCollection,
        pub created: CurrencyCollection,
    }
    #[derive(Debug, Clone, Default)]
    pub struct ShardFeeCreated {
        pub fees: CurrencyCollection,
        pub create: CurrencyCollection,
    }
    #[derive(Debug, Clone, Default)]
    pub struct BlockInfo;
    /// The stand-in holds the least externals anchor alone.
    #[derive(Debug, Clone, Default)]
    pub struct ProcessedUptoInfo {
        pub min_externals_anchor: u32,
    }
    #[derive(Debug, Clone, Default)]
    pub struct ShardDescription {
        pub ext_processed_to_anchor_id: u32,
        pub top_sc_block_updated: bool,
        pub reg_mc_seqno: u32,
        pub end_lt: u64,
        pub seqno: u32,
        pub root_hash: HashBytes,
        pub file_hash: HashBytes,
    }
    /// A list in the order given (the real one is a dictionary).
    #[derive(Debug, Clone, Default)]
    pub struct ShardHashes(pub Vec<(ShardIdent, ShardDescription)>);
    impl ShardHashes {
        pub fn iter(&self) -> impl Iterator<Item = Result<(ShardIdent, ShardDescription), Error>> + '_ {
            self.0.iter().map(|(s, d)| Ok((*s, d.clone())))
        }
    }
}
