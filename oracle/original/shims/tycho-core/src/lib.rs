pub mod global_config {
    use tycho_types::cell::HashBytes;
    #[derive(Debug, Clone)]
    pub struct ZerostateId {
        pub seqno: u32,
        pub root_hash: HashBytes,
        pub file_hash: HashBytes,
    }
}
