//! Copies the original's files to OUT_DIR unmodified; of `types.rs`, which leans on much more, the items that they need, unmodified too.
use std::path::{Path, PathBuf};
use std::{env, fs};

const FILES: [(&str, &str); 4] = [
    ("collator/src/manager/blocks_cache.rs", "blocks_cache.rs"),
    ("collator/src/manager/types.rs", "manager_types.rs"),
    ("collator/src/tracing_targets.rs", "tracing_targets.rs"),
    ("collator/src/utils/block.rs", "utils_block.rs"),
];

/// Items of `types.rs`: the first line, and the line before which to stop.
const ITEMS: [(&str, &str); 7] = [
    ("#[derive(Clone)]\npub struct BlockCandidate {", "#[derive(Default, Clone)]\npub struct BlockSignatures"),
    ("pub type ArcSignature", "pub struct ValidatedBlock"),
    ("pub struct BlockStuffForSync {", "/// (`ShardIdent`, seqno, subset"),
    ("#[derive(Debug, Clone)]\npub struct TopBlockDescription", "#[derive(Debug, Clone)]\npub struct TopShardBlockInfo"),
    ("pub type ProcessedTo =", "#[derive(Debug, Clone)]\npub struct ShardPair"),
    ("pub trait ShardDescriptionShortExt {", "pub(super) struct DebugIter"),
    ("#[derive(Debug, Clone, Copy, Eq, PartialEq, Default)]\npub struct ShardDescriptionShort", "pub trait ShardIdentExt {"),
];

fn main() {
    let manifest = PathBuf::from(env::var("CARGO_MANIFEST_DIR").unwrap());
    let beside = manifest.join("../../../shared/docs/src");
    let source = env::var("TYCHO_SRC").map_or(beside, PathBuf::from);
    let out = PathBuf::from(env::var("OUT_DIR").unwrap());
    println!("cargo:rerun-if-env-changed=TYCHO_SRC");
    println!("cargo:rerun-if-changed=build.rs");
    for (from, to) in FILES {
        let mut text = read(&source, from);
        if to == "blocks_cache.rs" && env::var("CARGO_FEATURE_COUNT").is_ok() {
            text = with_counting_list(&text);
        }
        fs::write(out.join(to), text).unwrap();
    }
    let types = read(&source, "collator/src/types.rs");
    let items: String = ITEMS.iter().map(|(first, stop)| item(&types, first, stop)).collect();
    fs::write(out.join("types_items.rs"), items).unwrap();
}

fn read(source: &Path, file: &str) -> String {
    let path = source.join(file);
    println!("cargo:rerun-if-changed={}", path.display());
    fs::read_to_string(&path).unwrap_or_else(|e| panic!("TYCHO_SRC: {}: {e}", path.display()))
}

fn item<'a>(text: &'a str, first: &str, stop: &str) -> &'a str {
    let start = text.find(first).unwrap_or_else(|| panic!("types.rs: no {first}"));
    let length = text[start..].find(stop).unwrap_or_else(|| panic!("types.rs: no {stop}"));
    &text[start..start + length]
}

fn with_counting_list(text: &str) -> String {
    let imported = "use std::collections::{BTreeMap, VecDeque, btree_map};";
    assert_eq!(text.matches(imported).count(), 1, "blocks_cache.rs: {imported}");
    text.replace(imported, "use std::collections::{BTreeMap, btree_map}; use crate::counted::VecDeque;")
}
