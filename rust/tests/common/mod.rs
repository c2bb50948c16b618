//! What several test programs start from.
use std::path::PathBuf;
use tikfazrul::{parse, read};

/// The documents among the samples that are accepted.
pub fn samples() -> Vec<Vec<u8>> {
    let samples = PathBuf::from(env!("CARGO_MANIFEST_DIR")).join("../samples");
    let files = std::fs::read_dir(samples).unwrap().map(|entry| entry.unwrap().path());
    let document = |path: PathBuf| {
        let bytes = std::fs::read(&path).unwrap();
        match path.extension()?.to_str()? {
            "nbt" => Some(bytes),
            "snbt" => parse(&bytes).ok().map(|parsed| parsed.document),
            _ => None,
        }
    };
    let documents: Vec<Vec<u8>> = files.filter_map(document).filter(|doc| read(doc).is_ok()).collect();
    assert!(documents.len() >= 7);
    documents
}
