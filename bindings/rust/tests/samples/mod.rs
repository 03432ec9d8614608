//! The samples, and the texts that are stored of them.

use auction::Refusal;
use std::path::{Path, PathBuf};

fn folder() -> PathBuf {
    Path::new(env!("CARGO_MANIFEST_DIR")).join("../../samples")
}

pub fn sample(name: &str) -> Vec<u8> {
    std::fs::read(folder().join(name)).expect(name)
}

/// The text of each sample with this ending: as it is written, as it is decoded and put
/// together again, and in buffers of its length, of less and of more.
pub fn each_text(
    ending: &str,
    text: fn(&[u8]) -> String,
    put_into: fn(&[u8], &mut [u8]) -> usize,
    put_together: impl Fn(&[u8]) -> Result<String, Refusal>,
) {
    let mut met = 0;
    for entry in std::fs::read_dir(folder()).expect("the samples") {
        let path = entry.expect("an entry").path();
        if path.extension().is_none_or(|other| other != ending) {
            continue;
        }
        let expected = std::fs::read_to_string(&path).expect("a text");
        let book = std::fs::read(path.with_extension("book")).expect("its book");
        let name = path.display();
        assert_eq!(text(&book), expected, "{name}");
        let again = put_together(&book).unwrap_or_else(|it| format!("refused;{}\n", it.number()));
        assert_eq!(again, expected, "{name}");
        for size in [0, 1, expected.len() - 1, expected.len(), expected.len() + 1] {
            let mut out = vec![7; size];
            assert_eq!(put_into(&book, &mut out), expected.len(), "{name}");
            let written = if size < expected.len() { "" } else { &expected };
            assert_eq!(out[..written.len()], *written.as_bytes(), "{name}");
            assert!(out[written.len()..].iter().all(|&byte| byte == 7), "{name}");
        }
        met += 1;
    }
    assert!(met >= 30);
}
