//! Shows that the original is built as it was published: `mesh_shading.rs` byte for byte, and
//! `color.rs` and `device.rs` cut in whole blocks.
//!
//! The published files may not be beside the repository, so a checksum is compared in any case.

use std::fs;
use std::path::PathBuf;

fn ours(name: &str) -> String {
    let path = PathBuf::from(env!("CARGO_MANIFEST_DIR"))
        .join("src")
        .join(name);
    fs::read_to_string(path).expect("a source file of this crate")
}

fn published(name: &str) -> Option<String> {
    let path = PathBuf::from(env!("CARGO_MANIFEST_DIR"))
        .join("../../../shared/docs/src/crates/stet-graphics/src")
        .join(name);
    if !path.exists() {
        return None;
    }
    Some(fs::read_to_string(path).expect("a published file that is there can be read"))
}

/// FNV-1a, 64 bits wide.
fn checksum(text: &str) -> u64 {
    text.bytes().fold(0xcbf2_9ce4_8422_2325, |sum, byte| {
        (sum ^ u64::from(byte)).wrapping_mul(0x0000_0100_0000_01b3)
    })
}

/// The lines below the comment at the top, which is ours in part.
fn kept_lines(text: &str) -> Vec<&str> {
    text.lines()
        .skip_while(|line| line.is_empty() || line.starts_with("// ") || line.starts_with("//!"))
        .collect()
}

/// How many unbroken runs of published lines, in the published order, make up the kept lines.
/// None if a kept line isn't there in that order.
fn runs(kept: &[&str], published: &[&str]) -> Option<usize> {
    let mut place = 0;
    let mut count = 0;
    for line in kept {
        let skipped = published[place..].iter().position(|other| other == line)?;
        if count == 0 || skipped > 0 {
            count += 1;
        }
        place += skipped + 1;
    }
    Some(count)
}

#[test]
fn checksum_is_fnv_1a() {
    assert_eq!(checksum(""), 0xcbf2_9ce4_8422_2325);
    assert_eq!(checksum("a"), 0xaf63_dc4c_8601_ec8c);
    assert_eq!(checksum("foobar"), 0x8594_4171_f739_67e8);
}

#[test]
fn runs_tell_a_cut_from_a_change() {
    let published = ["a", "b", "c", "d"];
    assert_eq!(runs(&["b", "c"], &published), Some(1));
    assert_eq!(runs(&["a", "b", "d"], &published), Some(2));
    assert_eq!(runs(&["b", "a"], &published), None);
    assert_eq!(runs(&["a", "x"], &published), None);
}

#[test]
fn mesh_shading_is_unchanged() {
    let text = ours("mesh_shading.rs");
    assert_eq!(checksum(&text), 0x6540_10e0_0481_5198);
    if let Some(published) = published("mesh_shading.rs") {
        assert!(text.as_bytes() == published.as_bytes());
    }
}

#[test]
fn color_is_cut_only() {
    let text = ours("color.rs");
    let kept = kept_lines(&text);
    assert_eq!(checksum(&kept.join("\n")), 0x8c74_df29_8230_67ed);
    if let Some(published) = published("color.rs") {
        let published: Vec<&str> = published.lines().collect();
        // The type with its first three constructors, and the brace that ends them.
        assert_eq!(runs(&kept, &published), Some(2));
    }
}

#[test]
fn device_is_cut_only() {
    let text = ours("device.rs");
    let kept = kept_lines(&text);
    assert_eq!(checksum(&kept.join("\n")), 0x2b89_69dd_2c58_78b7);
    // The published import names types that are left out, so this line alone is a cut line.
    assert_eq!(kept[..2], ["use crate::color::DeviceColor;", ""]);
    if let Some(published) = published("device.rs") {
        let published: Vec<&str> = published.lines().collect();
        // The vertex with the triangle, and the patch.
        assert_eq!(runs(&kept[2..], &published), Some(2));
    }
}
