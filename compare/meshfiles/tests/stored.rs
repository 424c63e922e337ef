//! The files that stand in `examples/` are those that the library's writers make.

use std::path::Path;

#[test]
fn stored_files_are_as_written() {
    let folder = Path::new(env!("CARGO_MANIFEST_DIR")).join("../../examples");
    for file in meshfiles::files() {
        let stored = std::fs::read(folder.join(file.name)).expect(file.name);
        assert_eq!(stored, file.bytes, "{}", file.name);
    }
}
