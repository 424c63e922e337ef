//! Writes the mesh files into `examples/`.

use std::path::Path;

fn main() -> std::io::Result<()> {
    let folder = Path::new(env!("CARGO_MANIFEST_DIR")).join("../../examples");
    for file in meshfiles::files() {
        std::fs::write(folder.join(file.name), file.bytes)?;
    }
    Ok(())
}
