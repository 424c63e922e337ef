//! Writes the stored files anew.

fn main() -> std::io::Result<()> {
    for (name, bytes) in stored::files() {
        std::fs::write(stored::path(name), &bytes)?;
        println!("{name}: {} bytes", bytes.len());
    }
    Ok(())
}
