//! Times the proved library against the original, or a plain version where the original has none, on the same input in one run. Figures are ratios
//! of medians of interleaved runs: under 1 is faster than the other. Outputs are touched once before.

mod asking;
mod libraries;
mod meshes;
mod raw;
mod stream;
mod tensor;
mod timing;

fn main() {
    let words: Vec<String> = std::env::args().skip(1).collect();
    match words.first().map(String::as_str) {
        None => {
            meshes::print();
            raw::print();
            tensor::print();
            asking::print();
        }
        Some("meshes") => meshes::print(),
        Some("raw") => raw::print(),
        Some("tensor") => tensor::print(),
        Some("asking") => asking::print(),
        Some("input") => meshes::print_input(&words[1..]),
        Some("libraries") => libraries::print(&words[1..]),
        Some(other) => panic!("benchmark [meshes|raw|tensor|asking|libraries], not {other}"),
    }
}
