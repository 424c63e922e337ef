//! Makes the files that `crates/replay` replays: calls of the original's eight functions, with what the original answers.
//! The files' format stands at the top of `crates/replay/src/main.rt`. `cargo run --release -p stored` writes the files anew;
//! a test holds them to the rules here.
//!
//! The original has no refusals and lends no output. So the refusals are worked out from document 01's table, in its order, and
//! the original's numbers are laid into an output that a filler was written to before.
//!
//! The rules of a function's file, `read-type4` to `build-type7`:
//! - SplitMix64 from `SEED` and the function's number draws everything that is not fixed here, so the same bytes come every time.
//! - It has as many cases as `MOST_BYTES` bytes hold.
//! - A mesh is first whole: flags of 0 to 3 and seldom more, rows of Type 5 from 0 to 9 and seldom many, widths from 1 to 32, and for
//!   one binary case in eight a vertex under 8 bits. The count of components goes through 0 to 32, and is mostly under 5.
//! - Decode has 4 to 2n + 4 entries. It and the lists have odd numbers among them: NaN, infinities, -0.0, denormal and huge ones.
//! - About half of the inputs are then damaged: cut, longer, with other bits or other numbers.
//! - About one case in ten is one that document 01 refuses with LAYOUT or COMPONENTS. The output has exactly enough room, more, one
//!   place less, or far less; with less, the count is that of the numbers needed.
//! - A case that needs more than 4,056 numbers is drawn again.
//!
//! `one-wrong` has a case of each function, and in one of them a number of the answer differs in its last bit. `cut` ends inside its
//! third case. `unknown` has a function in its second case that there is none of.

pub mod case;
mod draw;

use case::Case;
use generator::Generator;
use std::path::PathBuf;

pub const SEED: u64 = 0x4d53_4620_0001;

/// How many bytes the file of a function has at most.
pub const MOST_BYTES: usize = 65535;

/// Each function's file, its mesh type, and whether it builds from a list.
pub const FUNCTIONS: [(&str, u8, bool); 8] = [
    ("read-type4", 4, false),
    ("read-type5", 5, false),
    ("read-type6", 6, false),
    ("read-type7", 7, false),
    ("build-type4", 4, true),
    ("build-type5", 5, true),
    ("build-type6", 6, true),
    ("build-type7", 7, true),
];

/// The cases of a function.
pub fn cases(kind: u8, is_listed: bool) -> Vec<Case> {
    let mut random = Generator::new(SEED + u64::from(kind) + if is_listed { 10 } else { 0 });
    let mut cases = Vec::new();
    let mut bytes = 0;
    loop {
        let case = draw::draw(kind, is_listed, cases.len(), &mut random);
        bytes += stored(&case).len();
        if bytes > MOST_BYTES {
            return cases;
        }
        cases.push(case);
    }
}

/// Each file's name and bytes.
pub fn files() -> Vec<(&'static str, Vec<u8>)> {
    let mut files = Vec::new();
    let mut full = Vec::new();
    for (name, kind, is_listed) in FUNCTIONS {
        let cases = cases(kind, is_listed);
        files.push((name, joined(&cases)));
        full.extend(cases.into_iter().find(|case| case.answer().written() > 1));
    }
    files.push(("one-wrong", one_wrong(&full)));
    files.push(("cut", cut(&full)));
    files.push(("unknown", unknown(&full)));
    files
}

fn stored(case: &Case) -> Vec<u8> {
    case.stored(&case.answer())
}

fn joined(cases: &[Case]) -> Vec<u8> {
    cases.iter().flat_map(stored).collect()
}

/// The sixth case's last number has its last bit turned.
fn one_wrong(full: &[Case]) -> Vec<u8> {
    let mut bytes = joined(&full[..5]);
    let mut answer = full[5].answer();
    let last = full[5].needed() - 1;
    answer.output[last] = f64::from_bits(answer.output[last].to_bits() ^ 1);
    assert!(!answer.output[last].is_nan());
    bytes.extend(full[5].stored(&answer));
    bytes.extend(joined(&full[6..]));
    bytes
}

fn cut(full: &[Case]) -> Vec<u8> {
    let mut bytes = joined(&full[..3]);
    bytes.pop();
    bytes
}

fn unknown(full: &[Case]) -> Vec<u8> {
    let mut bytes = stored(&full[0]);
    let second = bytes.len();
    bytes.extend(stored(&full[1]));
    bytes[second] = 8;
    bytes
}

/// Where a file stands.
pub fn path(name: &str) -> PathBuf {
    PathBuf::from(env!("CARGO_MANIFEST_DIR"))
        .join("../../crates/replay/data")
        .join(name)
}
