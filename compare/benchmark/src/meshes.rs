//! The eight ported functions beside the original on the same input: parse and drop of its result. A copy of the output is the limit that
//! no reader can pass. Each input is timed in a process of its own: what the allocator kept from another would change the original's time.

use crate::stream;
use crate::timing::{medians, summary};
use rows::{Call, Source};
use station::slices::{build, parse};
use station::{Kind, Layout, MeshKind, Refusal};
use std::hint::black_box;
use std::process::Command;

pub const KINDS: [Kind; 4] = [Kind::Type4, Kind::Type5, Kind::Type6, Kind::Type7];

/// Widths of coordinate, component and flag.
const WIDTHS: [(usize, usize, usize); 5] =
    [(8, 8, 8), (16, 16, 8), (24, 16, 8), (32, 16, 8), (11, 7, 3)];

const COMPONENTS: [usize; 4] = [1, 3, 4, 32];

/// How many vertices stand in a row of a lattice.
const ROW_LENGTH: usize = 64;

/// Sizes of streams in bytes, and of lists in numbers.
const STREAMS: [usize; 2] = [1 << 20, 16 << 20];
const LISTS: [usize; 2] = [1_000, 1 << 20];

/// The bars are for up to so many components.
const BARRED: usize = 4;

/// What a mesh is read from: bits of the given widths, or a list of numbers.
#[derive(Clone, Copy)]
enum Form {
    Stream(usize, usize, usize),
    List,
}

/// One input to time.
#[derive(Clone, Copy)]
struct Input {
    kind: Kind,
    form: Form,
    components: usize,
    size: usize,
}

/// A measured function: its time as a share of the original's, and of a copy's.
struct Share {
    components: usize,
    original: f64,
    copy: f64,
}

pub fn mesh_kind(kind: Kind) -> MeshKind {
    match kind {
        Kind::Type4 => MeshKind::Type4,
        Kind::Type5 => MeshKind::Type5 {
            row_length: ROW_LENGTH,
        },
        Kind::Type6 => MeshKind::Type6,
        Kind::Type7 => MeshKind::Type7,
    }
}

fn original_kind(kind: Kind) -> rows::Kind {
    match kind {
        Kind::Type4 => rows::Kind::Type4,
        Kind::Type5 => rows::Kind::Type5 {
            row_length: ROW_LENGTH,
        },
        Kind::Type6 => rows::Kind::Type6,
        Kind::Type7 => rows::Kind::Type7,
    }
}

/// How many numbers a triangle or a patch takes.
fn stride(kind: Kind, components: usize) -> usize {
    match kind {
        Kind::Type4 | Kind::Type5 => 3 * (10 + components),
        Kind::Type6 => 24 + 4 * (8 + components),
        Kind::Type7 => 32 + 4 * (8 + components),
    }
}

/// Times one function, given the original's call and ours into a lent output. Ours is checked against the count that the original gives.
fn measure(
    kind: Kind,
    call: Call<'_>,
    ours: &mut dyn FnMut(&mut [f64]) -> Result<usize, Refusal>,
) -> Share {
    let count = call.mesh().count();
    let size = count * stride(kind, call.components);
    let mut out = vec![1.0f64; size];
    let copied = out.clone();
    let mut copy = vec![2.0f64; size];
    assert_eq!(ours(&mut out), Ok(count));
    // short inputs are run again and again, so that the clock's own steps don't count
    let turns = 200_000 / size.max(1) + 1;
    let [own, original, limit] = medians([
        &mut || {
            for _ in 0..turns {
                black_box(ours(black_box(&mut out))).expect("readable");
            }
        },
        &mut || {
            for _ in 0..turns {
                drop(black_box(black_box(call).mesh()));
            }
        },
        &mut || {
            for _ in 0..turns {
                black_box(&mut copy).copy_from_slice(black_box(&copied));
            }
        },
    ]);
    Share {
        components: call.components,
        original: own / original,
        copy: own / limit,
    }
}

fn measure_stream(kind: Kind, l: Layout, size: usize) -> Share {
    let decode: Vec<f64> = [[-100.0, 100.0], [-50.0, 50.0]]
        .into_iter()
        .chain(std::iter::repeat_n([0.0, 1.0], l.components))
        .flatten()
        .collect();
    let data = stream::bytes(kind, l, size);
    let call = Call {
        kind: original_kind(kind),
        components: l.components,
        source: Source::Binary {
            data: &data,
            coordinate: l.coordinate,
            component: l.component,
            flag: l.flag,
            decode: &decode,
        },
    };
    measure(kind, call, &mut |out| {
        parse(mesh_kind(kind), black_box(&data), l, &decode, out)
    })
}

fn measure_list(kind: Kind, components: usize, size: usize) -> Share {
    let values = stream::numbers(kind, components, size);
    let call = Call {
        kind: original_kind(kind),
        components,
        source: Source::List(&values),
    };
    measure(kind, call, &mut |out| {
        build(mesh_kind(kind), black_box(&values), components, out)
    })
}

impl Input {
    fn measure(self) -> Share {
        match self.form {
            Form::Stream(coordinate, component, flag) => {
                let l = Layout {
                    coordinate,
                    component,
                    flag,
                    components: self.components,
                };
                measure_stream(self.kind, l, self.size)
            }
            Form::List => measure_list(self.kind, self.components, self.size),
        }
    }

    /// The words that say this input to another process.
    fn words(self) -> [String; 6] {
        let kind = KINDS
            .iter()
            .position(|&k| k == self.kind)
            .expect("one of the four");
        let (coordinate, component, flag) = match self.form {
            Form::Stream(coordinate, component, flag) => (coordinate, component, flag),
            Form::List => (0, 0, 0),
        };
        [
            kind,
            coordinate,
            component,
            flag,
            self.components,
            self.size,
        ]
        .map(|n| n.to_string())
    }

    fn of_words(words: &[String]) -> Input {
        let numbers: Vec<usize> = words.iter().map(|w| w.parse().expect("a number")).collect();
        let [kind, coordinate, component, flag, components, size] = numbers[..] else {
            panic!("six numbers");
        };
        let form = match coordinate {
            0 => Form::List,
            _ => Form::Stream(coordinate, component, flag),
        };
        Input {
            kind: KINDS[kind],
            form,
            components,
            size,
        }
    }

    /// Measures in a process of its own.
    fn measure_apart(self) -> Share {
        let program = std::env::current_exe().expect("this program");
        let run = Command::new(program)
            .arg("input")
            .args(self.words())
            .output()
            .expect("runs itself");
        assert!(
            run.status.success(),
            "{}",
            String::from_utf8_lossy(&run.stderr)
        );
        let said = String::from_utf8(run.stdout).expect("text");
        let mut shares = said.split_whitespace().map(|w| w.parse().expect("a share"));
        let mut next = || shares.next().expect("two shares");
        Share {
            components: self.components,
            original: next(),
            copy: next(),
        }
    }
}

/// Measures the one input that the words say, and prints its two shares.
pub fn print_input(words: &[String]) {
    let share = Input::of_words(words).measure();
    println!("{} {}", share.original, share.copy);
}

/// Measures and prints a row for each count of components: two sizes of the same input.
fn print_rows(kind: Kind, form: Form, sizes: [usize; 2], shares: &mut Vec<Share>) {
    let name = match form {
        Form::Stream(coordinate, component, flag) => format!("{coordinate}/{component}/{flag}"),
        Form::List => "list".to_string(),
    };
    for components in COMPONENTS {
        let found = sizes.map(|size| {
            Input {
                kind,
                form,
                components,
                size,
            }
            .measure_apart()
        });
        print_line(&name, components, &found);
        shares.extend(found);
    }
}

fn print_line(widths: &str, components: usize, found: &[Share; 2]) {
    let [small, large] = found;
    println!(
        "  {widths:<9} {components:>5}   {:>6.3} {:>6.3}   {:>6.2} {:>6.2}",
        small.original, large.original, small.copy, large.copy
    );
}

fn print_summary(shares: &[Share]) {
    let barred = |of: fn(&Share) -> f64| -> Vec<f64> {
        shares
            .iter()
            .filter(|s| s.components <= BARRED)
            .map(of)
            .collect()
    };
    let (original, worst) = summary(&barred(|s| s.original));
    let (copy, worst_copy) = summary(&barred(|s| s.copy));
    println!(
        "  up to {BARRED} components: share of the original {original:.3}, worst {worst:.3}; of a copy {copy:.2}, worst {worst_copy:.2}"
    );
}

pub fn print() {
    println!("time / the original's time, then / the time of a copy of the output");
    for kind in KINDS {
        println!("{kind:?} from bytes: widths, components; streams of 1 and 16 MiB");
        let mut shares = Vec::new();
        for (coordinate, component, flag) in WIDTHS {
            let form = Form::Stream(coordinate, component, flag);
            print_rows(kind, form, STREAMS, &mut shares);
        }
        print_summary(&shares);
    }
    for kind in KINDS {
        println!("{kind:?} from a list: components; lists of 1,000 and 1,048,576 numbers");
        let mut shares = Vec::new();
        print_rows(kind, Form::List, LISTS, &mut shares);
        print_summary(&shares);
    }
}
