//! Shares the work out over two threads.

use crate::case::Origin;
use crate::library::Library;
use crate::report::{Bench, Report, KINDS};
use crate::{directed, draw, exhaustive, tensor_cases};
use generator::Generator;
use std::sync::atomic::{AtomicUsize, Ordering};
use std::sync::Mutex;
use std::time::Instant;

const THREADS: usize = 2;

/// How many random cases a thread takes at once.
const CHUNK: usize = 1000;

/// How many random cases are drawn.
#[derive(Clone, Copy)]
pub enum Limit {
    Cases(u64),
    Until(Instant),
}

impl Limit {
    /// Whether the chunk of this number is still to be run.
    fn allows(self, chunk: usize) -> bool {
        match self {
            Limit::Cases(cases) => ((chunk * CHUNK) as u64) < cases,
            Limit::Until(end) => Instant::now() < end,
        }
    }
}

/// Runs all directed and exhaustive cases, and random ones up to the limit.
pub fn run(library: &dyn Library, limit: Limit, seed: u64) -> Report {
    let mut jobs = directed::jobs();
    jobs.extend(exhaustive::jobs());
    jobs.extend(tensor_cases::jobs());
    let next = AtomicUsize::new(0);
    let total = Mutex::new(Report::new());
    std::thread::scope(|scope| {
        for _ in 0..THREADS {
            scope.spawn(|| {
                let mut bench = Bench::new(library);
                loop {
                    let turn = next.fetch_add(1, Ordering::Relaxed);
                    match jobs.get(turn) {
                        Some(job) => job(&mut bench),
                        None if limit.allows(turn - jobs.len()) => {
                            random_chunk(turn - jobs.len(), seed, &mut bench);
                        }
                        None => break,
                    }
                }
                total
                    .lock()
                    .expect("no thread has failed")
                    .add(bench.report);
            });
        }
    });
    total.into_inner().expect("no thread has failed")
}

/// Random cases of one function. The chunk's number and the seed decide which, so each chunk can be drawn again.
fn random_chunk(chunk: usize, seed: u64, bench: &mut Bench<'_>) {
    let mixed = Generator::new(seed.wrapping_add(chunk as u64)).bits();
    let mut random = Generator::new(mixed);
    let kind = KINDS[chunk % 4];
    for _ in 0..CHUNK {
        match chunk / 4 % 7 {
            0..=2 => bench.mesh(&draw::case(kind, Origin::Bytes, &mut random)),
            3 | 4 => bench.mesh(&draw::case(kind, Origin::List, &mut random)),
            5 if random.once_in(2) => bench.raw(&draw::raw_read(kind, &mut random)),
            5 => bench.raw(&draw::raw_write(kind, &mut random)),
            _ => bench.tensor(&match random.within(0, 3) {
                0 | 1 => draw::raw_to_tensor(&mut random),
                2 => draw::rows_to_tensor(&mut random),
                _ => draw::read_to_tensor(&mut random),
            }),
        }
    }
}
