//! Two builds of the library beside each other: the ported, the published and the raw readers of both, on the same input in one run. Each build is
//! a shared object made of its archive. No flag is above 3, so the ported and the published mesh are one.

use crate::meshes::KINDS;
use crate::stream;
use crate::timing::{medians_of, summary};
use station::{Kind, Layout};
use std::ffi::{c_char, c_int, c_void, CString};
use std::hint::black_box;
use std::mem::transmute_copy;

/// Widths of coordinate, component and flag: whole bytes, but for the last.
const WIDTHS: [(usize, usize, usize); 5] =
    [(8, 8, 8), (16, 16, 8), (24, 16, 8), (32, 16, 8), (11, 7, 3)];

const COMPONENTS: [usize; 2] = [1, 4];

/// Streams of so many bytes. In the shortest, a patch of each layout just has room, and the last bytes are a large part of it.
const SIZES: [usize; 3] = [192, 1 << 10, 1 << 20];

/// Short rows, so that the shortest stream has a cell.
const ROW_LENGTH: usize = 3;

/// Each reader is timed at most so often on an input, so that the whole takes well under a minute.
const RUNS: usize = 15;

/// What a call answers, as `station.h` declares it.
#[repr(C)]
struct Told {
    refused: u64,
    count: u64,
}

type Parse = unsafe extern "C" fn(
    *const u8,
    usize,
    usize,
    usize,
    usize,
    *const f64,
    usize,
    usize,
    *mut f64,
    usize,
) -> Told;
type ParseLattice = unsafe extern "C" fn(
    *const u8,
    usize,
    usize,
    usize,
    *const f64,
    usize,
    usize,
    usize,
    *mut f64,
    usize,
) -> Told;
type RawRead =
    unsafe extern "C" fn(*const u8, usize, usize, usize, usize, usize, *mut u32, usize) -> Told;
type RawReadLattice =
    unsafe extern "C" fn(*const u8, usize, usize, usize, usize, *mut u32, usize) -> Told;

extern "C" {
    fn dlopen(file: *const c_char, mode: c_int) -> *mut c_void;
    fn dlsym(object: *mut c_void, name: *const c_char) -> *mut c_void;
}

/// All names are looked up when the object is loaded.
const RTLD_NOW: c_int = 2;

/// A function for a type with flags, or for the lattice, which has none.
#[derive(Clone, Copy)]
enum Reader<F, L> {
    Flagged(F),
    Lattice(L),
}

type MeshReader = Reader<Parse, ParseLattice>;
type RawReader = Reader<RawRead, RawReadLattice>;

/// The readers of one type.
#[derive(Clone, Copy)]
struct Readers {
    ported: MeshReader,
    published: MeshReader,
    raw: RawReader,
}

/// A loaded build, which is never unloaded.
struct Library(*mut c_void);

impl Library {
    fn load(file: &str) -> Library {
        // without a slash it would be looked for among the system's libraries
        let file = std::fs::canonicalize(file).unwrap_or_else(|e| panic!("{file}: {e}"));
        let path = CString::new(file.to_str().expect("UTF-8")).expect("no zero byte");
        let object = unsafe { dlopen(path.as_ptr(), RTLD_NOW) };
        assert!(!object.is_null(), "{} isn't loaded", file.display());
        Library(object)
    }

    fn function(&self, name: &str) -> *mut c_void {
        let c_name = CString::new(name).expect("no zero byte");
        let function = unsafe { dlsym(self.0, c_name.as_ptr()) };
        assert!(!function.is_null(), "{name} isn't there");
        function
    }

    /// A reader of a type. Its two signatures must be those that `station.h` gives it.
    unsafe fn reader<F, L>(&self, name: &str, kind: Kind) -> Reader<F, L> {
        let function = self.function(&format!("{name}{}", number(kind)));
        match kind {
            Kind::Type5 => Reader::Lattice(unsafe { transmute_copy(&function) }),
            _ => Reader::Flagged(unsafe { transmute_copy(&function) }),
        }
    }

    fn readers(&self, kind: Kind) -> Readers {
        unsafe {
            Readers {
                ported: self.reader("mesh_parse_type", kind),
                published: self.reader("mesh_published_type", kind),
                raw: self.reader("mesh_raw_read_type", kind),
            }
        }
    }
}

/// The number of a type.
fn number(kind: Kind) -> String {
    format!("{kind:?}")[4..].to_string()
}

impl MeshReader {
    fn read(self, data: &[u8], l: Layout, decode: &[f64], out: &mut [f64]) -> Told {
        let (d, dn, o, on) = (data.as_ptr(), data.len(), out.as_mut_ptr(), out.len());
        let (e, en) = (decode.as_ptr(), decode.len());
        let (x, c, f, n) = (l.coordinate, l.component, l.flag, l.components);
        match self {
            Reader::Flagged(parse) => unsafe { parse(d, dn, x, c, f, e, en, n, o, on) },
            Reader::Lattice(parse) => unsafe { parse(d, dn, x, c, e, en, n, ROW_LENGTH, o, on) },
        }
    }
}

impl RawReader {
    fn read(self, data: &[u8], l: Layout, out: &mut [u32]) -> Told {
        let (d, dn, o, on) = (data.as_ptr(), data.len(), out.as_mut_ptr(), out.len());
        let (x, c, f, n) = (l.coordinate, l.component, l.flag, l.components);
        match self {
            Reader::Flagged(raw) => unsafe { raw(d, dn, x, c, f, n, o, on) },
            Reader::Lattice(raw) => unsafe { raw(d, dn, x, c, n, o, on) },
        }
    }
}

/// Times a reader of both builds with exactly the room that it needs; answers the later one's time as a share of the earlier one's.
fn share<R: Copy, T: Copy + Default + PartialEq>(
    readers: [R; 2],
    call: impl Fn(R, &mut [T]) -> Told,
) -> f64 {
    let written = readers.map(|r| {
        let needed = call(r, &mut []).count as usize;
        assert!(needed > 0, "an input that gives something");
        let mut out = vec![T::default(); needed];
        assert_eq!(call(r, &mut out).refused, 0);
        out
    });
    let [mut out, other] = written;
    assert!(out == other, "the two builds answer alike");
    // each time is that of a million numbers or more: with fewer, single layouts of one and the same build differ by 5%
    let turns = 1_000_000 / out.len() + 1;
    let out = std::cell::RefCell::new(&mut out[..]);
    let run = |r: R| {
        for _ in 0..turns {
            black_box(call(black_box(r), black_box(&mut out.borrow_mut())));
        }
    };
    let [earlier, later] = medians_of(RUNS, [&mut || run(readers[0]), &mut || run(readers[1])]);
    later / earlier
}

/// The share of each reader on one input.
fn shares(readers: [Readers; 2], kind: Kind, l: Layout, size: usize) -> [f64; 3] {
    let data = stream::bytes(kind, l, size);
    let decode = [-100.0, 100.0, -50.0, 50.0];
    let mesh = |of: fn(Readers) -> MeshReader| {
        share(readers.map(of), |r, out| r.read(&data, l, &decode, out))
    };
    [
        mesh(|r| r.ported),
        mesh(|r| r.published),
        share(readers.map(|r| r.raw), |r, out| r.read(&data, l, out)),
    ]
}

/// The geometric mean and the worst of each reader's shares.
fn summaries(shares: &[[f64; 3]]) -> String {
    let columns = [0, 1, 2].map(|of| {
        let (mean, worst) = summary(&shares.iter().map(|all| all[of]).collect::<Vec<_>>());
        format!("   {mean:.3} {worst:.3}")
    });
    columns.concat()
}

/// Prints a line for each type and size: of each reader the geometric mean over all layouts, and the worst of them.
pub fn print(files: &[String]) {
    let [earlier, later] = files else {
        panic!("benchmark libraries EARLIER.so LATER.so");
    };
    let libraries = [Library::load(earlier), Library::load(later)];
    println!("time of {later} / that of {earlier}: geometric mean, worst");
    println!("type      bytes   ported        published     raw");
    let mut all = Vec::new();
    for kind in KINDS {
        let readers = libraries.each_ref().map(|library| library.readers(kind));
        for size in SIZES {
            let first = all.len();
            for (coordinate, component, flag) in WIDTHS {
                for components in COMPONENTS {
                    let l = Layout {
                        coordinate,
                        component,
                        flag,
                        components,
                    };
                    all.push(shares(readers, kind, l, size));
                }
            }
            let line = summaries(&all[first..]);
            println!("{:>4}   {size:>8}{line}", number(kind));
        }
    }
    println!(" all{:11}{}", "", summaries(&all));
}
