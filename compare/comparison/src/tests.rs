//! The comparison finds wrong answers and shrinks them, and the cases drawn meet what they should.

use crate::case::{Case, Input, Origin, Room};
use crate::checks::{check, Expected, Fault};
use crate::draw;
use crate::lent::Lent;
use crate::library::{Answer, Library, Proved, Reading};
use crate::raw::{RawCase, RawLent, Task};
use crate::record::{mesh_flags, raw_reading, size};
use crate::report::{Bench, KINDS};
use crate::shrink::shrink;
use crate::tensor::{self, TensorCase, TensorLent};
use generator::Generator;
use station::{Kind, Layout, MeshKind, Refusal};
use std::collections::BTreeSet;

/// What a wrong library makes of the proved one's answer and output.
type Spoil<T> = fn(Answer, &mut [T]) -> Answer;

/// A mesh function in place of the proved ones.
type Mesh = dyn Fn(Reading, &Case, &mut [f64]) -> Answer + Sync;

/// Functions in place of the two that turn patches.
type RawToTensor = fn(&[u32], usize, &mut [i64]) -> Answer;
type ToTensor = fn(&[f64], usize, &mut [f64]) -> Answer;

/// The proved library with some of its answers replaced or spoilt.
struct Wrong {
    mesh: Box<Mesh>,
    read: Spoil<u32>,
    write: Spoil<u8>,
    raw_to_tensor: RawToTensor,
    to_tensor: ToTensor,
}

impl Wrong {
    fn mesh(mesh: impl Fn(Reading, &Case, &mut [f64]) -> Answer + Sync + 'static) -> Self {
        Wrong {
            mesh: Box::new(mesh),
            read: |answer, _| answer,
            write: |answer, _| answer,
            raw_to_tensor: |list, n, out| Proved.coons_to_tensor_raw(list, n, out),
            to_tensor: |values, n, out| Proved.coons_to_tensor(values, n, out),
        }
    }

    fn spoilt(spoil: Spoil<f64>) -> Self {
        Wrong::mesh(move |reading, case, out| spoil(Proved.mesh(reading, case, out), out))
    }

    fn read(read: Spoil<u32>) -> Self {
        Wrong {
            read,
            ..Wrong::spoilt(|answer, _| answer)
        }
    }

    fn write(write: Spoil<u8>) -> Self {
        Wrong {
            write,
            ..Wrong::spoilt(|answer, _| answer)
        }
    }

    fn raw_to_tensor(raw_to_tensor: RawToTensor) -> Self {
        Wrong {
            raw_to_tensor,
            ..Wrong::spoilt(|answer, _| answer)
        }
    }

    fn to_tensor(to_tensor: ToTensor) -> Self {
        Wrong {
            to_tensor,
            ..Wrong::spoilt(|answer, _| answer)
        }
    }
}

impl Library for Wrong {
    fn mesh(&self, reading: Reading, case: &Case, out: &mut [f64]) -> Answer {
        (self.mesh)(reading, case, out)
    }

    fn raw_read(&self, kind: Kind, data: &[u8], l: Layout, out: &mut [u32]) -> Answer {
        (self.read)(Proved.raw_read(kind, data, l, out), out)
    }

    fn raw_write(&self, kind: Kind, list: &[u32], l: Layout, out: &mut [u8]) -> Answer {
        (self.write)(Proved.raw_write(kind, list, l, out), out)
    }

    fn coons_to_tensor_raw(&self, list: &[u32], components: usize, out: &mut [i64]) -> Answer {
        (self.raw_to_tensor)(list, components, out)
    }

    fn coons_to_tensor(&self, values: &[f64], components: usize, out: &mut [f64]) -> Answer {
        (self.to_tensor)(values, components, out)
    }
}

fn fault_of(case: &Case, reading: Reading, library: &dyn Library) -> Option<Fault> {
    check(
        case,
        reading,
        &Expected::of(case, reading),
        library,
        &mut Lent::new(),
    )
    .err()
}

/// The smallest case found for the first of many random ones that the library answers wrongly.
fn found(kind: Kind, origin: Origin, reading: Reading, library: &dyn Library) -> (Case, Fault) {
    let mut random = Generator::new(1);
    for _ in 0..2000 {
        let case = draw::case(kind, origin, &mut random);
        if let Some(fault) = fault_of(&case, reading, library) {
            return shrink(case, fault, |c| fault_of(c, reading, library));
        }
    }
    panic!("nothing was found");
}

fn spoilt(kind: Kind, origin: Origin, mesh: Spoil<f64>) -> (Case, Fault) {
    found(kind, origin, Reading::Ported, &Wrong::spoilt(mesh))
}

fn length(case: &Case) -> usize {
    match &case.input {
        Input::Bytes(data) => data.len(),
        Input::List(values) => values.len(),
    }
}

fn turn_last_bit(number: &mut f64) {
    *number = f64::from_bits(number.to_bits() ^ 1);
}

#[test]
fn the_proved_library_passes() {
    let mut bench = Bench::new(&Proved);
    let mut random = Generator::new(2);
    for kind in KINDS {
        for _ in 0..500 {
            bench.mesh(&draw::case(kind, Origin::Bytes, &mut random));
            bench.mesh(&draw::case(kind, Origin::List, &mut random));
            bench.raw(&draw::raw_read(kind, &mut random));
            bench.raw(&draw::raw_write(kind, &mut random));
        }
    }
    for _ in 0..500 {
        bench.tensor(&draw::raw_to_tensor(&mut random));
        bench.tensor(&draw::rows_to_tensor(&mut random));
        bench.tensor(&draw::read_to_tensor(&mut random));
    }
    assert_eq!(bench.report.disagreements(), 0, "{}", bench.report);
    assert_eq!(bench.report.cases(), 13500);
}

#[test]
fn a_number_changed_by_one_bit_is_found_and_shrunk() {
    // the smallest mesh of each type, in numbers of a list and in bytes of one bit for each number
    for (kind, numbers, bytes) in [
        (Kind::Type4, 9, 2),
        (Kind::Type5, 8, 1),
        (Kind::Type6, 25, 4),
        (Kind::Type7, 33, 5),
    ] {
        for (origin, least) in [(Origin::List, numbers), (Origin::Bytes, bytes)] {
            let (case, fault) = spoilt(kind, origin, |answer, out| {
                if answer.is_ok_and(|count| count > 0) {
                    turn_last_bit(&mut out[0]);
                }
                answer
            });
            assert_eq!(length(&case), least, "{case}{fault}");
            assert_eq!(case.layout.components, 0, "{case}{fault}");
            assert_eq!(case.room, Room::EXACT, "{case}{fault}");
            assert!(fault.place.starts_with("row 0"), "{case}{fault}");
        }
    }
}

#[test]
fn a_count_off_by_one_is_found_and_shrunk() {
    for kind in KINDS {
        for origin in [Origin::Bytes, Origin::List] {
            let (case, fault) = spoilt(kind, origin, |answer, _| match answer {
                Ok(count) if count > 0 => Ok(count - 1),
                other => other,
            });
            assert_eq!(fault.place, "the answer");
            assert!(length(&case) <= 33, "{case}{fault}");
        }
    }
}

#[test]
fn a_number_written_beyond_is_found_and_shrunk() {
    for kind in KINDS {
        let (case, fault) = spoilt(kind, Origin::Bytes, |answer, out| {
            if answer == Ok(0) {
                out.last_mut().into_iter().for_each(turn_last_bit);
            }
            answer
        });
        assert_eq!(length(&case), 0, "{case}{fault}");
        assert_eq!(case.room, Room::EXACT, "{case}{fault}");
        assert!(fault.place.ends_with("to be left as it was"), "{fault}");
    }
}

#[test]
fn a_refusal_that_writes_and_a_wrong_refusal_are_found() {
    let (case, fault) = spoilt(Kind::Type6, Origin::List, |answer, out| {
        if answer.is_err() {
            out.first_mut().into_iter().for_each(turn_last_bit);
        }
        answer
    });
    assert!(fault.place.starts_with("place 0"), "{case}{fault}");
    let (case, fault) = spoilt(Kind::Type7, Origin::Bytes, |answer, _| match answer {
        Err(Refusal::Layout) => Err(Refusal::Components),
        other => other,
    });
    assert!(fault.expected.contains("Layout"), "{case}{fault}");
    assert_eq!(length(&case), 0, "{case}{fault}");
}

/// Turns every NaN that a call writes into another.
fn change_nans(out: &mut [f64], call: impl FnOnce(&mut [f64]) -> Answer) -> Answer {
    let before = out.to_vec();
    let answer = call(out);
    for (number, before) in out.iter_mut().zip(before) {
        if number.is_nan() && number.to_bits() != before.to_bits() {
            turn_last_bit(number);
        }
    }
    answer
}

fn with_changed_nans() -> Wrong {
    Wrong::mesh(|reading, case, out| change_nans(out, |out| Proved.mesh(reading, case, out)))
}

#[test]
fn a_changed_payload_of_a_copied_nan_is_found_and_shrunk() {
    for kind in KINDS {
        let (case, fault) = found(kind, Origin::List, Reading::Ported, &with_changed_nans());
        assert!((8..=33).contains(&length(&case)), "{case}{fault}");
        assert!(fault.expected.starts_with("7ff") || fault.expected.starts_with("fff"));
    }
}

#[test]
fn the_payload_of_a_computed_nan_does_not_count_but_where_it_is_taken_over() {
    let wrong = with_changed_nans();
    let mut case = Case {
        kind: MeshKind::Type6,
        layout: Layout {
            coordinate: 8,
            component: 8,
            flag: 8,
            components: 1,
        },
        decode: vec![f64::NAN; 6],
        input: Input::Bytes([[0; 29].as_slice(), &[1; 19]].concat()),
        room: Room::EXACT,
    };
    // all NaNs of both patches are changed alike
    assert!(fault_of(&case, Reading::Ported, &wrong).is_none());
    // only one that the second patch takes over
    let second = Wrong::spoilt(|answer, out| {
        if answer == Ok(2) {
            turn_last_bit(&mut out[60]);
        }
        answer
    });
    let fault = fault_of(&case, Reading::Ported, &second).expect("a fault");
    assert_eq!(fault.place, "row 1, point 0, x, taken over");
    // a number of its own
    let own = Wrong::spoilt(|answer, out| {
        if answer == Ok(2) {
            turn_last_bit(&mut out[60 + 8]);
        }
        answer
    });
    assert!(fault_of(&case, Reading::Ported, &own).is_none());
    case.decode = vec![0.0; 6];
    assert!(fault_of(&case, Reading::Ported, &own).is_some());
}

#[test]
fn a_computed_nan_that_is_not_written_is_found() {
    let wrong = Wrong::mesh(|reading, case, out| {
        let before = out.to_vec();
        let answer = Proved.mesh(reading, case, out);
        out.iter_mut().zip(before).take(4).for_each(|(x, y)| *x = y);
        answer
    });
    let case = Case {
        kind: MeshKind::Type6,
        layout: Layout {
            coordinate: 8,
            component: 8,
            flag: 8,
            components: 0,
        },
        decode: vec![f64::NAN; 4],
        input: Input::Bytes(vec![0; 25]),
        room: Room::EXACT,
    };
    assert!(fault_of(&case, Reading::Ported, &Proved).is_none());
    let fault = fault_of(&case, Reading::Ported, &wrong).expect("a fault");
    assert_eq!(fault.place, "row 0, point 0, x");
}

#[test]
fn a_published_list_that_is_the_ported_one_is_found_and_shrunk() {
    let ported = one_reading(Reading::Ported);
    let published = |kind| found(kind, Origin::List, Reading::Published, &ported);
    let (case, fault) = published(Kind::Type4);
    assert_eq!(length(&case), 15, "{case}{fault}");
    let (case, fault) = published(Kind::Type7);
    assert_eq!(length(&case), 33 + 25, "{case}{fault}");
    let mut random = Generator::new(3);
    for kind in [Kind::Type5, Kind::Type6] {
        for _ in 0..500 {
            let case = draw::case(kind, Origin::List, &mut random);
            assert!(fault_of(&case, Reading::Published, &ported).is_none());
        }
    }
}

/// A library whose two readings are one.
fn one_reading(reading: Reading) -> Wrong {
    Wrong::mesh(move |_, case, out| Proved.mesh(reading, case, out))
}

#[test]
fn flags_above_3_that_count_otherwise_are_found_and_shrunk() {
    for (reading, wrong) in [
        (Reading::Published, one_reading(Reading::Ported)),
        (Reading::Ported, one_reading(Reading::Published)),
    ] {
        // the smallest mesh with flags of three bits and other numbers of one
        for (kind, bytes) in [(Kind::Type4, 2), (Kind::Type6, 4), (Kind::Type7, 5)] {
            let (case, fault) = found(kind, Origin::Bytes, reading, &wrong);
            assert_eq!(length(&case), bytes, "{case}{fault}");
            assert_eq!(case.layout.flag, 3, "{case}{fault}");
        }
        let mut random = Generator::new(11);
        for _ in 0..500 {
            let case = draw::case(Kind::Type5, Origin::Bytes, &mut random);
            assert!(fault_of(&case, reading, &wrong).is_none());
        }
    }
}

#[test]
fn a_fused_multiply_and_add_is_found_and_shrunk() {
    let fused = Wrong::mesh(|reading, case, out| {
        let answer = Proved.mesh(reading, case, out);
        if let (Ok(1..), Input::Bytes(data)) = (answer, &case.input) {
            let raw = raw_reading(Kind::Type5, case.layout, data)[0];
            let (min, max) = (case.decode[0], case.decode[1]);
            let scale = (max - min) / ((1u64 << case.layout.coordinate) - 1) as f64;
            out[0] = f64::from(raw).mul_add(scale, min);
        }
        answer
    });
    let (case, fault) = found(Kind::Type5, Origin::Bytes, Reading::Ported, &fused);
    assert_eq!(fault.place, "row 0, vertex 0, x", "{case}{fault}");
    assert!(length(&case) <= 16, "{case}{fault}");
}

/// The smallest raw case that the library answers wrongly.
fn found_raw(kind: Kind, is_read: bool, wrong: &Wrong) -> (RawCase, Fault) {
    let mut random = Generator::new(4);
    let mut lent = RawLent::new();
    for _ in 0..2000 {
        let case = if is_read {
            draw::raw_read(kind, &mut random)
        } else {
            draw::raw_write(kind, &mut random)
        };
        if let Err(fault) = case.check(wrong, &mut lent) {
            return shrink(case, fault, |c| c.check(wrong, &mut lent).err());
        }
    }
    panic!("nothing was found");
}

#[test]
fn a_wrong_raw_number_is_found_and_shrunk() {
    let wrong = Wrong::read(|answer, out| {
        if answer.is_ok() {
            out.first_mut().into_iter().for_each(|x| *x ^= 1);
        }
        answer
    });
    for (kind, bytes) in KINDS.into_iter().zip([1, 1, 4, 5]) {
        let (case, fault) = found_raw(kind, true, &wrong);
        let Task::Read(data) = &case.task else {
            panic!("a reader's case")
        };
        assert!(data.len() <= bytes, "{case}{fault}");
        let (case, fault) = found_raw(kind, false, &wrong);
        assert!(fault.place.contains("read back"), "{case}{fault}");
    }
}

#[test]
fn a_wrong_fill_bit_and_a_byte_beyond_are_found() {
    let fill = Wrong::write(|answer, out| {
        if let Ok(count @ 1..) = answer {
            out[count - 1] ^= 1;
        }
        answer
    });
    let beyond = Wrong::write(|answer, out| {
        if let Some(byte) = answer.ok().and_then(|count| out.get_mut(count)) {
            *byte ^= 0x80;
        }
        answer
    });
    for kind in KINDS {
        let (case, fault) = found_raw(kind, false, &fill);
        assert!(fault.place.starts_with("place"), "{case}{fault}");
        let (case, fault) = found_raw(kind, false, &beyond);
        assert!(
            fault.place.ends_with("to be left as it was"),
            "{case}{fault}"
        );
    }
}

/// The smallest case of patches to be turned that the library answers wrongly.
fn found_tensor(drawn: fn(&mut Generator) -> TensorCase, wrong: &Wrong) -> (TensorCase, Fault) {
    let mut random = Generator::new(7);
    let mut lent = TensorLent::new();
    for _ in 0..2000 {
        let case = drawn(&mut random);
        if let Err(fault) = case.check(wrong, &mut lent) {
            return shrink(case, fault, |c| c.check(wrong, &mut lent).err());
        }
    }
    panic!("nothing was found");
}

fn found_raw_to_tensor(wrong: RawToTensor) -> (TensorCase, Fault) {
    found_tensor(draw::raw_to_tensor, &Wrong::raw_to_tensor(wrong))
}

fn found_to_tensor(wrong: ToTensor) -> (TensorCase, Fault) {
    found_tensor(draw::rows_to_tensor, &Wrong::to_tensor(wrong))
}

/// How many numbers the list of a case to be turned has.
fn turned_length(case: &TensorCase) -> usize {
    match &case.task {
        tensor::Task::Raw(list) => list.len(),
        tensor::Task::Rows(values) => values.len(),
        tensor::Task::Read(mesh) => length(mesh),
    }
}

/// The raw answer with each patch of it spoilt, given its flag.
fn raw_patches_spoilt(
    list: &[u32],
    components: usize,
    out: &mut [i64],
    spoil: fn(u32, &mut [i64]),
) -> Answer {
    let answer = Proved.coons_to_tensor_raw(list, components, out);
    if answer.is_ok() {
        let flags = mesh_flags(Kind::Type6, components, list);
        for (flag, patch) in flags.into_iter().zip(out.chunks_mut(32 + 4 * components)) {
            spoil(flag, patch);
        }
    }
    answer
}

#[test]
fn a_wrong_formula_for_raw_numbers_is_found_and_shrunk() {
    // x of p11: plus p33, five times p01; then p21 before p22
    let sign: RawToTensor =
        |list, n, out| raw_patches_spoilt(list, n, out, |_, patch| patch[24] += 2 * patch[12] / 9);
    let coefficient: RawToTensor =
        |list, n, out| raw_patches_spoilt(list, n, out, |_, patch| patch[24] -= patch[2] / 9);
    let order: RawToTensor =
        |list, n, out| raw_patches_spoilt(list, n, out, |_, patch| patch[28..32].rotate_left(2));
    for (wrong, point) in [(sign, 12), (coefficient, 12), (order, 14)] {
        let (case, fault) = found_raw_to_tensor(wrong);
        assert_eq!(turned_length(&case), 25, "{case}{fault}");
        assert_eq!(case.components, 0, "{case}{fault}");
        let place = format!("patch 0, point {point}, ");
        assert!(fault.place.starts_with(&place), "{case}{fault}");
    }
}

#[test]
fn a_border_that_is_not_nine_times_is_found_and_shrunk() {
    let (case, fault) = found_raw_to_tensor(|list, n, out| {
        raw_patches_spoilt(list, n, out, |_, patch| {
            patch[..24].iter_mut().for_each(|x| *x /= 9);
        })
    });
    assert_eq!(turned_length(&case), 25, "{case}{fault}");
    assert!(fault.place.starts_with("patch 0, point"), "{case}{fault}");
}

#[test]
fn a_side_that_is_not_filled_in_is_found_and_shrunk() {
    let (case, fault) = found_raw_to_tensor(|list, n, out| {
        raw_patches_spoilt(list, n, out, |flag, patch| {
            if flag > 0 {
                patch[..8].fill(0);
            }
        })
    });
    assert_eq!(turned_length(&case), 25 + 17, "{case}{fault}");
    assert!(fault.place.starts_with("patch 1, point"), "{case}{fault}");
    // colours of a side that is taken over the other way round
    let (case, fault) = found_raw_to_tensor(|list, n, out| {
        raw_patches_spoilt(list, n, out, |flag, patch| {
            if flag == 3 {
                let colour = (patch.len() - 32) / 4;
                patch[32..32 + 2 * colour].rotate_left(colour);
            }
        })
    });
    assert_eq!(turned_length(&case), 29 + 19, "{case}{fault}");
    assert!(fault.place.starts_with("patch 1, colour"), "{case}{fault}");
}

#[test]
fn a_flag_of_four_that_passes_is_found_and_shrunk() {
    let (case, fault) = found_raw_to_tensor(|list, n, out| {
        let mut low = list.to_vec();
        let mut place = 0;
        while n <= 32 && place < low.len() {
            low[place] &= 3;
            place += size(Kind::Type6, n, low[place]);
        }
        Proved.coons_to_tensor_raw(&low, n, out)
    });
    assert_eq!(fault.place, "the answer");
    assert!(fault.expected.contains("Record"), "{case}{fault}");
    assert!(turned_length(&case) <= 25 + 17, "{case}{fault}");
}

#[test]
fn a_patch_written_before_a_refusal_is_found() {
    let (case, fault) = found_raw_to_tensor(|list, n, out| {
        let answer = Proved.coons_to_tensor_raw(list, n, out);
        if answer == Err(Refusal::Record) {
            let first = list.len().min(size(Kind::Type6, n, 0));
            let _ = Proved.coons_to_tensor_raw(&list[..first], n, out);
        }
        answer
    });
    assert!(fault.place.starts_with("place 0"), "{case}{fault}");
    assert_eq!(turned_length(&case), 26, "{case}{fault}");
}

/// The answer for rows with each inner x of p11 worked out otherwise, from its eight numbers.
fn rows_otherwise(
    values: &[f64],
    components: usize,
    out: &mut [f64],
    formula: fn([f64; 8]) -> f64,
) -> Answer {
    let answer = Proved.coons_to_tensor(values, components, out);
    if answer.is_ok() {
        for patch in out.chunks_exact_mut(32 + 4 * (8 + components)) {
            patch[24] = formula([0, 1, 11, 3, 9, 8, 4, 6].map(|point| patch[2 * point]));
        }
    }
    answer
}

#[test]
fn another_order_of_rounding_is_found_and_shrunk() {
    let fused: ToTensor = |values, n, out| {
        rows_otherwise(values, n, out, |[a, b, c, d, e, f, g, h]| {
            let first = 6.0f64.mul_add(b + c, -4.0 * a);
            (((first - 2.0 * (d + e)) + 3.0 * (f + g)) - h) / 9.0
        })
    };
    let ordered: ToTensor = |values, n, out| {
        rows_otherwise(values, n, out, |[a, b, c, d, e, f, g, h]| {
            (((-4.0 * a + 6.0 * (b + c)) + 3.0 * (f + g)) - 2.0 * (d + e) - h) / 9.0
        })
    };
    for wrong in [fused, ordered] {
        let (case, fault) = found_to_tensor(wrong);
        assert_eq!(fault.place, "patch 0, point 12, x", "{case}{fault}");
        assert_eq!(turned_length(&case), 56, "{case}{fault}");
    }
}

#[test]
fn the_payload_of_a_nan_counts_where_it_is_copied() {
    let (case, fault) = found_to_tensor(|values, n, out| {
        change_nans(out, |out| Proved.coons_to_tensor(values, n, out))
    });
    assert!(fault.expected.starts_with("7ff") || fault.expected.starts_with("fff"));
    assert_eq!(turned_length(&case), 56, "{case}{fault}");
    // an inner coordinate is computed
    let computed = Wrong::to_tensor(|values, n, out| {
        let answer = Proved.coons_to_tensor(values, n, out);
        if answer.is_ok() {
            for patch in out.chunks_exact_mut(32 + 4 * (8 + n)) {
                let inner = patch[24..32].iter_mut();
                inner.filter(|x| x.is_nan()).for_each(turn_last_bit);
            }
        }
        answer
    });
    let mut random = Generator::new(8);
    for _ in 0..500 {
        let case = draw::rows_to_tensor(&mut random);
        assert!(case.check(&computed, &mut TensorLent::new()).is_ok());
    }
}

#[test]
fn a_shared_side_of_a_mesh_that_was_read_is_looked_at() {
    // a reader whose second patch begins elsewhere than the first one's side: the turned patches show it
    let wrong = Wrong::mesh(|reading, case, out| {
        let answer = Proved.mesh(reading, case, out);
        if answer.is_ok_and(|count| count > 1) {
            turn_last_bit(&mut out[case.stride()]);
        }
        answer
    });
    let (case, fault) = found_tensor(draw::read_to_tensor, &wrong);
    assert_eq!(fault.place, "patch 1, point 0, x, taken over");
    assert!(turned_length(&case) <= 25 + 17, "{case}{fault}");
}

#[test]
fn the_report_tells_of_a_disagreement() {
    let wrong = Wrong::spoilt(|answer, _| answer.map(|count| count + 1));
    let mut bench = Bench::new(&wrong);
    let mut random = Generator::new(5);
    while bench.report.disagreements() == 0 {
        bench.mesh(&draw::case(Kind::Type4, Origin::List, &mut random));
    }
    assert_eq!(bench.report.disagreements(), 2);
    let text = bench.report.to_string();
    assert!(text.contains("list:   [], 0 in all"), "{text}");
    assert!(text.contains("ours:     accepted, 1"), "{text}");
}

#[test]
fn the_cases_to_be_turned_meet_every_count_and_refusal() {
    let mut random = Generator::new(9);
    let mut lent = TensorLent::new();
    for drawn in [draw::raw_to_tensor, draw::rows_to_tensor] {
        let mut counts = BTreeSet::new();
        let mut refusals = BTreeSet::new();
        for turn in 0..10_000 {
            let case = drawn(&mut random);
            if turned_length(&case) > 0 {
                counts.insert(case.components);
            }
            if turn < 500 {
                let agreed = case.check(&Proved, &mut lent).expect("no fault");
                refusals.extend(agreed.count.err().map(Refusal::number));
            }
        }
        assert!((0..=33).all(|n| counts.contains(&n)), "{counts:?}");
        assert!(refusals.iter().eq(&[2, 5]), "{refusals:?}");
    }
}

#[test]
fn the_cases_drawn_meet_flags_above_3_of_every_width() {
    let mut random = Generator::new(12);
    for kind in [Kind::Type4, Kind::Type6, Kind::Type7] {
        let mut widths = BTreeSet::new();
        for _ in 0..8_000 {
            let case = draw::case(kind, Origin::Bytes, &mut random);
            let published = Expected::published(&case);
            // more than the ported reading has, so the flags count for something
            if published.is_some_and(|p| p.count.ok() > Expected::ported(&case).count.ok()) {
                widths.insert(case.layout.flag);
            }
        }
        assert!(widths.into_iter().eq(3..=32), "{kind:?}");
    }
}

#[test]
fn the_cases_drawn_meet_every_width_count_and_refusal() {
    let mut random = Generator::new(6);
    for kind in KINDS {
        for origin in [Origin::Bytes, Origin::List] {
            let mut widths = [(); 3].map(|()| BTreeSet::new());
            let mut counts = BTreeSet::new();
            let mut refusals = BTreeSet::new();
            let mut rooms = BTreeSet::new();
            for _ in 0..40_000 {
                let case = draw::case(kind, origin, &mut random);
                let l = case.layout;
                let expected = Expected::ported(&case);
                refusals.extend(expected.count.err().map(Refusal::number));
                if expected.count.is_ok_and(|count| count > 0) {
                    rooms.insert(match case.room {
                        Room::EXACT => "none other",
                        Room::Beyond(_) => "more",
                        Room::Short(_) => "less",
                    });
                    counts.insert(l.components);
                    for (set, width) in widths.iter_mut().zip([l.coordinate, l.component, l.flag]) {
                        set.insert(width);
                    }
                }
            }
            assert!((0..=32).all(|n| counts.contains(&n)), "{kind:?} {origin:?}");
            let expected: &[u64] = match origin {
                Origin::Bytes => &[1, 2],
                Origin::List => &[2],
            };
            assert!(refusals.iter().eq(expected), "{kind:?}: {refusals:?}");
            assert_eq!(rooms.len(), 3, "{kind:?}: {rooms:?}");
            let all = |set: &BTreeSet<usize>| (1..=32).all(|width| set.contains(&width));
            assert!(
                origin == Origin::List || widths.iter().all(all),
                "{kind:?} {widths:?}"
            );
        }
    }
}
