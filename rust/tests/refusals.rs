//! A call that refuses tells document 01's number, its name, and a sentence.

mod samples;

use samples::{bytes, decode, layout, numbers, values, KINDS};
use station::{build, build_published, parse, published, raw_read, raw_write, slices, tensor_raw};
use station::{Kind, Layout, Refusal};

fn check<T: std::fmt::Debug>(answer: Result<T, Refusal>, number: u64, name: &str) {
    let refusal = answer.expect_err("a refusal");
    assert_eq!((refusal.number(), refusal.name()), (number, name));
    let sentence = refusal.to_string();
    assert!(
        sentence.starts_with(&format!("refused {number}, {name}: ")),
        "{sentence}"
    );
}

#[test]
fn layout_of_every_reader_and_writer() {
    let too_wide = Layout {
        coordinate: 33,
        ..layout(1)
    };
    let no_width = Layout {
        component: 0,
        ..layout(1)
    };
    for kind in KINDS {
        let data = bytes(kind, 1);
        for read in [parse, published] {
            check(read(kind, &data, too_wide, &decode(1)), 1, "LAYOUT");
            check(read(kind, &data, no_width, &decode(1)), 1, "LAYOUT");
            check(read(kind, &data, layout(1), &[0.0; 3]), 1, "LAYOUT");
        }
    }
    check(raw_read(Kind::Type4, &[], too_wide), 1, "LAYOUT");
    check(raw_write(Kind::Type4, &[], too_wide), 1, "LAYOUT");
}

#[test]
fn components_of_every_function() {
    for kind in KINDS {
        for read in [parse, published] {
            check(read(kind, &[], layout(33), &decode(1)), 2, "COMPONENTS");
        }
        for build in [build, build_published] {
            check(build(kind, &[], 33), 2, "COMPONENTS");
            check(build(kind, &[], usize::MAX), 2, "COMPONENTS");
        }
    }
    check(raw_read(Kind::Type4, &[], layout(33)), 2, "COMPONENTS");
    check(raw_write(Kind::Type4, &[], layout(33)), 2, "COMPONENTS");
    check(tensor_raw(&[], 33), 2, "COMPONENTS");
}

#[test]
fn length_of_bytes_and_of_lists() {
    let data = vec![0; 16_777_217];
    let list = vec![0; 1_048_577];
    let values = vec![0.0; 1_048_577];
    for kind in KINDS {
        check(parse(kind, &data, layout(1), &decode(1)), 3, "LENGTH");
        check(build(kind, &values, 1), 3, "LENGTH");
    }
    check(raw_read(Kind::Type6, &data, layout(1)), 3, "LENGTH");
    check(raw_write(Kind::Type6, &list, layout(1)), 3, "LENGTH");
    check(tensor_raw(&list, 1), 3, "LENGTH");
    check(slices::coons_to_tensor(&values, 1, &mut []), 3, "LENGTH");
}

#[test]
fn room_with_the_number_of_places() {
    let answer = slices::build(KINDS[0], &values(KINDS[0], 1), 1, &mut [0.0; 65]);
    check(answer, 4, "ROOM");
    assert_eq!(
        answer.map_err(|refusal| refusal.to_string()),
        Err("refused 4, ROOM: the whole answer needs more places than the lent output has: it needs 66".into())
    );
}

#[test]
fn record_and_thin() {
    let list = numbers(KINDS[2], 1);
    let cut = &list[..list.len() - 1];
    check(raw_write(Kind::Type6, cut, layout(1)), 5, "RECORD");
    check(tensor_raw(cut, 1), 5, "RECORD");
    check(slices::coons_to_tensor(&[0.0; 59], 1, &mut []), 5, "RECORD");
    let thin = Layout {
        coordinate: 1,
        component: 1,
        flag: 1,
        components: 1,
    };
    check(raw_write(Kind::Type4, &[0; 4], thin), 6, "THIN");
    check(raw_write(Kind::Type5, &[0; 3], thin), 6, "THIN");
}
