//! The stored files are what the rules give, and the cases have what the rules promise.

use std::collections::BTreeSet;
use stored::case::{Case, Input};
use stored::{cases, FUNCTIONS};

#[test]
fn the_files_are_what_the_rules_give() {
    for (name, bytes) in stored::files() {
        let found = std::fs::read(stored::path(name)).expect("a stored file");
        assert!(found == bytes, "{name}: run cargo run --release -p stored");
    }
}

#[test]
fn every_width_and_component_count_is_met() {
    for (name, kind, is_listed) in FUNCTIONS {
        let cases = cases(kind, is_listed);
        let counts: BTreeSet<u8> = cases.iter().map(|case| case.components).collect();
        assert!((0..=32).all(|n| counts.contains(&n)), "{name}");
        if !is_listed {
            for width in [
                |case: &Case| case.coordinate,
                |case: &Case| case.component,
                |case: &Case| case.flag,
            ] {
                let accepted = cases.iter().filter(|case| case.answer().refused == 0);
                let widths: BTreeSet<u8> = accepted.map(width).collect();
                assert!((1..=32).all(|w| widths.contains(&w)), "{name}");
            }
        }
    }
}

#[test]
fn a_mesh_of_thin_vertices_is_met() {
    for (name, kind, is_listed) in FUNCTIONS {
        let bits = |case: &Case| -> usize {
            let [xy, component, flag, n] =
                [case.coordinate, case.component, case.flag, case.components].map(usize::from);
            flag + 2 * xy + n * component
        };
        let cases = cases(kind, is_listed);
        let mut meshes = cases.iter().filter(|case| case.answer().written() > 0);
        assert!(is_listed || meshes.any(|case| bits(case) < 8), "{name}");
    }
}

#[test]
fn every_refusal_and_every_room_is_met() {
    for (name, kind, is_listed) in FUNCTIONS {
        let cases = cases(kind, is_listed);
        let refusals: BTreeSet<u8> = cases.iter().map(|case| case.answer().refused).collect();
        let expected: &[u8] = if is_listed { &[0, 2, 4] } else { &[0, 1, 2, 4] };
        assert!(refusals.iter().eq(expected), "{name}: {refusals:?}");
        let meshes = || cases.iter().filter(|case| case.answer().written() > 0);
        assert!(meshes().any(|case| case.needed() == case.room), "{name}");
        assert!(meshes().any(|case| case.needed() < case.room), "{name}");
        assert!(meshes().any(|case| case.answer().written() > 2), "{name}");
        assert!(
            cases.iter().any(|case| case.needed() == case.room + 1),
            "{name}"
        );
    }
}

#[test]
fn a_refusal_tells_the_numbers_needed_for_room_alone() {
    for (name, kind, is_listed) in FUNCTIONS {
        for case in cases(kind, is_listed) {
            let answer = case.answer();
            match answer.refused {
                0 => assert!(case.needed() <= case.room, "{name}"),
                4 => assert!(
                    answer.count == case.needed() && answer.count > case.room,
                    "{name}"
                ),
                _ => assert_eq!(answer.count, 0, "{name}"),
            }
        }
    }
}

#[test]
fn odd_numbers_are_met() {
    for (name, kind, is_listed) in FUNCTIONS {
        let mut numbers = Vec::new();
        for case in cases(kind, is_listed) {
            numbers.extend(match case.input {
                Input::Bytes(_) => case.decode,
                Input::List(values) => values,
            });
        }
        let has = |test: fn(&f64) -> bool| numbers.iter().any(test);
        assert!(has(|x| x.is_nan()), "{name}");
        assert!(has(|x| *x == f64::INFINITY), "{name}");
        assert!(has(|x| *x == f64::NEG_INFINITY), "{name}");
        assert!(has(|x| *x == 0.0 && x.is_sign_negative()), "{name}");
        assert!(has(|x| x.is_subnormal()), "{name}");
        assert!(has(|x| *x == f64::MAX), "{name}");
    }
}
