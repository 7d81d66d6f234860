//! VAX floats: both implementations against the plainest statement of what is right, on patterns of every kind.

use std::collections::BTreeMap;

use tlepozaluh_host::build::in_order;
use tlepozaluh_host::build::model::{File, Variable};
use tlepozaluh_host::build::random::Random;
use tlepozaluh_host::questions::{agreed_double, second_double};
use tlepozaluh_host::vax::{self, Kind, Parts, KINDS};

/// Judges what the second implementation answers for a pattern.
fn judged(kind: Kind, pattern: u64) {
    kind.judge(pattern, second_double(kind, pattern)).unwrap_or_else(|wrong| panic!("{wrong}"));
}

const PATTERNS: usize = 120_000;

/// The sorts of each kind, and how often each must come up among the patterns.
const FLOORS: [(Kind, &[(&str, usize)]); 3] = [
    (Kind::F, &[(vax::ZERO, 6000), (vax::RESERVED, 6000), (vax::EXACT, 80_000)]),
    (
        Kind::D,
        &[
            (vax::ZERO, 6000),
            (vax::RESERVED, 6000),
            (vax::EXACT, 8000),
            (vax::TIE, 30_000),
            (vax::UP, 30_000),
            (vax::CARRY, 3000),
        ],
    ),
    (
        Kind::G,
        &[
            (vax::ZERO, 6000),
            (vax::RESERVED, 6000),
            (vax::EXACT, 60_000),
            (vax::TIE, 15_000),
            (vax::UP, 8000),
            (vax::CARRY, 400),
            (vax::SUBNORMAL, 25_000),
        ],
    ),
];

/// Patterns in which every sort is common.
#[test]
fn no_double_is_nearer() {
    for (kind, floors) in FLOORS {
        let mut random = Random::seeded(102);
        let mut seen: BTreeMap<&str, usize> = BTreeMap::new();
        for _ in 0..PATTERNS {
            let pattern = kind.any(&mut random);
            judged(kind, pattern);
            kind.sorts(pattern).into_iter().for_each(|name| *seen.entry(name).or_insert(0) += 1);
        }
        assert_eq!(seen.len(), floors.len(), "{kind:?}: {seen:?}");
        for (name, floor) in floors {
            assert!(seen[name] >= *floor, "{kind:?}: {name}: {seen:?}");
        }
    }
}

/// The same patterns in a file, by both readers.
#[test]
fn no_double_is_nearer_by_both_readers() {
    for kind in KINDS {
        let mut random = Random::seeded(106);
        let patterns: Vec<u64> = (0..100_000).map(|_| kind.any(&mut random)).collect();
        let (mut file, types) = File::base_of(kind);
        file.z_variables.push(Variable::of_elements(types[1], &patterns));
        let file = in_order(&file);
        for (record, pattern) in (0..).zip(&patterns) {
            let judged = |answer| kind.judge(*pattern, answer);
            let right = agreed_double(&file, 0, record).and_then(judged);
            right.unwrap_or_else(|wrong| panic!("{wrong}"));
        }
    }
}

/// Bytes at random, each kind of float.
#[test]
fn any_bytes() {
    for kind in KINDS {
        let mut random = Random::seeded(103);
        for _ in 0..30_000 {
            judged(kind, random.number() >> (64 - kind.bits()));
        }
    }
}

/// Every exponent with the least and the greatest mantissas, both signs.
#[test]
fn every_exponent() {
    for kind in KINDS {
        let greatest = kind.greatest_mantissa();
        let ends: Vec<u64> = (0..=8).flat_map(|low| [low, greatest - low]).collect();
        for exponent in 0..=kind.greatest_exponent() {
            ends.iter().for_each(|mantissa| both_signs(kind, exponent, *mantissa));
        }
    }
}

fn both_signs(kind: Kind, exponent: u64, mantissa: u64) {
    for negative in [false, true] {
        judged(kind, kind.pattern(Parts { negative, exponent, mantissa }));
    }
}

/// Patterns and parts are two forms of the same.
#[test]
fn parts_and_patterns() {
    let mut random = Random::seeded(104);
    for kind in KINDS {
        for _ in 0..1000 {
            let pattern = random.number() >> (64 - kind.bits());
            assert_eq!(kind.pattern(kind.parts(pattern)), pattern);
        }
    }
    let one = Parts { negative: false, exponent: 129, mantissa: 0 };
    assert_eq!(Kind::F.pattern(one).to_le_bytes()[..4], [0x80, 0x40, 0, 0]);
}

/// The statement finds every wrong answer: a double beside the right one, the other sign, a wrong refusal.
#[test]
fn wrong_answers_are_found() {
    for kind in KINDS {
        let mut random = Random::seeded(105);
        for _ in 0..5000 {
            let pattern = kind.any(&mut random);
            let right = second_double(kind, pattern);
            let wrong = match right {
                Ok(bits) => {
                    vec![Ok(bits ^ 1 << 63), Ok(bits + 1), Ok(bits.wrapping_sub(1)), Err(22)]
                }
                Err(_) => vec![Ok(0), Ok(1 << 63), Err(20), Err(18)],
            };
            assert!(wrong.into_iter().all(|wrong| kind.judge(pattern, wrong).is_err()));
        }
    }
}
