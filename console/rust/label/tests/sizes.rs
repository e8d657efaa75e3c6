//! Limits and room, against the formulas in numbers that can't pass their width, and known when a program is compiled.

use label::{Edition, LEAST_K, MOST_K, MOST_LEVELS, MOST_PLANES};

const ANY: [u32; 12] = [0, 1, 2, 7, 8, 9, 18, 19, 31, 32, 64, u32::MAX];
const TWO: Edition = Edition::Two { arm: 2, mount: 70_123 };

#[test]
fn limits() {
    assert_eq!((LEAST_K, MOST_K, MOST_LEVELS, MOST_PLANES), (3, 8, 5, 18));
    assert_eq!(label::NUMBER_LIMIT, (1 << 18) - 1);
    assert_eq!(
        (label::BLOCK_BYTES, label::PAYLOAD_BYTES, label::PAYLOAD_BITS),
        (512, 492, 3936)
    );
    assert_eq!(label::LABEL_BYTES, b"00000417".len());
    assert_eq!(label::MOST_MOUNT, (1 << 24) - 1);
    assert_eq!([Edition::One, TWO].map(label::payload_bits_of), [3936, 3904]);
}

#[test]
fn known_when_compiled() {
    const BITS: usize = label::most_bits(6, MOST_PLANES);
    const LENT: [u8; label::most_bytes(6, MOST_PLANES)] = [0; label::most_bytes(6, MOST_PLANES)];
    const BLOCKS: usize = label::most_blocks(6, MOST_PLANES);
    const LIMIT: u8 = label::grey_limit(2, 2);
    const FULL: [u8; label::payload_bits_of(TWO) / 8] = [0; 488];
    const OF: usize = label::blocks_of(TWO, 7809);
    assert_eq!((BITS, LENT.len(), BLOCKS, LIMIT), (102_394, 12_800, 27, 45));
    assert_eq!((FULL.len(), OF, TWO.number()), (488, 3, 2));
    assert_eq!(label::most_blocks(8, MOST_PLANES), 420);
}

#[test]
fn room_by_the_formulas() {
    for k in LEAST_K..=MOST_K {
        let side = 1_u128 << k;
        assert_eq!(label::side(k) as u128, side);
        assert_eq!(label::places(k) as u128, side * side);
        assert_eq!(label::most_levels(k), 5.min(k - 1));
        for r in 1..=label::most_levels(k) {
            let small = side / (1 << r);
            assert_eq!(label::thumbnail_side(k, r) as u128, small);
            assert_eq!(label::thumbnail_places(k, r) as u128, small * small);
        }
        for n in 0..=MOST_PLANES {
            let bits = u128::from(n) * (4 * side * side - 1) / 3 + side * side;
            assert_eq!(label::most_bits(k, n) as u128, bits);
            assert_eq!(label::most_bytes(k, n) as u128, bits.div_ceil(8));
            assert_eq!(label::most_blocks(k, n) as u128, 1.max(bits.div_ceil(3904)));
            for edition in [Edition::One, TWO] {
                assert!(label::blocks_of(edition, label::most_bits(k, n)) <= label::most_blocks(k, n));
            }
        }
    }
}

#[test]
fn nothing_out_of_range() {
    for k in ANY.into_iter().chain(0..12) {
        let in_range = (LEAST_K..=MOST_K).contains(&k);
        assert_eq!(label::side(k) != 0, in_range);
        assert_eq!(label::places(k) != 0, in_range);
        assert_eq!(label::most_levels(k) != 0, in_range);
        for r in ANY.into_iter().chain(0..12) {
            let some = in_range && (1..=label::most_levels(k)).contains(&r);
            assert_eq!(label::thumbnail_side(k, r) != 0, some);
            assert_eq!(label::thumbnail_places(k, r) != 0, some);
        }
        for n in ANY {
            assert_eq!(label::most_bits(k, n) != 0, in_range && n <= MOST_PLANES);
            assert_eq!(label::most_bytes(k, n) != 0, in_range && n <= MOST_PLANES);
            assert_eq!(label::most_blocks(k, n) != 0, in_range && n <= MOST_PLANES);
        }
    }
}

#[test]
fn blocks_of_any_bits() {
    assert_eq!(
        [0, 1, 3935, 3936, 3937, 7872, 7873].map(label::blocks),
        [1, 1, 1, 1, 2, 2, 3]
    );
    assert_eq!(label::blocks(usize::MAX), usize::MAX / 3936 + 1);
    assert_eq!(
        [0, 1, 3903, 3904, 3905, 7808, 7809].map(|bits| label::blocks_of(TWO, bits)),
        [1, 1, 1, 1, 2, 2, 3]
    );
    for bits in (0..20_000).step_by(7) {
        assert_eq!(label::blocks_of(Edition::One, bits), label::blocks(bits));
    }
}

#[test]
fn grey_limits_stop_at_255() {
    for levels in (0..40).chain(ANY).chain([u32::MAX / 7, u32::MAX / 7 + 1]) {
        for unfinished in ANY.into_iter().chain(0..40) {
            let planes = (1_u128 << unfinished.min(64)) - 1;
            let limit = 255.min((7 * u128::from(levels) + 1) * planes);
            assert_eq!(
                u128::from(label::grey_limit(levels, unfinished)),
                limit,
                "{levels} {unfinished}"
            );
        }
    }
}
