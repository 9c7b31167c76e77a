//! The permutation against the tables of source document 002 and known answers.

use reference::keccak::*;

/// Section 1.1 of document 002 gives the offsets modulo 64, here as rows y of columns x.
#[test]
fn offsets_are_those_of_document_002() {
    let listed = [
        [0, 1, 62, 28, 27],
        [36, 44, 6, 55, 20],
        [3, 10, 43, 25, 39],
        [41, 45, 15, 21, 8],
        [18, 2, 61, 56, 14],
    ];
    for (i, offset) in OFFSETS.iter().enumerate() {
        assert_eq!(offset % 64, listed[i / 5][i % 5], "lane {i}");
    }
}

/// Its table 6.1 gives them before the reduction.
#[test]
fn offsets_before_reduction_are_those_of_document_002() {
    let listed = [
        [0, 1, 190, 28, 91],
        [36, 300, 6, 55, 276],
        [3, 10, 171, 153, 231],
        [105, 45, 15, 21, 136],
        [210, 66, 253, 120, 78],
    ];
    assert_eq!(OFFSETS.as_slice(), listed.concat());
}

#[test]
fn constants_are_those_of_document_002() {
    let listed = [
        0x0000000000000001,
        0x0000000000008082,
        0x800000000000808A,
        0x8000000080008000,
        0x000000000000808B,
        0x0000000080000001,
        0x8000000080008081,
        0x8000000000008009,
        0x000000000000008A,
        0x0000000000000088,
        0x0000000080008009,
        0x000000008000000A,
        0x000000008000808B,
        0x800000000000008B,
        0x8000000000008089,
        0x8000000000008003,
        0x8000000000008002,
        0x8000000000000080,
        0x000000000000800A,
        0x800000008000000A,
        0x8000000080008081,
        0x8000000000008080,
        0x0000000080000001,
        0x8000000080008008,
    ];
    assert_eq!(CONSTANTS, listed);
}

#[test]
fn zero_state_of_1600_bits() {
    let once = permuted_1600([0; 25]);
    assert_eq!(once[0], 0xF1258F7940E1DDE7);
    assert_eq!(once[1], 0x84D5CCF933C0478A);
    assert_eq!(once[24], 0xEAF1FF7B5CECA249);
    let twice = permuted_1600(once);
    assert_eq!(twice[0], 0x2D5C954DF96ECB3C);
}

#[test]
fn zero_state_of_800_bits() {
    let once = permuted([0; 25], 5, all_rounds(5));
    assert_eq!(once[..4], [0xE531D45D, 0xF404C6FB, 0x23A0BF99, 0xF1F8452F]);
}

/// Each width keeps its lanes within 2^l bits and tells two states apart.
#[test]
fn every_width_stays_in_its_lanes() {
    for l in 0..=L_1600 {
        let zero = permuted([0; 25], l, all_rounds(l));
        let mut one = [0; 25];
        one[24] = 1;
        assert_ne!(zero, permuted(one, l, all_rounds(l)));
        assert!(zero.iter().all(|lane| lane >> ((1 << l) - 1) <= 1));
    }
}

/// Rounds are counted from the end: none leaves the state, one uses the last constant.
#[test]
fn rounds_are_the_last_ones() {
    let start = permuted_1600([7; 25]);
    assert_eq!(permuted(start, L_1600, 0), start);
    let last = permuted([0; 25], L_1600, 1);
    assert_eq!(last[0], CONSTANTS[23]);
    assert_eq!(last[1..], [0; 24]);
}

#[test]
fn block_order_goes_there_and_back() {
    let bytes: [u8; 200] = std::array::from_fn(|i| i as u8);
    let lanes = lanes_of(&bytes);
    assert_eq!(lanes[0], 0x0706050403020100);
    assert_eq!(lanes[24] >> 56, 199);
    assert_eq!(bytes_of(&lanes), bytes);
}
