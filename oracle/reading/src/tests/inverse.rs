//! The state behind a digest (02, R-4).

use super::*;
use crate::{
    field::pow7,
    inverse::{inverted, reciprocal, times_matrix},
};

/// What `permute_inverse` answers, and the list that it is lent.
fn behind(width: u32, rounds: u32, words: &[u32], output: &[u32]) -> (u32, Vec<u32>) {
    let mut input = vec![DIRT; width as usize];
    let params = Params { rounds, words };
    let number = permute_inverse(width, params, output, &mut input);
    (number, input)
}

/// What `permute` makes of a state.
fn turned(rounds: u32, words: &[u32], state: &[u32]) -> Vec<u32> {
    let mut output = state.to_vec();
    let params = Params { rounds, words };
    assert_eq!(permute(state.len() as u32, params, state, &mut output), 0);
    output
}

#[test]
fn the_documents_examples_backwards() {
    assert_eq!(behind(1, 1, PARAMS.words, &[5]), (0, vec![2]));
    assert_eq!(behind(1, 1, PARAMS.words, &[640]), (0, vec![3]));
}

#[test]
fn the_power_that_02_names() {
    assert_eq!(reciprocal(7, P - 1), 1_725_656_503);
    for a in [1, 2, 3, 24, 31, P / 2, P - 2, P - 1] {
        assert_eq!(mul(a, reciprocal(a, P)), 1);
    }
}

#[test]
fn no_rounds_return_the_output() {
    assert_eq!(behind(2, 0, &[0; 4], &[7, P - 1]), (0, vec![7, P - 1]));
    assert_eq!(behind(2, 0, &[1, 2, 3, 4], &[7, 8]), (0, vec![7, 8]));
}

#[test]
fn kinds_and_constants() {
    // The constants are 10 and 20, and the matrix exchanges the elements.
    for (kind, image) in [(0, [pow7(23), pow7(12)]), (1, [23, pow7(12)])] {
        let words = [kind, 10, 20, 0, 1, 1, 0];
        assert_eq!(turned(1, &words, &[2, 3]), image);
        assert_eq!(behind(2, 1, &words, &image), (0, vec![2, 3]));
    }
}

#[test]
fn the_last_round_is_undone_first() {
    let words = [0, 1, 2, 1, 3, 4, 0, 5, 6, 1, 2, 3, 4];
    for input in [[0, 0], [1, P - 1], [7, 9]] {
        let output = turned(3, &words, &input);
        assert_eq!(behind(2, 3, &words, &output), (0, input.to_vec()));
    }
}

/// A sheet of one round without constants.
fn sheet(kind: u32, matrix: &[u32]) -> Vec<u32> {
    let width = matrix.len().isqrt();
    let constants = vec![0; width];
    [&[kind], &constants[..], matrix].concat()
}

#[test]
fn questions_in_their_order() {
    let singular = sheet(0, &[1, 2, 2, 4]);
    let mut unsound = singular.clone();
    unsound[0] = 2;
    let ask = |width, words: &[u32], output: &[u32], lent: usize| {
        let mut input = vec![DIRT; lent];
        let params = Params { rounds: 1, words };
        let number = permute_inverse(width, params, output, &mut input);
        assert_eq!(input, vec![DIRT; lent]);
        number
    };
    assert_eq!(ask(0, &unsound, &[P], 1), 1);
    assert_eq!(ask(25, &unsound, &[P], 1), 1);
    assert_eq!(ask(2, &unsound, &[P], 2), 9);
    assert_eq!(ask(2, &unsound, &[P, 0], 1), 9);
    assert_eq!(ask(2, &unsound, &[P, 0], 3), 9);
    assert_eq!(ask(2, &unsound, &[0, P], 2), 4);
    assert_eq!(ask(2, &unsound, &[0, 0], 2), 17);
    assert_eq!(ask(2, &singular, &[0, 0], 2), 44);
    assert_eq!(ask(2, &singular, &[0, P], 2), 4);
}

#[test]
fn singular_matrices_give_44() {
    let zero_row = [1, 2, 3, 0, 0, 0, 4, 5, 6];
    let zero_column = [1, 0, 3, 4, 0, 6, 7, 0, 10];
    let equal_rows = [1, 2, 3, 4, 5, 6, 1, 2, 3];
    let combination = [1, 2, 3, 4, 5, 6, P - 3, P - 3, P - 3];
    for matrix in [zero_row, zero_column, equal_rows, combination, [0; 9]] {
        for kind in [0, 1] {
            let (number, input) = behind(3, 1, &sheet(kind, &matrix), &[1, 2, 3]);
            assert_eq!((number, input), (44, vec![DIRT; 3]));
        }
    }
    assert_eq!(behind(1, 1, &[0, 5, 0], &[0]), (44, vec![DIRT]));
}

/// Of kind 1 element 0 alone is raised: 2^7 + 2·0 is 0 + 2·64, and the second row is twice the
/// first.
#[test]
fn two_inputs_share_an_output() {
    let words = sheet(1, &[1, 2, 2, 4]);
    let (one, other) = ([2, 0], [0, 64]);
    let shared = turned(1, &words, &one);
    assert_eq!(shared, turned(1, &words, &other));
    assert_eq!(behind(2, 1, &words, &shared).0, 44);
}

/// The determinant of three rows, by Sarrus.
fn determinant(m: &[u32]) -> i64 {
    let m = |i: usize| i64::from(m[i]);
    m(0) * m(4) * m(8) + m(1) * m(5) * m(6) + m(2) * m(3) * m(7)
        - m(2) * m(4) * m(6)
        - m(0) * m(5) * m(7)
        - m(1) * m(3) * m(8)
}

#[test]
fn every_matrix_of_three_rows_and_small_words() {
    let one = [1, 0, 0, 0, 1, 0, 0, 0, 1];
    for code in 0..3usize.pow(9) {
        let matrix: Vec<u32> = (0..9).map(|i| (code / 3usize.pow(i) % 3) as u32).collect();
        let found = inverted(3, &matrix);
        assert_eq!(found.is_some(), determinant(&matrix) != 0, "{matrix:?}");
        if let Some(found) = found {
            assert_eq!(times_matrix(3, &matrix, &found), one);
            assert_eq!(times_matrix(3, &found, &matrix), one);
        }
    }
}

/// Each element takes the next one's place: every diagonal place is 0.
#[test]
fn every_width() {
    for width in 1..=24u32 {
        let n = width as usize;
        let matrix: Vec<u32> = (0..n * n)
            .map(|at| if at % n == (at / n + 1) % n { 3 } else { 0 })
            .collect();
        let words = sheet(0, &matrix);
        let input: Vec<u32> = (0..width).map(|i| P - 1 - i * i).collect();
        let output = turned(1, &words, &input);
        assert_eq!(behind(width, 1, &words, &output), (0, input));
    }
}
