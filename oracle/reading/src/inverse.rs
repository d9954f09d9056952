//! The state behind a digest (02, R-4): the input that a permutation turns into an output.
//!
//! Nothing here chooses or exchanges rows: a matrix is inverted by the coefficients of its
//! characteristic polynomial (Faddeev and LeVerrier). 7th roots and quotients go by Euclid's
//! way of finding what has the product 1.

use crate::{
    field::{add, mul, pow7},
    questions::{are_units, ask, is_list, is_store, is_width, Asked},
    witness::{ask_params, product, Params},
    P,
};

/// Puts the input that the permutation turns into `output` into a list of its own. Questions
/// 1, 2, 9 of both lists, 4 of the output (what the other list holds isn't judged), 17, 44.
pub fn permute_inverse(width: u32, params: Params<'_>, output: &[u32], input: &mut [u32]) -> u32 {
    let found = ask_permute_inverse(width, &params, output, input)
        .and_then(|()| behind(width, &params, output));
    match found {
        Err(number) => number,
        Ok(found) => {
            input.copy_from_slice(&found);
            0
        }
    }
}

fn ask_permute_inverse(width: u32, params: &Params<'_>, output: &[u32], input: &[u32]) -> Asked {
    ask(1, is_width(width))?;
    ask(
        2,
        is_store(params.words) && is_store(output) && is_store(input),
    )?;
    ask(9, is_list(width, output) && is_list(width, input))?;
    ask(4, are_units(output))?;
    ask_params(width, params)
}

/// 44: one or more rounds and a singular matrix. Else the rounds are undone, the last one
/// first.
fn behind(width: u32, params: &Params<'_>, output: &[u32]) -> Result<Vec<u32>, u32> {
    if params.rounds == 0 {
        return Ok(output.to_vec());
    }
    let (rounds, matrix) = params.parts(width);
    let inverse = inverted(width as usize, matrix).ok_or(44u32)?;
    let undone = rounds.rev().fold(output.to_vec(), |state, round| {
        undo_round(&state, round[0], &round[1..], &inverse)
    });
    Ok(undone)
}

/// What `apply_round` does, backwards: matrix, power, constants.
fn undo_round(state: &[u32], kind: u32, constants: &[u32], inverse: &[u32]) -> Vec<u32> {
    let raised = product(inverse, state);
    let moved = raised
        .iter()
        .enumerate()
        .map(|(i, &x)| if kind == 0 || i == 0 { root7(x) } else { x });
    moved.zip(constants).map(|(x, &c)| sub(x, c)).collect()
}

fn sub(a: u32, b: u32) -> u32 {
    add(a, P - b)
}

/// The unit whose 7th power is `a`. Its exponent times 7 is 1 modulo p - 1.
fn root7(a: u32) -> u32 {
    let root = power(a, reciprocal(7, P - 1));
    assert_eq!(pow7(root), a, "a 7th root");
    root
}

/// By the bits of the exponent, the highest first.
fn power(a: u32, exponent: u32) -> u32 {
    (0..u32::BITS).rev().fold(1, |power, bit| {
        let square = mul(power, power);
        match exponent >> bit & 1 {
            0 => square,
            _ => mul(square, a),
        }
    })
}

/// What `a` has the product 1 with modulo n, where they have no common divisor. Each pair's
/// first number is its second times `a`, modulo n.
pub fn reciprocal(a: u32, n: u32) -> u32 {
    let n = i64::from(n);
    let (mut last, mut this) = ((n, 0), (i64::from(a), 1));
    while this.0 != 1 {
        let times = last.0 / this.0;
        let next = (last.0 - times * this.0, last.1 - times * this.1);
        (last, this) = (this, next);
    }
    this.1.rem_euclid(n) as u32
}

/// The inverse of a matrix of `width` rows, all in one list, where it has one.
///
/// With N(1) = 1, c(k) = -trace(A N(k)) / k and N(k + 1) = A N(k) + c(k), A N(width) is
/// -c(width) times the unit matrix, and c(width) the determinant or minus it.
pub fn inverted(width: usize, matrix: &[u32]) -> Option<Vec<u32>> {
    let diagonal = |unit: u32| -> Vec<u32> {
        let place = |at: usize| if at / width == at % width { unit } else { 0 };
        (0..width * width).map(place).collect()
    };
    let (mut factor, mut times) = (diagonal(1), matrix.to_vec());
    let coefficient = |times: &[u32], k: u32| {
        let trace = times.iter().step_by(width + 1).fold(0, |a, &b| add(a, b));
        sub(0, mul(trace, reciprocal(k, P)))
    };
    for k in 1..width as u32 {
        let more = diagonal(coefficient(&times, k));
        factor = times.iter().zip(more).map(|(&a, b)| add(a, b)).collect();
        times = times_matrix(width, matrix, &factor);
    }
    let last = sub(0, coefficient(&times, width as u32));
    assert_eq!(
        times,
        diagonal(last),
        "a matrix times what makes it diagonal"
    );
    if last == 0 {
        return None;
    }
    let by = reciprocal(last, P);
    Some(factor.iter().map(|&x| mul(by, x)).collect())
}

/// The product of two matrices, each row by row in one list.
pub fn times_matrix(width: usize, left: &[u32], right: &[u32]) -> Vec<u32> {
    let column = |j: usize| right.iter().skip(j).step_by(width).copied();
    let columns: Vec<u32> = (0..width).flat_map(column).collect();
    let rows = left.chunks(width);
    rows.flat_map(|row| product(&columns, row)).collect()
}
