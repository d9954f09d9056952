//! Sheets to go back through (02, R-4), by the form of their matrix: with an inverse, without one,
//! and such that rows must be exchanged to find it.

use reading::{add, mul, P};
use source::Params;

use crate::rng::Rng;

/// A matrix, row by row.
type Rows = Vec<Vec<u32>>;

/// A way to make a matrix of so many rows.
pub type Form = fn(&mut Rng, usize) -> Rows;

/// Matrices of every width that have an inverse.
pub const REGULAR: [Form; 8] = [
    one, diagonal, lower, upper, places, shift, backwards, shuffled,
];

/// Those that have none.
pub const SINGULAR: [Form; 9] = [
    zeros,
    zero_row,
    zero_column,
    equal_rows,
    multiple,
    combination,
    short_diagonal,
    one_row_and_column,
    killed,
];

/// Those of which it isn't known.
pub const OTHERS: [Form; 4] = [any, small, sparse, hollow];

fn rows(n: usize, mut word: impl FnMut(usize, usize) -> u32) -> Rows {
    let mut row = |i| (0..n).map(|j| word(i, j)).collect();
    (0..n).map(&mut row).collect()
}

fn not_zero(rng: &mut Rng) -> u32 {
    match rng.unit() {
        0 => 1,
        unit => unit,
    }
}

fn neg(a: u32) -> u32 {
    mul(P - 1, a)
}

fn dot(a: &[u32], b: &[u32]) -> u32 {
    let products = a.iter().zip(b).map(|(&a, &b)| mul(a, b));
    products.fold(0, add)
}

fn times(a: &Rows, b: &Rows) -> Rows {
    let column = |j: usize| -> Vec<u32> { b.iter().map(|row| row[j]).collect() };
    rows(a.len(), |i, j| dot(&a[i], &column(j)))
}

fn shuffle<T>(rng: &mut Rng, list: &mut [T]) {
    for i in 1..list.len() {
        list.swap(i, rng.below(i + 1));
    }
}

fn any(rng: &mut Rng, n: usize) -> Rows {
    rows(n, |_, _| rng.word() % P)
}

fn small(rng: &mut Rng, n: usize) -> Rows {
    rows(n, |_, _| rng.unit())
}

fn sparse(rng: &mut Rng, n: usize) -> Rows {
    rows(n, |_, _| if rng.once_in(3) { rng.unit() } else { 0 })
}

/// Nothing on the diagonal.
fn hollow(rng: &mut Rng, n: usize) -> Rows {
    rows(n, |i, j| if i == j { 0 } else { rng.unit() })
}

fn one(_: &mut Rng, n: usize) -> Rows {
    rows(n, |i, j| u32::from(i == j))
}

fn diagonal(rng: &mut Rng, n: usize) -> Rows {
    rows(n, |i, j| if i == j { not_zero(rng) } else { 0 })
}

/// Words below the diagonal, or above it; none on it is 0.
fn triangular(rng: &mut Rng, n: usize, below: bool) -> Rows {
    rows(n, |i, j| match (i == j, (j < i) == below) {
        (true, _) => not_zero(rng),
        (_, true) => rng.unit(),
        _ => 0,
    })
}

fn lower(rng: &mut Rng, n: usize) -> Rows {
    triangular(rng, n, true)
}

fn upper(rng: &mut Rng, n: usize) -> Rows {
    triangular(rng, n, false)
}

/// One word in each row and column.
fn places(rng: &mut Rng, n: usize) -> Rows {
    let mut rows = diagonal(rng, n);
    shuffle(rng, &mut rows);
    rows
}

/// The next element in each place, and from two rows on nothing on the diagonal.
fn shift(rng: &mut Rng, n: usize) -> Rows {
    let mut rows = diagonal(rng, n);
    rows.rotate_left(1);
    rows
}

/// The row that is solved first is the last one, and so on.
fn backwards(rng: &mut Rng, n: usize) -> Rows {
    let mut rows = upper(rng, n);
    rows.reverse();
    rows
}

/// No word need be 0, and rows are exchanged in between.
fn shuffled(rng: &mut Rng, n: usize) -> Rows {
    let mut lower = lower(rng, n);
    shuffle(rng, &mut lower);
    times(&lower, &upper(rng, n))
}

fn zeros(_: &mut Rng, n: usize) -> Rows {
    rows(n, |_, _| 0)
}

fn zero_row(rng: &mut Rng, n: usize) -> Rows {
    let mut rows = shuffled(rng, n);
    rows[rng.below(n)].fill(0);
    rows
}

fn zero_column(rng: &mut Rng, n: usize) -> Rows {
    let at = rng.below(n);
    let mut rows = shuffled(rng, n);
    rows.iter_mut().for_each(|row| row[at] = 0);
    rows
}

/// Two places of n, different where there are two.
fn two(rng: &mut Rng, n: usize) -> (usize, usize) {
    let first = rng.below(n);
    (first, (first + rng.between(1, (n - 1).max(1))) % n)
}

fn equal_rows(rng: &mut Rng, n: usize) -> Rows {
    if n == 1 {
        return zeros(rng, n);
    }
    let mut rows = shuffled(rng, n);
    let (from, to) = two(rng, n);
    rows[to] = rows[from].clone();
    rows
}

fn multiple(rng: &mut Rng, n: usize) -> Rows {
    let mut rows = equal_rows(rng, n);
    let (at, by) = (rng.below(n), not_zero(rng));
    rows[at].iter_mut().for_each(|word| *word = mul(by, *word));
    rows
}

/// A row that others, each times a unit, add up to.
fn combination(rng: &mut Rng, n: usize) -> Rows {
    let mut rows = shuffled(rng, n);
    let at = rng.below(n);
    let mut by: Vec<u32> = (0..n).map(|_| rng.unit()).collect();
    by[at] = 0;
    rows[at] = times(&vec![by; n], &rows).swap_remove(0);
    rows
}

/// A 0 on the diagonal of a triangle, its rows in any order.
fn short_diagonal(rng: &mut Rng, n: usize) -> Rows {
    let at = rng.below(n);
    let mut rows = upper(rng, n);
    rows[at][at] = 0;
    shuffle(rng, &mut rows);
    rows
}

/// Each word is one of a row times one of a column; of one row it is 0.
fn one_row_and_column(rng: &mut Rng, n: usize) -> Rows {
    if n == 1 {
        return zeros(rng, n);
    }
    let (row, column) = (vector(rng, n), vector(rng, n));
    rows(n, |i, j| mul(column[i], row[j]))
}

fn killed(rng: &mut Rng, n: usize) -> Rows {
    killing(rng, n).0
}

/// Units that aren't all 0.
fn vector(rng: &mut Rng, n: usize) -> Vec<u32> {
    let mut units: Vec<u32> = (0..n).map(|_| rng.unit()).collect();
    units[rng.below(n)] = not_zero(rng);
    units
}

/// A matrix, and units that aren't all 0 which it turns into 0: a 1 is among them, and the column
/// of that is minus what the others add up to.
pub fn killing(rng: &mut Rng, n: usize) -> (Rows, Vec<u32>) {
    let mut vector = vector(rng, n);
    let at = rng.below(n);
    vector[at] = 0;
    let mut rows = any(rng, n);
    for row in &mut rows {
        row[at] = neg(dot(row, &vector));
    }
    vector[at] = 1;
    (rows, vector)
}

/// The kinds of a sheet's rounds.
#[derive(Clone, Copy, Debug)]
pub enum Kinds {
    All(u32),
    Both,
}

pub const KINDS: [Kinds; 3] = [Kinds::Both, Kinds::All(0), Kinds::All(1)];

/// The sheet of a matrix, with so many rounds.
pub fn sheet(rng: &mut Rng, rows: &Rows, rounds: u32, kinds: Kinds) -> Params {
    let mut words = Vec::new();
    for _ in 0..rounds {
        words.push(match kinds {
            Kinds::All(kind) => kind,
            Kinds::Both => rng.below(2) as u32,
        });
        words.extend(rows.iter().map(|_| rng.unit()));
    }
    words.extend(rows.iter().flatten());
    Params { rounds, words }
}

/// How many rounds: few, most often.
pub fn rounds(rng: &mut Rng) -> u32 {
    match rng.below(40) {
        0 => 128,
        1 => rng.between(5, 127) as u32,
        2..=5 => 0,
        _ => rng.between(1, 4) as u32,
    }
}

/// A sheet of that width, of any form, and the number of going back through it where that is known.
pub fn random(rng: &mut Rng, width: u32) -> (Params, Option<u32>) {
    let (form, number) = match rng.below(4) {
        0 => (*rng.pick(&SINGULAR), Some(44)),
        1 => (*rng.pick(&OTHERS), None),
        _ => (*rng.pick(&REGULAR), Some(0)),
    };
    let rows = form(rng, width as usize);
    let rounds = rounds(rng);
    let kinds = *rng.pick(&KINDS);
    let number = if rounds == 0 { Some(0) } else { number };
    (sheet(rng, &rows, rounds, kinds), number)
}
