//! Two plain ways to evaluate a sheet, to compare times with. The width is a type here, which
//! helps them.

const P: u32 = reading::P;

/// Every product is reduced by a division with remainder; a row's products are added up in
/// 64 bits and reduced once more.
pub mod reducing {
    use super::P;

    fn mul(a: u32, b: u32) -> u32 {
        (u64::from(a) * u64::from(b) % u64::from(P)) as u32
    }

    pub fn permute<const W: usize>(rounds: usize, words: &[u32], state: &mut [u32; W]) {
        let (rounds, matrix) = words.split_at(rounds * (W + 1));
        for round in rounds.chunks_exact(W + 1) {
            let raised = if round[0] == 0 { W } else { 1 };
            for i in 0..W {
                let sum = state[i] + round[1 + i];
                state[i] = if sum >= P { sum - P } else { sum };
            }
            for x in &mut state[..raised] {
                let square = mul(*x, *x);
                let fourth = mul(square, square);
                *x = mul(mul(fourth, square), *x);
            }
            let before = *state;
            for (row, x) in matrix.chunks_exact(W).zip(state.iter_mut()) {
                let products = row.iter().zip(&before).map(|(&a, &b)| u64::from(mul(a, b)));
                *x = (products.sum::<u64>() % u64::from(P)) as u32;
            }
        }
    }
}

/// Every product is reduced by Montgomery's way; a row's products are added up in 64 bits and
/// reduced once more. (Adding modulo p as they come was slower.) The sheet is brought to that
/// form beforehand; a state is brought to it and back within an evaluation.
pub mod montgomery {
    use super::P;

    /// The inverse of p modulo 2^32.
    const INVERSE: u32 = 0x8800_0001;
    /// 2^64 modulo p.
    const SQUARE: u32 = ((1u128 << 64) % P as u128) as u32;

    fn reduce(x: u64) -> u32 {
        let multiple = u64::from((x as u32).wrapping_mul(INVERSE)) * u64::from(P);
        let (difference, below) = x.overflowing_sub(multiple);
        let high = (difference >> 32) as u32;
        high.wrapping_add(if below { P } else { 0 })
    }

    fn mul(a: u32, b: u32) -> u32 {
        reduce(u64::from(a) * u64::from(b))
    }

    fn add(a: u32, b: u32) -> u32 {
        let sum = a + b;
        sum.min(sum.wrapping_sub(P))
    }

    pub fn form(word: u32) -> u32 {
        mul(word, SQUARE)
    }

    /// The sheet with every unit in that form.
    pub fn params(width: usize, rounds: usize, words: &[u32]) -> Vec<u32> {
        let kinds = rounds * (width + 1);
        let words = words.iter().enumerate();
        words
            .map(|(i, &word)| match i {
                _ if i < kinds && i % (width + 1) == 0 => word,
                _ => form(word),
            })
            .collect()
    }

    pub fn permute<const W: usize>(rounds: usize, params: &[u32], state: &mut [u32; W]) {
        let mut x = state.map(form);
        let (rounds, matrix) = params.split_at(rounds * (W + 1));
        for round in rounds.chunks_exact(W + 1) {
            let raised = if round[0] == 0 { W } else { 1 };
            for i in 0..W {
                x[i] = add(x[i], round[1 + i]);
            }
            for x in &mut x[..raised] {
                let square = mul(*x, *x);
                let fourth = mul(square, square);
                *x = mul(mul(fourth, square), *x);
            }
            let before = x;
            for (row, x) in matrix.chunks_exact(W).zip(x.iter_mut()) {
                let products = row.iter().zip(&before).map(|(&a, &b)| u64::from(mul(a, b)));
                *x = (products.sum::<u64>() % u64::from(P)) as u32;
            }
        }
        *state = x.map(|x| reduce(u64::from(x)));
    }
}
