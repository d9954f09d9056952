//! Operations 21 to 25 of a sample: a step, a write or a read of a trace's bytes, or a state
//! permuted, with all that is lent to the call and with what the second reading says of it.

use reading::Trace;
use source::Params;

use super::{
    case::{Case, FIRST, FIRST_AFTER, ONE, TEXT, TWO},
    Sample,
};
use crate::{astray, calls::DIRT, generate, held, rng::Rng};

/// The longest sheet of a case.
pub const PARAMS: usize = 300;

/// What every byte of an output holds before a write.
pub const DIRTY_BYTE: u8 = 0xEE;

/// Widths of which most are small, so that a file holds many cases.
pub fn small_width(rng: &mut Rng) -> u32 {
    match rng.below(20) {
        0 => rng.between(4, 6) as u32,
        _ => rng.between(1, 3) as u32,
    }
}

/// A sheet, sound or nearly so, and not long.
pub fn short_sheet(rng: &mut Rng, width: u32) -> Params {
    loop {
        let params = match rng.below(3) {
            0 => astray::params(rng, width),
            _ => generate::params(rng, width),
        };
        if params.words.len() <= PARAMS {
            return params;
        }
    }
}

/// A list of `width` units; now and then not quite so long, or with another word in it.
pub fn units(rng: &mut Rng, width: u32) -> Vec<u32> {
    let mut len = width as usize;
    if rng.once_in(8) {
        len = astray::near_len(rng, len);
    }
    let mut list: Vec<u32> = (0..len).map(|_| rng.unit()).collect();
    if rng.once_in(8) {
        astray::word(rng, &mut list);
    }
    list
}

/// Damaged bytes; now and then just another version.
pub fn damaged(rng: &mut Rng, bytes: &[u8], fields: &[usize]) -> Vec<u8> {
    if !rng.once_in(12) || bytes.len() < 5 {
        return generate::damaged(rng, bytes, fields);
    }
    let mut damaged = bytes.to_vec();
    damaged[4] = *rng.pick(&[0, 2, 255]);
    damaged
}

/// How long an output is, of a write that takes so many bytes.
pub fn output(rng: &mut Rng, exact: usize) -> usize {
    match rng.below(3) {
        0 => astray::near_len(rng, exact),
        _ => exact + rng.below(6),
    }
}

impl Sample {
    fn evaluate_step(&mut self, rec: Trace, mut trace: Vec<u32>, input: &[u32], params: &Params) {
        let case = Case::new(21)
            .given(&[rec.steps, params.rounds, rec.width])
            .list(FIRST, &trace)
            .list(ONE, input)
            .list(TWO, &params.words);
        let answer = reading::evaluate_step(rec, &mut trace, input, held::lent(params));
        let case = case.answer(&[answer.number, answer.trace.steps, answer.trace.width]);
        self.push(case.list(FIRST_AFTER, &trace));
    }

    fn append_step(&mut self, rec: Trace, mut trace: Vec<u32>, input: &[u32], output: &[u32]) {
        let case = Case::new(22)
            .given(&[rec.steps, 0, rec.width])
            .list(FIRST, &trace)
            .list(ONE, input)
            .list(TWO, output);
        let answer = reading::append_step(rec, &mut trace, input, output);
        let case = case.answer(&[answer.number, answer.trace.steps, answer.trace.width]);
        self.push(case.list(FIRST_AFTER, &trace));
    }

    fn write_witness(&mut self, rec: Trace, trace: &[u32], room: usize) {
        let case = Case::new(23)
            .given(&[rec.steps, 0, rec.width])
            .list(ONE, trace);
        let mut out = vec![DIRTY_BYTE; room];
        let answer = reading::witness_to_bytes(rec, trace, &mut out);
        let case = case.bytes(TEXT, &out);
        self.push(case.answer(&[answer.number, answer.len as u32]));
    }

    fn read_witness(&mut self, width: u32, bytes: &[u8], room: usize) {
        let mut trace = vec![DIRT; room];
        let case = Case::new(24)
            .given(&[0, 0, width])
            .bytes(TEXT, bytes)
            .list(FIRST, &trace);
        let answer = reading::witness_from_bytes(width, bytes, &mut trace);
        let case = case.answer(&[answer.number, answer.trace.steps]);
        self.push(case.list(FIRST_AFTER, &trace));
    }

    /// A state, sound or nearly so, turned by parameters that are so too.
    pub fn random_permute(&mut self, rng: &mut Rng) {
        let of = small_width(rng);
        let params = short_sheet(rng, of);
        let state = units(rng, of);
        let width = match rng.below(12) {
            0 => astray::width(rng),
            _ => of,
        };
        let case = Case::new(25)
            .given(&[0, params.rounds, width])
            .list(FIRST, &state)
            .list(ONE, &params.words);
        let mut turned = state.clone();
        let number = reading::permute(width, held::lent(&params), &state, &mut turned);
        self.push(case.answer(&[number]).list(FIRST_AFTER, &turned));
    }

    /// A trace of some steps; each of the calls on it, as it is or led astray. What happens to a
    /// write is drawn apart.
    pub fn random_trace(&mut self, rng: &mut Rng, writes: &mut Rng) {
        let width = small_width(rng);
        let step = 2 * width as usize;
        let steps = rng.below(5);
        let mut rec = Trace {
            width,
            steps: steps as u32,
        };
        let mut trace: Vec<u32> = (0..steps * step).map(|_| rng.unit()).collect();
        let spare = *rng.pick(&[step, step, step + 1, 2 * step, 0, step - 1]);
        trace.resize(steps * step + spare, DIRT);
        let (_, bytes) = held::write_witness(rec, &trace, 17 + 4 * steps * step);
        if rng.once_in(3) {
            let most = trace.len() as u32 / (2 * width);
            match rng.below(4) {
                0 => rec.width = astray::width(rng),
                1 => rec.steps = astray::near(rng, most),
                2 => rec.steps = rng.below(most as usize + 1) as u32,
                _ => astray::word(rng, &mut trace),
            }
        }
        let params = short_sheet(rng, width);
        self.evaluate_step(rec, trace.clone(), &units(rng, width), &params);
        self.append_step(rec, trace.clone(), &units(rng, width), &units(rng, width));
        self.random_write(writes, rec, trace);
        self.random_read(rng, width, &bytes);
    }

    /// A write of the trace, as it is or over a record or a store that doesn't fit it.
    fn random_write(&mut self, rng: &mut Rng, rec: Trace, trace: Vec<u32>) {
        let (mut rec, mut trace) = (rec, trace);
        match rng.below(12) {
            0 => rec.width = *rng.pick(&[0, 25, u32::MAX]),
            1 => rec.steps = rng.edge(),
            2 => {
                let held = 2 * rec.width.min(24) as usize * rec.steps.min(9) as usize;
                trace.truncate(astray::near_len(rng, held));
            }
            3..=5 => astray::word(rng, &mut trace),
            _ => {}
        }
        let exact = 17 + 8 * (rec.width.min(24) * rec.steps.min(9)) as usize;
        self.write_witness(rec, &trace, output(rng, exact));
    }

    /// Bytes as they were written, or damaged, into a store that may be too short.
    fn random_read(&mut self, rng: &mut Rng, width: u32, bytes: &[u8]) {
        let fields: Vec<usize> = (5..bytes.len()).step_by(4).collect();
        let damaged = damaged(rng, bytes, &fields);
        let bytes = if rng.once_in(3) { bytes } else { &damaged };
        let exact = bytes.len().saturating_sub(17) / 4;
        let room = match rng.below(3) {
            0 => astray::near_len(rng, exact),
            _ => exact + rng.below(4),
        };
        let width = match rng.below(10) {
            0 => astray::width(rng),
            _ => width,
        };
        self.read_witness(width, bytes, room);
    }
}
