//! `inverse`: the state behind a digest (02, R-4). Beside the second reading, on sheets of every form,
//! on lists and sheets led astray, and on many faults at once, which show the questions' order; and
//! there and back, with the library's evaluation and with the source's.

use reading::P;
use sfr::BabyBearUnit;
use source::Params;

use super::witness::parameters;
use crate::{
    astray,
    calls::DIRT,
    compared::{holds, same, Compared, Difference, Log, Outcome, Seen},
    held, lists,
    options::Options,
    rng::Rng,
    sheets::{self, Form, KINDS, OTHERS, REGULAR, SINGULAR},
};

pub fn run(options: &Options) -> bool {
    let mut seen = Seen::default();
    if let Err(difference) = fixed(&mut seen) {
        println!("inverse: a difference: {}", difference.0);
        return false;
    }
    seen.print();
    println!("inverse: {} fixed calls, no difference", seen.total);
    let line = lists::compare(options, list);
    line.inspect(|line| println!("{line}")).is_some()
}

/// Some sheets, and what lies beside them.
fn list(seed: u64, seen: &mut Seen, log: &Log) -> Compared {
    let mut rng = Rng::new(seed);
    let width = rng.width();
    let (params, number) = sheets::random(&mut rng, width);
    both_ways(&mut rng, width, &params, number, seen, log)?;
    for _ in 0..10 {
        let mut call = Call::new(&mut rng, width, &params);
        for _ in 0..rng.between(1, 3) {
            call.lead_astray(&mut rng);
        }
        call.compare(seen, log)?;
    }
    if rng.once_in(4) {
        shared(&mut rng, width, seen, log)?;
    }
    Ok(())
}

/// What a call is lent.
#[derive(Clone, Debug)]
struct Call {
    width: u32,
    params: Params,
    output: Vec<u32>,
    /// What the second list holds before it.
    input: Vec<u32>,
}

impl Call {
    fn new(rng: &mut Rng, width: u32, params: &Params) -> Self {
        let output = units(rng, width);
        Self {
            width,
            params: params.clone(),
            input: vec![DIRT; output.len()],
            output,
        }
    }

    fn lead_astray(&mut self, rng: &mut Rng) {
        let near_list = |rng: &mut Rng, list: &mut Vec<u32>| {
            let len = astray::near_len(rng, list.len());
            list.resize(len, 1);
        };
        match rng.below(10) {
            0 => self.width = astray::width(rng),
            1 | 2 => near_list(rng, &mut self.output),
            3 | 4 => near_list(rng, &mut self.input),
            5 | 6 => astray::word(rng, &mut self.output),
            7 => astray::word(rng, &mut self.input),
            of => {
                let width = self.width.clamp(1, 24);
                (self.params, _) = sheets::random(rng, width);
                if of == 8 {
                    astray::lead_params(rng, width, &mut self.params);
                }
            }
        }
    }

    /// The library's number, and what it leaves in the second list.
    fn library(&self) -> (u32, Vec<u32>) {
        let mut input = self.input.clone();
        let answer = sfr::permute_inverse(
            self.width,
            parameters(&self.params),
            BabyBearUnit::list(&self.output),
            BabyBearUnit::list_mut(&mut input),
        );
        (answer.number, input)
    }

    /// The number and the list on both sides.
    fn compare(&self, seen: &mut Seen, log: &Log) -> Outcome<(u32, Vec<u32>)> {
        log.say(|| format!("{self:?}"));
        let library = self.library();
        let mut input = self.input.clone();
        let params = held::lent(&self.params);
        let number = reading::permute_inverse(self.width, params, &self.output, &mut input);
        seen.answered("go back", number);
        same(
            "go back",
            ("library", &library),
            ("reading", &(number, input)),
        )?;
        Ok(library)
    }
}

/// A state of that width: any units, or more of those at the edges.
fn units(rng: &mut Rng, width: u32) -> Vec<u32> {
    let any = rng.once_in(2);
    let mut unit = || if any { rng.word() % P } else { rng.unit() };
    (0..width).map(|_| unit()).collect()
}

/// The state that the library turns `input` into, which must be the source's.
fn evaluated(width: u32, params: &Params, input: &[u32]) -> Outcome<Vec<u32>> {
    let mut state = input.to_vec();
    let turned = BabyBearUnit::list_mut(&mut state);
    let answer = sfr::permute(width, parameters(params), turned);
    let source = params.permute(input);
    same(
        "evaluate",
        ("library", (answer.number, &state)),
        ("source", (0, &source)),
    )?;
    Ok(state)
}

/// From an input there and back, and from an output back and there. `expected` is the number of a
/// sheet of which it is known.
fn both_ways(
    rng: &mut Rng,
    width: u32,
    params: &Params,
    expected: Option<u32>,
    seen: &mut Seen,
    log: &Log,
) -> Compared {
    let input = units(rng, width);
    log.say(|| format!("there and back: {width}, {params:?}, {input:?}"));
    let mut call = Call::new(rng, width, params);
    let output = std::mem::replace(&mut call.output, evaluated(width, params, &input)?);
    let (number, back) = call.library();
    seen.answered("there and back", number);
    if let Some(expected) = expected {
        same("go back", ("library", number), ("the form", expected))?;
    }
    holds("yes or 44", number == 0 || number == 44, number)?;
    let expected = if number == 0 { &input } else { &call.input };
    same("there and back", ("library", &back), ("before", expected))?;

    call.output = output;
    let (other, found) = call.compare(seen, log)?;
    same("one sheet", ("library", number), ("another output", other))?;
    if number == 0 {
        let there = evaluated(width, params, &found)?;
        seen.answered("back and there", number);
        same(
            "back and there",
            ("library", &there),
            ("before", &call.output),
        )?;
    }
    Ok(())
}

/// Two inputs that a sheet of 44 turns into one output: what the first round makes of them before
/// its matrix differs by units that the matrix turns into 0.
fn shared(rng: &mut Rng, width: u32, seen: &mut Seen, log: &Log) -> Compared {
    let (rows, vector) = sheets::killing(rng, width as usize);
    let (rounds, kinds) = (rng.between(1, 3) as u32, *rng.pick(&KINDS));
    let params = sheets::sheet(rng, &rows, rounds, kinds);
    let input = units(rng, width);
    let constants = &params.words[1..];
    let other: Vec<u32> = (0..width as usize)
        .map(|i| {
            let sum = reading::add(input[i], constants[i]);
            let raised = params.words[0] == 0 || i == 0;
            let there = if raised { power(sum, 7) } else { sum };
            let moved = reading::add(there, vector[i]);
            let back = if raised { power(moved, ROOT) } else { moved };
            reading::add(back, P - constants[i])
        })
        .collect();
    log.say(|| format!("two inputs: {width}, {params:?}, {input:?}, {other:?}"));
    holds("two inputs", input != other, &input)?;
    let output = evaluated(width, &params, &input)?;
    let others = evaluated(width, &params, &other)?;
    same("one output", ("one", &output), ("other", &others))?;
    let mut call = Call::new(rng, width, &params);
    call.output = output;
    let (number, _) = call.compare(seen, log)?;
    seen.answered("two inputs share it", number);
    same("two inputs share it", ("library", number), ("02", 44))
}

/// The power that undoes the 7th, as 02 has it.
const ROOT: u32 = 1_725_656_503;

fn power(a: u32, exponent: u32) -> u32 {
    let bits = (0..u32::BITS).rev().map(|bit| exponent >> bit & 1);
    bits.fold(1, |power, bit| {
        let square = reading::mul(power, power);
        [square, reading::mul(square, a)][bit as usize]
    })
}

/// What every run has: each form in each width, and faults at once.
fn fixed(seen: &mut Seen) -> Compared {
    let mut rng = Rng::new(4);
    let forms = |forms: &[Form], number: Option<u32>| -> Vec<_> {
        forms.iter().map(|form| (*form, number)).collect()
    };
    let all = [
        forms(&REGULAR, Some(0)),
        forms(&SINGULAR, Some(44)),
        forms(&OTHERS, None),
    ];
    for (at, (form, number)) in all.concat().into_iter().enumerate() {
        for width in 1..=24 {
            for rounds in [0, 1, 3] {
                let number = if rounds == 0 { Some(0) } else { number };
                let rows = form(&mut rng, width as usize);
                let kinds = KINDS[(at + width as usize) % 3];
                let params = sheets::sheet(&mut rng, &rows, rounds, kinds);
                told(&mut rng, width, &params, number, seen)?;
            }
        }
    }
    for (width, kinds) in (1..=24).flat_map(|width| KINDS.map(|kinds| (width, kinds))) {
        let form = *rng.pick(&REGULAR);
        let rows = form(&mut rng, width as usize);
        let params = sheets::sheet(&mut rng, &rows, 128, kinds);
        told(&mut rng, width, &params, Some(0), seen)?;
    }
    for width in [0, 1, 2, 3, 24, 25] {
        faults(&mut rng, width, seen)?;
    }
    Ok(())
}

/// Both ways, with the sheet where there is a difference.
fn told(
    rng: &mut Rng,
    width: u32,
    params: &Params,
    number: Option<u32>,
    seen: &mut Seen,
) -> Compared {
    let compared = both_ways(rng, width, params, number, seen, &Log(false));
    compared.map_err(|difference| {
        let Difference(text) = difference;
        Difference(format!("width {width}, {params:?}\n{text}"))
    })
}

/// Every choice of: another width, other lengths of both lists, an output that has a word which is no
/// unit, and what is wrong with a sheet, each with what the second list may hold before.
fn faults(rng: &mut Rng, width: u32, seen: &mut Seen) -> Compared {
    let n = width as usize;
    let lens = [n, n + 1, n.saturating_sub(1), 0];
    let words = [None, Some((0, P)), Some((n.saturating_sub(1), u32::MAX))];
    for (at, params) in bad_sheets(rng, width).into_iter().enumerate() {
        let right = units(rng, width);
        let widths = [width, [0, 25, u32::MAX][at % 3]];
        for (width, output_len) in pairs(&widths, &lens) {
            for (input_len, word) in pairs(&lens, &words) {
                let output = word.map_or(right.clone(), |(at, word)| with(&right, at, word));
                for held in [0, P, u32::MAX] {
                    let call = Call {
                        width,
                        params: params.clone(),
                        output: long(&output, output_len),
                        input: vec![held; input_len],
                    };
                    let compared = call.compare(seen, &Log(false));
                    compared
                        .map_err(|difference| Difference(format!("{call:?}\n{}", difference.0)))?;
                }
            }
        }
    }
    Ok(())
}

/// The list with another word at a place, where it has that place.
fn with(list: &[u32], at: usize, word: u32) -> Vec<u32> {
    let mut list = list.to_vec();
    if let Some(place) = list.get_mut(at) {
        *place = word;
    }
    list
}

/// The list with so many words.
fn long(list: &[u32], len: usize) -> Vec<u32> {
    let mut list = list.to_vec();
    list.resize(len, 1);
    list
}

fn pairs<A: Copy, B: Copy>(one: &[A], other: &[B]) -> Vec<(A, B)> {
    let with = |a: &A| {
        let a = *a;
        other.iter().map(move |b| (a, *b))
    };
    one.iter().flat_map(with).collect()
}

/// Sheets with and without rounds and an inverse, and such sheets with something wrong.
fn bad_sheets(rng: &mut Rng, width: u32) -> Vec<Params> {
    let n = width as usize;
    let forms = [
        REGULAR[REGULAR.len() - 1],
        SINGULAR[0],
        SINGULAR[SINGULAR.len() - 1],
    ];
    let mut sheets = Vec::new();
    for (form, rounds) in pairs(&forms, &[0, 2, 129]) {
        let rows = if n == 0 { vec![] } else { form(rng, n) };
        let Params { words, .. } = sheets::sheet(rng, &rows, rounds, KINDS[0]);
        let last = words.len().saturating_sub(1);
        let others = [
            with(&words, 0, 2),
            with(&words, n + 1, u32::MAX),
            with(&words, 1, P),
            with(&words, last, P),
            with(&words, last, u32::MAX),
            long(&words, last),
            long(&words, last + 2),
            long(&words, 0),
        ];
        sheets.extend(others.map(|words| Params { rounds, words }));
        sheets.extend([rounds, rounds + 1, u32::MAX].map(|rounds| {
            let words = words.clone();
            Params { rounds, words }
        }));
    }
    sheets
}
