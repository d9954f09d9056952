//! What stores hold, decoded from their words into lists, and back.

use crate::{
    questions::{
        are_units, are_vars, ask, equations_fit, fits, is_label_size, is_store, is_unit, is_var,
        Asked,
    },
    utf8::is_utf8,
    Instance, Weighted,
};

/// An equation as a list of terms and an image.
#[derive(Clone, Debug, Default, PartialEq, Eq)]
pub struct Equation {
    pub terms: Vec<Weighted>,
    pub image: u32,
}

/// What an instance holds besides its width, label and wire count.
#[derive(Clone, Debug, Default, PartialEq, Eq)]
pub struct Parts {
    /// Wires with their units.
    pub publics: Vec<(u32, u32)>,
    /// Cells, inputs then outputs.
    pub queries: Vec<Vec<u32>>,
    pub equations: Vec<Equation>,
}

impl Parts {
    pub fn public_words(&self) -> Vec<u32> {
        let pairs = self.publics.iter();
        pairs.flat_map(|&(var, unit)| [var, unit]).collect()
    }

    pub fn query_words(&self) -> Vec<u32> {
        self.queries.concat()
    }

    pub fn equation_words(&self) -> Vec<u32> {
        self.equations.iter().flat_map(equation_words).collect()
    }
}

fn equation_words(equation: &Equation) -> Vec<u32> {
    let mut words = vec![equation.terms.len() as u32];
    for term in &equation.terms {
        words.extend([term.var, term.weight]);
    }
    words.push(equation.image);
    words
}

/// Pairs from the first `2 * count` words.
pub fn pairs(count: u32, words: &[u32]) -> Vec<(u32, u32)> {
    let held = &words[..2 * count as usize];
    held.chunks(2).map(|pair| (pair[0], pair[1])).collect()
}

/// Groups of `2 * width` words, `count` of them.
pub fn groups(width: u32, count: u32, words: &[u32]) -> Vec<Vec<u32>> {
    let size = 2 * width as usize;
    let held = &words[..size * count as usize];
    held.chunks(size).map(<[u32]>::to_vec).collect()
}

/// Exactly `count` equations that together take up all of `words`.
pub fn equations(count: u32, words: &[u32]) -> Option<Vec<Equation>> {
    let mut rest = words;
    let mut equations = Vec::new();
    for _ in 0..count {
        let (&terms, after) = rest.split_first()?;
        let (terms, after) = after.split_at_checked(2 * terms as usize)?;
        let (&image, after) = after.split_first()?;
        let terms = terms.chunks(2).map(|term| Weighted {
            var: term[0],
            weight: term[1],
        });
        equations.push(Equation {
            terms: terms.collect(),
            image,
        });
        rest = after;
    }
    rest.is_empty().then_some(equations)
}

/// 2 of a call that is handed an instance's record and its stores. Its wire count may be
/// any word: only a relation's is bounded.
pub fn ask_sizes(
    ins: &Instance,
    label: &[u8],
    publics: &[u32],
    queries: &[u32],
    equations: &[u32],
) -> Asked {
    ask(2, is_store(publics) && is_store(queries))?;
    ask(2, is_store(equations) && is_label_size(label))?;
    ask(2, fits(ins.publics, 2, publics))?;
    ask(2, fits(ins.queries, 2 * ins.width, queries))?;
    ask(2, equations_fit(ins.equations, ins.words, equations))
}

/// 11, put to queries, equations and label: the decoded lists where it says yes. Stores
/// fit what is counted, by question 2.
pub fn ask_held(
    ins: &Instance,
    label: &[u8],
    queries: &[u32],
    equation_words: &[u32],
) -> Result<Parts, u32> {
    let used = &equation_words[..ins.words as usize];
    let equations = equations(ins.equations, used).ok_or(11u32)?;
    for equation in &equations {
        let terms = &equation.terms;
        ask(11, terms.iter().all(|term| is_var(term.var)))?;
        ask(11, terms.iter().all(|term| is_unit(term.weight)))?;
        ask(11, is_unit(equation.image))?;
    }
    let queries = groups(ins.width, ins.queries, queries);
    ask(11, queries.iter().all(|query| are_vars(query)))?;
    ask(11, is_utf8(label))?;
    Ok(Parts {
        publics: Vec::new(),
        queries,
        equations,
    })
}

/// 11, put to publics: the pairs where it says yes.
pub fn ask_publics(ins: &Instance, publics: &[u32]) -> Result<Vec<(u32, u32)>, u32> {
    let pairs = pairs(ins.publics, publics);
    let sound = |&(var, unit): &(u32, u32)| is_var(var) && is_unit(unit);
    ask(11, pairs.iter().all(sound))?;
    Ok(pairs)
}

/// 11, put to a trace: the steps where it says yes.
pub fn ask_trace(width: u32, steps: u32, trace: &[u32]) -> Result<Vec<Vec<u32>>, u32> {
    let steps = groups(width, steps, trace);
    ask(11, steps.iter().all(|step| are_units(step)))?;
    Ok(steps)
}
