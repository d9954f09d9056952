//! The compiled sources at any width, words in and words out.
//!
//! Widths are types there, so each is made once by `at_width!` and used through a trait.
//! A call that panics answers `None`. Words handed in must be wires and units that the
//! sources can hold; `var` and `unit` say which ones are.

use std::{
    cell::Cell,
    hint::black_box,
    panic::{self, AssertUnwindSafe},
};

use circuit::{
    expr::{Sum, Weighted},
    parts, BabyBearUnit, FieldVar, InvalidRelation, LinearEquation, PermutationInstance,
    PermutationRelation, PermutationWitness, PermutationWitnessBuilder, QueryAnswerPair,
    VarAllocator,
};
use p3_baby_bear::BabyBear;
use p3_field::integers::QuotientMap;
use spongefish::Permutation;

pub use params::Params;

mod params;

/// Makes something of a width that is only known when the program runs.
macro_rules! at_width {
    ($width:expr, $W:ident => $made:expr) => {
        at_width!(@ $width, $W => $made;
            1 2 3 4 5 6 7 8 9 10 11 12 13 14 15 16 17 18 19 20 21 22 23 24)
    };
    (@ $width:expr, $W:ident => $made:expr; $($number:literal)*) => {
        match $width {
            $($number => {
                const $W: usize = $number;
                $made
            })*
            other => unreachable!("no width {other}"),
        }
    };
}

thread_local! {
    static CALLING: Cell<bool> = const { Cell::new(false) };
}

/// Keeps the sources' panics quiet; any other one is told as always.
pub fn silence_panics() {
    let told = panic::take_hook();
    panic::set_hook(Box::new(move |info| {
        if !CALLING.get() {
            told(info);
        }
    }));
}

/// Runs a call of the sources; `None` where it panics.
fn call<T>(body: impl FnOnce() -> T) -> Option<T> {
    CALLING.set(true);
    let answer = panic::catch_unwind(AssertUnwindSafe(body)).ok();
    CALLING.set(false);
    answer
}

/// The wire of this index, where the sources have one.
pub fn var(word: u32) -> Option<FieldVar> {
    FieldVar::try_from_index(word as usize)
}

/// The unit of this number, where it is one.
pub fn unit(word: u32) -> Option<BabyBearUnit> {
    BabyBear::from_canonical_checked(word).map(BabyBearUnit)
}

fn to_var(word: u32) -> FieldVar {
    var(word).expect("only wires are handed to the sources")
}

fn to_unit(word: u32) -> BabyBearUnit {
    unit(word).expect("only units are handed to the sources")
}

fn to_vars<const W: usize>(words: &[u32]) -> [FieldVar; W] {
    std::array::from_fn(|i| to_var(words[i]))
}

fn to_units<const W: usize>(words: &[u32]) -> [BabyBearUnit; W] {
    std::array::from_fn(|i| to_unit(words[i]))
}

fn word(unit: &BabyBearUnit) -> u32 {
    unit.as_canonical_u32()
}

fn index(var: &FieldVar) -> u32 {
    u32::try_from(var.index()).expect("a wire is below 2^30")
}

fn indices(vars: &[FieldVar]) -> Vec<u32> {
    vars.iter().map(index).collect()
}

fn public_words(publics: &[(FieldVar, BabyBearUnit)]) -> Vec<u32> {
    let pairs = publics.iter();
    pairs
        .flat_map(|(var, unit)| [index(var), word(unit)])
        .collect()
}

fn query_words<const W: usize>(queries: &[QueryAnswerPair<FieldVar, W>]) -> Vec<u32> {
    let cells = queries
        .iter()
        .flat_map(|query| query.input.iter().chain(&query.output));
    cells.map(index).collect()
}

fn step_words<const W: usize>(steps: &[QueryAnswerPair<BabyBearUnit, W>]) -> Vec<u32> {
    let cells = steps
        .iter()
        .flat_map(|step| step.input.iter().chain(&step.output));
    cells.map(word).collect()
}

fn equation_words(equations: &[LinearEquation<BabyBearUnit>]) -> Vec<u32> {
    let mut words = Vec::new();
    for equation in equations {
        let terms = equation.terms.terms();
        words.push(terms.len() as u32);
        for term in terms {
            words.extend([index(&term.var), word(&term.weight)]);
        }
        words.push(word(&equation.image));
    }
    words
}

fn weighted(terms: &[(u32, u32)]) -> impl Iterator<Item = Weighted<BabyBearUnit>> + '_ {
    let terms = terms.iter();
    terms.map(|&(var, weight)| to_var(var) * to_unit(weight))
}

/// Every term of a list multiplied by one factor.
pub fn scale(terms: &[(u32, u32)], factor: u32) -> Vec<(u32, u32)> {
    let scaled = weighted(terms).map(|term| term * to_unit(factor));
    scaled
        .map(|term| (index(&term.var), word(&term.weight)))
        .collect()
}

/// What an instance holds, as words.
#[derive(Clone, Debug, Default, PartialEq, Eq)]
pub struct Parts {
    pub label: String,
    pub vars_count: u32,
    pub publics: Vec<u32>,
    pub queries: Vec<u32>,
    pub equations: Vec<(Vec<(u32, u32)>, u32)>,
}

impl Parts {
    /// The equations as they lie in a store.
    pub fn equation_words(&self) -> Vec<u32> {
        let mut words = Vec::new();
        for (terms, image) in &self.equations {
            words.push(terms.len() as u32);
            words.extend(terms.iter().flat_map(|&(var, weight)| [var, weight]));
            words.push(*image);
        }
        words
    }
}

/// A call whose arguments are in the sources' types already, so that a clock sees nothing
/// but the call. Relations and builders are handles, of which it keeps one.
pub type Ready<'a, T> = Box<dyn Fn() -> T + 'a>;

/// An item of a relation by its number, from 0.
#[derive(Clone, Copy, Debug, PartialEq, Eq)]
pub enum Item {
    Query(u32),
    Equation(u32),
}

pub trait Relation {
    fn vars_count(&self) -> u32;
    /// A word per wire, F where it is unassigned.
    fn slots(&self) -> Vec<u32>;
    fn queries(&self) -> Vec<u32>;
    fn equations(&self) -> Vec<u32>;
    fn allocate_vars(&self, count: u32) -> Option<Vec<u32>>;
    fn allocate_vars_with(&self, values: &[u32]) -> Option<Vec<u32>>;
    fn set_var(&self, var: u32, value: u32) -> Option<()>;
    fn set_vars(&self, vars: &[u32], values: &[u32]) -> Option<()> {
        self.ready_set_vars(vars, values)()
    }
    fn ready_set_vars(&self, vars: &[u32], values: &[u32]) -> Ready<'static, Option<()>>;
    /// A call for each wire, set or query, one after the other, and so for each equation, whose
    /// sums are put together before.
    fn ready_allocations(&self, count: usize) -> Ready<'static, ()>;
    fn ready_sets(&self, vars: &[u32], values: &[u32]) -> Ready<'static, ()>;
    fn ready_mints(&self, inputs: &[u32]) -> Ready<'static, ()>;
    fn ready_equations(&self, equations: &[(Vec<(u32, u32)>, u32)]) -> Ready<'static, ()>;
    fn add_permutation(&self, input: &[u32], output: &[u32]);
    /// `spelling` chooses among the three names that the sources have for this.
    fn allocate_permutation(&self, input: &[u32], spelling: usize) -> Option<Vec<u32>>;
    /// `spelling` chooses how the sum is put together.
    fn add_equation(&self, terms: &[(u32, u32)], image: u32, spelling: usize);
    fn value(&self, var: u32) -> Option<u32>;
    fn is_allocated(&self, var: u32) -> bool;
    fn compile(&self) -> Result<Box<dyn Instance>, String>;
    /// A relation built afresh of what remains without this item: the sources have no call that
    /// withdraws it. It shares the allocator of this one or, where it stands alone, has a new one
    /// with as many wires and the same values. `None` where there is no such item.
    fn without(&self, item: Item, alone: bool) -> Option<Box<dyn Relation>>;
}

pub trait Instance {
    fn parts(&self) -> Parts;
    fn to_bytes(&self) -> Vec<u8>;
    fn value(&self, var: u32) -> Option<u32>;
    fn is_witness_valid(&self, params: &Params, trace: &[u32]) -> bool {
        self.ready_check(params, trace)()
    }
    fn ready_check<'a>(&'a self, params: &'a Params, trace: &[u32]) -> Ready<'a, bool>;
}

pub trait Witness {
    fn trace(&self) -> Vec<u32>;
    fn to_bytes(&self) -> Vec<u8>;
}

pub trait Builder {
    fn allocate_permutation(&self, input: &[u32]) -> Vec<u32>;
    /// A step for each of these inputs, one after the other.
    fn ready_steps(&self, inputs: &[u32]) -> Ready<'static, ()>;
    fn add_permutation(&self, input: &[u32], output: &[u32]);
    fn trace(&self) -> Vec<u32>;
    fn to_bytes(&self) -> Vec<u8>;
}

/// A new relation.
pub fn relation(width: u32, label: &str) -> Box<dyn Relation> {
    at_width!(width, W => Box::new(PermutationRelation::<BabyBearUnit, W>::labeled(label)))
}

/// An allocator for relations of any widths.
#[derive(Default)]
pub struct Allocator(VarAllocator<BabyBearUnit>);

/// A relation on this allocator. It has no label.
pub fn with_allocator(width: u32, allocator: &Allocator) -> Box<dyn Relation> {
    let allocator = allocator.0.clone();
    at_width!(width, W => Box::new(PermutationRelation::<BabyBearUnit, W>::with_allocator(allocator)))
}

/// An instance of these parts that no gate has seen.
pub fn ungated(width: u32, parts: &Parts) -> Box<dyn Instance> {
    at_width!(width, W => Box::new(instance_of::<W>(parts)))
}

pub fn instance_from_bytes(width: u32, bytes: &[u8]) -> Result<Box<dyn Instance>, String> {
    at_width!(width, W => match PermutationInstance::<BabyBearUnit, W>::from_bytes(bytes) {
        Ok(instance) => Ok(Box::new(instance)),
        Err(error) => Err(message(&error)),
    })
}

pub fn witness_from_bytes(width: u32, bytes: &[u8]) -> Result<Box<dyn Witness>, String> {
    at_width!(width, W => match PermutationWitness::<BabyBearUnit, W>::from_bytes(bytes) {
        Ok(witness) => Ok(Box::new(witness)),
        Err(error) => Err(message(&error)),
    })
}

pub fn builder(width: u32, params: &Params) -> Box<dyn Builder> {
    at_width!(width, W => Box::new(PermutationWitnessBuilder::<Params, W>::new(params.clone())))
}

fn message(error: &InvalidRelation) -> String {
    error.message().to_owned()
}

/// The numbers that a message of the sources stands for; "unit value" covers two.
pub fn numbers(message: &str) -> &'static [u32] {
    let Some(malformed) = message.strip_prefix("malformed encoding: ") else {
        return match () {
            () if message.starts_with("public variable") => &[12],
            () if message.starts_with("query") => &[13],
            () if message.contains("references unallocated") => &[14],
            () if message.contains("weights variable") => &[15],
            () => &[],
        };
    };
    match malformed {
        "magic" | "version" | "width" | "unit length" | "label length" | "label"
        | "variable count" | "public count" | "query count" | "equation count" | "term count"
        | "step count" | "wire index" => &[20],
        "wrong magic" => &[21],
        "unsupported version" => &[22],
        "width does not match the type" => &[23],
        "unit length does not match the type" => &[24],
        "label is not UTF-8" => &[25],
        "wire index out of range" => &[3],
        "unit value" => &[20, 4],
        "public wires must be strictly increasing" => &[27],
        "trailing bytes" => &[28],
        _ => &[],
    }
}

impl<const W: usize> Relation for PermutationRelation<BabyBearUnit, W> {
    fn vars_count(&self) -> u32 {
        self.allocator().vars_count() as u32
    }

    fn slots(&self) -> Vec<u32> {
        let mut slots = vec![u32::MAX; self.allocator().vars_count()];
        for (var, value) in self.public_vars() {
            slots[var.index()] = word(&value);
        }
        slots
    }

    fn queries(&self) -> Vec<u32> {
        query_words(&self.queries())
    }

    fn equations(&self) -> Vec<u32> {
        equation_words(&self.equations())
    }

    fn allocate_vars(&self, count: u32) -> Option<Vec<u32>> {
        let vars = call(|| match count {
            1 => vec![self.allocate_var()],
            _ => self.allocate_vars_vec(count as usize),
        });
        vars.map(|vars| indices(&vars))
    }

    fn allocate_vars_with(&self, values: &[u32]) -> Option<Vec<u32>> {
        let values: Vec<BabyBearUnit> = values.iter().copied().map(to_unit).collect();
        let vars = call(|| match values[..] {
            [value] => vec![self.allocate_var_with(value)],
            _ => self.allocate_vars_vec_with(&values),
        });
        vars.map(|vars| indices(&vars))
    }

    fn set_var(&self, var: u32, value: u32) -> Option<()> {
        call(|| self.set_var(to_var(var), to_unit(value)))
    }

    fn ready_set_vars(&self, vars: &[u32], values: &[u32]) -> Ready<'static, Option<()>> {
        let relation = self.clone();
        let vars: Vec<FieldVar> = vars.iter().copied().map(to_var).collect();
        let values: Vec<BabyBearUnit> = values.iter().copied().map(to_unit).collect();
        Box::new(move || call(|| relation.set_vars(&vars, &values)))
    }

    fn ready_allocations(&self, count: usize) -> Ready<'static, ()> {
        let relation = self.clone();
        Box::new(move || {
            for _ in 0..count {
                black_box(relation.allocate_var());
            }
        })
    }

    fn ready_sets(&self, vars: &[u32], values: &[u32]) -> Ready<'static, ()> {
        let relation = self.clone();
        let pairs: Vec<(FieldVar, BabyBearUnit)> = vars
            .iter()
            .zip(values)
            .map(|(&var, &value)| (to_var(var), to_unit(value)))
            .collect();
        Box::new(move || {
            for (var, value) in &pairs {
                relation.set_var(*var, *value);
            }
        })
    }

    fn ready_mints(&self, inputs: &[u32]) -> Ready<'static, ()> {
        let relation = self.clone();
        let inputs: Vec<[FieldVar; W]> = inputs.chunks(W).map(to_vars).collect();
        Box::new(move || {
            for input in &inputs {
                black_box(relation.allocate_permutation(input));
            }
        })
    }

    fn ready_equations(&self, equations: &[(Vec<(u32, u32)>, u32)]) -> Ready<'static, ()> {
        let relation = self.clone();
        let sums: Vec<(Sum<_>, BabyBearUnit)> = equations
            .iter()
            .map(|(terms, image)| (weighted(terms).collect(), to_unit(*image)))
            .collect();
        // A call keeps the sum that it is given: each has one of its own.
        Box::new(move || {
            for (sum, image) in &sums {
                relation.add_equation(sum.clone(), *image);
            }
        })
    }

    fn add_permutation(&self, input: &[u32], output: &[u32]) {
        self.add_permutation(to_vars(input), to_vars(output));
    }

    fn allocate_permutation(&self, input: &[u32], spelling: usize) -> Option<Vec<u32>> {
        let mut state = to_vars::<W>(input);
        let output = call(|| match spelling {
            0 => self.allocate_permutation(&state),
            1 => self.permute(&state),
            _ => {
                self.permute_mut(&mut state);
                state
            }
        });
        output.map(|output| indices(&output))
    }

    fn add_equation(&self, terms: &[(u32, u32)], image: u32, spelling: usize) {
        let image = to_unit(image);
        match spelling {
            0 => self.add_equation(weighted(terms).collect::<Sum<_>>(), image),
            1 => self.add_equation(weighted(terms).sum::<Sum<_>>(), image),
            _ => {
                // A bare wire has the weight one.
                let sum = terms.iter().fold(Sum::default(), |sum, &(var, weight)| {
                    if weight == 1 {
                        sum + to_var(var)
                    } else {
                        sum + to_var(var) * to_unit(weight)
                    }
                });
                self.add_equation(sum, image);
            }
        }
    }

    fn value(&self, var: u32) -> Option<u32> {
        self.allocator()
            .value(to_var(var))
            .map(|value| word(&value))
    }

    fn is_allocated(&self, var: u32) -> bool {
        self.allocator().is_allocated(to_var(var))
    }

    fn compile(&self) -> Result<Box<dyn Instance>, String> {
        match self.compile() {
            Ok(instance) => Ok(Box::new(instance)),
            Err(error) => Err(message(&error)),
        }
    }

    fn without(&self, item: Item, alone: bool) -> Option<Box<dyn Relation>> {
        let (mut queries, mut equations) = (self.queries(), self.equations());
        match item {
            Item::Query(i) if (i as usize) < queries.len() => drop(queries.remove(i as usize)),
            Item::Equation(i) if (i as usize) < equations.len() => {
                drop(equations.remove(i as usize));
            }
            _ => return None,
        }
        let afresh = call(|| {
            let afresh = if alone {
                let afresh = Self::labeled(self.label());
                afresh.allocate_vars_vec(self.allocator().vars_count() - 1);
                for (var, value) in self.public_vars() {
                    afresh.set_var(var, value);
                }
                afresh
            } else {
                Self::with_allocator(self.allocator().clone())
            };
            for query in queries {
                afresh.add_permutation(query.input, query.output);
            }
            for equation in equations {
                afresh.add_equation(equation.terms, equation.image);
            }
            afresh
        })?;
        Some(Box::new(afresh))
    }
}

fn instance_of<const W: usize>(parts: &Parts) -> PermutationInstance<BabyBearUnit, W> {
    let publics = parts.publics.chunks(2);
    let queries = parts.queries.chunks(2 * W);
    let equations = parts.equations.iter();
    parts::ungated(
        parts.label.clone(),
        parts.vars_count as usize,
        publics
            .map(|pair| (to_var(pair[0]), to_unit(pair[1])))
            .collect(),
        queries
            .map(|cells| QueryAnswerPair::new(to_vars(&cells[..W]), to_vars(&cells[W..])))
            .collect(),
        equations
            .map(|(terms, image)| {
                LinearEquation::new(weighted(terms).collect::<Sum<_>>(), to_unit(*image))
            })
            .collect(),
    )
}

impl<const W: usize> Instance for PermutationInstance<BabyBearUnit, W> {
    fn parts(&self) -> Parts {
        let terms = |equation: &LinearEquation<BabyBearUnit>| {
            let terms = equation.terms.terms().iter();
            terms
                .map(|term| (index(&term.var), word(&term.weight)))
                .collect()
        };
        Parts {
            label: self.label().to_owned(),
            vars_count: self.vars_count() as u32,
            publics: public_words(self.public_vars()),
            queries: query_words(self.queries()),
            equations: self
                .equations()
                .iter()
                .map(|equation| (terms(equation), word(&equation.image)))
                .collect(),
        }
    }

    fn to_bytes(&self) -> Vec<u8> {
        self.to_bytes()
    }

    fn value(&self, var: u32) -> Option<u32> {
        self.value(to_var(var)).map(word)
    }

    fn ready_check<'a>(&'a self, params: &'a Params, trace: &[u32]) -> Ready<'a, bool> {
        let builder = PermutationWitnessBuilder::<Params, W>::new(params.clone());
        for step in trace.chunks(2 * W) {
            builder.add_permutation(&to_units(&step[..W]), &to_units(&step[W..]));
        }
        let witness = builder.snapshot();
        Box::new(move || self.is_witness_valid(params, &witness))
    }
}

impl<const W: usize> Witness for PermutationWitness<BabyBearUnit, W> {
    fn trace(&self) -> Vec<u32> {
        step_words(self.trace())
    }

    fn to_bytes(&self) -> Vec<u8> {
        self.to_bytes()
    }
}

impl<const W: usize> Builder for PermutationWitnessBuilder<Params, W> {
    fn allocate_permutation(&self, input: &[u32]) -> Vec<u32> {
        let output = self.allocate_permutation(&to_units(input));
        output.iter().map(word).collect()
    }

    fn ready_steps(&self, inputs: &[u32]) -> Ready<'static, ()> {
        let builder = self.clone();
        let inputs: Vec<[BabyBearUnit; W]> = inputs.chunks(W).map(to_units).collect();
        Box::new(move || {
            for input in &inputs {
                black_box(builder.allocate_permutation(input));
            }
        })
    }

    fn add_permutation(&self, input: &[u32], output: &[u32]) {
        self.add_permutation(&to_units(input), &to_units(output));
    }

    fn trace(&self) -> Vec<u32> {
        step_words(&self.trace())
    }

    fn to_bytes(&self) -> Vec<u8> {
        self.snapshot().to_bytes()
    }
}
