//! Plays calls and tells what is seen. This text is compiled twice: `build.rs` replaces the module's name below.

use std::{any::Any, cell::Cell};

use sfr::circuit::{
    expr::{Sum, Weighted},
    p3_baby_bear::BabyBear,
    p3_field::integers::QuotientMap,
    spongefish::Permutation,
    BabyBearUnit, FieldVar, InvalidRelation, LinearEquation, OwnedParameters, PermutationInstance,
    PermutationRelation, PermutationWitness, PermutationWitnessBuilder, QueryAnswerPair,
    VarAllocator,
};

use crate::calls::*;

fn unit(number: u32) -> BabyBearUnit {
    BabyBearUnit::from(<BabyBear as QuotientMap<u32>>::from_int(number))
}

fn var(index: u32) -> FieldVar {
    FieldVar::try_from_index(index as usize).expect("only wires are handed over")
}

fn units(numbers: &[u32]) -> Vec<BabyBearUnit> {
    numbers.iter().copied().map(unit).collect()
}

fn vars(indices: &[u32]) -> Vec<FieldVar> {
    indices.iter().copied().map(var).collect()
}

fn array<T, const N: usize>(list: Vec<T>) -> [T; N] {
    list.try_into().ok().expect("the list is as long as that")
}

fn index(var: &FieldVar) -> u32 {
    var.index() as u32
}

fn number(unit: &BabyBearUnit) -> u32 {
    unit.as_canonical_u32()
}

fn pairs(publics: &[(FieldVar, BabyBearUnit)]) -> Vec<(u32, u32)> {
    let publics = publics.iter();
    publics.map(|(v, u)| (index(v), number(u))).collect()
}

fn cells<U, const W: usize>(
    list: &[QueryAnswerPair<U, W>],
    word: impl Fn(&U) -> u32,
) -> Vec<Vec<u32>> {
    let cells =
        |pair: &QueryAnswerPair<U, W>| pair.input.iter().chain(&pair.output).map(&word).collect();
    list.iter().map(cells).collect()
}

fn equations(list: &[LinearEquation<BabyBearUnit>]) -> Vec<SeenEquation> {
    list.iter()
        .map(|equation| (terms(&equation.terms), number(&equation.image)))
        .collect()
}

fn terms(sum: &Sum<BabyBearUnit>) -> Vec<(u32, u32)> {
    let terms = sum.terms().iter();
    terms
        .map(|term| (index(&term.var), number(&term.weight)))
        .collect()
}

/// The sum that an expression is.
fn sum(expression: &Expression) -> Sum<BabyBearUnit> {
    let list = &expression.terms;
    let weighted = || list.iter().map(|&(v, w)| var(v) * unit(w));
    let bare = || list.iter().map(|&(v, _)| var(v));
    let scaled = || weighted().map(|term| term * unit(expression.factor));
    let (Some(&(v, w)), rest) = (list.first(), || weighted().skip(1)) else {
        return Sum::default();
    };
    let rest_sum = || rest().collect::<Sum<BabyBearUnit>>();
    match expression.shape {
        0 => weighted().collect(),
        1 => rest().fold(Sum::from(var(v) * unit(w)), |sum, term| sum + term),
        2 => rest().fold(Sum::from(var(v)), |sum, term| sum + term),
        3 => bare()
            .skip(1)
            .fold(Sum::from(var(v) * unit(w)), |sum, v| sum + v),
        4 => weighted().sum(),
        5 => scaled().collect(),
        6 => bare().collect(),
        7 => bare().sum(),
        8 => var(v) + rest_sum(),
        9 => var(v) + var(v) * unit(w),
        10 => var(v) * unit(w) + rest_sum() + scaled().sum::<Sum<BabyBearUnit>>(),
        11 => var(v).into(),
        _ => Weighted::from(var(v)) + var(v),
    }
}

/// The terms that an expression has.
pub fn terms_of(expression: &Expression) -> Vec<(u32, u32)> {
    terms(&sum(expression))
}

/// A permutation of the user's own.
#[derive(Clone)]
struct Own(u32);

impl<const W: usize> Permutation<W> for Own {
    type U = BabyBearUnit;

    fn permute(&self, state: &[BabyBearUnit; W]) -> [BabyBearUnit; W] {
        let mut state = *state;
        for round in 0..2 {
            for i in 0..W {
                let next = state[(i + 1) % W];
                state[i] = state[i] * state[i] + next * unit(self.0) + unit(round + i as u32);
            }
        }
        state
    }
}

/// A permutation by parameters that doesn't tell them.
#[derive(Clone)]
struct Hidden<const W: usize>(OwnedParameters<W>);

impl<const W: usize> Permutation<W> for Hidden<W> {
    type U = BabyBearUnit;

    fn permute(&self, state: &[BabyBearUnit; W]) -> [BabyBearUnit; W] {
        self.0.permute(state)
    }
}

fn params<const W: usize>(rounds: u32, words: &[u32]) -> OwnedParameters<W> {
    OwnedParameters::new(rounds, words).expect("the words are parameters")
}

/// Does something with the permutation of a kind, whose types differ.
macro_rules! with_kind {
    ($kind:expr, $W:ident, $permutation:ident => $made:expr) => {
        match $kind {
            Kind::Own(number) => {
                let $permutation = Own(*number);
                $made
            }
            Kind::Recording(number) => {
                let $permutation = PermutationWitnessBuilder::<_, $W>::new(Own(*number));
                $made
            }
            Kind::Parameters(rounds, words) => {
                let $permutation = params::<$W>(*rounds, words);
                $made
            }
            Kind::Hidden(rounds, words) => {
                let $permutation = Hidden(params::<$W>(*rounds, words));
                $made
            }
        }
    };
}

/// What a permutation makes of a state.
pub fn permute(width: usize, kind: &Kind, state: &[u32]) -> Vec<u32> {
    at_width!(width, W => with_kind!(kind, W, permutation => {
        let state: [BabyBearUnit; W] = array(units(state));
        permutation.permute(&state).iter().map(number).collect()
    }))
}

/// What the set lists took of what they were handed.
#[derive(Default)]
struct Taken {
    vars: Cell<usize>,
    values: Cell<usize>,
}

fn wires(list: &[FieldVar]) -> Answer {
    Answer::Wires(list.iter().map(index).collect())
}

/// A call on the wires of a handle, whose types differ; arrays are of this length.
macro_rules! on_wires {
    ($on:expr, $call:expr, $taken:expr, $N:ident) => {{
        let on = $on;
        match $call {
            Wires::One => wires(&[on.allocate_var()]),
            Wires::Array(_) => wires(&on.allocate_vars::<$N>()),
            Wires::List(n) => wires(&on.allocate_vars_vec(*n)),
            Wires::OneWith(value) => wires(&[on.allocate_var_with(unit(*value))]),
            Wires::ArrayWith(values) => wires(&on.allocate_vars_with::<$N>(&array(units(values)))),
            Wires::ListWith(values) => wires(&on.allocate_vars_vec_with(&units(values))),
            Wires::Set(v, value) => {
                on.set_var(var(*v), unit(*value));
                Answer::Done
            }
            Wires::SetList(list, values, way) => {
                let (list, values) = (vars(list), units(values));
                match way {
                    0 => on.set_vars(list, values),
                    1 => on.set_vars(&list, &values),
                    2 => on.set_vars(
                        counted(&list, &$taken.vars),
                        counted(&values, &$taken.values),
                    ),
                    // The wires come from a list that allocates one each time that it is asked.
                    _ => {
                        let allocate = || {
                            on.allocate_var();
                        };
                        on.set_vars(calling(&list, &allocate), &values);
                    }
                }
                Answer::Done
            }
        }
    }};
}

/// A list that counts what is taken of it.
fn counted<'a, T>(list: &'a [T], counter: &'a Cell<usize>) -> impl Iterator<Item = &'a T> {
    list.iter().inspect(|_| counter.set(counter.get() + 1))
}

/// A list that calls something whenever something is taken of it.
fn calling<'a, T>(list: &'a [T], call: &'a dyn Fn()) -> impl Iterator<Item = &'a T> {
    list.iter().inspect(|_| call())
}

/// A relation of whatever width.
trait AnyRelation {
    fn allocator(&self) -> &VarAllocator<BabyBearUnit>;
    fn another(&self) -> Box<dyn AnyRelation>;
    fn wires(&self, call: &Wires, taken: &Taken) -> Answer;
    fn query(&self, call: &Evaluation) -> Answer;
    fn add_equation(&self, expression: &Expression, image: BabyBearUnit);
    fn seen(&self, asked: &[u32]) -> SeenRelation;
    fn compile(&self) -> Result<Box<dyn AnyInstance>, InvalidRelation>;
}

impl<const W: usize> AnyRelation for PermutationRelation<BabyBearUnit, W> {
    fn allocator(&self) -> &VarAllocator<BabyBearUnit> {
        self.allocator()
    }

    fn another(&self) -> Box<dyn AnyRelation> {
        Box::new(self.clone())
    }

    fn wires(&self, call: &Wires, taken: &Taken) -> Answer {
        on_wires!(self, call, taken, W)
    }

    fn query(&self, call: &Evaluation) -> Answer {
        let output = match call {
            Evaluation::Allocate(input) => self.allocate_permutation(&array(vars(input))),
            Evaluation::Permute(input) => self.permute(&array(vars(input))),
            Evaluation::PermuteMut(input) => {
                let mut state = array(vars(input));
                self.permute_mut(&mut state);
                state
            }
            Evaluation::Add(input, output) => {
                self.add_permutation(array(vars(input)), array(vars(output)));
                return Answer::Done;
            }
        };
        Answer::Wires(output.iter().map(index).collect())
    }

    fn add_equation(&self, expression: &Expression, image: BabyBearUnit) {
        let terms = &expression.terms;
        match (expression.shape, terms.first()) {
            // These two are handed over as they are.
            (11, Some(&(v, _))) => self.add_equation(var(v), image),
            (1, Some(&(v, w))) if terms.len() == 1 => self.add_equation(var(v) * unit(w), image),
            _ => self.add_equation(sum(expression), image),
        }
    }

    fn seen(&self, asked: &[u32]) -> SeenRelation {
        SeenRelation {
            label: self.label().to_string(),
            allocator: seen_allocator(self.allocator(), asked),
            publics: pairs(&self.public_vars()),
            queries: cells(&self.queries(), index),
            equations: equations(&self.equations()),
        }
    }

    fn compile(&self) -> Result<Box<dyn AnyInstance>, InvalidRelation> {
        let instance = self.compile()?;
        Ok(Box::new(instance))
    }
}

fn seen_allocator(allocator: &VarAllocator<BabyBearUnit>, asked: &[u32]) -> SeenAllocator {
    let ask = |&v: &u32| {
        let value = allocator.value(var(v));
        (value.as_ref().map(number), allocator.is_allocated(var(v)))
    };
    SeenAllocator {
        count: allocator.vars_count(),
        publics: pairs(&allocator.public_vars()),
        asked: asked.iter().map(ask).collect(),
    }
}

/// A builder of whatever width, over whatever permutation.
trait AnyBuilder {
    fn another(&self) -> Box<dyn AnyBuilder>;
    fn step(&self, call: &Evaluation) -> Answer;
    fn trace(&self) -> Vec<Vec<u32>>;
    fn snapshot(&self) -> Box<dyn AnyWitness>;
}

impl<P, const W: usize> AnyBuilder for PermutationWitnessBuilder<P, W>
where
    P: Permutation<W, U = BabyBearUnit> + 'static,
{
    fn another(&self) -> Box<dyn AnyBuilder> {
        Box::new(self.clone())
    }

    fn step(&self, call: &Evaluation) -> Answer {
        let output = match call {
            Evaluation::Allocate(input) => self.allocate_permutation(&array(units(input))),
            Evaluation::Permute(input) => self.permute(&array(units(input))),
            Evaluation::PermuteMut(input) => {
                let mut state = array(units(input));
                self.permute_mut(&mut state);
                state
            }
            Evaluation::Add(input, output) => {
                self.add_permutation(&array(units(input)), &array(units(output)));
                return Answer::Done;
            }
        };
        Answer::Units(output.iter().map(number).collect())
    }

    fn trace(&self) -> Vec<Vec<u32>> {
        cells(&self.trace(), number)
    }

    fn snapshot(&self) -> Box<dyn AnyWitness> {
        Box::new(self.snapshot())
    }
}

/// An instance of whatever width.
trait AnyInstance {
    fn any(&self) -> &dyn Any;
    fn equals(&self, other: &dyn AnyInstance) -> bool;
    fn seen(&self, asked: &[u32]) -> SeenInstance;
    fn check(&self, witness: &dyn AnyWitness, kind: &Kind) -> bool;
}

impl<const W: usize> AnyInstance for PermutationInstance<BabyBearUnit, W> {
    fn any(&self) -> &dyn Any {
        self
    }

    fn equals(&self, other: &dyn AnyInstance) -> bool {
        other.any().downcast_ref() == Some(self)
    }

    fn seen(&self, asked: &[u32]) -> SeenInstance {
        let few = 0..self.vars_count().min(64) as u32 + 2;
        let wires = few.chain(asked.iter().copied());
        SeenInstance {
            label: self.label().to_string(),
            count: self.vars_count(),
            publics: pairs(self.public_vars()),
            queries: cells(self.queries(), index),
            equations: equations(self.equations()),
            bytes: self.to_bytes(),
            values: wires.map(|v| self.value(var(v)).map(number)).collect(),
        }
    }

    fn check(&self, witness: &dyn AnyWitness, kind: &Kind) -> bool {
        let witness = witness.any().downcast_ref();
        let witness = witness.expect("the witness has the instance's width");
        with_kind!(kind, W, permutation => self.is_witness_valid(&permutation, witness))
    }
}

/// A witness of whatever width.
trait AnyWitness {
    fn any(&self) -> &dyn Any;
    fn equals(&self, other: &dyn AnyWitness) -> bool;
    fn seen(&self) -> SeenWitness;
}

impl<const W: usize> AnyWitness for PermutationWitness<BabyBearUnit, W> {
    fn any(&self) -> &dyn Any {
        self
    }

    fn equals(&self, other: &dyn AnyWitness) -> bool {
        other.any().downcast_ref() == Some(self)
    }

    fn seen(&self) -> SeenWitness {
        SeenWitness {
            steps: cells(self.trace(), number),
            bytes: self.to_bytes(),
        }
    }
}

/// One side, with its handles and what it made of them.
#[derive(Default)]
pub struct Player {
    allocators: Vec<VarAllocator<BabyBearUnit>>,
    relations: Vec<Box<dyn AnyRelation>>,
    builders: Vec<Box<dyn AnyBuilder>>,
    instances: Vec<Box<dyn AnyInstance>>,
    witnesses: Vec<Box<dyn AnyWitness>>,
    taken: Taken,
}

impl Player {
    /// Plays a call; of some wires is seen what their values are.
    pub fn play(&mut self, call: &Call, asked: &[u32]) -> Answer {
        self.taken = Taken::default();
        match call {
            Call::Wires(On::Allocator(i), call) => {
                let n = match call {
                    Wires::Array(n) => *n,
                    Wires::ArrayWith(values) => values.len(),
                    _ => 0,
                };
                at_length!(n, N => on_wires!(&self.allocators[*i], call, self.taken, N))
            }
            Call::Wires(On::Relation(i), call) => self.relations[*i].wires(call, &self.taken),
            Call::Query(i, call) => self.relations[*i].query(call),
            Call::Equation(i, expression, image) => {
                self.relations[*i].add_equation(expression, unit(*image));
                Answer::Done
            }
            Call::Step(i, call) => self.builders[*i].step(call),
            Call::Check(i, j, kind) => {
                let valid = self.instances[*i].check(&*self.witnesses[*j], kind);
                Answer::Yes(vec![valid])
            }
            Call::Same([i, j], [k, l]) => Answer::Yes(vec![
                self.instances[*i].equals(&*self.instances[*j]),
                self.witnesses[*k].equals(&*self.witnesses[*l]),
            ]),
            Call::Compile(_)
            | Call::ReadInstance(..)
            | Call::Snapshot(_)
            | Call::ReadWitness(..) => self.make(call, asked),
            _ => self.open(call),
        }
    }

    /// A call that makes an instance or a witness.
    fn make(&mut self, call: &Call, asked: &[u32]) -> Answer {
        match call {
            Call::Compile(i) => {
                let compiled = self.relations[*i].compile();
                self.keep(compiled, asked)
            }
            Call::ReadInstance(width, bytes) => {
                let read = at_width!(*width, W => {
                    PermutationInstance::<BabyBearUnit, W>::from_bytes(bytes)
                        .map(|instance| Box::new(instance) as Box<dyn AnyInstance>)
                });
                self.keep(read, asked)
            }
            Call::Snapshot(i) => {
                let witness = self.builders[*i].snapshot();
                self.keep_witness(Ok(witness))
            }
            Call::ReadWitness(width, bytes) => {
                let read = at_width!(*width, W => {
                    PermutationWitness::<BabyBearUnit, W>::from_bytes(bytes)
                        .map(|witness| Box::new(witness) as Box<dyn AnyWitness>)
                });
                self.keep_witness(read)
            }
            other => unreachable!("{other:?} is played elsewhere"),
        }
    }

    /// A call that makes a handle.
    fn open(&mut self, call: &Call) -> Answer {
        match call {
            Call::NewAllocator => self.allocators.push(VarAllocator::default()),
            Call::CloneAllocator(i) => self.allocators.push(self.allocators[*i].clone()),
            Call::AllocatorOf(i) => self.allocators.push(self.relations[*i].allocator().clone()),
            Call::NewRelation(width, how, label) => self.relations.push(at_width!(*width, W => {
                Box::new(match how {
                    0 => PermutationRelation::<BabyBearUnit, W>::new(),
                    1 => PermutationRelation::default(),
                    _ => PermutationRelation::labeled(label.as_str()),
                }) as Box<dyn AnyRelation>
            })),
            Call::RelationOn(width, i) => {
                let allocator = self.allocators[*i].clone();
                self.relations.push(at_width!(*width, W => Box::new(
                    PermutationRelation::<BabyBearUnit, W>::with_allocator(allocator)
                )));
            }
            Call::CloneRelation(i) => self.relations.push(self.relations[*i].another()),
            Call::NewBuilder(width, kind, from) => {
                self.builders
                    .push(at_width!(*width, W => builder::<W>(kind, *from)));
            }
            Call::CloneBuilder(i) => self.builders.push(self.builders[*i].another()),
            other => unreachable!("{other:?} is played elsewhere"),
        }
        Answer::Done
    }

    fn keep(
        &mut self,
        made: Result<Box<dyn AnyInstance>, InvalidRelation>,
        asked: &[u32],
    ) -> Answer {
        match made {
            Ok(instance) => {
                let seen = instance.seen(asked);
                self.instances.push(instance);
                Answer::Instance(Box::new(seen))
            }
            Err(refused) => told(&refused),
        }
    }

    fn keep_witness(&mut self, made: Result<Box<dyn AnyWitness>, InvalidRelation>) -> Answer {
        match made {
            Ok(witness) => {
                let seen = witness.seen();
                self.witnesses.push(witness);
                Answer::Witness(seen)
            }
            Err(refused) => told(&refused),
        }
    }

    /// Drops the instances and witnesses after so many.
    pub fn forget(&mut self, instances: usize, witnesses: usize) {
        self.instances.truncate(instances);
        self.witnesses.truncate(witnesses);
    }

    /// All that the handles tell, and of some wires what they are.
    pub fn seen(&self, asked: &[u32]) -> Seen {
        let (allocators, relations) = (self.allocators.iter(), self.relations.iter());
        Seen {
            allocators: allocators.map(|a| seen_allocator(a, asked)).collect(),
            relations: relations.map(|relation| relation.seen(asked)).collect(),
            builders: self
                .builders
                .iter()
                .map(|builder| builder.trace())
                .collect(),
            taken: (self.taken.vars.get(), self.taken.values.get()),
        }
    }
}

/// The message of a refusal, which its two texts repeat.
fn told(refused: &InvalidRelation) -> Answer {
    let (text, message) = (refused.to_string(), refused.message());
    assert_eq!(text, format!("invalid relation: {message}"));
    let text = format!("{refused:?}");
    assert_eq!(text, format!("InvalidRelation {{ message: {message:?} }}"));
    Answer::Refused(message.to_string())
}

fn builder<const W: usize>(kind: &Kind, from: bool) -> Box<dyn AnyBuilder> {
    with_kind!(kind, W, permutation => Box::new(if from {
        PermutationWitnessBuilder::<_, W>::from(permutation)
    } else {
        PermutationWitnessBuilder::<_, W>::new(permutation)
    }))
}
