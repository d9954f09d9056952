//! Instances, and the check.

use alloc::{string::String, vec, vec::Vec};
use core::fmt;

use super::{
    super::{refuse, spongefish::Permutation},
    LinearEquation, PermutationWitness, QueryAnswerPair,
};
use crate::{BabyBearUnit, FieldVar, Instance, Parameters, Parts, Refused, Relation, UNASSIGNED};

/// A relation that passed the gate.
///
/// [`compile`](super::PermutationRelation::compile) makes it, or
/// [`from_bytes`](Self::from_bytes). Its publics stand in index order, and every wire that it names
/// is below its wire count.
#[derive(Clone, PartialEq, Eq)]
pub struct PermutationInstance<T, const WIDTH: usize> {
    label: String,
    record: Instance,
    public_values: Vec<(FieldVar, T)>,
    queries: Vec<QueryAnswerPair<FieldVar, WIDTH>>,
    equations: Vec<LinearEquation<T>>,
    /// The publics as the calls have them.
    public_words: Vec<u32>,
    /// The equations as the calls have them.
    equation_words: Vec<u32>,
}

/// The fields that the source's has.
impl<T: fmt::Debug, const WIDTH: usize> fmt::Debug for PermutationInstance<T, WIDTH> {
    fn fmt(&self, f: &mut fmt::Formatter<'_>) -> fmt::Result {
        f.debug_struct("PermutationInstance")
            .field("label", &self.label)
            .field("vars_count", &self.vars_count())
            .field("public_values", &self.public_values)
            .field("queries", &self.queries)
            .field("equations", &self.equations)
            .finish()
    }
}

impl<T, const WIDTH: usize> PermutationInstance<T, WIDTH> {
    /// The label; see [`labeled`](super::PermutationRelation::labeled).
    #[must_use]
    pub fn label(&self) -> &str {
        &self.label
    }

    /// How many wires there are.
    #[must_use]
    pub const fn vars_count(&self) -> usize {
        self.record.vars as usize
    }

    /// The publics and their values, in index order.
    #[must_use]
    pub fn public_vars(&self) -> &[(FieldVar, T)] {
        &self.public_values
    }

    /// The queries, in the order in which they were recorded.
    #[must_use]
    pub fn queries(&self) -> &[QueryAnswerPair<FieldVar, WIDTH>] {
        &self.queries
    }

    /// The equations, in the order in which they were stated.
    #[must_use]
    pub fn equations(&self) -> &[LinearEquation<T>] {
        &self.equations
    }

    /// The value of a wire, where it is public.
    ///
    /// It is looked for by halves: [`public_value`](crate::public_value), which takes publics in any
    /// order, goes through all of them.
    #[must_use]
    pub fn value(&self, var: FieldVar) -> Option<&T> {
        let publics = &self.public_values;
        let place = publics.binary_search_by_key(&var, |&(var, _)| var).ok()?;
        publics.get(place).map(|(_, value)| value)
    }
}

impl<const WIDTH: usize> PermutationInstance<BabyBearUnit, WIDTH> {
    /// An instance of what a gate or a read accepted, in lists that hold no more than that.
    pub(in super::super) fn new(
        label: String,
        record: Instance,
        public_words: Vec<u32>,
        queries: Vec<QueryAnswerPair<FieldVar, WIDTH>>,
        equation_words: Vec<u32>,
    ) -> Self {
        let pairs = public_words.chunks_exact(2);
        let public_values = pairs
            .map(|pair| (FieldVar(pair[0]), BabyBearUnit(pair[1])))
            .collect();
        Self {
            label,
            record,
            public_values,
            queries,
            equations: LinearEquation::of_words(&equation_words),
            public_words,
            equation_words,
        }
    }

    /// The parts, for the calls.
    pub(in super::super) fn parts(&self) -> Parts<'_> {
        Parts {
            instance: self.record,
            label: self.label.as_bytes(),
            publics: &self.public_words,
            queries: QueryAnswerPair::cells(&self.queries),
            equations: &self.equation_words,
        }
    }

    /// The check: is this a witness of the instance under the permutation?
    ///
    /// Yes where there is a step per query, every step is an evaluation, every wire has one value,
    /// publics theirs, and every equation holds. A permutation that has no
    /// [`parameters`](Permutation::parameters) is asked step by step, up to the first that isn't an
    /// evaluation. Nothing here takes the same time for all witnesses.
    ///
    /// # Panics
    ///
    /// Where the permutation's parameters are refused by 17.
    pub fn is_witness_valid<P>(
        &self,
        permutation: &P,
        witness: &PermutationWitness<BabyBearUnit, WIDTH>,
    ) -> bool
    where
        P: Permutation<WIDTH, U = BabyBearUnit>,
    {
        let trace = &witness.trace;
        if let Some(params) = permutation.parameters() {
            let steps = QueryAnswerPair::record(trace).steps;
            let (parts, trace) = (self.parts(), QueryAnswerPair::cells(trace));
            let scratch = &mut vec![0; self.vars_count()];
            let answer = crate::is_witness_valid(parts, steps, trace, params, scratch);
            return is_yes(answer.accepted());
        }
        trace.len() == self.queries.len()
            && trace
                .iter()
                .all(|step| permutation.permute(&step.input) == step.output)
            && self.is_satisfied(trace)
    }

    /// What the check asks but for evaluations, of as many steps as there are queries: has every
    /// wire one value, publics theirs, and does every equation hold?
    ///
    /// A set list says whether a wire would get two values. So wires of which none has one are set,
    /// the publics to their values, and the cells of the queries to those of the steps.
    fn is_satisfied(&self, trace: &[QueryAnswerPair<BabyBearUnit, WIDTH>]) -> bool {
        let wires = Relation {
            width: 1,
            vars: self.record.vars.max(1), // as a relation has, and a file may not
            ..Relation::default()
        };
        let slots = &mut vec![UNASSIGNED; wires.vars as usize];
        let mut set = |vars: &[FieldVar], values: &[BabyBearUnit]| {
            let tally = crate::set_vars(wires, slots, vars, values);
            is_yes(tally.accepted().map(drop))
        };
        let (vars, values): (Vec<_>, Vec<_>) = self.public_values.iter().copied().unzip();
        let cells = QueryAnswerPair::cells(&self.queries);
        set(&vars, &values)
            && set(cells, QueryAnswerPair::cells(trace))
            && self.equations_hold(slots)
    }

    /// Whether the equations hold where the wires carry what is in the slots.
    ///
    /// That is the check of an instance that has the equations alone, and as publics the wires of
    /// their terms with what these carry. The slots become its scratch.
    fn equations_hold(&self, slots: &mut [u32]) -> bool {
        let equations = self.equations.iter();
        let terms = equations.flat_map(|equation| equation.terms.terms());
        let carried = terms.map(|term| [term.var.0, slots[term.var.index()]]);
        let known: Vec<_> = carried.filter(|pair| pair[1] != UNASSIGNED).collect();
        let publics = known.as_flattened();
        let instance = Instance {
            width: 1,
            queries: 0,
            publics: known.len() as u32,
            ..self.record
        };
        let parts = Parts {
            instance,
            publics,
            ..self.parts()
        };
        let no_rounds = Parameters {
            rounds: 0,
            words: &[0],
        };
        let answer = crate::is_witness_valid(parts, 0, &[], no_rounds, slots);
        is_yes(answer.accepted())
    }
}

/// Whether it is a yes, and else a no that a witness is to blame for: two values of a wire, or one of
/// the check's own questions.
fn is_yes(answer: Result<(), Refused>) -> bool {
    match answer {
        Ok(()) => true,
        Err(refused) if matches!(refused.number(), 8 | 31..=36) => false,
        Err(refused) => refuse(refused),
    }
}
