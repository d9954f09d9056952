//! Traces, and what records them.

use alloc::{sync::Arc, vec::Vec};

use super::{
    super::{lock::Lock, refuse, spongefish::Permutation},
    QueryAnswerPair,
};
use crate::{BabyBearUnit, Refused, Trace, TraceAnswer};

/// A [`Permutation`] that records what `permutation` turns into what.
///
/// Asked for the same evaluations as a relation, it records the witness of the relation's
/// instance. Handles are reference counted, as a relation's are.
pub struct PermutationWitnessBuilder<P: Permutation<WIDTH>, const WIDTH: usize> {
    permutation: P,
    trace: Arc<Lock<Vec<QueryAnswerPair<P::U, WIDTH>>>>,
}

impl<P: Permutation<WIDTH>, const WIDTH: usize> Clone for PermutationWitnessBuilder<P, WIDTH> {
    fn clone(&self) -> Self {
        Self {
            permutation: self.permutation.clone(),
            trace: Arc::clone(&self.trace),
        }
    }
}

impl<P: Permutation<WIDTH>, const WIDTH: usize> From<P> for PermutationWitnessBuilder<P, WIDTH> {
    fn from(permutation: P) -> Self {
        Self::new(permutation)
    }
}

impl<P: Permutation<WIDTH>, const WIDTH: usize> PermutationWitnessBuilder<P, WIDTH> {
    /// A builder without steps.
    pub fn new(permutation: P) -> Self {
        Self {
            permutation,
            trace: Arc::new(Lock::new(Vec::new())),
        }
    }

    /// The permutation.
    pub const fn permutation(&self) -> &P {
        &self.permutation
    }

    /// The steps so far.
    #[must_use]
    pub fn trace(&self) -> Vec<QueryAnswerPair<P::U, WIDTH>> {
        self.trace.lock().clone()
    }

    /// The witness of the steps so far.
    #[must_use]
    pub fn snapshot(&self) -> PermutationWitness<P::U, WIDTH> {
        let trace = self.trace();
        PermutationWitness { trace }
    }
}

impl<P, const WIDTH: usize> PermutationWitnessBuilder<P, WIDTH>
where
    P: Permutation<WIDTH, U = BabyBearUnit>,
{
    /// Has a step appended, and answers its output.
    fn append(
        &self,
        call: impl FnOnce(Trace, &mut [BabyBearUnit]) -> TraceAnswer,
    ) -> Result<[BabyBearUnit; WIDTH], Refused> {
        let trace = &mut *self.trace.lock();
        let (rec, place) = (QueryAnswerPair::record(trace), trace.len());
        trace.push(QueryAnswerPair::ROOM);
        let appended = call(rec, QueryAnswerPair::cells_mut(trace)).accepted();
        let output = trace[place].output;
        if appended.is_err() {
            trace.truncate(place);
        }
        appended.map(|_| output)
    }

    /// Evaluates the permutation and records the step.
    ///
    /// Where it has [`parameters`](Permutation::parameters), the proved call evaluates it.
    ///
    /// # Panics
    ///
    /// As [`add_permutation`](Self::add_permutation), and where the parameters are refused by 17.
    pub fn allocate_permutation(&self, input: &[BabyBearUnit; WIDTH]) -> [BabyBearUnit; WIDTH] {
        let Some(params) = self.permutation.parameters() else {
            let output = self.permutation.permute(input);
            self.add_permutation(input, &output);
            return output;
        };
        let appended = self.append(|rec, trace| crate::evaluate_step(rec, trace, input, params));
        appended.unwrap_or_else(|refused| refuse(refused))
    }

    /// Records a step, which isn't evaluated.
    ///
    /// # Panics
    ///
    /// Where a unit is p or more, or steps would take more than 2^30 words; nothing is recorded then.
    pub fn add_permutation(&self, input: &[BabyBearUnit; WIDTH], output: &[BabyBearUnit; WIDTH]) {
        let appended = self.append(|rec, trace| crate::append_step(rec, trace, input, output));
        appended.unwrap_or_else(|refused| refuse(refused));
    }
}

/// Asked through either function, it records; and so it has no
/// [`parameters`](Permutation::parameters), by which it wouldn't be asked.
impl<P, const WIDTH: usize> Permutation<WIDTH> for PermutationWitnessBuilder<P, WIDTH>
where
    P: Permutation<WIDTH, U = BabyBearUnit>,
{
    type U = BabyBearUnit;

    fn permute(&self, state: &[BabyBearUnit; WIDTH]) -> [BabyBearUnit; WIDTH] {
        self.allocate_permutation(state)
    }

    fn permute_mut(&self, state: &mut [BabyBearUnit; WIDTH]) {
        *state = self.allocate_permutation(state);
    }
}

/// The trace of a permutation: what shows that a
/// [`PermutationInstance`](super::PermutationInstance) holds.
#[derive(Clone, Debug, PartialEq, Eq)]
pub struct PermutationWitness<T, const WIDTH: usize> {
    pub(in super::super) trace: Vec<QueryAnswerPair<T, WIDTH>>,
}

impl<T, const WIDTH: usize> PermutationWitness<T, WIDTH> {
    /// A step per query, in the order of the queries.
    #[must_use]
    pub fn trace(&self) -> &[QueryAnswerPair<T, WIDTH>] {
        &self.trace
    }
}
