//! What is played next. The plan knows which handles share what, and gives every wire a value behind the scenes, so that
//! traces can be made that are right, and such that are nearly.

mod choose;

use std::collections::VecDeque;

use crate::{calls::*, rng::Rng, source::player::permute};

impl Rng {
    fn units(&mut self, n: usize) -> Vec<u32> {
        (0..n).map(|_| self.unit()).collect()
    }
}

/// A wire: the value that it is to have, and whether anything relies on it.
#[derive(Clone, Copy)]
struct Wire {
    value: u32,
    fixed: bool,
}

struct Relation {
    /// Which allocator's wires it has.
    space: usize,
    width: usize,
    kind: Kind,
    /// Its queries as they were last seen.
    queries: Vec<Vec<u32>>,
}

pub struct Instance {
    width: usize,
    kind: Kind,
    /// Whose wires it has, where it was compiled.
    space: Option<usize>,
    pub seen: SeenInstance,
}

pub struct Witness {
    width: usize,
    pub seen: SeenWitness,
}

pub struct Plan {
    rng: Rng,
    /// A list in which everything is allocated and true, but for what a trace may do.
    clean: bool,
    spaces: Vec<Vec<Wire>>,
    /// The space of each allocator.
    allocators: Vec<usize>,
    relations: Vec<Relation>,
    builders: Vec<(usize, Kind)>,
    pub instances: Vec<Instance>,
    pub witnesses: Vec<Witness>,
    queue: VecDeque<Call>,
}

impl Plan {
    pub fn new(seed: u64) -> Self {
        let mut rng = Rng::new(seed);
        let clean = rng.below(5) < 3;
        let mut plan = Self {
            rng,
            clean,
            spaces: Vec::new(),
            allocators: Vec::new(),
            relations: Vec::new(),
            builders: Vec::new(),
            instances: Vec::new(),
            witnesses: Vec::new(),
            queue: VecDeque::new(),
        };
        let first = plan.new_relation();
        plan.queue.extend([Call::NewAllocator, first]);
        plan
    }

    /// How long this list is to be.
    pub fn length(&mut self) -> usize {
        let long = self.rng.once_in(10);
        10 + self.rng.below(if long { 400 } else { 90 })
    }

    /// Some wires to be looked at.
    pub fn asked(&mut self) -> Vec<u32> {
        let counts = self.spaces.iter().map(Vec::len).max().unwrap_or(1) as u32;
        let any = self.rng.below(2 * counts as usize) as u32;
        vec![0, any, counts - 1, counts, (1 << 30) - 1]
    }

    fn new_relation(&mut self) -> Call {
        let label = *self.rng.pick(&["", "mill", "keccak-f[1600]", "Mühle ✓"]);
        Call::NewRelation(
            self.rng.width() as usize,
            self.rng.below(3),
            label.to_string(),
        )
    }

    fn kind(&mut self, width: usize) -> Kind {
        if self.rng.once_in(2) {
            return Kind::Own(self.rng.unit());
        }
        let rounds = self.rng.below(4);
        let mut words = Vec::new();
        for _ in 0..rounds {
            words.push(self.rng.below(2) as u32);
            words.extend(self.rng.units(width));
        }
        words.extend(self.rng.units(width * width));
        Kind::Parameters(rounds as u32, words)
    }

    /// The value of a wire; 0 where it isn't allocated.
    fn value(&self, space: usize, var: u32) -> u32 {
        let wire = self.spaces[space].get(var as usize);
        wire.map_or(0, |wire| wire.value)
    }

    fn values(&self, space: usize, vars: &[u32]) -> Vec<u32> {
        vars.iter().map(|&var| self.value(space, var)).collect()
    }

    /// From now on something relies on these wires' values.
    fn fix(&mut self, space: usize, vars: &[u32]) {
        for &var in vars {
            if let Some(wire) = self.spaces[space].get_mut(var as usize) {
                wire.fixed = true;
            }
        }
    }

    /// Takes in what a call answered, and what is seen after it.
    pub fn learn(&mut self, call: &Call, answer: &Answer, seen: &Seen) {
        if !matches!(answer, Answer::Panicked(_)) {
            self.opened(call);
        }
        self.counted(seen);
        match (call, answer) {
            (Call::Query(i, evaluation), Answer::Wires(output)) => {
                self.minted(*i, evaluation, output)
            }
            (Call::Compile(i), Answer::Instance(instance)) => self.compiled(*i, instance),
            (Call::ReadInstance(width, _), Answer::Instance(instance)) => {
                let kind = self.kind(*width);
                self.instances.push(Instance {
                    width: *width,
                    kind,
                    space: None,
                    seen: (**instance).clone(),
                });
            }
            (Call::Snapshot(i), Answer::Witness(witness)) => self.witnesses.push(Witness {
                width: self.builders[*i].0,
                seen: witness.clone(),
            }),
            (Call::ReadWitness(width, _), Answer::Witness(witness)) => {
                self.witnesses.push(Witness {
                    width: *width,
                    seen: witness.clone(),
                })
            }
            _ => {}
        }
    }

    /// An instance is there, and mostly a witness is to be made of it.
    fn compiled(&mut self, i: usize, instance: &SeenInstance) {
        let relation = &self.relations[i];
        self.instances.push(Instance {
            width: relation.width,
            kind: relation.kind.clone(),
            space: Some(relation.space),
            seen: instance.clone(),
        });
        if self.rng.below(3) > 0 {
            self.witness();
        }
    }

    /// A handle is there that wasn't.
    fn opened(&mut self, call: &Call) {
        match call {
            Call::NewAllocator => {
                self.allocators.push(self.spaces.len());
                self.spaces.push(Vec::new());
            }
            Call::CloneAllocator(i) => self.allocators.push(self.allocators[*i]),
            Call::AllocatorOf(i) => self.allocators.push(self.relations[*i].space),
            Call::NewRelation(width, ..) => {
                self.related(self.spaces.len(), *width);
                self.spaces.push(Vec::new());
            }
            Call::RelationOn(width, i) => self.related(self.allocators[*i], *width),
            Call::CloneRelation(i) => {
                let relation = &self.relations[*i];
                self.relations.push(Relation {
                    kind: relation.kind.clone(),
                    queries: relation.queries.clone(),
                    ..*relation
                });
            }
            Call::NewBuilder(width, kind, _) => self.builders.push((*width, kind.clone())),
            Call::CloneBuilder(i) => self.builders.push(self.builders[*i].clone()),
            _ => {}
        }
    }

    fn related(&mut self, space: usize, width: usize) {
        let kind = self.kind(width);
        self.relations.push(Relation {
            space,
            width,
            kind,
            queries: Vec::new(),
        });
    }

    /// New wires get a value; public ones have theirs, unless something relies on another.
    fn counted(&mut self, seen: &Seen) {
        let relations = self.relations.iter().map(|relation| relation.space);
        let spaces: Vec<usize> = self.allocators.iter().copied().chain(relations).collect();
        let relations = seen.relations.iter().map(|relation| &relation.allocator);
        for (space, seen) in spaces
            .into_iter()
            .zip(seen.allocators.iter().chain(relations))
        {
            while self.spaces[space].len() < seen.count {
                let value = self.rng.unit();
                self.spaces[space].push(Wire {
                    value,
                    fixed: false,
                });
            }
            for &(var, value) in &seen.publics {
                let wire = &mut self.spaces[space][var as usize];
                if !wire.fixed {
                    wire.value = value;
                }
            }
        }
        for (relation, seen) in self.relations.iter_mut().zip(&seen.relations) {
            relation.queries.clone_from(&seen.queries);
        }
    }

    /// The outputs of a query get what its permutation makes of its inputs.
    fn minted(&mut self, i: usize, evaluation: &Evaluation, output: &[u32]) {
        let (space, width) = (self.relations[i].space, self.relations[i].width);
        let (Evaluation::Allocate(input)
        | Evaluation::Permute(input)
        | Evaluation::PermuteMut(input)) = evaluation
        else {
            return;
        };
        let kind = self.relations[i].kind.clone();
        let values = permute(width, &kind, &self.values(space, input));
        for (&var, value) in output.iter().zip(values) {
            self.spaces[space][var as usize].value = value;
        }
        self.fix(space, input);
        self.fix(space, output);
    }

    /// Too much is kept: the instances and witnesses are forgotten, where nothing that is about to be played names them.
    pub fn forget(&mut self) -> bool {
        let much = self.queue.is_empty() && self.instances.len() + self.witnesses.len() > 24;
        if much {
            self.instances.clear();
            self.witnesses.clear();
        }
        much
    }

    /// What a check is about.
    pub fn checked(&self, i: usize, j: usize) -> (usize, &SeenInstance, &SeenWitness) {
        let instance = &self.instances[i];
        (instance.width, &instance.seen, &self.witnesses[j].seen)
    }
}
