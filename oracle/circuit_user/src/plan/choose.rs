//! The next call.

use reading::P;

use super::Plan;
use crate::{
    calls::*,
    files,
    source::player::{permute, terms_of},
};

/// The lengths that an allocator's arrays have.
const LENGTHS: [usize; 7] = [0, 1, 2, 3, 5, 8, 24];

fn sum(terms: &[(u32, u32)], value: impl Fn(u32) -> u32) -> u32 {
    let products = terms
        .iter()
        .map(|&(var, weight)| u64::from(weight) * u64::from(value(var)) % u64::from(P));
    (products.sum::<u64>() % u64::from(P)) as u32
}

impl Plan {
    /// The next call of the list.
    pub fn next(&mut self) -> Call {
        if let Some(call) = self.queue.pop_front() {
            return call;
        }
        match self.rng.below(100) {
            0..=7 => self.handle(),
            8..=35 => self.wires(),
            36..=54 => self.query(),
            55..=67 => self.equation(),
            68..=77 => self.compile(),
            78..=82 => self.step(),
            83..=95 => self.read(),
            _ => self.check(),
        }
    }

    fn handle(&mut self) -> Call {
        let few = self.allocators.len() + self.relations.len() < 9;
        match self.rng.below(7) {
            0 if few => Call::NewAllocator,
            1 if few => Call::CloneAllocator(self.rng.below(self.allocators.len())),
            2 if few => Call::AllocatorOf(self.relation()),
            3 if few => self.new_relation(),
            4 | 5 if few => {
                let on = self.rng.below(self.allocators.len());
                Call::RelationOn(self.rng.width() as usize, on)
            }
            6 if few => Call::CloneRelation(self.relation()),
            _ => self.wires(),
        }
    }

    fn wires(&mut self) -> Call {
        if self.rng.once_in(3) {
            let i = self.rng.below(self.allocators.len());
            let length = *self.rng.pick(&LENGTHS);
            Call::Wires(On::Allocator(i), self.on_wires(self.allocators[i], length))
        } else {
            let i = self.relation();
            let (space, width) = (self.relations[i].space, self.relations[i].width);
            Call::Wires(On::Relation(i), self.on_wires(space, width))
        }
    }

    fn on_wires(&mut self, space: usize, length: usize) -> Wires {
        match self.rng.below(12) {
            0 => Wires::One,
            1 => Wires::Array(length),
            2 => Wires::List(match self.rng.below(30) {
                0..=2 => *self.rng.pick(&[1 << 30, u32::MAX as usize + 7]),
                3..=5 => usize::MAX,
                6 => self.rng.below(300),
                _ => self.rng.below(12),
            }),
            3 => Wires::OneWith(self.rng.unit()),
            4 => Wires::ArrayWith(self.rng.units(length)),
            5 => {
                let n = self.rng.below(10);
                Wires::ListWith(self.rng.units(n))
            }
            6..=8 => {
                let var = self.var(space);
                Wires::Set(var, self.value_for(space, var))
            }
            _ => self.set_list(space),
        }
    }

    fn set_list(&mut self, space: usize) -> Wires {
        let n = self.rng.below(7);
        let mut vars = self.vars(space, n);
        let mut values: Vec<u32> = vars.iter().map(|&var| self.value_for(space, var)).collect();
        if self.rng.once_in(8) {
            let longer = if self.rng.once_in(2) {
                &mut vars
            } else {
                &mut values
            };
            longer.push(0);
        }
        Wires::SetList(vars, values, self.rng.below(WAYS))
    }

    fn query(&mut self) -> Call {
        let i = self.relation();
        let (space, width) = (self.relations[i].space, self.relations[i].width);
        let input = self.vars(space, width);
        let evaluation = match self.rng.below(8) {
            0..=2 => Evaluation::Allocate(input),
            3 => Evaluation::Permute(input),
            4 => Evaluation::PermuteMut(input),
            5 if !self.relations[i].queries.is_empty() => {
                let query = self.rng.pick(&self.relations[i].queries);
                let (input, output) = query.split_at(width);
                Evaluation::Add(input.to_vec(), output.to_vec())
            }
            _ => self.answered(i, input),
        };
        Call::Query(i, evaluation)
    }

    /// A query whose output are wires that exist: such as nothing relies on, which then get its values, or any.
    fn answered(&mut self, i: usize, input: Vec<u32>) -> Evaluation {
        let (space, width) = (self.relations[i].space, self.relations[i].width);
        let wires = self.spaces[space].iter().zip(0..);
        let free = wires.filter(|(wire, var)| !wire.fixed && *var > 0 && !input.contains(var));
        let free: Vec<u32> = free.map(|(_, var)| var).take(width).collect();
        if free.len() < width {
            return if self.clean {
                Evaluation::Allocate(input)
            } else {
                let output = self.vars(space, width);
                Evaluation::Add(input, output)
            };
        }
        let kind = self.relations[i].kind.clone();
        let output = permute(width, &kind, &self.values(space, &input));
        for (&var, value) in free.iter().zip(output) {
            self.spaces[space][var as usize].value = value;
        }
        self.fix(space, &input);
        self.fix(space, &free);
        Evaluation::Add(input, free)
    }

    fn equation(&mut self) -> Call {
        let i = self.relation();
        let space = self.relations[i].space;
        let n = self.rng.below(5);
        let terms = (0..n).map(|_| self.term(i)).collect();
        let expression = Expression {
            shape: self.rng.below(SHAPES),
            terms,
            factor: self.rng.unit(),
        };
        let terms = terms_of(&expression);
        let vars: Vec<u32> = terms.iter().map(|&(var, _)| var).collect();
        self.fix(space, &vars);
        let image = if self.rng.once_in(6) {
            self.rng.unit()
        } else {
            sum(&terms, |var| self.value(space, var))
        };
        Call::Equation(i, expression, image)
    }

    /// A term: in a clean list of a wire in a query, or of wire 0, but with the weight 0 now and then of any.
    fn term(&mut self, i: usize) -> (u32, u32) {
        let any = self.var(self.relations[i].space);
        if !self.clean && self.rng.once_in(3) {
            return (any, self.rng.unit());
        }
        if self.rng.once_in(20) {
            return (any, 0);
        }
        let queries = &self.relations[i].queries;
        if queries.is_empty() {
            return (0, self.rng.unit());
        }
        let cells = self.rng.pick(queries);
        (*self.rng.pick(cells), self.rng.unit())
    }

    /// A gate; now and then of a relation that gets an equation with the weight 0 on a wire that nothing binds.
    fn compile(&mut self) -> Call {
        let i = self.relation();
        if !self.clean || !self.rng.once_in(8) {
            return Call::Compile(i);
        }
        let unbound = self.spaces[self.relations[i].space].len() as u32;
        let terms = vec![(unbound, 0)];
        let expression = Expression {
            shape: 0,
            terms,
            factor: 0,
        };
        self.queue.push_back(Call::Equation(i, expression, 0));
        self.queue.push_back(Call::Compile(i));
        Call::Wires(On::Relation(i), Wires::One)
    }

    fn step(&mut self) -> Call {
        if self.builders.is_empty() || self.builders.len() < 8 && self.rng.once_in(3) {
            let width = self.rng.width() as usize;
            let mut kind = self.kind(width);
            if let (Kind::Own(number), true) = (&kind, self.rng.once_in(3)) {
                kind = Kind::Recording(*number);
            }
            return Call::NewBuilder(width, kind, self.rng.once_in(2));
        }
        let i = self.rng.below(self.builders.len());
        let width = self.builders[i].0;
        let input = self.rng.units(width);
        match self.rng.below(8) {
            0 if self.builders.len() < 8 => Call::CloneBuilder(i),
            1 => Call::Snapshot(i),
            2 => Call::Step(i, Evaluation::Permute(input)),
            3 => Call::Step(i, Evaluation::PermuteMut(input)),
            4 => Call::Step(i, Evaluation::Add(input, self.rng.units(width))),
            _ => Call::Step(i, Evaluation::Allocate(input)),
        }
    }

    fn read(&mut self) -> Call {
        let rng = &mut self.rng;
        if rng.once_in(3) && !self.witnesses.is_empty() {
            let witness = rng.pick(&self.witnesses);
            let width = if rng.once_in(20) {
                rng.width() as usize
            } else {
                witness.width
            };
            return Call::ReadWitness(width, files::of_witness(rng, &witness.seen));
        }
        if self.instances.is_empty() {
            return self.compile();
        }
        let instance = rng.pick(&self.instances);
        let width = if rng.once_in(20) {
            rng.width() as usize
        } else {
            instance.width
        };
        let bytes = files::of_instance(rng, instance.width, &instance.seen);
        Call::ReadInstance(width, bytes)
    }

    /// A check of any instance and any witness of its width; or are any two equal?
    fn check(&mut self) -> Call {
        if self.instances.is_empty() || self.witnesses.is_empty() {
            return self.step();
        }
        let i = self.rng.below(self.instances.len());
        let k = self.rng.below(self.witnesses.len());
        let instance = &self.instances[i];
        if self.witnesses[k].width == instance.width && self.rng.once_in(2) {
            return Call::Check(i, k, instance.kind.clone());
        }
        // As likely as not itself.
        let mut other = |i, of: usize| {
            if self.rng.once_in(2) {
                i
            } else {
                self.rng.below(of)
            }
        };
        let j = other(i, self.instances.len());
        let l = other(k, self.witnesses.len());
        Call::Same([i, j], [k, l])
    }

    /// A witness of the last instance, right or nearly so, by steps that are evaluated or given, and checks of it.
    pub(super) fn witness(&mut self) {
        let instance = self.instances.last().expect("there is one");
        let (i, width) = (self.instances.len() - 1, instance.width);
        let Some(space) = instance.space else { return };
        let kind = instance.kind.clone();
        let queries = instance.seen.queries.iter();
        let steps: Vec<Vec<u32>> = queries.map(|cells| self.values(space, cells)).collect();
        let steps = self.spoiled(steps, width);
        let builder = self.builders.len();
        let from = self.rng.once_in(2);
        self.queue
            .push_back(Call::NewBuilder(width, kind.clone(), from));
        for step in steps {
            let (input, output) = step.split_at(width);
            let input = input.to_vec();
            let step = match self.rng.below(4) {
                0 => Evaluation::Allocate(input),
                1 => Evaluation::Permute(input),
                _ => Evaluation::Add(input, output.to_vec()),
            };
            self.queue.push_back(Call::Step(builder, step));
        }
        self.queue.push_back(Call::Snapshot(builder));
        let witness = self.witnesses.len();
        let other = self.kind(width);
        let kinds = match kind.clone() {
            Kind::Own(number) => [kind, Kind::Recording(number), other],
            Kind::Parameters(rounds, words) => [kind, Kind::Hidden(rounds, words), other],
            _ => return,
        };
        let checked = if self.rng.once_in(5) { 3 } else { 2 };
        for kind in kinds.into_iter().take(checked) {
            self.queue.push_back(Call::Check(i, witness, kind));
        }
    }

    /// A trace with something wrong, now and then.
    fn spoiled(&mut self, mut steps: Vec<Vec<u32>>, width: usize) -> Vec<Vec<u32>> {
        if steps.is_empty() || self.rng.below(9) < 4 {
            return steps;
        }
        let (i, cell) = (self.rng.below(steps.len()), self.rng.below(2 * width));
        match self.rng.below(6) {
            0 => drop(steps.remove(i)),
            1 => steps.push(steps[i].clone()),
            2 => steps[i][cell] = self.rng.unit(),
            3 => steps[i][cell % width] = self.rng.unit(),
            4 => {
                let j = self.rng.below(steps.len());
                steps.swap(i, j);
            }
            _ => steps[i].rotate_left(cell),
        }
        steps
    }

    /// A wire, mostly one that is allocated.
    fn var(&mut self, space: usize) -> u32 {
        let count = self.spaces[space].len();
        let var = match self.rng.below(if self.clean { 40 } else { 20 }) {
            0 if !self.clean => count + self.rng.below(20),
            1 if !self.clean => self.rng.below(2 * count + 40),
            2 if !self.clean && self.rng.once_in(8) => (1 << 30) - 1 - self.rng.below(2),
            3..=9 => count - 1 - self.rng.below(count.min(8)),
            _ => self.rng.below(count),
        };
        var as u32
    }

    fn vars(&mut self, space: usize, n: usize) -> Vec<u32> {
        (0..n).map(|_| self.var(space)).collect()
    }

    /// A value for a wire, mostly its own.
    fn value_for(&mut self, space: usize, var: u32) -> u32 {
        if self.rng.once_in(if self.clean { 30 } else { 5 }) {
            self.rng.unit()
        } else {
            self.value(space, var)
        }
    }

    fn relation(&mut self) -> usize {
        self.rng.below(self.relations.len())
    }
}
