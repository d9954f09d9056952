//! The calls of eight relations on one allocator, one call for each item, beside the sources'
//! `with_allocator`. Each relation makes an eighth of the calls, one relation after the other.

use sfr::{AllocatedOn, BabyBearUnit, FieldVar, SharedRelation, VarAllocator, Weighted};
use source::{Allocator, Ready, Relation};

use super::{best, input, input::WIDTH, table, timed, Line};
use crate::{library::side::weighted, rng::Rng};

const W: usize = WIDTH as usize;
const RELATIONS: usize = sfr::MAX_RELATIONS as usize;

pub fn tables(last: usize) {
    let note = |item: &str| {
        format!("An item is {item}, a call of its own, of eight relations on one allocator. The source takes its locks (stand-ins) in each.")
    };
    let line = |name: &str, item: &str, calls: fn(usize) -> Line| {
        table(name, &note(item), last, calls);
    };
    line("shared allocate", "a wire", allocate);
    line("shared set", "a fresh wire and its value", set);
    line("shared mint", "a query with its outputs", mint);
    let kept =
        "The source keeps the sum that it is given: one is made for each call, within the time.";
    let equation_note = format!("{} {kept}", note("an equation of three terms"));
    table("shared equation", &equation_note, last, equation);
    table(
        "shared gate",
        "As for the gate, of one of eight relations on one allocator.",
        last,
        |items| input::gate(items, true),
    );
}

/// Eight relations and their stores, in which a relation's items just fit.
struct Plant {
    allocator: VarAllocator,
    slots: Vec<u32>,
    mixers: Vec<Mixer>,
}

/// One relation, its queries or equations, and its use counts.
struct Mixer {
    rel: SharedRelation,
    own: Vec<u32>,
    uses: Vec<u32>,
}

/// What a call of one relation is lent.
struct Lent<'a> {
    slots: &'a mut [u32],
    own: &'a mut [u32],
    uses: &'a mut [u32],
}

impl Plant {
    fn new(slots: usize, own: usize) -> Self {
        let mut plant = Self {
            allocator: VarAllocator::default(),
            slots: vec![0; slots],
            mixers: Vec::new(),
        };
        for _ in 0..RELATIONS {
            let (allocator, slots, mut uses) = (plant.allocator, &mut plant.slots, vec![0; slots]);
            let opened = sfr::with_allocator(allocator, WIDTH, u32::MAX, slots, &mut uses);
            let (_, allocator, rel) = opened.accepted().expect("eight may be opened");
            plant.allocator = allocator;
            let own = vec![0; own];
            plant.mixers.push(Mixer { rel, own, uses });
        }
        plant
    }

    /// With so many wires, all of the first relation's.
    fn allocated(slots: usize, own: usize) -> Self {
        let mut plant = Self::new(slots, own);
        let count = slots as u32 - 1;
        plant.each(0, 1, |allocator, index, rel, lent, _| {
            sfr::allocate_vars_on(allocator, index, rel, lent.slots, count)
        });
        plant
    }

    /// So many allocations or mints of one relation, each accepted.
    fn each(
        &mut self,
        index: usize,
        calls: usize,
        call: impl Fn(VarAllocator, u32, SharedRelation, Lent, usize) -> AllocatedOn,
    ) {
        let Mixer { rel, own, uses } = &mut self.mixers[index];
        for i in 0..calls {
            let slots = &mut self.slots;
            let lent = Lent { slots, own, uses };
            let answer = call(self.allocator, index as u32, *rel, lent, i);
            assert_eq!(answer.number, 0);
            (self.allocator, *rel) = (answer.allocator, answer.relation);
        }
    }
}

/// The source's eight relations, after the first has got so many wires.
fn relations(allocated: u32) -> Vec<Box<dyn Relation>> {
    let allocator = Allocator::default();
    let relations = (0..RELATIONS).map(|_| source::with_allocator(WIDTH, &allocator));
    let relations: Vec<_> = relations.collect();
    relations[0].allocate_vars(allocated);
    relations
}

/// Times the library's calls of each relation beside the source's.
fn line(
    items: usize,
    bytes: usize,
    plant: impl Fn() -> Plant,
    calls: impl Fn(&mut Plant, usize),
    allocated: u32,
    ready: impl Fn(&dyn Relation, usize) -> Ready<'static, ()>,
) -> Line {
    let library = timed(plant, |plant| {
        for index in 0..RELATIONS {
            calls(plant, index);
        }
    });
    let source = timed(
        || -> Vec<Ready<'static, ()>> {
            let relations = relations(allocated);
            let ready = |(index, relation): (usize, &dyn Relation)| ready(relation, index);
            relations
                .iter()
                .map(|relation| &**relation)
                .enumerate()
                .map(ready)
                .collect()
        },
        |ready| {
            for ready in ready {
                ready();
            }
        },
    );
    let [library, source] = best([library, source]);
    Line {
        items,
        bytes,
        library,
        source,
    }
}

fn allocate(items: usize) -> Line {
    let own = items / RELATIONS;
    line(
        items,
        4 * items,
        || Plant::new(1 + items, 0),
        |plant, index| {
            plant.each(index, own, |allocator, index, rel, lent, _| {
                sfr::allocate_vars_on(allocator, index, rel, lent.slots, 1)
            });
        },
        0,
        |relation, _| relation.ready_allocations(own),
    )
}

fn set(items: usize) -> Line {
    let own = items / RELATIONS;
    let mut rng = Rng::new(items as u64);
    let vars: Vec<u32> = (1..=items as u32).collect();
    let values: Vec<u32> = vars.iter().map(|_| rng.word() % reading::P).collect();
    let part = |index: usize| index * own..(index + 1) * own;
    line(
        items,
        12 * items,
        || Plant::allocated(1 + items, 0),
        |plant, index| {
            let (allocator, rel) = (plant.allocator, plant.mixers[index].rel);
            for i in part(index) {
                let slots = &mut plant.slots;
                let (var, value) = (FieldVar(vars[i]), BabyBearUnit(values[i]));
                let answer = sfr::set_var_on(allocator, index as u32, rel, slots, var, value);
                assert_eq!((answer.number, answer.fresh), (0, true));
            }
        },
        items as u32,
        |relation, index| relation.ready_sets(&vars[part(index)], &values[part(index)]),
    )
}

fn mint(items: usize) -> Line {
    let own = items / RELATIONS;
    let mut rng = Rng::new(items as u64);
    let inputs: Vec<u32> = (0..items * W).map(|_| rng.below(items) as u32).collect();
    let part = |index: usize| &inputs[index * own * W..(index + 1) * own * W];
    line(
        items,
        4 * items * 6 * W,
        || Plant::new(1 + items * W, 2 * W * own),
        |plant, index| {
            let part = part(index);
            plant.each(index, own, |allocator, index, rel, lent, i| {
                let Lent { slots, own, uses } = lent;
                let input = FieldVar::list(&part[i * W..(i + 1) * W]);
                let own = FieldVar::list_mut(own);
                sfr::allocate_permutation_on(allocator, index, rel, slots, own, uses, input)
            });
        },
        0,
        |relation, index| relation.ready_mints(part(index)),
    )
}

fn equation(items: usize) -> Line {
    let own = items / RELATIONS;
    let mut rng = Rng::new(items as u64);
    let mut equation = || {
        let term = |rng: &mut Rng| (rng.below(items) as u32, rng.word() % reading::P);
        let terms = vec![term(&mut rng), term(&mut rng), term(&mut rng)];
        (terms, rng.word() % reading::P)
    };
    let equations: Vec<(Vec<(u32, u32)>, u32)> = (0..items).map(|_| equation()).collect();
    let lists = equations.iter().map(|(terms, _)| weighted(terms));
    let lists: Vec<Vec<Weighted>> = lists.collect();
    line(
        items,
        2 * 4 * 8 * items,
        || Plant::new(1, 8 * own),
        |plant, index| {
            let mixer = &mut plant.mixers[index];
            for i in index * own..(index + 1) * own {
                let (terms, image) = (&lists[i], BabyBearUnit(equations[i].1));
                let (allocator, rel, words) = (plant.allocator, mixer.rel, &mut mixer.own);
                let answer =
                    sfr::add_equation_on(allocator, index as u32, rel, words, terms, image);
                assert_eq!(answer.number, 0);
                (plant.allocator, mixer.rel) = (answer.allocator, answer.relation);
            }
        },
        0,
        |relation, index| relation.ready_equations(&equations[index * own..(index + 1) * own]),
    )
}
