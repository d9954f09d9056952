//! Work to be timed. This text is compiled twice: `build.rs` replaces the module's name below.

use sfr::circuit::{
    p3_baby_bear::BabyBear, p3_field::integers::QuotientMap, spongefish::Permutation, BabyBearUnit,
    FieldVar, OwnedParameters, PermutationInstance, PermutationRelation, PermutationWitness,
    PermutationWitnessBuilder,
};

use crate::times::Timed;

const W: usize = 8;

type Relation = PermutationRelation<BabyBearUnit, W>;
type Instance = PermutationInstance<BabyBearUnit, W>;
type Witness = PermutationWitness<BabyBearUnit, W>;

fn unit(number: u32) -> BabyBearUnit {
    BabyBearUnit::from(<BabyBear as QuotientMap<u32>>::from_int(number))
}

/// A permutation of the user's own that costs next to nothing, so that the check itself is timed.
#[derive(Clone)]
struct Turned;

impl Permutation<W> for Turned {
    type U = BabyBearUnit;

    fn permute(&self, state: &[BabyBearUnit; W]) -> [BabyBearUnit; W] {
        let mut state = *state;
        state.rotate_left(1);
        state
    }
}

fn params() -> OwnedParameters<W> {
    let words: Vec<u32> = (0..8 * (W as u32 + 1))
        .map(|i| if i % 9 == 0 { 0 } else { i })
        .collect();
    let matrix = (1..=(W * W) as u32).collect();
    OwnedParameters::new(8, &[words, matrix].concat()).expect("the words are parameters")
}

/// A chain of n evaluations.
fn mints(relation: &Relation, n: usize) {
    let mut state = relation.allocate_vars::<W>();
    for _ in 0..n {
        state = relation.allocate_permutation(&state);
    }
}

/// An equation about each of them.
fn equations(relation: &Relation, n: usize) {
    let var = |i: usize| FieldVar::try_from_index(i).expect("it is a wire");
    for i in 0..n {
        let at = 1 + i * W;
        relation.add_equation(
            var(at) * unit(1) + var(at + 1) * unit(0),
            unit(i as u32 % 8),
        );
    }
}

/// The steps of n evaluations.
fn trace(builder: &PermutationWitnessBuilder<impl Permutation<W, U = BabyBearUnit>, W>, n: usize) {
    let mut state: [BabyBearUnit; W] = core::array::from_fn(|i| unit(i as u32));
    for _ in 0..n {
        state = builder.allocate_permutation(&state);
    }
}

/// Wires, queries and equations.
fn building(timed: &mut Timed, n: usize) {
    timed.time("wires, one by one", || {
        let relation = Relation::new();
        for _ in 0..n {
            relation.allocate_var();
        }
        relation
    });
    timed.time("wires with values, one by one", || {
        let relation = Relation::new();
        for i in 0..n as u32 {
            relation.allocate_var_with(unit(i));
        }
        relation
    });
    timed.time("mints", || {
        let relation = Relation::new();
        mints(&relation, n);
        relation
    });
    timed.time("equations of two terms", || {
        let relation = Relation::new();
        equations(&relation, n);
        relation
    });
}

/// The whole way of n queries.
pub fn run(timed: &mut Timed, n: usize) {
    building(timed, n);
    let relation = Relation::labeled("timed");
    mints(&relation, n);
    equations(&relation, n);
    let instance = timed.time("compile", || {
        relation.compile().expect("it passes the gate")
    });
    let bytes = timed.time("instance to bytes", || instance.to_bytes());
    timed.time("instance from bytes", || {
        Instance::from_bytes(&bytes).expect("it is read")
    });
    let builder = timed.time("steps of one's own", || {
        let builder = PermutationWitnessBuilder::new(Turned);
        trace(&builder, n);
        builder
    });
    let witness = builder.snapshot();
    timed.time("check, one's own", || {
        assert!(instance.is_witness_valid(&Turned, &witness))
    });
    let bytes = timed.time("witness to bytes", || witness.to_bytes());
    timed.time("witness from bytes", || {
        Witness::from_bytes(&bytes).expect("it is read")
    });
    by_parameters(timed, n);
}

/// The same of a permutation by parameters, whose evaluation is most of it.
fn by_parameters(timed: &mut Timed, n: usize) {
    let relation = Relation::new();
    mints(&relation, n);
    let instance = relation.compile().expect("it passes the gate");
    let builder = timed.time("steps by parameters", || {
        let builder = PermutationWitnessBuilder::new(params());
        trace(&builder, n);
        builder
    });
    let witness = builder.snapshot();
    timed.time("check, by parameters", || {
        assert!(instance.is_witness_valid(builder.permutation(), &witness));
    });
}
