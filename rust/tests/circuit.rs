//! What stores that are owned have over stores that are lent: they grow, are shared, and outlive a panic. That the module does
//! what the source does is shown in `oracle/circuit_user`.
#![cfg(feature = "alloc")]

use std::{
    alloc::{GlobalAlloc, Layout, System},
    cell::Cell,
    panic,
    sync::Arc,
    thread,
};

use sfr::{
    circuit::{
        BabyBearUnit, FieldVar, InvalidRelation, OwnedParameters, Permutation, PermutationInstance,
        PermutationRelation, PermutationWitness, PermutationWitnessBuilder, VarAllocator,
        INSTANCE_MAGIC, VERSION, WITNESS_MAGIC,
    },
    Parameters, PRIME,
};

type Relation<const W: usize> = PermutationRelation<BabyBearUnit, W>;
type Instance<const W: usize> = PermutationInstance<BabyBearUnit, W>;

const ZERO: BabyBearUnit = BabyBearUnit::ZERO;
const ONE: BabyBearUnit = BabyBearUnit::ONE;

/// x becomes 5(x - 1)^7, by parameters.
fn params() -> OwnedParameters<1> {
    OwnedParameters::new(1, &[0, PRIME - 1, 5]).unwrap()
}

/// The same, by a type that doesn't tell its parameters.
#[derive(Clone)]
struct Hidden(OwnedParameters<1>);

impl Permutation<1> for Hidden {
    type U = BabyBearUnit;

    fn permute(&self, state: &[BabyBearUnit; 1]) -> [BabyBearUnit; 1] {
        self.0.permute(state)
    }
}

/// The message with which it panics.
fn panics(call: impl FnOnce() + panic::UnwindSafe) -> String {
    let panic = panic::catch_unwind(call).expect_err("it panics");
    let text = panic.downcast_ref::<&str>().map(ToString::to_string);
    text.or_else(|| panic.downcast_ref::<String>().cloned())
        .expect("with a text")
}

#[test]
fn wires_and_queries_grow_as_needed() {
    let relation = Relation::<4>::labeled("growth");
    for i in 1..=5000 {
        assert_eq!(relation.allocate_var_with(BabyBearUnit(i)), FieldVar(i));
    }
    let mut state = relation.allocate_vars::<4>();
    for i in 0..3000 {
        let output = relation.allocate_permutation(&state);
        relation.add_equation(output[0] * ONE + state[1], BabyBearUnit(i));
        state = output;
    }
    assert_eq!(relation.allocator().vars_count(), 5005 + 4 * 3000);
    let values = relation.public_vars();
    assert!(values
        .iter()
        .zip(0..)
        .all(|(&(v, u), i)| v.0 == i && u.0 == i));
    let instance = relation.compile().unwrap();
    assert_eq!(
        (instance.public_vars(), instance.label()),
        (&values[..], "growth")
    );
    assert_eq!(
        (instance.queries(), instance.equations().len()),
        (&relation.queries()[..], 3000)
    );
    assert_eq!(instance.queries()[2999].output, state);
    assert_eq!(instance.value(FieldVar(4321)), Some(&BabyBearUnit(4321)));
    assert_eq!(instance.value(FieldVar(5001)), None);
    let bytes = instance.to_bytes();
    assert_eq!((&bytes[..4], bytes[4]), (&INSTANCE_MAGIC[..], VERSION));
    assert_eq!(Instance::from_bytes(&bytes), Ok(instance));
}

#[test]
fn traces_grow_as_needed() {
    let (relation, builder) = (
        Relation::<1>::new(),
        PermutationWitnessBuilder::from(params()),
    );
    let (mut wires, mut units) = (relation.allocate_vars(), [BabyBearUnit(2)]);
    for _ in 0..3000 {
        relation.permute_mut(&mut wires);
        builder.clone().permute_mut(&mut units);
    }
    relation.set_vars(wires, units);
    let (instance, witness) = (relation.compile().unwrap(), builder.snapshot());
    assert!(instance.is_witness_valid(&params(), &witness));
    assert!(instance.is_witness_valid(&Hidden(params()), &witness));
    let bytes = witness.to_bytes();
    assert_eq!((&bytes[..4], bytes[4]), (&WITNESS_MAGIC[..], VERSION));
    assert_eq!(PermutationWitness::from_bytes(&bytes), Ok(witness));
}

/// A query of a relation names wires that nobody has allocated, and another relation on the same allocator does so later.
#[test]
fn wires_that_another_relation_allocates_are_bound_by_queries_before_it() {
    let relation = Relation::<1>::new();
    let other = Relation::<3>::with_allocator(relation.allocator().clone());
    let far = FieldVar(1000);
    relation.add_permutation([far], [far.nth(1)]);
    relation.add_equation(far, ONE);
    let message = |compiled: Result<_, InvalidRelation>| -> (u32, String) {
        let refused = compiled.map(|_: Instance<1>| ()).unwrap_err();
        (refused.number(), refused.to_string())
    };
    let refused = "invalid relation: query 0 references unallocated variable";
    assert_eq!(message(relation.compile()), (13, format!("{refused} 1000")));
    other.allocate_vars_vec(1000);
    assert_eq!(message(relation.compile()), (13, format!("{refused} 1001")));
    other.allocate_permutation(&[far; 3]);
    assert!(relation.compile().is_ok());
    // In the other relation's instance too, but there it is in no query.
    let third = Relation::<1>::with_allocator(other.allocator().clone());
    third.add_equation(far, ONE);
    let unbound = "equation 0 weights variable 1000, which no query or assignment binds";
    assert_eq!(
        message(third.compile()),
        (15, format!("invalid relation: {unbound}"))
    );
    other.add_equation(far, ONE);
    assert!(other.compile().is_ok());
}

fn is_shared<T: Send + Sync + 'static>() {}

#[test]
fn threads_share_handles() {
    is_shared::<VarAllocator<BabyBearUnit>>();
    is_shared::<Relation<8>>();
    is_shared::<Instance<8>>();
    is_shared::<PermutationWitnessBuilder<OwnedParameters<8>, 8>>();

    let relation = Relation::<2>::new();
    let other = Relation::<3>::with_allocator(relation.allocator().clone());
    let builder = PermutationWitnessBuilder::<_, 1>::new(params());
    let minting = |_| {
        let (relation, other, builder) = (relation.clone(), other.clone(), builder.clone());
        thread::spawn(move || {
            for i in 0..2000 {
                let [x, y] = relation.allocate_permutation(&[FieldVar::ZERO; 2]);
                assert_eq!(y, x.nth(1));
                other.allocate_permutation(&[x, y, FieldVar::ZERO]);
                relation.set_var(x, BabyBearUnit(i));
                builder.allocate_permutation(&[BabyBearUnit(i)]);
            }
        })
    };
    for thread in [0, 1].map(minting) {
        thread.join().expect("no call panics");
    }
    assert_eq!(relation.allocator().vars_count(), 1 + 4000 * 5);
    let (instance, other) = (relation.compile().unwrap(), other.compile().unwrap());
    assert_eq!(
        (instance.queries().len(), other.queries().len()),
        (4000, 4000)
    );
    assert_eq!(other.public_vars().len(), 4001);
    let outputs = instance.queries().iter().map(|query| query.output);
    let others = other.queries().iter().map(|query| &query.input[..2]);
    let mut outputs: Vec<_> = outputs.map(|output| output[0]).collect();
    let mut others: Vec<_> = others.map(|input| input[0]).collect();
    outputs.sort_unstable();
    others.sort_unstable();
    assert_eq!(outputs, others);
    outputs.dedup();
    assert_eq!((outputs.len(), builder.trace().len()), (4000, 4000));
}

#[test]
fn a_panic_leaves_the_handle_usable() {
    let relation = Relation::<2>::new();
    let [x, y] = relation.allocate_vars();
    relation.set_var(x, ONE);
    let conflict = panics(|| relation.set_vars([y, x, FieldVar::ZERO], [ONE, ZERO, ONE]));
    assert_eq!(conflict, "conflicting assignment for variable 1");
    assert_eq!(
        panics(|| relation.set_var(FieldVar(3), ONE)),
        "unallocated variable 3"
    );
    let lengths = "set_vars: variables and values differ in length";
    assert_eq!(panics(|| relation.set_vars([x], [ONE; 2])), lengths);
    let beyond = "variable count exceeds supported maximum 1073741824";
    assert_eq!(panics(|| drop(relation.allocate_vars_vec(1 << 30))), beyond);
    let pairs = [(FieldVar::ZERO, ZERO), (x, ONE), (y, ONE)];
    assert_eq!(relation.public_vars(), pairs);
    assert_eq!(relation.allocate_var(), FieldVar(3));
}

/// What no program of the source's can hand over.
#[test]
fn words_that_are_no_wires_or_units_are_refused() {
    let relation = Relation::<1>::new();
    let (no_wire, no_unit) = (FieldVar(1 << 30), BabyBearUnit(PRIME));
    assert!(!relation.allocator().is_allocated(no_wire));
    assert_eq!(relation.allocator().value(no_wire), None);
    assert_eq!(
        panics(|| relation.set_var(no_wire, ONE)),
        "unallocated variable 1073741824"
    );
    let wire = "3: a wire is 2^30 or more";
    assert_eq!(
        panics(|| relation.add_permutation([no_wire], [FieldVar::ZERO])),
        wire
    );
    assert_eq!(
        panics(|| {
            relation.allocate_permutation(&[no_wire]);
        }),
        wire
    );
    assert_eq!(panics(|| relation.add_equation(no_wire, ONE)), wire);
    let unit = "4: a word that must be a unit is p (2013265921) or more";
    assert_eq!(panics(|| relation.set_var(FieldVar::ZERO, no_unit)), unit);
    assert_eq!(
        panics(|| relation.add_equation(FieldVar::ZERO * no_unit, ONE)),
        unit
    );
    assert_eq!(relation.allocator().vars_count(), 2); // the mint's output stays allocated
    relation.allocate_permutation(&[FieldVar::ZERO]);
    relation.add_equation(FieldVar::ZERO, ZERO);
    let instance = relation.compile().unwrap();
    let held = (instance.queries().len(), instance.equations().len());
    assert_eq!(held, (1, 1));
}

/// The same of steps and of parameters.
#[test]
fn a_builder_refuses_words_that_are_no_units() {
    let (builder, no_unit) = (
        PermutationWitnessBuilder::new(params()),
        BabyBearUnit(PRIME),
    );
    let unit = "4: a word that must be a unit is p (2013265921) or more";
    let add = || builder.add_permutation(&[ONE], &[no_unit]);
    let evaluate = || drop(builder.allocate_permutation(&[no_unit]).to_vec());
    assert_eq!([panics(add), panics(evaluate)], [unit; 2]);
    assert_eq!(builder.trace(), []);
    assert_eq!(
        builder.allocate_permutation(&[BabyBearUnit(2)]),
        [BabyBearUnit(5)]
    );
    assert_eq!(builder.trace().len(), 1);
    assert_eq!(
        OwnedParameters::<1>::new(1, &[2, 0, 0])
            .unwrap_err()
            .number(),
        17
    );
    assert_eq!(
        OwnedParameters::<2>::new(0, &[0; 3]).unwrap_err().number(),
        17
    );
}

/// Lists and permutations of the user's may call the very handles that they are handed to.
#[test]
fn no_lock_is_held_while_code_of_the_users_runs() {
    #[derive(Clone)]
    struct Counting(Arc<PermutationRelation<BabyBearUnit, 1>>);
    impl Permutation<1> for Counting {
        type U = BabyBearUnit;

        fn permute(&self, _: &[BabyBearUnit; 1]) -> [BabyBearUnit; 1] {
            let [var] = self.0.allocate_permutation(&[FieldVar::ZERO]);
            [BabyBearUnit(var.0)]
        }

        fn parameters(&self) -> Option<Parameters<'_>> {
            assert!(self.0.compile().is_ok());
            None
        }
    }
    let relation = Relation::<1>::new();
    let builder = PermutationWitnessBuilder::new(Counting(Arc::new(relation.clone())));
    assert_eq!(builder.allocate_permutation(&[ZERO]), [ONE]);
    let wires = relation.allocate_vars::<3>();
    let list = wires.iter().inspect(|_| {
        relation.allocate_var();
    });
    relation.set_vars(
        list,
        (0..3).map(|i| BabyBearUnit(relation.public_vars().len() as u32 + i)),
    );
    assert_eq!(relation.allocator().vars_count(), 8);
    assert_eq!(relation.allocator().value(wires[2]), Some(BabyBearUnit(5)));
    let instance = relation.compile().unwrap();
    assert!(!instance.is_witness_valid(builder.permutation(), &builder.snapshot()));
    assert_eq!(relation.queries().len(), 2);
}

/// The instance of document 01's example, with a wire more that has the weight 0 and no value where `unbound`, and a second
/// query of the same wires where `twice`.
fn example(unbound: bool, twice: bool, image: u32) -> Instance<1> {
    let relation = Relation::<1>::new();
    let [hidden, sealed, loose] = relation.allocate_vars();
    relation.set_var(sealed, BabyBearUnit(5));
    relation.add_permutation([hidden], [sealed]);
    if twice {
        relation.add_permutation([hidden], [hidden]);
    }
    let terms = hidden * BabyBearUnit(3) + FieldVar::ZERO;
    let loose = loose * ZERO;
    relation.add_equation(
        if unbound { terms + loose } else { terms },
        BabyBearUnit(image),
    );
    relation.compile().unwrap()
}

fn trace(steps: &[(u32, u32)]) -> PermutationWitness<BabyBearUnit, 1> {
    let builder = PermutationWitnessBuilder::new(params());
    for &(input, output) in steps {
        builder.add_permutation(&[BabyBearUnit(input)], &[BabyBearUnit(output)]);
    }
    builder.snapshot()
}

/// By parameters the check is one proved call; of any other permutation it is put together from several.
#[test]
fn a_check_is_the_same_with_and_without_parameters() {
    let cases = [
        (0, example(false, false, 6), trace(&[(2, 5)])),
        (31, example(false, false, 6), trace(&[])),
        (31, example(false, false, 6), trace(&[(2, 5), (2, 5)])),
        (32, example(false, false, 6), trace(&[(2, 6)])),
        (33, example(false, false, 9), trace(&[(3, 640)])), // a public
        (33, example(false, true, 6), trace(&[(2, 5), (2, 5)])), // a cell of the same step
        (33, example(false, true, 6), trace(&[(2, 5), (1, 0)])), // a cell of an earlier one
        (34, example(true, false, 6), trace(&[(2, 5)])),
        (35, example(false, false, 7), trace(&[(2, 5)])),
    ];
    for (number, instance, witness) in &cases {
        let by_parameters = instance.is_witness_valid(&params(), witness);
        let without = instance.is_witness_valid(&Hidden(params()), witness);
        assert_eq!(
            (by_parameters, without),
            (*number == 0, *number == 0),
            "{number}"
        );
    }
}

/// Notes the largest piece of memory that a thread asks for.
struct Noting;

thread_local! {
    static LARGEST: Cell<usize> = const { Cell::new(0) };
}

// SAFETY: everything is handed on.
unsafe impl GlobalAlloc for Noting {
    unsafe fn alloc(&self, layout: Layout) -> *mut u8 {
        LARGEST.set(LARGEST.get().max(layout.size()));
        // SAFETY: as this function was called.
        unsafe { System.alloc(layout) }
    }

    unsafe fn dealloc(&self, pointer: *mut u8, layout: Layout) {
        // SAFETY: as this function was called.
        unsafe { System.dealloc(pointer, layout) }
    }
}

#[global_allocator]
static NOTING: Noting = Noting;

/// An SFRI file of width 1 without a label, of these words from the wire count on.
fn file(words: &[u32]) -> Vec<u8> {
    let words = [1, 4, 0].iter().chain(words);
    let words = words.flat_map(|word| word.to_le_bytes());
    b"SFRI\x01".iter().copied().chain(words).collect()
}

#[test]
fn a_few_bytes_that_name_many_items_take_little_memory() {
    const MANY: u32 = u32::MAX;
    let cases: [(u32, &[u32]); 7] = [
        (16, &[MANY, 0, 0, 0]),
        (16, &[(1 << 30) + 1, 0, 0, 0]),
        (27, &[1 << 30, 2, 1, 0, 0, 0, 0, 0]),
        (20, &[1 << 30, MANY, 0, 0]),
        (20, &[1 << 30, 0, MANY, 0, 0]),
        (20, &[1 << 30, 0, 0, MANY, 0, 0]),
        (20, &[1 << 30, 0, 0, 1, MANY, 0, 0]),
    ];
    for (number, words) in cases {
        LARGEST.set(0);
        let read = Instance::<1>::from_bytes(&file(words));
        assert_eq!(read.unwrap_err().number(), number, "{words:?}");
        assert!(LARGEST.get() < 4096, "{words:?}: {}", LARGEST.get());
    }
    let steps = [
        b"SFRW\x01".as_slice(),
        &[1, 0, 0, 0, 4, 0, 0, 0],
        &[255; 4],
        &[0; 8],
    ]
    .concat();
    LARGEST.set(0);
    let read = PermutationWitness::<BabyBearUnit, 1>::from_bytes(&steps);
    assert_eq!(
        read.unwrap_err().message(),
        "malformed encoding: unit value"
    );
    assert!(LARGEST.get() < 4096);
}

/// More wires than bytes: scratch is made once the rest has been read.
#[test]
fn a_file_may_have_more_wires_than_bytes() {
    let bytes = file(&[100_000, 1, 99_999, 7, 0, 0]);
    let instance = Instance::<1>::from_bytes(&bytes).unwrap();
    assert_eq!(instance.vars_count(), 100_000);
    assert_eq!(instance.value(FieldVar(99_999)), Some(&BabyBearUnit(7)));
    assert!(instance.is_witness_valid(&params(), &trace(&[])));
    assert_eq!(instance.to_bytes(), bytes);
    let refused = Instance::<1>::from_bytes(&[bytes, vec![0]].concat()).unwrap_err();
    assert_eq!(
        refused.to_string(),
        "invalid relation: malformed encoding: trailing bytes"
    );
}
