//! Relations on one allocator: what each call gives back, accepted and refused.

use sfr::{
    BabyBearUnit, FieldVar, Held, Instance, Part, Refused, Set, SharedRelation, VarAllocator,
    Weighted, MAX_RELATIONS, UNASSIGNED,
};

/// A relation opened on an allocator of its own.
fn opened<const N: usize>(
    width: u32,
    quota: u32,
    slots: &mut [u32; N],
) -> (VarAllocator, SharedRelation) {
    let answer = sfr::with_allocator(VarAllocator::default(), width, quota, slots, &mut [0; N]);
    let (_, allocator, rel) = answer.accepted().expect("the first of eight");
    (allocator, rel)
}

#[test]
fn eight_are_opened_and_no_ninth() {
    let mut slots = [7; 3];
    let mut plant = VarAllocator::default();
    for index in 0..MAX_RELATIONS {
        let mut uses = [7; 3];
        let answer = sfr::with_allocator(plant, 24 - index, index, &mut slots, &mut uses);
        let (first, allocator, rel) = answer.accepted().expect("eight may be opened");
        assert_eq!((first, allocator.opened), (index, index + 1));
        assert_eq!(allocator.vars, 1);
        assert_eq!((rel.width, rel.quota, rel.obtained), (24 - index, index, 0));
        // The first opening writes slot 0, a later one none; each writes its own use store.
        assert_eq!(slots, [if index == 0 { 0 } else { 7 }, 7, 7]);
        assert_eq!((uses, rel.stray), ([0; 3], 0));
        plant = allocator;
        slots[0] = 7;
    }
    let mut uses = [7; 3];
    let refused = sfr::with_allocator(plant, 1, 1, &mut slots, &mut uses);
    assert_eq!((refused.number, refused.index), (42, 0));
    assert_eq!(refused.allocator, plant);
    assert_eq!(refused.relation, SharedRelation::default());
    plant.opened = 7;
    let refused = sfr::with_allocator(plant, 1, 1, &mut slots, &mut uses[..2]);
    assert_eq!((refused.number, refused.allocator), (10, plant));
    assert_eq!((slots, uses), ([7; 3], [7; 3]));
}

#[test]
fn answers_are_results() -> Result<(), Refused> {
    let (mut slots, mut uses, mut equations) = ([0; 8], [9; 8], [9; 8]);
    let mut queries = [FieldVar(9); 8];
    let wire = FieldVar;
    let (plant, one) = opened(1, 3, &mut slots);
    let (two, plant, other) = sfr::with_allocator(plant, 2, 2, &mut slots, &mut uses).accepted()?;
    let (var, plant, one) = sfr::allocate_vars_on(plant, 0, one, &mut slots, 2).accepted()?;
    assert_eq!((two, var, plant.vars, one.obtained), (1, wire(1), 3, 2));
    let five = BabyBearUnit(5);

    // The other relation sets one wire; the second of its pairs is refused.
    let tally = sfr::set_vars_on(
        plant,
        two,
        other,
        &mut slots,
        &[wire(1), wire(9)],
        &[five; 2],
    );
    assert_eq!((tally.number, tally.accepted, tally.fresh), (7, 1, 1));
    let text = b"         2          274\n         2          275\n";
    let tally = sfr::set_tickets_on(plant, two, other, &mut slots, text);
    assert_eq!((tally.number, tally.accepted, tally.fresh), (8, 1, 1));
    // What the other has set is repeated for the one.
    let set = sfr::set_var_on(plant, 0, one, &mut slots, wire(1), five).accepted()?;
    assert_eq!(set, Set::Repeated);
    let tally = sfr::set_vars_on(plant, 2, one, &mut slots, &[wire(1)], &[five]);
    assert_eq!((tally.number, tally.accepted, tally.fresh), (42, 0, 0));
    let value = |var| sfr::value_of_on(plant, 0, one, &slots, wire(var)).accepted();
    assert_eq!(
        (value(1)?, value(2)?, value(3)?),
        (Some(five), Some(five), None)
    );
    assert!(!sfr::is_allocated_on(plant, 0, one, wire(3)).accepted()?);

    let mint = |slots: &mut [u32], queries: &mut [FieldVar], uses: &mut [u32]| {
        let input = [wire(1), wire(2)];
        sfr::allocate_permutation_on(plant, two, other, slots, queries, uses, &input)
    };
    let refused = mint(&mut slots, &mut queries[..3], &mut uses);
    assert_eq!((refused.number, refused.relation), (10, other));
    let refused = mint(&mut slots, &mut queries, &mut uses[..7]);
    assert_eq!((refused.number, refused.relation), (10, other));
    let (first, plant, other) = mint(&mut slots, &mut queries, &mut uses).accepted()?;
    assert_eq!((first, other.obtained, other.queries), (wire(3), 2, 1));
    assert_eq!(queries, [1, 2, 3, 4, 9, 9, 9, 9].map(wire));
    let record = |rel, queries: &mut [FieldVar], uses: &mut [u32]| {
        let (input, output) = ([wire(0), wire(8)], [wire(0), wire(7)]);
        sfr::add_permutation_on(plant, two, rel, &slots, queries, uses, &input, &output)
    };
    let (plant, other) = record(other, &mut queries, &mut uses).accepted()?;
    assert_eq!((other.queries, other.obtained, other.stray), (2, 2, 1));
    assert_eq!(uses, [2, 1, 1, 1, 1, 0, 0, 1]);

    let (var, weight) = (wire(3), BabyBearUnit::ONE);
    let terms = [Weighted { var, weight }];
    let state = |rel, equations: &mut [u32], image| {
        sfr::add_equation_on(plant, two, rel, equations, &terms, BabyBearUnit(image)).accepted()
    };
    let (_, other) = state(other, &mut equations, 6)?;
    let (_, other) = state(other, &mut equations, 7)?;
    assert_eq!(equations, [1, 3, 1, 6, 1, 3, 1, 7]);
    assert_eq!(slots, [0, 5, 5, UNASSIGNED, UNASSIGNED, 0, 0, 0]);

    // A query and an equation are withdrawn, each by its number.
    let strike = |index, rel, queries: &mut [FieldVar], uses: &mut [u32], i| {
        sfr::withdraw_query_on(plant, index, rel, &slots, queries, uses, i)
    };
    for (index, i, number) in [(2, 1, 42), (two, 2, 45)] {
        let refused = strike(index, other, &mut queries, &mut uses, i);
        assert_eq!((refused.number, refused.relation), (number, other));
        let refused = sfr::withdraw_equation_on(plant, index, other, &mut equations, i);
        assert_eq!((refused.number, refused.relation), (number, other));
    }
    let (_, other) = strike(two, other, &mut queries, &mut uses, 1).accepted()?;
    assert_eq!((other.queries, other.obtained, other.stray), (1, 2, 0));
    assert_eq!(queries, [1, 2, 3, 4, 0, 0, 0, 0].map(wire));
    assert_eq!(uses, [0, 1, 1, 1, 1, 0, 0, 0]);
    let answer = sfr::withdraw_equation_on(plant, two, other, &mut equations, 0);
    let (_, other) = answer.accepted()?;
    assert_eq!((other.equations, other.words), (1, 4));
    assert_eq!(equations, [1, 3, 1, 7, 0, 0, 0, 0]);

    let gate = |index| {
        let (mut publics, mut scratch) = ([9; 7], [9; 5]);
        let held = Held {
            label: b"",
            slots: &slots,
            queries: &queries,
            equations: &equations,
            uses: &uses,
        };
        let gate = sfr::compile_on(plant, index, other, held, &mut publics, &mut scratch);
        let (number, ins) = (gate.number, gate.parts.instance);
        assert_eq!(scratch, [0; 5]);
        (number, ins, publics)
    };
    let (number, ins, publics) = gate(two);
    assert_eq!((number, ins.vars, ins.publics), (0, 5, 3));
    assert_eq!(publics, [0, 0, 1, 5, 2, 5, 0]);
    let (number, ins, publics) = gate(2);
    assert_eq!((number, ins), (42, Instance::default()));
    assert_eq!(publics, [0; 7]);

    // Which part of 11, and none where 42 comes first.
    let held = Held {
        label: b"\xC0\x80",
        slots: &slots,
        queries: &queries,
        equations: &equations,
        uses: &uses,
    };
    let part = |index| sfr::unsound_held_on(plant, index, other, held);
    assert_eq!((part(two), part(2)), (Some(Part::Label), None));
    Ok(())
}
