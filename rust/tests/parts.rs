//! What comes back as a part of what was lent, and what the answers become as results.

use sfr::{
    BabyBearUnit, FieldVar, Held, Instance, InstanceRead, Outcome, Part, Parts, Refused, Relation,
    Set, Stores, Weighted, MAX_COUNT, PRIME, UNASSIGNED,
};

/// The words of wires.
fn vars<const N: usize>(words: [u32; N]) -> [FieldVar; N] {
    words.map(FieldVar)
}

/// Terms of these wires and weights.
fn terms<const N: usize>(pairs: [(u32, u32); N]) -> [Weighted; N] {
    pairs.map(|(var, weight)| Weighted {
        var: FieldVar(var),
        weight: BabyBearUnit(weight),
    })
}

/// Is it the very same part, not only equal bytes?
fn same_part(a: &[u8], b: &[u8]) -> bool {
    std::ptr::eq(a, b)
}

#[test]
fn a_heading_is_the_very_label_or_name() {
    let (label, name) = (b"batch 7", b"the mill");
    assert!(same_part(sfr::heading(label, name), label));
    assert!(same_part(sfr::heading(&label[..0], name), name));
    assert!(same_part(sfr::heading(&label[..0], &name[..0]), &name[..0]));
    assert!(same_part(sfr::heading(label, &name[..0]), label));
}

/// An SFRI file of width 1 with that label, so many wires, these publics and nothing else.
fn file_of(label: &[u8], wires: u32, publics: &[u32]) -> Vec<u8> {
    let words = |words: &[u32]| -> Vec<u8> { words.iter().flat_map(|w| w.to_le_bytes()).collect() };
    let head = words(&[1, 4, label.len() as u32]);
    let counts = words(&[wires, publics.len() as u32 / 2]);
    let (publics, rest) = (words(publics), words(&[0, 0]));
    [b"SFRI\x01", &head[..], label, &counts, &publics, &rest].concat()
}

/// The same with one wire and no publics.
fn file(label: &[u8]) -> Vec<u8> {
    file_of(label, 1, &[])
}

/// Stores for publics alone.
fn stores(publics: &mut [u32]) -> Stores<'_> {
    Stores {
        publics,
        queries: &mut [],
        equations: &mut [],
    }
}

/// A plain read of a file that has a label and nothing else.
fn read(bytes: &[u8]) -> InstanceRead<'_> {
    sfr::instance_from_bytes(1, bytes, stores(&mut []), &mut [7])
}

#[test]
fn a_label_is_the_very_part_of_the_bytes() {
    let bytes = file("lot 7 ✓".as_bytes());
    let parts = read(&bytes).accepted().expect("it is sound");
    assert_eq!(parts.instance.vars, 1);
    assert!(same_part(parts.label, &bytes[17..17 + "lot 7 ✓".len()]));
}

#[test]
fn a_refused_read_has_no_label() {
    let bytes = file(&[0xC0, 0x80]);
    let read = read(&bytes);
    assert_eq!(read.accepted().map_err(Refused::number), Err(25));
    assert!(read.parts.label.is_empty());
    assert_eq!(read.parts.instance, Instance::default());
}

#[test]
fn a_strict_read_wants_wire_0_with_value_0() {
    let kept: &[u32] = &[0, 0, 1, 5];
    let broken: [(u32, &[u32]); 4] = [(2, &[]), (2, &[1, 0]), (2, &[0, 1]), (0, &[])];
    for (wires, pairs) in broken.into_iter().chain([(2, kept)]) {
        let bytes = file_of(b"lot 7", wires, pairs);
        let (publics, scratch) = (&mut [7; 5], &mut [7; 2]);
        let read = sfr::strict_instance_from_bytes(1, &bytes, stores(publics), scratch);
        let (number, label, left): (_, &[u8], _) = if pairs == kept {
            (0, b"lot 7", [0, 0, 1, 5, 0])
        } else {
            (46, b"", [0; 5])
        };
        assert_eq!(
            (read.number, read.parts.label),
            (number, label),
            "{pairs:?}"
        );
        assert_eq!((read.parts.publics, *scratch), (&left[..], [0; 2]));
        // The plain read takes all of them.
        let plain = sfr::instance_from_bytes(1, &bytes, stores(publics), scratch);
        assert_eq!(plain.number, 0);
    }
}

#[test]
fn scaling_keeps_the_terms() {
    let list = terms([(1, 3), (1, PRIME - 1), (0, 0)]);
    let mut scaled = list;
    let scale = |list: &mut [Weighted], factor| sfr::scale(list, BabyBearUnit(factor)).number;
    assert_eq!(scale(&mut scaled, 2), 0);
    assert_eq!(scaled, terms([(1, 6), (1, PRIME - 2), (0, 0)]));

    let mut scaled = list;
    assert_eq!(scale(&mut scaled, PRIME), 4);
    assert_eq!(scaled, list);
    let odd = terms([(1, PRIME), (1, 1), (1 << 30, 0)]);
    let mut scaled = odd;
    assert_eq!(scale(&mut scaled, 2), 3);
    assert_eq!(scaled, odd);
}

#[test]
fn units_add_and_multiply() {
    let last = BabyBearUnit(PRIME - 1);
    assert_eq!(last + BabyBearUnit::ONE, BabyBearUnit::ZERO);
    assert_eq!(last * last, BabyBearUnit::ONE);
    assert_eq!(sfr::add_unit(last, last), last + last);
    assert_eq!(FieldVar::try_from_index(1 << 30), None);
    assert_eq!(FieldVar::list(&[3, 4]), vars([3, 4]));
    FieldVar::list_mut(&mut [3, 4])[0] = FieldVar(5);
    assert_eq!(format!("{:?}", FieldVar(5).nth(2)), "v(7)");
}

#[test]
fn every_number_has_its_meaning() {
    let numbers = (1..=17).chain(20..=25).chain([27, 28]).chain(31..=36);
    let none = Outcome { number: 47 }.accepted().unwrap_err().meaning();
    for number in numbers.chain(40..=46) {
        let refused = Outcome { number }.accepted().unwrap_err();
        assert_eq!(refused.number(), number);
        assert_ne!(refused.meaning(), none, "{number}");
        assert_eq!(
            refused.to_string(),
            format!("{number}: {}", refused.meaning())
        );
    }
    assert_eq!(Outcome { number: 0 }.accepted(), Ok(()));
    let refused = Outcome { number: 8 }.accepted().unwrap_err();
    assert_eq!(refused.meaning(), "the wire already has another value");
}

/// Parts of width 1 that hold each store whole, but for unused words at the equations' end.
fn parts<'a>(words: &'a [u32], queries: &'a [FieldVar], publics: &'a [u32]) -> Parts<'a> {
    let instance = Instance {
        width: 1,
        vars: 4,
        queries: queries.len() as u32 / 2,
        equations: 1,
        words: 4,
        publics: publics.len() as u32 / 2,
    };
    Parts {
        instance,
        label: b"lot 7",
        publics,
        queries,
        equations: words,
    }
}

#[test]
fn of_11_it_is_told_which_part() {
    let (sound, queries) = ([1, 3, 7, 9, 0], vars([1, 2]));
    let whole = parts(&sound, &queries, &[0, 0]);
    let told = |parts: Parts<'_>| {
        let number = sfr::instance_to_bytes(parts, &mut [0; 128]).number;
        (number, sfr::unsound_part(parts))
    };
    assert_eq!(told(whole), (0, None));
    let unsound = |part| (11, Some(part));
    for words in [
        [2, 3, 7, 9, 0],
        [1, 1 << 30, 7, 9, 0],
        [1, 3, PRIME, 9, 0],
        [1, 3, 7, PRIME, 0],
    ] {
        assert_eq!(
            told(parts(&words, &queries, &[0, 0])),
            unsound(Part::Equations)
        );
    }
    let (beyond, no_unit) = ([MAX_COUNT, 0], [0, PRIME]);
    assert_eq!(
        told(parts(&sound, &queries, &beyond)),
        unsound(Part::Publics)
    );
    assert_eq!(
        told(parts(&sound, &queries, &no_unit)),
        unsound(Part::Publics)
    );
    let odd = vars([1, MAX_COUNT]);
    assert_eq!(told(parts(&sound, &odd, &[0, 0])), unsound(Part::Queries));
    let label = b"\xC0\x80";
    assert_eq!(told(Parts { label, ..whole }), unsound(Part::Label));
    // Of several the one that is asked first.
    let both = parts(&sound, &odd, &no_unit);
    assert_eq!(told(Parts { label, ..both }), unsound(Part::Publics));
    // What is refused before 11 isn't looked at.
    let instance = Instance {
        width: 25,
        ..both.instance
    };
    assert_eq!(told(Parts { instance, ..both }), (1, None));

    let trace = BabyBearUnit::list(&[1, PRIME]);
    let rec = |steps| sfr::Trace { width: 1, steps };
    assert_eq!(
        sfr::witness_to_bytes(rec(1), trace, &mut [0; 64]).number,
        11
    );
    assert_eq!(sfr::unsound_trace(rec(1), trace), Some(Part::Trace));
    assert_eq!(sfr::unsound_trace(rec(0), trace), None);
    assert_eq!(sfr::unsound_trace(rec(2), trace), None);
}

#[test]
fn of_the_gate_s_11_too() {
    let (sound, queries, odd) = ([1, 3, 7, 9, 0], vars([1, 2]), vars([1, MAX_COUNT]));
    let (slots, odd_slots) = (
        [0, 5, UNASSIGNED, UNASSIGNED, 9],
        [0, 5, PRIME, UNASSIGNED, 9],
    );
    let rel = Relation {
        width: 1,
        vars: 4,
        queries: 1,
        equations: 1,
        words: 4,
        stray: 0,
    };
    let held = Held {
        label: b"lot 7",
        slots: &slots,
        queries: &queries,
        equations: &sound,
        uses: &[0, 1, 1, 1, 0],
    };
    let told = |rel, held| {
        let number = sfr::compile(rel, held, &mut [0; 8], &mut [0; 4]).number;
        (number, sfr::unsound_held(rel, held))
    };
    let unsound = |part| (11, Some(part));
    assert_eq!(told(rel, held), (0, None));
    assert_eq!(
        told(Relation { words: 5, ..rel }, held),
        unsound(Part::Equations)
    );
    let beyond = Held {
        queries: &odd,
        ..held
    };
    assert_eq!(told(rel, beyond), unsound(Part::Queries));
    let no_unit = Held {
        slots: &odd_slots,
        ..held
    };
    assert_eq!(told(rel, no_unit), unsound(Part::Slots));
    // A slot beyond the wire count may hold anything.
    assert_eq!(told(Relation { vars: 2, ..rel }, no_unit).1, None);
    let label = b"\xED\xA0\x80";
    assert_eq!(told(rel, Held { label, ..held }), unsound(Part::Label));
    let all = Held {
        label,
        queries: &odd,
        ..no_unit
    };
    assert_eq!(told(rel, all), unsound(Part::Queries));
    assert_eq!(told(rel, Held { label, ..no_unit }), unsound(Part::Slots));
    assert_eq!(told(Relation { vars: 0, ..rel }, all), (2, None));
}

#[test]
fn answers_are_results() -> Result<(), Refused> {
    let mut slots = [0; 4];
    let rel = sfr::new_relation(1, &mut slots, &mut [0; 4]).accepted()?;
    let (first, rel) = sfr::allocate_vars(rel, &mut slots, 2).accepted()?;
    assert_eq!(first, FieldVar(1));
    let fives = BabyBearUnit::list(&[5, 5, 5]);
    let tally = sfr::set_vars(rel, &mut slots, &vars([1, 9, 2]), fives);
    assert_eq!(
        (tally.accepted, tally.accepted().map_err(Refused::number)),
        (1, Err(7))
    );
    assert_eq!(tally.fresh, 1);
    let value = |slots: &[u32], var| sfr::value_of(rel, slots, FieldVar(var)).accepted();
    assert_eq!(value(&slots, 1)?, Some(BabyBearUnit(5)));
    let text = b"         1          274\n         2          275\n";
    let tally = sfr::set_tickets(rel, &mut slots, &text[..47]);
    assert_eq!(
        (tally.accepted, tally.accepted().map_err(Refused::number)),
        (1, Err(40))
    );
    assert_eq!(tally.fresh, 0);
    assert_eq!(value(&slots, 2)?, None);
    assert!(!sfr::is_allocated(rel, FieldVar(3)).accepted()?);
    let mut bytes = [0; 4];
    let next = sfr::put_u32(&mut bytes, 0, 77).accepted()?;
    assert_eq!((sfr::read_u32(&bytes, 0).accepted()?, next), ((77, 4), 4));
    Ok(())
}

#[test]
fn sets_are_fresh_or_repeated() -> Result<(), Refused> {
    let mut slots = [0; 5];
    let rel = sfr::new_relation(1, &mut slots, &mut [0; 5]).accepted()?;
    let (_, rel) = sfr::allocate_vars(rel, &mut slots, 4).accepted()?;
    let mut set =
        |var, value| sfr::set_var(rel, &mut slots, FieldVar(var), BabyBearUnit(value)).accepted();
    assert_eq!(set(1, 5)?, Set::Fresh);
    assert_eq!(set(1, 5)?, Set::Repeated);
    assert_eq!(set(1, 6).map_err(Refused::number), Err(8));
    assert_eq!(set(0, 0)?, Set::Repeated);
    let refused = sfr::set_var(rel, &mut slots, FieldVar(5), BabyBearUnit::ZERO);
    assert_eq!((refused.number, refused.fresh), (7, false));

    // Of five pairs wire 2 alone is fresh, the first time.
    let mut set_list = |vars: &[u32], values: &[u32]| {
        let (vars, values) = (FieldVar::list(vars), BabyBearUnit::list(values));
        sfr::set_vars(rel, &mut slots, vars, values)
    };
    let tally = set_list(&[1, 2, 0, 2, 2], &[5, 7, 0, 7, 7]);
    assert_eq!((tally.accepted()?, tally.fresh), (5, 1));
    let tally = set_list(&[3, 3, 2, 4], &[1, 1, 8, 1]);
    assert_eq!((tally.number, tally.accepted, tally.fresh), (8, 2, 1));
    let tally = set_list(&[4, 4, 4], &[9, 9]);
    assert_eq!((tally.number, tally.accepted, tally.fresh), (9, 2, 1));
    slots[4] = UNASSIGNED;
    // 24 g and 0 g are both no step.
    let text = b"         4           24\n         4            0\n         0            0\n";
    let tally = sfr::set_tickets(rel, &mut slots, text);
    assert_eq!((tally.accepted()?, tally.fresh), (3, 1));
    Ok(())
}

#[test]
fn what_is_withdrawn_is_gone() -> Result<(), Refused> {
    let (slots, queries, uses) = (&mut [0; 4], &mut vars([9; 7]), &mut [9; 4]);
    let refused = sfr::new_relation(1, slots, &mut uses[..3]);
    assert_eq!((refused.number, refused.relation), (10, Default::default()));
    let rel = sfr::new_relation(1, slots, uses).accepted()?;
    let (_, rel) = sfr::allocate_permutation(rel, slots, queries, uses, &vars([0])).accepted()?;
    let rel = sfr::add_permutation(rel, slots, queries, uses, &vars([1]), &vars([3])).accepted()?;
    let rel = sfr::add_permutation(rel, slots, queries, uses, &vars([4]), &vars([1])).accepted()?;
    assert_eq!(
        (*queries, &*uses),
        (vars([0, 1, 1, 3, 4, 1, 9]), &[1, 3, 0, 1])
    );
    assert_eq!((rel.vars, rel.queries, rel.stray), (2, 3, 1));

    // Counts that are not those of the queries: 11, and before it 45, after it 10.
    let strike = |counts: &[u32], i| {
        let (held, uses) = (&mut { *queries }, &mut counts.to_vec());
        let refused = sfr::withdraw_query(rel, slots, held, uses, i);
        assert_eq!((refused.relation, &*held), (rel, &*queries));
        assert_eq!(uses, counts);
        refused.number
    };
    assert_eq!(strike(&[1, 3, 0, 0], 3), 45);
    assert_eq!(strike(&[1, 3, 0, 0], 1), 11);
    assert_eq!(strike(&[1, MAX_COUNT + 2, 0, 1], 1), 11);
    assert_eq!(strike(&[1, 0, 0], 1), 11);
    assert_eq!(strike(&[1, 3, 0], 1), 10);

    let rel = sfr::withdraw_query(rel, slots, queries, uses, 1).accepted()?;
    assert_eq!(
        (*queries, &*uses),
        (vars([0, 1, 4, 1, 0, 0, 9]), &[1, 2, 0, 0])
    );
    assert_eq!((rel.vars, rel.queries, rel.stray), (2, 2, 1));
    let rel = sfr::withdraw_query(rel, slots, queries, uses, 1).accepted()?;
    assert_eq!(
        (*queries, &*uses),
        (vars([0, 1, 0, 0, 0, 0, 9]), &[1, 1, 0, 0])
    );
    assert_eq!((rel.vars, rel.queries, rel.stray), (2, 1, 0));

    let equations = &mut [9; 12];
    let terms = terms([(1, 1), (0, 1)]);
    let rel = sfr::add_equation(rel, equations, &terms, BabyBearUnit(6)).accepted()?;
    let rel = sfr::add_equation(rel, equations, &terms[..1], BabyBearUnit(7)).accepted()?;
    assert_eq!((rel.equations, rel.words), (2, 10));
    let refused = sfr::withdraw_equation(rel, equations, 2);
    assert_eq!((refused.number, refused.relation), (45, rel));
    let short = Relation { words: 9, ..rel };
    let refused = sfr::withdraw_equation(short, equations, 0);
    assert_eq!((refused.number, refused.relation), (11, short));
    assert_eq!(equations, &[2, 1, 1, 0, 1, 6, 1, 1, 1, 7, 9, 9]);
    let rel = sfr::withdraw_equation(rel, equations, 0).accepted()?;
    assert_eq!((rel.equations, rel.words), (1, 4));
    assert_eq!(equations, &[1, 1, 1, 7, 0, 0, 0, 0, 0, 0, 9, 9]);
    Ok(())
}

#[test]
fn the_gate_goes_by_the_counts() -> Result<(), Refused> {
    let (slots, queries, equations) = (&mut [0; 4], &mut vars([0; 2]), &mut [0; 4]);
    let uses = &mut [0; 4];
    let rel = sfr::new_relation(1, slots, uses).accepted()?;
    let (_, rel) = sfr::allocate_permutation(rel, slots, queries, uses, &vars([0])).accepted()?;
    let term = terms([(1, 1)]);
    let rel = sfr::add_equation(rel, equations, &term, BabyBearUnit::ZERO).accepted()?;
    let gate = |stray, uses: &[u32]| {
        let (publics, scratch) = (&mut [9; 3], &mut [9; 2]);
        let rel = Relation { stray, ..rel };
        let held = Held {
            label: b"",
            slots,
            queries,
            equations,
            uses,
        };
        let number = sfr::compile(rel, held, publics, scratch).number;
        assert_eq!((publics, scratch), (&mut [0; 3], &mut [0; 2]));
        number
    };
    assert_eq!(gate(0, uses), 0);
    assert_eq!(gate(0, &[5, 1, 0, 0]), 0);
    assert_eq!(gate(0, &uses[..3]), 10);
    assert_eq!(gate(1, uses), 13);
    assert_eq!(gate(0, &[1, 1, 0, 1]), 13);
    assert_eq!(gate(0, &[1, 0, 0, 0]), 15);
    Ok(())
}
