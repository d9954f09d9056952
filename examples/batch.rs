//! A batch of premix, weighed by hopper, sack included, and by hand, in steps of 50 g. The two weights stay hidden behind
//! their seals, the sack's is public, from a weigh ticket, and an equation says that they agree: by hand + sack = hopper.
//! The sack was put on the scale twice, and the second reading is a repeat. The recipe's draft sealed the sack too, and had
//! an equation without it: both lines are struck.
//! From the repository's root:
//!
//! ```sh
//! cargo run --offline --manifest-path rust/Cargo.toml --example batch
//! ```

use sfr::{BabyBearUnit, FieldVar, Held, Parameters, Refused, Stores, Trace, Weighted, PRIME};

/// The recipe: one round that makes x to 5(x - 1)^7.
const PARAMS: Parameters<'_> = Parameters {
    rounds: 1,
    words: &[0, PRIME - 1, 5],
};

/// The check's answer on the files of a batch of these two weights.
fn batch(by_hopper: u32, by_hand: u32) -> Result<u32, Refused> {
    let (slots, uses, scratch) = (&mut [0; 7], &mut [0; 7], &mut [0; 7]);
    let (queries, equations) = (&mut [FieldVar::ZERO; 6], &mut [0; 14]);
    let (publics, trace) = (&mut [0; 4], &mut [BabyBearUnit::ZERO; 4]);
    let (sfri, sfrw) = (&mut [0; 128], &mut [0; 64]);

    let rel = sfr::new_relation(1, slots, uses).accepted()?;
    let (hopper, mut rel) = sfr::allocate_vars(rel, slots, 3).accepted()?;
    let (hand, sack) = (hopper.nth(1), hopper.nth(2));
    let ticket = [50, 55].map(|grams| format!("{:>10} {grams:>12}\n", sack.0)); // both are 1 step
    let tally = sfr::set_tickets(rel, slots, ticket.concat().as_bytes());
    let repeated = tally.accepted()? - tally.fresh;
    println!("ticket: {} readings, {repeated} repeated", tally.accepted);
    for sealed in [hopper, sack, hand] {
        (_, rel) = sfr::allocate_permutation(rel, slots, queries, uses, &[sealed]).accepted()?;
    }
    let (one, zero) = (BabyBearUnit::ONE, BabyBearUnit::ZERO);
    let terms = [(hand, one), (hopper, BabyBearUnit(PRIME - 1)), (sack, one)];
    let terms = terms.map(|(var, weight)| Weighted { var, weight });
    rel = sfr::add_equation(rel, equations, &terms[..2], zero).accepted()?;
    rel = sfr::add_equation(rel, equations, &terms, zero).accepted()?;
    rel = sfr::withdraw_query(rel, slots, queries, uses, 1).accepted()?; // the sack's
    rel = sfr::withdraw_equation(rel, equations, 0).accepted()?; // the one of two terms
    println!(
        "struck: {} queries and {} equation remain, the sack in {} cells",
        rel.queries,
        rel.equations,
        uses[sack.index()]
    );
    let held = Held {
        label: b"batch 7",
        slots,
        queries,
        equations,
        uses,
    };
    let parts = sfr::compile(rel, held, publics, scratch).accepted()?;
    let sfri_len = sfr::instance_to_bytes(parts, sfri).accepted()?;

    let mut rec = Trace { width: 1, steps: 0 };
    for weight in [by_hopper, by_hand] {
        rec = sfr::evaluate_step(rec, trace, &[BabyBearUnit(weight)], PARAMS).accepted()?;
    }
    let sfrw_len = sfr::witness_to_bytes(rec, trace, sfrw).accepted()?;

    // From here on only the bytes count. Provers insist on wire 0, listed with value 0.
    let stores = Stores {
        publics,
        queries,
        equations,
    };
    let (sfri, sfrw) = (&sfri[..sfri_len], &sfrw[..sfrw_len]);
    let parts = sfr::strict_instance_from_bytes(1, sfri, stores, scratch).accepted()?;
    let rec = sfr::witness_from_bytes(1, sfrw, trace).accepted()?;
    Ok(sfr::is_witness_valid(parts, rec.steps, trace, PARAMS, scratch).number)
}

fn main() -> Result<(), Refused> {
    println!("hopper 3, sack 1, by hand 2: {}", batch(3, 2)?); // yes
    println!("hopper 3, sack 1, by hand 3: {}", batch(3, 3)?); // no: the sum isn't the image
    let edited = b"\xED\xA0\x80 batch 7"; // a label as the recipe editor began it
    let scan = sfr::scan_utf8(edited);
    println!(
        "label ED A0 80 ..: passes {}, place {}",
        scan.passes, scan.place
    ); // no A0 after ED
    Ok(())
}
