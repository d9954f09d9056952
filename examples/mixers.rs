//! Two mixers on one allocator, in steps of 50 g. The premix mixer seals what its hopper weighs; the finishing mixer, of
//! width 2, weighs by hand what comes out, seals that together with the hopper's reading, and reads the sack's ticket,
//! which is public to both. The premix mixer reads the same ticket again, which is a repeat. Its equation says hopper -
//! sack = 2, the order; the finishing mixer's hand + sack = hopper. From the repository's root:
//!
//! ```sh
//! cargo run --offline --manifest-path rust/Cargo.toml --example mixers
//! ```

use sfr::{
    BabyBearUnit, FieldVar, Held, Parameters, Refused, SharedRelation, Stores, Trace, VarAllocator,
    Weighted, PRIME,
};

/// What the mixers share.
#[derive(Default)]
struct Plant {
    allocator: VarAllocator,
    slots: [u32; 7],
}

/// A mixer's number, record and own stores, and its recipe.
struct Mixer {
    index: u32,
    rel: SharedRelation,
    queries: [FieldVar; 4],
    uses: [u32; 7],
    equations: [u32; 8],
    params: Parameters<'static>,
}

impl Plant {
    fn open(&mut self, width: u32, quota: u32, words: &'static [u32]) -> Result<Mixer, Refused> {
        let mut uses = [0; 7];
        let slots = &mut self.slots;
        let opened = sfr::with_allocator(self.allocator, width, quota, slots, &mut uses);
        let (index, rel);
        (index, self.allocator, rel) = opened.accepted()?;
        Ok(Mixer {
            index,
            rel,
            queries: [FieldVar::ZERO; 4],
            uses,
            equations: [0; 8],
            params: Parameters { rounds: 1, words },
        })
    }

    fn allocate(&mut self, mixer: &mut Mixer, n: u32) -> Result<FieldVar, Refused> {
        let (rel, slots) = (mixer.rel, &mut self.slots);
        let allocated = sfr::allocate_vars_on(self.allocator, mixer.index, rel, slots, n);
        let first;
        (first, self.allocator, mixer.rel) = allocated.accepted()?;
        Ok(first)
    }

    /// Reads a ticket; how many of its readings were repeats.
    fn tickets(&mut self, mixer: &Mixer, text: &str) -> Result<usize, Refused> {
        let (rel, slots) = (mixer.rel, &mut self.slots);
        let tally = sfr::set_tickets_on(self.allocator, mixer.index, rel, slots, text.as_bytes());
        Ok(tally.accepted()? - tally.fresh)
    }

    fn mint(&mut self, mixer: &mut Mixer, input: &[FieldVar]) -> Result<(), Refused> {
        let (slots, queries, uses) = (&mut self.slots, &mut mixer.queries, &mut mixer.uses);
        let minted = sfr::allocate_permutation_on(
            self.allocator,
            mixer.index,
            mixer.rel,
            slots,
            queries,
            uses,
            input,
        );
        (_, self.allocator, mixer.rel) = minted.accepted()?;
        Ok(())
    }

    fn equation(
        &mut self,
        mixer: &mut Mixer,
        terms: &[(FieldVar, u32)],
        image: u32,
    ) -> Result<(), Refused> {
        let terms = terms.iter().map(|&(var, weight)| Weighted {
            var,
            weight: BabyBearUnit(weight),
        });
        let (terms, equations): (Vec<_>, _) = (terms.collect(), &mut mixer.equations);
        let stated = sfr::add_equation_on(
            self.allocator,
            mixer.index,
            mixer.rel,
            equations,
            &terms,
            BabyBearUnit(image),
        );
        (self.allocator, mixer.rel) = stated.accepted()?;
        Ok(())
    }

    /// The check's answer on the files of a mixer's batch whose one step has these inputs.
    fn check(&self, mixer: &Mixer, inputs: &[u32]) -> Result<u32, Refused> {
        let (queries, equations) = (&mut [FieldVar::ZERO; 4], &mut [0; 8]);
        let (publics, scratch) = (&mut [0; 4], &mut [0; 7]);
        let (sfri, sfrw) = (&mut [0; 128], &mut [0; 64]);
        let (width, params) = (mixer.rel.width, mixer.params);

        let held = Held {
            label: b"order 2",
            slots: &self.slots,
            queries: &mixer.queries,
            equations: &mixer.equations,
            uses: &mixer.uses,
        };
        let (allocator, index) = (self.allocator, mixer.index);
        let gate = sfr::compile_on(allocator, index, mixer.rel, held, publics, scratch);
        let sfri_len = sfr::instance_to_bytes(gate.accepted()?, sfri).accepted()?;
        let (rec, trace) = (Trace { width, steps: 0 }, &mut [BabyBearUnit::ZERO; 4]);
        let inputs = BabyBearUnit::list(inputs);
        let rec = sfr::evaluate_step(rec, trace, inputs, params).accepted()?;
        let sfrw_len = sfr::witness_to_bytes(rec, trace, sfrw).accepted()?;

        // From here on only the bytes count.
        let stores = Stores {
            publics,
            queries,
            equations,
        };
        let (sfri, sfrw) = (&sfri[..sfri_len], &sfrw[..sfrw_len]);
        let parts = sfr::instance_from_bytes(width, sfri, stores, scratch).accepted()?;
        let rec = sfr::witness_from_bytes(width, sfrw, trace).accepted()?;
        Ok(sfr::is_witness_valid(parts, rec.steps, trace, params, scratch).number)
    }
}

fn main() -> Result<(), Refused> {
    let mut plant = Plant::default();
    let mut premix = plant.open(1, 2, &[0, PRIME - 1, 5])?; // x becomes 5(x - 1)^7
    let mut finish = plant.open(2, 4, &[0, 0, 0, 2, 1, 1, 1])?; // x, y become 2x^7 + y^7, x^7 + y^7
    let hopper = plant.allocate(&mut premix, 1)?;
    let hand = plant.allocate(&mut finish, 2)?;
    let sack = hand.nth(1);
    let ticket = format!("{:>10} {:>12}\n", sack.0, 50); // 50 g are 1 step
    let repeated = plant.tickets(&finish, &ticket)?;
    println!("ticket, read by finish: {repeated} repeated");
    let repeated = plant.tickets(&premix, &ticket)?; // the other has set the wire
    println!("ticket, read by premix: {repeated} repeated");

    plant.mint(&mut premix, &[hopper])?;
    plant.mint(&mut finish, &[hand, hopper])?;
    let more = plant.allocate(&mut premix, 1).map_err(Refused::number);
    println!("a third wire for premix: {}", more.unwrap_err()); // its quota is 2

    plant.equation(&mut premix, &[(hopper, 1), (sack, PRIME - 1)], 2)?;
    plant.equation(&mut finish, &[(hand, 1), (sack, 1), (hopper, PRIME - 1)], 0)?;
    println!("hopper 3: premix {}", plant.check(&premix, &[3])?); // yes
    println!("hopper 4: premix {}", plant.check(&premix, &[4])?); // no
    println!(
        "hopper 3, by hand 2: finish {}",
        plant.check(&finish, &[2, 3])?
    ); // yes
    println!(
        "hopper 3, by hand 3: finish {}",
        plant.check(&finish, &[3, 3])?
    ); // no

    // With the recipe at hand, the two readings behind a digest.
    let (digest, readings) = ([2443, 2315], &mut [BabyBearUnit::ZERO; 2]);
    let output = BabyBearUnit::list(&digest);
    sfr::permute_inverse(2, finish.params, output, readings).accepted()?;
    println!("behind {digest:?}: {:?}", BabyBearUnit::words(readings)); // by hand 2, hopper 3
    Ok(())
}
