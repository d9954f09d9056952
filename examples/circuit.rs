//! A batch of premix, stated by a program of spongefish's: but for the `use` lines it is the same over the source.
//!
//! Hopper and hand weigh the batch, and each weight is sealed with the mill's own permutation. The sack's weight is public, and
//! an equation says that by hand + sack = hopper. A receipt, sealed with another permutation by a second relation on the same
//! wires, binds the two seals. From the repository's root:
//!
//! ```sh
//! cargo run --offline --manifest-path rust/Cargo.toml --features alloc --example circuit
//! ```

use std::{
    error::Error,
    fmt,
    io::{self, Write},
};

use sfr::circuit::{
    expr::Sum,
    p3_baby_bear::BabyBear,
    p3_field::integers::QuotientMap,
    spongefish::{Permutation, Unit},
    BabyBearUnit, FieldVar, PermutationInstance, PermutationRelation, PermutationWitness,
    PermutationWitnessBuilder, VarAllocator,
};

/// A number as a unit.
#[allow(clippy::useless_conversion)] // over the source it isn't
fn unit(number: u32) -> BabyBearUnit {
    let element: BabyBear = QuotientMap::from_int(number);
    BabyBearUnit::from(element)
}

/// The mill's own permutation: three elements are turned round eight times, and one takes in the others' product.
#[derive(Clone)]
struct Mill;

impl Permutation<3> for Mill {
    type U = BabyBearUnit;

    fn permute(&self, state: &[BabyBearUnit; 3]) -> [BabyBearUnit; 3] {
        (0..8).fold(*state, |[x, y, z], round| [y, z, x + y * z + unit(round)])
    }
}

/// The receipt's permutation: two rounds, of the 7th power of both elements and of the first alone, with one matrix.
#[derive(Clone)]
struct Stamp;

impl Permutation<2> for Stamp {
    type U = BabyBearUnit;

    fn permute(&self, &[x, y]: &[BabyBearUnit; 2]) -> [BabyBearUnit; 2] {
        let seventh = |x: BabyBearUnit| x * (x * x) * (x * x) * (x * x);
        let mixed = |x, y| [unit(2) * x + y, x + unit(3) * y];
        let [x, y] = mixed(seventh(x + unit(11)), seventh(y + unit(12)));
        mixed(seventh(x + unit(13)), y + unit(14))
    }
}

/// The seals of two weights. Over a relation these are wires, and it records what it is asked; over a builder they are
/// values, and it records what came of it.
fn seals<U: Unit, P: Permutation<3, U = U>>(mill: &P, weights: [U; 2], salt: &U) -> [U; 2] {
    weights.map(|weight| {
        let [seal, ..] = mill.permute(&[weight, salt.clone(), U::ZERO]);
        seal
    })
}

/// Bytes as hexadecimal digits.
struct Hex(Vec<u8>);

impl fmt::Display for Hex {
    fn fmt(&self, f: &mut fmt::Formatter<'_>) -> fmt::Result {
        self.0.iter().try_for_each(|byte| write!(f, "{byte:02x}"))
    }
}

/// All that an instance tells.
fn show<const W: usize>(
    out: &mut dyn Write,
    instance: &PermutationInstance<BabyBearUnit, W>,
) -> io::Result<()> {
    let (label, wires) = (instance.label(), instance.vars_count());
    writeln!(out, "instance {label:?} of width {W}, {wires} wires")?;
    for (var, value) in instance.public_vars() {
        writeln!(out, "  {var:?} is {}", value.as_canonical_u32())?;
    }
    for query in instance.queries() {
        writeln!(out, "  {:?} becomes {:?}", query.input, query.output)?;
    }
    for equation in instance.equations() {
        for term in equation.terms.terms() {
            write!(out, "  {} {:?}", term.weight.as_canonical_u32(), term.var)?;
        }
        writeln!(out, "  comes to {}", equation.image.as_canonical_u32())?;
    }
    writeln!(out, "  {}", Hex(instance.to_bytes()))
}

/// The batch's relation: the wires of its two seals with it.
fn batch(sack: u32, salt: u32) -> (PermutationRelation<BabyBearUnit, 3>, [FieldVar; 2]) {
    let relation = PermutationRelation::labeled("mill");
    let [sack, salt] = relation.allocate_vars_with(&[unit(sack), unit(salt)]);
    let [hopper, hand] = relation.allocate_vars();
    let sealed = seals(&relation, [hopper, hand], &salt);
    let minus_one = unit(2_013_265_920); // p - 1
    relation.add_equation(hopper * minus_one + hand + sack, unit(0));
    (relation, sealed)
}

/// The trace of a batch of these weights, and its seals.
fn weigh(weights: [u32; 2], salt: u32) -> (PermutationWitness<BabyBearUnit, 3>, [BabyBearUnit; 2]) {
    let builder = PermutationWitnessBuilder::from(Mill);
    let sealed = seals(&builder, weights.map(unit), &unit(salt));
    (builder.snapshot(), sealed)
}

/// The receipt: the two seals behind one.
fn receipt(
    out: &mut dyn Write,
    allocator: &VarAllocator<BabyBearUnit>,
    sealed: [FieldVar; 2],
    values: [BabyBearUnit; 2],
) -> Result<(), Box<dyn Error>> {
    let relation = PermutationRelation::<BabyBearUnit, 2>::with_allocator(allocator.clone());
    let builder = PermutationWitnessBuilder::new(Stamp);
    let mut wires = sealed;
    relation.permute_mut(&mut wires);
    let output = builder.allocate_permutation(&values);
    relation.set_vars(wires, output);
    let [two, three] = [unit(2), unit(3)];
    let sum: Sum<_> = [sealed[0] * two, sealed[1] * three].into_iter().collect();
    relation.add_equation(sum, two * values[0] + three * values[1]);

    let instance = relation.compile()?;
    show(out, &instance)?;
    let check = || instance.is_witness_valid(builder.permutation(), &builder.snapshot());
    writeln!(out, "receipt: {}", check())?;
    builder.add_permutation(&values, &output);
    writeln!(out, "with a step too many: {}", check())?;
    Ok(())
}

/// What is refused, and how.
fn refusals(out: &mut dyn Write, bytes: &[u8]) -> io::Result<()> {
    let relation = PermutationRelation::<BabyBearUnit, 3>::new();
    let weighed = relation.allocate_var();
    relation.add_equation(weighed, unit(3)); // the wire is in no query and has no value
    let refused = relation.compile().map(|_| ()).unwrap_err();
    writeln!(out, "{refused}")?;
    relation.add_permutation([weighed; 3], [FieldVar::ZERO; 3]);
    writeln!(out, "in a query: {}", relation.compile().is_ok())?;
    for cut in [bytes.len() - 1, 30, 3] {
        let read = PermutationInstance::<BabyBearUnit, 3>::from_bytes(&bytes[..cut]);
        writeln!(out, "{cut} bytes: {}", read.unwrap_err())?;
    }
    let read = PermutationInstance::<BabyBearUnit, 2>::from_bytes(bytes);
    writeln!(out, "as width 2: {}", read.unwrap_err().message())
}

/// The whole program, which writes what it finds.
pub fn run(out: &mut dyn Write) -> Result<(), Box<dyn Error>> {
    let salt = 77;
    let (relation, sealed) = batch(1, salt);
    let (witness, values) = weigh([3, 2], salt);
    relation.set_var(sealed[0], values[0]);
    let instance = relation.compile()?;
    show(out, &instance)?;
    writeln!(out, "witness {}", Hex(witness.to_bytes()))?;

    // From here on only the bytes count.
    let bytes = instance.to_bytes();
    let read = PermutationInstance::from_bytes(&bytes)?;
    let trace = PermutationWitness::from_bytes(&witness.to_bytes())?;
    let same = read == instance && trace == witness;
    writeln!(out, "read as written: {same}")?;
    let seals = sealed.map(|seal| read.value(seal).map(|seal| seal.as_canonical_u32()));
    writeln!(out, "public seals: {seals:?}")?;
    let valid = read.is_witness_valid(&Mill, &trace);
    writeln!(out, "hopper 3, sack 1, by hand 2: {valid}")?;
    for [hopper, hand] in [[3, 3], [4, 3]] {
        let (other, _) = weigh([hopper, hand], salt);
        let valid = read.is_witness_valid(&Mill, &other);
        writeln!(out, "hopper {hopper}, sack 1, by hand {hand}: {valid}")?;
    }

    receipt(out, relation.allocator(), sealed, values)?;
    refusals(out, &bytes)?;
    Ok(())
}

fn main() -> Result<(), Box<dyn Error>> {
    run(&mut io::stdout())
}
