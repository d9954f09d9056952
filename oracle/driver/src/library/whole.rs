//! `whole`: whole runs of the proved library beside the sources, with no second reading in
//! between, but for ticket lines, which it takes apart: calls, gate, builder, bytes out and in,
//! and the check. Each side goes on with what it made itself.

use sfr::{BabyBearUnit, FieldVar};
use source::{Instance, Params, Relation};

use super::{
    instance::{from_library, parts, stores, to_library, LibraryRead, LIBRARY_READS},
    side, witness,
};
use crate::{
    against_source::{
        calls,
        instances::{both, Both},
    },
    calls::{State, DIRT},
    compared::{holds, same, Compared, Log, Outcome, Seen},
    generate::{self, Generator, Mood},
    held::{Held, Room},
    lists,
    options::Options,
    rng::Rng,
    zero_wire,
};

pub fn run(options: &Options) -> bool {
    source::silence_panics();
    let line = lists::compare(options, |seed, seen, log| Run { seen, log }.list(seed));
    line.inspect(|line| println!("{line}")).is_some()
}

/// One list's run.
pub struct Run<'a> {
    pub seen: &'a mut Seen,
    pub log: &'a Log,
}

/// Both SFRI reads by the library, the plain one and the strict one.
fn reads(width: u32, bytes: &[u8]) -> [(u32, Held); 2] {
    LIBRARY_READS.map(|by| read(by, width, bytes))
}

/// An SFRI read by the library, into ample stores.
fn read(by: LibraryRead, width: u32, bytes: &[u8]) -> (u32, Held) {
    let room = || vec![DIRT; Room::AMPLE.publics];
    let (mut publics, mut queries, mut equations) = (room(), room(), room());
    let scratch = &mut room();
    let stores = stores(&mut publics, &mut queries, &mut equations);
    let answer = by(width, bytes, stores, scratch);
    (answer.number, from_library(answer.parts))
}

/// The steps of an SFRW read by the library.
fn read_trace(width: u32, bytes: &[u8]) -> (u32, Vec<u32>) {
    let mut trace = vec![DIRT; Room::AMPLE.publics];
    let answer = sfr::witness_from_bytes(width, bytes, BabyBearUnit::list_mut(&mut trace));
    let (number, rec) = witness::from_library(answer);
    trace.truncate(2 * (rec.width * rec.steps) as usize);
    (number, trace)
}

impl Run<'_> {
    fn list(&mut self, seed: u64) -> Compared {
        let mut generator = Generator::new(Rng::new(seed));
        let width = generator.width;
        let label = generate::label(&mut generator.rng);
        let mut state = generator.state();
        self.log
            .say(|| format!("width {width}, {:?}, label {label:?}", generator.mood));

        let mut relation = source::relation(width, &label);
        let number = side::new_relation(&mut state, width).number;
        self.seen.answered("fresh", number);
        same("fresh", ("library", number), ("source", 0))?;
        for _ in 0..generator.rng.between(1, 40) {
            let call = generator.call(&state);
            self.log.say(|| format!("{call:?}"));
            let answer = side::run(&mut state, &call);
            self.seen.called(&call, &answer);
            let spelling = generator.rng.below(3);
            calls::compare(&call, &answer, width, &mut relation, true, spelling)?;
            calls::compare_states(&state, &*relation)?;
            generator.note(&call, &answer);
        }

        self.judged(&mut generator, &state, &label, &*relation)?;

        // Parts that no gate has seen.
        let parts = generate::parts(&mut generator.rng, width);
        self.log.say(|| format!("Ungated {parts:?}"));
        let held = Held::from_parts(width, &parts);
        let instance = source::ungated(width, &parts);
        let rng = &mut generator.rng;
        let (trace, params) = generate::ungated_trace(rng, width, &parts, &generator.params);
        generator.params = params;
        self.instance(&mut generator, &held, &*instance, &trace)
    }

    /// The gate and what follows it.
    pub fn judged(
        &mut self,
        generator: &mut Generator,
        state: &State,
        label: &str,
        relation: &dyn Relation,
    ) -> Compared {
        let (number, held) = self.gate(state, label, generator.struck);
        let Some((held, instance)) = both(number, held, relation.compile())? else {
            return Ok(());
        };
        let trace = self.builder(generator, &held)?;
        if generator.mood == Mood::Honest {
            let number = check(&held, &trace, &generator.params);
            same(
                "an honest list's check",
                ("library", number),
                ("expected", held.honest_number()),
            )?;
        }
        let [plain, strict] = reads(generator.width, &instance.to_bytes());
        zero_wire::compare_gated(&plain, &strict)?;
        self.instance(generator, &held, &*instance, &trace)
    }

    /// The gate, in ample stores.
    fn gate(&mut self, state: &State, label: &str, struck: bool) -> (u32, Held) {
        self.log.say(|| "Gate".to_owned());
        let mut publics = vec![DIRT; Room::AMPLE.publics];
        let scratch = &mut vec![DIRT; Room::AMPLE.scratch];
        let answer = side::compile(state, label.as_bytes(), &mut publics, scratch);
        self.seen.gated(answer.number, struck);
        (answer.number, from_library(answer.parts))
    }

    /// A step for each query, evaluated or given, sent through bytes.
    fn builder(&mut self, generator: &Generator, held: &Held) -> Outcome<Vec<u32>> {
        let (width, params) = (generator.width, &generator.params);
        let builder = source::builder(width, params);
        let mut rec = sfr::Trace { width, steps: 0 };
        let (_, queries, _) = held.words();
        let mut trace = vec![DIRT; queries.len()];
        for (i, query) in queries.chunks(2 * width as usize).enumerate() {
            let input = generator.values(&query[..width as usize]);
            let steps = BabyBearUnit::list_mut(&mut trace);
            let answer = if generator.mood == Mood::Honest && i % 3 == 2 {
                let output = generator.values(&query[width as usize..]);
                self.log
                    .say(|| format!("AppendStep({input:?}, {output:?})"));
                builder.add_permutation(&input, &output);
                let (input, output) = (BabyBearUnit::list(&input), BabyBearUnit::list(&output));
                sfr::append_step(rec, steps, input, output)
            } else {
                self.log.say(|| format!("EvaluateStep({input:?})"));
                builder.allocate_permutation(&input);
                let input = BabyBearUnit::list(&input);
                sfr::evaluate_step(rec, steps, input, witness::parameters(params))
            };
            self.seen.answered("builder's steps", answer.number);
            rec = answer.trace;
        }
        same("trace", ("library", &trace), ("source", &builder.trace()))?;

        let mut bytes = vec![0xEE; 17 + 4 * trace.len()];
        let written = sfr::witness_to_bytes(rec, BabyBearUnit::list(&trace), &mut bytes);
        self.seen.answered("write SFRW", written.number);
        let given = (written.number, written.len, bytes);
        let expected = builder.to_bytes();
        let expected = (0, expected.len(), expected);
        same("SFRW bytes", ("library", &given), ("source", &expected))?;

        let (number, read) = read_trace(width, &given.2);
        self.seen.answered("read SFRW", number);
        let expected = source::witness_from_bytes(width, &given.2);
        let expected = expected.map(|witness| (0, witness.trace()));
        same(
            "trace read",
            ("library", Ok((number, read))),
            ("source", expected),
        )?;
        Ok(trace)
    }

    /// Values in publics, bytes and checks of what one side's gate made, or of given parts.
    fn instance(
        &mut self,
        generator: &mut Generator,
        held: &Held,
        instance: &dyn Instance,
        trace: &[u32],
    ) -> Compared {
        let width = held.ins.width;
        self.values(held, instance)?;
        self.checks(generator, held, instance, trace)?;

        let expected = instance.to_bytes();
        let mut bytes = vec![0xEE; expected.len()];
        let written = sfr::instance_to_bytes(parts(held), &mut bytes);
        self.seen.answered("write SFRI", written.number);
        let given = (written.number, written.len, &bytes);
        let answer = (0, expected.len(), &expected);
        same("SFRI bytes", ("library", given), ("source", answer))?;

        let later = (17 + held.label.len()..bytes.len()).step_by(4);
        let fields: Vec<usize> = [5, 9, 13].into_iter().chain(later).collect();
        for i in 0..5 {
            let damaged = generate::damaged_file(&mut generator.rng, &bytes, &fields);
            let bytes = if i == 0 { &bytes } else { &damaged };
            if let Some((held, instance)) = self.read(width, bytes)? {
                self.checks(generator, &held, &*instance, trace)?;
            }
        }
        Ok(())
    }

    /// Both SFRI reads; the instances where the plain one accepts. Room has no counterpart in the
    /// source.
    fn read(&mut self, width: u32, bytes: &[u8]) -> Outcome<Option<Both>> {
        self.log.say(|| format!("Read({width}, {bytes:?})"));
        let [plain, strict] = reads(width, bytes);
        self.seen.read(bytes, plain.0, strict.0);
        zero_wire::compare(bytes, &plain, &strict)?;
        let (number, held) = plain;
        match number {
            10 | 16 => Ok(None),
            _ => both(number, held, source::instance_from_bytes(width, bytes)),
        }
    }

    /// The value of every small wire in held publics, where these increase.
    fn values(&mut self, held: &Held, instance: &dyn Instance) -> Compared {
        let (publics, ..) = held.words();
        let increasing = publics.chunks(2).map(|pair| pair[0]);
        if !increasing.is_sorted_by(|a, b| a < b) {
            return Ok(());
        }
        for var in 0..6 {
            let answer = sfr::public_value(to_library(held.ins), &held.publics, FieldVar(var));
            self.seen.answered("value in held publics", answer.number);
            let value = answer.some.then_some(answer.value.0);
            let given = (answer.number, value);
            let expected = (0, instance.value(var));
            same("value", ("library", given), ("source", expected))?;
        }
        Ok(())
    }

    /// The check of a trace and of damaged ones. The source says no more than yes or no.
    fn checks(
        &mut self,
        generator: &mut Generator,
        held: &Held,
        instance: &dyn Instance,
        trace: &[u32],
    ) -> Compared {
        if held.ins.vars_count as usize > Room::AMPLE.scratch {
            return Ok(());
        }
        let params = generator.params.clone();
        for i in 0..3 {
            let damaged =
                generate::damaged_trace(&mut generator.rng, generator.width, trace, &params);
            let trace = if i == 0 { trace } else { &damaged };
            self.log
                .say(|| format!("Check({held:?}, {trace:?}, {params:?})"));
            let number = check(held, trace, &params);
            self.seen.answered("check", number);
            let known = number == 0 || (31..=36).contains(&number);
            holds("a number of the comparison", known, number)?;
            let expected = instance.is_witness_valid(&params, trace);
            same("check", ("library", number == 0), ("source", expected))?;
        }
        Ok(())
    }
}

fn check(held: &Held, trace: &[u32], params: &Params) -> u32 {
    let steps = trace.len() / (2 * held.ins.width as usize);
    let answer = sfr::is_witness_valid(
        parts(held),
        steps as u32,
        BabyBearUnit::list(trace),
        witness::parameters(params),
        &mut vec![DIRT; Room::AMPLE.scratch],
    );
    answer.number
}
