//! The gate, an instance's bytes, and what it answers about its publics.

use source::{Instance, Relation};

use super::Run;
use crate::{
    calls::State,
    compared::{holds, same, Compared, Outcome},
    generate::{self, Generator},
    held::{self, Held, Room},
    rng::Rng,
    zero_wire,
};

/// One instance on both sides.
pub type Both = (Held, Box<dyn Instance>);

impl Run<'_> {
    /// The gate, in ample or in tight stores; the instances where it accepts.
    pub fn gate(
        &mut self,
        generator: &mut Generator,
        state: &State,
        label: &str,
        relation: &dyn Relation,
    ) -> Outcome<Option<Both>> {
        let (rng, struck) = (&mut generator.rng, generator.struck);
        let mut room = Room::AMPLE;
        if rng.once_in(20) {
            room.publics = rng.below(8);
            room.scratch = rng.below(20);
        }
        self.log.say(|| format!("Gate, {room:?}"));
        let (number, held) = held::gate(state, label, room);
        self.seen.gated(number, struck);
        if number == 10 || number == 16 {
            self.apart.room += 1;
            return Ok(None);
        }
        both(number, held, relation.compile())
    }

    /// Both SFRI reads; the instances where the plain one accepts.
    pub fn read(&mut self, width: u32, bytes: &[u8], room: Room) -> Outcome<Option<Both>> {
        self.log
            .say(|| format!("Read({width}, {bytes:?}), {room:?}"));
        let [plain, strict] = held::reads(width, bytes, room);
        self.seen.read(bytes, plain.0, strict.0);
        zero_wire::compare(bytes, &plain, &strict)?;
        let (number, held) = plain;
        if number == 10 {
            self.apart.room += 1;
            return Ok(None);
        }
        let read = source::instance_from_bytes(width, bytes);
        if number != 16 {
            return both(number, held, read);
        }
        // Every field was sound: only the gate's numbers and 28 can still follow.
        self.apart.too_many_wires += 1;
        if let Err(message) = read {
            let later = [12, 13, 14, 15, 28].contains(&source::numbers(&message)[0]);
            holds("what follows 16 in the source", later, message)?;
        }
        Ok(None)
    }

    /// What an instance answers, its bytes, and checks of several traces.
    pub fn instance(
        &mut self,
        generator: &mut Generator,
        held: &Held,
        instance: &dyn Instance,
        trace: &[u32],
    ) -> Compared {
        self.values(&mut generator.rng, held, instance)?;
        self.checks(generator, held, instance, trace)?;

        let expected = instance.to_bytes();
        let (number, bytes) = held.write(expected.len() + generator.rng.below(3));
        self.seen.answered("write SFRI", number);
        same(
            "SFRI bytes",
            ("reading", (number, &bytes)),
            ("source", (0, &expected)),
        )?;
        self.read_and_check(generator, held.ins.width, &bytes, trace)?;

        // Word fields stand before the label and after it.
        let later = (17 + held.label.len()..bytes.len()).step_by(4);
        let fields: Vec<usize> = [5, 9, 13].into_iter().chain(later).collect();
        for _ in 0..6 {
            let damaged = generate::damaged_file(&mut generator.rng, &bytes, &fields);
            self.read_and_check(generator, held.ins.width, &damaged, trace)?;
        }

        // At another width, and into stores that may be too short.
        let other = generator.rng.width();
        self.read(other, &bytes, Room::AMPLE)?;
        let rng = &mut generator.rng;
        let room = Room {
            publics: rng.below(8),
            queries: rng.below(2 * held.queries.len() + 2),
            equations: rng.below(2 * held.equations.len() + 2),
            scratch: rng.below(40),
        };
        self.read(held.ins.width, &bytes, room)?;
        Ok(())
    }

    fn read_and_check(
        &mut self,
        generator: &mut Generator,
        width: u32,
        bytes: &[u8],
        trace: &[u32],
    ) -> Compared {
        match self.read(width, bytes, Room::AMPLE)? {
            None => Ok(()),
            Some((held, instance)) => self.checks(generator, &held, &*instance, trace),
        }
    }

    /// The value of some wires in held publics.
    fn values(&mut self, rng: &mut Rng, held: &Held, instance: &dyn Instance) -> Compared {
        let (publics, ..) = held.words();
        let vars: Vec<u32> = publics.chunks(2).map(|pair| pair[0]).collect();
        let increasing = vars.windows(2).all(|pair| pair[0] < pair[1]);
        for _ in 0..3 {
            let var = if vars.is_empty() || rng.once_in(3) {
                rng.edge()
            } else {
                *rng.pick(&vars)
            };
            self.log.say(|| format!("PublicValue({var})"));
            let answer = reading::public_value(held.ins, &held.publics, var);
            self.seen.answered("value in held publics", answer.number);
            if source::var(var).is_none() {
                same("number", ("reading", answer.number), ("types", 3))?;
                continue;
            }
            let given = (answer.number, answer.value);
            let expected = (0, instance.value(var));
            if increasing {
                same(
                    "value in held publics",
                    ("reading", given),
                    ("source", expected),
                )?;
            } else {
                self.apart.unsorted_value += u64::from(given != expected);
            }
        }
        Ok(())
    }

    /// Parts that no gate has seen.
    pub fn ungated(&mut self, generator: &mut Generator) -> Compared {
        let width = generator.width;
        let parts = generate::parts(&mut generator.rng, width);
        self.log.say(|| format!("Ungated {parts:?}"));
        let held = Held::from_parts(width, &parts);
        let instance = source::ungated(width, &parts);
        let (trace, params) =
            generate::ungated_trace(&mut generator.rng, width, &parts, &generator.params);
        generator.params = params;
        self.instance(generator, &held, &*instance, &trace)
    }
}

/// The instances where both sides accept; where the source gives a message, the number
/// must be one that it stands for.
pub fn both(
    number: u32,
    held: Held,
    answer: Result<Box<dyn Instance>, String>,
) -> Outcome<Option<Both>> {
    match answer {
        Ok(instance) => {
            same("number", ("given", number), ("source", 0))?;
            compare_instances(&held, &*instance)?;
            Ok(Some((held, instance)))
        }
        Err(message) => {
            let meant = source::numbers(&message).contains(&number);
            holds(&format!("a number for {message:?}"), meant, number)?;
            Ok(None)
        }
    }
}

pub fn compare_instances(held: &Held, instance: &dyn Instance) -> Compared {
    let parts = instance.parts();
    let (publics, queries, equations) = held.words();
    let counts = (held.ins.vars_count, held.ins.equations);
    let expected = (parts.vars_count, parts.equations.len() as u32);
    same("wires, equations", ("given", counts), ("source", expected))?;
    same(
        "label",
        ("given", &held.label[..]),
        ("source", parts.label.as_bytes()),
    )?;
    same("publics", ("given", publics), ("source", &parts.publics))?;
    same("queries", ("given", queries), ("source", &parts.queries))?;
    same(
        "equations",
        ("given", equations),
        ("source", &parts.equation_words()),
    )
}
