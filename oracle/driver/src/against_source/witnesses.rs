//! The builder's calls, a trace's bytes, and the check.

use reading::Trace;
use source::{Instance, Params};

use super::Run;
use crate::{
    calls::DIRT,
    compared::{holds, same, Compared, Outcome},
    generate::{self, Generator, Mood},
    held::{self, Held},
    sheets,
};

/// The sources' check makes a list of all wires, and a damaged count may be any word: up
/// to this many are tried.
const WIRES: u32 = 1 << 12;

impl Run<'_> {
    /// A step for each query, evaluated or given; the trace that they make.
    pub fn builder(&mut self, generator: &mut Generator, held: &Held) -> Outcome<Vec<u32>> {
        let width = generator.width as usize;
        let builder = source::builder(generator.width, &generator.params);
        let mut rec = Trace {
            width: generator.width,
            steps: 0,
        };
        let (_, queries, _) = held.words();
        let mut trace = vec![DIRT; queries.len()];
        for query in queries.chunks(2 * width) {
            let input = generator.values(&query[..width]);
            let output = generator.values(&query[width..]);
            // Only an honest list's table knows the outputs.
            let answer = if generator.mood == Mood::Honest && generator.rng.once_in(3) {
                self.log
                    .say(|| format!("AppendStep({input:?}, {output:?})"));
                builder.add_permutation(&input, &output);
                reading::append_step(rec, &mut trace, &input, &output)
            } else {
                self.log.say(|| format!("EvaluateStep({input:?})"));
                builder.allocate_permutation(&input);
                reading::evaluate_step(rec, &mut trace, &input, held::lent(&generator.params))
            };
            self.seen.answered("builder's steps", answer.number);
            rec = answer.trace;
        }
        same("trace", ("reading", &trace), ("source", &builder.trace()))?;

        let (number, bytes) = held::write_witness(rec, &trace, 17 + 4 * trace.len());
        self.seen.answered("write SFRW", number);
        let expected = builder.to_bytes();
        same(
            "SFRW bytes",
            ("reading", (number, &bytes)),
            ("source", (0, &expected)),
        )?;
        self.read_witness(generator.width, &bytes)?;
        let fields: Vec<usize> = (5..bytes.len()).step_by(4).collect();
        for _ in 0..3 {
            let damaged = generate::damaged_file(&mut generator.rng, &bytes, &fields);
            self.read_witness(generator.width, &damaged)?;
        }
        Ok(trace)
    }

    fn read_witness(&mut self, width: u32, bytes: &[u8]) -> Compared {
        self.log.say(|| format!("ReadWitness({width}, {bytes:?})"));
        let (number, trace) = held::read_witness(width, bytes, 1 << 12);
        self.seen.answered("read SFRW", number);
        match source::witness_from_bytes(width, bytes) {
            Ok(expected) => same(
                "trace",
                ("reading", (number, trace)),
                ("source", (0, expected.trace())),
            ),
            Err(message) => {
                let meant = source::numbers(&message).contains(&number);
                holds(&format!("a number for {message:?}"), meant, number)
            }
        }
    }

    /// Some state evaluated by the source, and from there back; the source has no call for that.
    pub fn there_and_back(&mut self, generator: &mut Generator) -> Compared {
        let (rng, width) = (&mut generator.rng, generator.width);
        let (params, expected) = sheets::random(rng, width);
        let input: Vec<u32> = (0..width).map(|_| rng.unit()).collect();
        self.log
            .say(|| format!("there and back: {params:?}, {input:?}"));
        let (output, mut back) = (params.permute(&input), vec![DIRT; input.len()]);
        let number = reading::permute_inverse(width, held::lent(&params), &output, &mut back);
        self.seen.answered("there and back", number);
        let known = expected.map_or(number == 0 || number == 44, |expected| number == expected);
        holds("the form's number", known, number)?;
        let expected = if number == 0 {
            input
        } else {
            vec![DIRT; back.len()]
        };
        same("there and back", ("reading", back), ("before", expected))
    }

    /// The check of a trace, of damaged ones, and under another sheet.
    pub fn checks(
        &mut self,
        generator: &mut Generator,
        held: &Held,
        instance: &dyn Instance,
        trace: &[u32],
    ) -> Compared {
        if held.ins.vars_count > WIRES {
            return Ok(());
        }
        let params = generator.params.clone();
        self.check(held, instance, trace, &params)?;
        for _ in 0..2 {
            let damaged =
                generate::damaged_trace(&mut generator.rng, generator.width, trace, &params);
            self.check(held, instance, &damaged, &params)?;
        }
        if generator.rng.once_in(4) {
            let other = generate::params(&mut generator.rng, generator.width);
            self.check(held, instance, trace, &other)?;
        }
        Ok(())
    }

    fn check(
        &mut self,
        held: &Held,
        instance: &dyn Instance,
        trace: &[u32],
        params: &Params,
    ) -> Compared {
        self.log
            .say(|| format!("Check({held:?}, {trace:?}, {params:?})"));
        let number = held.check(trace, params, WIRES as usize);
        self.seen.answered("check", number);
        let known = number == 0 || (31..=36).contains(&number);
        holds("a number of the comparison", known, number)?;
        // The source says no more than yes or no.
        let expected = instance.is_witness_valid(params, trace);
        same("check", ("reading", number == 0), ("source", expected))
    }
}
