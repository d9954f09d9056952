//! The byte forms SFRI and SFRW, written and read (the source's `encoding.rs`).

use crate::{
    held::{ask_held, ask_publics, ask_sizes, ask_trace, Equation, Parts},
    instance::ask_validated,
    questions::{ask, fits, is_store, is_unit, is_var, is_width, Asked},
    utf8::is_utf8,
    witness::ask_trace_fits,
    Instance, Trace, Weighted,
};

/// The answer of a write: how many bytes it wrote, 0 after a refusal.
#[derive(Clone, Copy, Debug, PartialEq, Eq)]
pub struct Written {
    pub number: u32,
    pub len: usize,
}

/// The answer of a call that returns a trace's record.
#[derive(Clone, Copy, Debug, PartialEq, Eq)]
pub struct TraceAnswer {
    pub number: u32,
    pub trace: Trace,
}

/// The answer of an SFRI read. The label is the part of the input that holds it; after a
/// refusal it is empty and the record is zeros.
#[derive(Clone, Copy, Debug, PartialEq, Eq)]
pub struct InstanceRead<'a> {
    pub number: u32,
    pub instance: Instance,
    pub label: &'a [u8],
}

/// An SFRI read, plain or strict: width, bytes, publics, queries, equations and scratch.
pub type Read =
    for<'a> fn(u32, &'a [u8], &mut [u32], &mut [u32], &mut [u32], &mut [u32]) -> InstanceRead<'a>;

/// The plain read and the strict one.
pub const READS: [Read; 2] = [instance_from_bytes, strict_instance_from_bytes];

/// Writes SFRI. Questions 1, 2, 11, 10; held parts are written gated or not.
pub fn instance_to_bytes(
    ins: Instance,
    label: &[u8],
    publics: &[u32],
    queries: &[u32],
    equations: &[u32],
    out: &mut [u8],
) -> Written {
    let encoded = ask(1, is_width(ins.width))
        .and_then(|()| ask_sizes(&ins, label, publics, queries, equations))
        .and_then(|()| {
            let parts = Parts {
                publics: ask_publics(&ins, publics)?,
                ..ask_held(&ins, label, queries, equations)?
            };
            Ok(encode_instance(ins.width, ins.vars_count, label, &parts))
        });
    write(encoded, out)
}

/// Writes SFRW. Questions 1, 2, 11, 10.
pub fn witness_to_bytes(rec: Trace, trace: &[u32], out: &mut [u8]) -> Written {
    let encoded = ask_trace_fits(&rec, trace).and_then(|()| {
        let steps = ask_trace(rec.width, rec.steps, trace)?;
        Ok(encode_witness(rec.width, &steps))
    });
    write(encoded, out)
}

/// 10, and the bytes where it says yes.
fn write(encoded: Result<Vec<u8>, u32>, out: &mut [u8]) -> Written {
    let fitting = encoded.and_then(|bytes| {
        ask(10, bytes.len() <= out.len())?;
        Ok(bytes)
    });
    match fitting {
        Err(number) => Written { number, len: 0 },
        Ok(bytes) => {
            out[..bytes.len()].copy_from_slice(&bytes);
            Written {
                number: 0,
                len: bytes.len(),
            }
        }
    }
}

/// SFRI as document 01 lists its fields.
fn encode_instance(width: u32, vars_count: u32, label: &[u8], parts: &Parts) -> Vec<u8> {
    let mut bytes = b"SFRI\x01".to_vec();
    put(&mut bytes, &[width, 4, label.len() as u32]);
    bytes.extend(label);
    put(&mut bytes, &[vars_count]);
    put(&mut bytes, &[parts.publics.len() as u32]);
    put(&mut bytes, &parts.public_words());
    put(&mut bytes, &[parts.queries.len() as u32]);
    put(&mut bytes, &parts.query_words());
    put(&mut bytes, &[parts.equations.len() as u32]);
    put(&mut bytes, &parts.equation_words());
    bytes
}

/// SFRW likewise.
fn encode_witness(width: u32, steps: &[Vec<u32>]) -> Vec<u8> {
    let mut bytes = b"SFRW\x01".to_vec();
    put(&mut bytes, &[width, 4, steps.len() as u32]);
    put(&mut bytes, &steps.concat());
    bytes
}

fn put(bytes: &mut Vec<u8>, words: &[u32]) {
    bytes.extend(words.iter().flat_map(|word| word.to_le_bytes()));
}

/// What remains to be read. Each field first asks 20: do the bytes hold it?
struct Fields<'a> {
    rest: &'a [u8],
}

impl<'a> Fields<'a> {
    fn bytes(&mut self, len: usize) -> Result<&'a [u8], u32> {
        let (field, rest) = self.rest.split_at_checked(len).ok_or(20u32)?;
        self.rest = rest;
        Ok(field)
    }

    fn word(&mut self) -> Result<u32, u32> {
        let field = self.bytes(4)?;
        Ok(field
            .iter()
            .rev()
            .fold(0, |word, &byte| word << 8 | u32::from(byte)))
    }

    /// A wire: 20, then 3.
    fn var(&mut self) -> Result<u32, u32> {
        let word = self.word()?;
        ask(3, is_var(word))?;
        Ok(word)
    }

    /// A unit: 20, then 4.
    fn unit(&mut self) -> Result<u32, u32> {
        let word = self.word()?;
        ask(4, is_unit(word))?;
        Ok(word)
    }

    /// The fields that both forms start with.
    fn header(&mut self, magic: &[u8; 4], width: u32) -> Asked {
        ask(21, self.bytes(4)? == magic)?;
        ask(22, self.bytes(1)? == [1])?;
        ask(23, self.word()? == width)?;
        ask(24, self.word()? == 4)
    }

    fn label(&mut self) -> Result<&'a [u8], u32> {
        let len = self.word()?;
        let label = self.bytes(len as usize)?;
        ask(25, is_utf8(label))?;
        Ok(label)
    }

    /// Pairs; 10 once each has been read.
    fn publics(&mut self, store: &[u32]) -> Result<Vec<(u32, u32)>, u32> {
        let count = self.word()?;
        let mut publics = Vec::new();
        for _ in 0..count {
            let var = self.var()?;
            let unit = self.unit()?;
            publics.push((var, unit));
            ask(10, 2 * publics.len() <= store.len())?;
        }
        Ok(publics)
    }

    /// Queries; 10 once each has been read.
    fn queries(&mut self, width: u32, store: &[u32]) -> Result<Vec<Vec<u32>>, u32> {
        let count = self.word()?;
        let mut queries = Vec::new();
        for _ in 0..count {
            let cells: Result<Vec<u32>, u32> = (0..2 * width).map(|_| self.var()).collect();
            queries.push(cells?);
            ask(10, fits(queries.len() as u32, 2 * width, store))?;
        }
        Ok(queries)
    }

    /// Equations; 10 once a whole one has been read.
    fn equations(&mut self, store: &[u32]) -> Result<Vec<Equation>, u32> {
        let count = self.word()?;
        let mut equations = Vec::new();
        let mut used = 0;
        for _ in 0..count {
            let equation = self.equation()?;
            used += 2 + 2 * equation.terms.len();
            equations.push(equation);
            ask(10, used <= store.len())?;
        }
        Ok(equations)
    }

    fn equation(&mut self) -> Result<Equation, u32> {
        let count = self.word()?;
        let mut terms = Vec::new();
        for _ in 0..count {
            let var = self.var()?;
            let weight = self.unit()?;
            terms.push(Weighted { var, weight });
        }
        let image = self.unit()?;
        Ok(Equation { terms, image })
    }

    /// Steps; 10 once each has been read.
    fn steps(&mut self, width: u32, store: &[u32]) -> Result<Vec<Vec<u32>>, u32> {
        let count = self.word()?;
        let mut steps = Vec::new();
        for _ in 0..count {
            let units: Result<Vec<u32>, u32> = (0..2 * width).map(|_| self.unit()).collect();
            steps.push(units?);
            ask(10, fits(steps.len() as u32, 2 * width, store))?;
        }
        Ok(steps)
    }

    /// 28: nothing is left over.
    fn end(&self) -> Asked {
        ask(28, self.rest.is_empty())
    }
}

/// Reads SFRI. Questions 1, 2, then field by field, 27, 16, 12 to 15, 28. The three output
/// stores are written over their whole length, also by a refusal; scratch is left all 0.
pub fn instance_from_bytes<'a>(
    width: u32,
    bytes: &'a [u8],
    publics: &mut [u32],
    queries: &mut [u32],
    equations: &mut [u32],
    scratch: &mut [u32],
) -> InstanceRead<'a> {
    let rule = |_, _: &Parts| Ok(());
    read_under(rule, width, bytes, publics, queries, equations, scratch)
}

/// Reads SFRI that lists wire 0 with value 0 (02, R-7): all as above, and 46 directly after 27.
pub fn strict_instance_from_bytes<'a>(
    width: u32,
    bytes: &'a [u8],
    publics: &mut [u32],
    queries: &mut [u32],
    equations: &mut [u32],
    scratch: &mut [u32],
) -> InstanceRead<'a> {
    let rule = ask_zero_wire;
    read_under(rule, width, bytes, publics, queries, equations, scratch)
}

/// What a read asks of the wire count and the parts directly after 27.
type Rule = fn(u32, &Parts) -> Asked;

/// 46: there are wires, and wire 0 is listed with value 0. No wire is listed twice, by 27.
fn ask_zero_wire(vars_count: u32, parts: &Parts) -> Asked {
    ask(46, vars_count > 0 && parts.publics.contains(&(0, 0)))
}

/// An SFRI read under this rule: all that is lent becomes 0, and where nothing is refused the output
/// stores begin with what was read.
fn read_under<'a>(
    rule: Rule,
    width: u32,
    bytes: &'a [u8],
    publics: &mut [u32],
    queries: &mut [u32],
    equations: &mut [u32],
    scratch: &mut [u32],
) -> InstanceRead<'a> {
    publics.fill(0);
    queries.fill(0);
    equations.fill(0);
    scratch.fill(0);
    match read_instance(rule, width, bytes, publics, queries, equations, scratch) {
        Err(number) => InstanceRead {
            number,
            instance: Instance::default(),
            label: &bytes[..0],
        },
        Ok((label, vars_count, parts)) => {
            fill(publics, &parts.public_words());
            fill(queries, &parts.query_words());
            fill(equations, &parts.equation_words());
            let instance = Instance {
                width,
                vars_count,
                queries: parts.queries.len() as u32,
                equations: parts.equations.len() as u32,
                words: parts.equation_words().len() as u32,
                publics: parts.publics.len() as u32,
            };
            InstanceRead {
                number: 0,
                instance,
                label,
            }
        }
    }
}

fn fill(store: &mut [u32], words: &[u32]) {
    store[..words.len()].copy_from_slice(words);
}

fn read_instance<'a>(
    rule: Rule,
    width: u32,
    bytes: &'a [u8],
    publics: &[u32],
    queries: &[u32],
    equations: &[u32],
    scratch: &[u32],
) -> Result<(&'a [u8], u32, Parts), u32> {
    ask(1, is_width(width))?;
    ask(2, is_store(publics) && is_store(queries))?;
    ask(2, is_store(equations) && is_store(scratch))?;
    let mut fields = Fields { rest: bytes };
    fields.header(b"SFRI", width)?;
    let label = fields.label()?;
    let vars_count = fields.word()?;
    let parts = Parts {
        publics: fields.publics(publics)?,
        queries: fields.queries(width, queries)?,
        equations: fields.equations(equations)?,
    };
    let vars: Vec<u32> = parts.publics.iter().map(|&(var, _)| var).collect();
    ask(27, vars.windows(2).all(|pair| pair[0] < pair[1]))?;
    rule(vars_count, &parts)?;
    ask(16, fits(vars_count, 1, scratch))?;
    ask_validated(vars_count, &parts)?;
    fields.end()?;
    Ok((label, vars_count, parts))
}

/// Reads SFRW. Questions 1, 2, then field by field, 28. The trace store is written over its
/// whole length, also by a refusal, whose record is zeros.
pub fn witness_from_bytes(width: u32, bytes: &[u8], trace: &mut [u32]) -> TraceAnswer {
    trace.fill(0);
    match read_witness(width, bytes, trace) {
        Err(number) => TraceAnswer {
            number,
            trace: Trace::default(),
        },
        Ok(steps) => {
            fill(trace, &steps.concat());
            TraceAnswer {
                number: 0,
                trace: Trace {
                    width,
                    steps: steps.len() as u32,
                },
            }
        }
    }
}

fn read_witness(width: u32, bytes: &[u8], trace: &[u32]) -> Result<Vec<Vec<u32>>, u32> {
    ask(1, is_width(width))?;
    ask(2, is_store(trace))?;
    let mut fields = Fields { rest: bytes };
    fields.header(b"SFRW", width)?;
    let steps = fields.steps(width, trace)?;
    fields.end()?;
    Ok(steps)
}
