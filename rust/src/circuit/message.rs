//! What the source says where a gate or a read says no.
//!
//! The proved calls answer a number. The source names the item, or the field at which the bytes end:
//! these are looked for here, after a refusal and for its message alone.

use alloc::{
    collections::BTreeSet,
    format,
    string::{String, ToString},
    vec::Vec,
};

use super::{expr::Sum, permutation::LinearEquation};
use crate::{BabyBearUnit, FieldVar, Refused};

/// What a gate was put to.
pub struct Asked {
    pub vars: u32,
    pub publics: Vec<(FieldVar, BabyBearUnit)>,
    pub width: u32,
    /// The cells of all queries.
    pub queries: Vec<FieldVar>,
    pub equations: Vec<LinearEquation<BabyBearUnit>>,
}

impl Asked {
    /// The first item of which the number is true, in the source's words.
    pub fn message(&self, refused: Refused) -> String {
        let message = match refused.number() {
            12 => self.public(),
            13 => self.query(),
            14 => self.equation("references unallocated variable", "", |var, _| {
                self.is_unallocated(var)
            }),
            15 => self.unbound(),
            _ => None,
        };
        message.unwrap_or_else(|| refused.meaning().to_string())
    }

    fn is_unallocated(&self, var: FieldVar) -> bool {
        var.0 >= self.vars
    }

    fn public(&self) -> Option<String> {
        let mut publics = self.publics.iter().map(|&(var, _)| var);
        let var = publics.find(|&var| self.is_unallocated(var))?;
        Some(format!("public variable {} is unallocated", var.index()))
    }

    fn query(&self) -> Option<String> {
        let mut cells = self.queries.iter();
        let cell = cells.position(|&var| self.is_unallocated(var))?;
        let query = cell / (2 * self.width as usize);
        let var = self.queries[cell].index();
        Some(format!(
            "query {query} references unallocated variable {var}"
        ))
    }

    fn unbound(&self) -> Option<String> {
        let publics = self.publics.iter().map(|(var, _)| var);
        let bound: BTreeSet<_> = publics.chain(&self.queries).collect();
        let which = ", which no query or assignment binds";
        self.equation("weights variable", which, |var, weight| {
            weight != BabyBearUnit::ZERO && !bound.contains(&var)
        })
    }

    /// The first term of which this is true.
    fn equation(
        &self,
        what: &str,
        which: &str,
        is: impl Fn(FieldVar, BabyBearUnit) -> bool,
    ) -> Option<String> {
        self.equations.iter().zip(0..).find_map(|(equation, i)| {
            let mut terms = equation.terms.terms().iter();
            let term = terms.find(|term| is(term.var, term.weight))?;
            let i: usize = i;
            Some(format!("equation {i} {what} {}{which}", term.var.index()))
        })
    }
}

/// What a number of a read means where the source has one message for it.
fn malformed(refused: Refused) -> Option<&'static str> {
    Some(match refused.number() {
        3 => "wire index out of range",
        4 => "unit value",
        21 => "wrong magic",
        22 => "unsupported version",
        23 => "width does not match the type",
        24 => "unit length does not match the type",
        25 => "label is not UTF-8",
        27 => "public wires must be strictly increasing",
        28 => "trailing bytes",
        _ => return None,
    })
}

/// Why bytes aren't an instance of this width.
pub fn of_instance(refused: Refused, bytes: &[u8], width: u32) -> String {
    let walked = || Walk::new(bytes).instance(width);
    match malformed(refused).map_or_else(walked, Err) {
        Err(what) => format!("malformed encoding: {what}"),
        Ok(asked) => asked.message(refused),
    }
}

/// Why bytes aren't a witness of this width.
pub fn of_witness(refused: Refused, bytes: &[u8], width: u32) -> String {
    let walked = || Walk::new(bytes).witness(width);
    match malformed(refused).map_or_else(walked, Err) {
        Err(what) => format!("malformed encoding: {what}"),
        Ok(()) => refused.meaning().to_string(),
    }
}

/// A walk over bytes, field by field, which ends at the name of the field that they don't hold.
struct Walk<'a> {
    bytes: &'a [u8],
    at: usize,
}

type Walked<T> = Result<T, &'static str>;

impl<'a> Walk<'a> {
    const fn new(bytes: &'a [u8]) -> Self {
        Self { bytes, at: 0 }
    }

    fn skip(&mut self, len: usize, name: &'static str) -> Walked<()> {
        if len > self.bytes.len() - self.at {
            return Err(name);
        }
        self.at += len;
        Ok(())
    }

    fn word(&mut self, name: &'static str) -> Walked<u32> {
        let word = crate::read_u32(self.bytes, self.at).accepted();
        let (value, next) = word.map_err(|_| name)?;
        self.at = next;
        Ok(value)
    }

    fn var(&mut self) -> Walked<FieldVar> {
        self.word("wire index").map(FieldVar)
    }

    fn unit(&mut self) -> Walked<BabyBearUnit> {
        self.word("unit value").map(BabyBearUnit)
    }

    /// So many items.
    fn items<T>(&mut self, n: u64, item: impl Fn(&mut Self) -> Walked<T>) -> Walked<Vec<T>> {
        (0..n).map(|_| item(self)).collect()
    }

    fn header(&mut self) -> Walked<()> {
        self.skip(4, "magic")?;
        self.skip(1, "version")?;
        self.word("width")?;
        self.word("unit length").map(drop)
    }

    fn instance(mut self, width: u32) -> Walked<Asked> {
        self.header()?;
        let label = self.word("label length")?;
        self.skip(label as usize, "label")?;
        let vars = self.word("variable count")?;
        let n = self.word("public count")?;
        let publics = self.items(n.into(), |walk| Ok((walk.var()?, walk.unit()?)))?;
        let n = u64::from(self.word("query count")?);
        let queries = self.items(2 * u64::from(width) * n, Self::var)?;
        let n = self.word("equation count")?;
        let equations = self.items(n.into(), Self::equation)?;
        Ok(Asked {
            vars,
            publics,
            width,
            queries,
            equations,
        })
    }

    fn equation(&mut self) -> Walked<LinearEquation<BabyBearUnit>> {
        let n = self.word("term count")?;
        let terms = self.items(n.into(), |walk| Ok(walk.var()? * walk.unit()?))?;
        let terms: Sum<_> = terms.into_iter().collect();
        Ok(LinearEquation::new(terms, self.unit()?))
    }

    fn witness(mut self, width: u32) -> Walked<()> {
        self.header()?;
        let n = u64::from(self.word("step count")?);
        let cells = 2 * u64::from(width) * n;
        (0..cells).try_for_each(|_| self.unit().map(drop))
    }
}
