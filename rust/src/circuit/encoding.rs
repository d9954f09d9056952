//! The byte forms SFRI, of an instance, and SFRW, of a witness.

use alloc::{
    string::{String, ToString},
    vec,
    vec::Vec,
};

use super::{
    error::InvalidRelation,
    message,
    permutation::{width, PermutationInstance, PermutationWitness, QueryAnswerPair},
    refuse,
};
use crate::{sfri_bytes, sfrw_bytes, BabyBearUnit, FieldVar, Instance, Refused, Stores};

/// The first four bytes of an instance.
pub const INSTANCE_MAGIC: [u8; 4] = *b"SFRI";
/// The first four bytes of a witness.
pub const WITNESS_MAGIC: [u8; 4] = *b"SFRW";
/// The version that is written and read.
pub const VERSION: u8 = 1;

/// The word at this place, 0 where the bytes end before.
fn word(bytes: &[u8], at: usize) -> usize {
    crate::read_u32(bytes, at).value as usize
}

/// How many items of so many bytes each there are from this place on, where the word before it says
/// how many: never more than the bytes hold.
fn items(bytes: &[u8], at: usize, size: usize) -> usize {
    let held = bytes.len().saturating_sub(at) / size;
    word(bytes, at - 4).min(held)
}

/// The stores of a read, as long as the bytes can fill them.
struct Room<const WIDTH: usize> {
    publics: Vec<u32>,
    queries: Vec<QueryAnswerPair<FieldVar, WIDTH>>,
    equations: Vec<u32>,
    scratch: Vec<u32>,
    /// How many wires the bytes name.
    vars: usize,
}

impl<const WIDTH: usize> Room<WIDTH> {
    /// Where a count is larger than the bytes hold, the read ends at 20 before anything is short.
    fn of(bytes: &[u8]) -> Self {
        let label = word(bytes, 13);
        let vars = word(bytes, 17 + label);
        let at = 25 + label;
        let publics = items(bytes, at, 8);
        let at = at + 8 * publics + 4;
        let queries = items(bytes, at, 8 * WIDTH);
        let at = at + 8 * WIDTH * queries + 4;
        let equations = bytes.len().saturating_sub(at) / 4;
        Self {
            publics: vec![0; 2 * publics],
            queries: vec![QueryAnswerPair::ROOM; queries],
            equations: vec![0; equations],
            // A few bytes may name 2^32 - 1 wires: nothing is made for these before they are read.
            scratch: vec![0; vars.min(bytes.len())],
            vars,
        }
    }

    /// The proved read: the instance's record and its label.
    fn read(&mut self, bytes: &[u8]) -> Result<(Instance, String), Refused> {
        let stores = Stores {
            publics: &mut self.publics,
            queries: QueryAnswerPair::cells_mut(&mut self.queries),
            equations: &mut self.equations,
        };
        let width = width::<WIDTH>();
        let read = crate::instance_from_bytes(width, bytes, stores, &mut self.scratch);
        let parts = read.accepted()?;
        let label = String::from_utf8_lossy(parts.label).to_string(); // 25 asked: it is UTF-8
        Ok((parts.instance, label))
    }

    /// Whether scratch has a word per wire now, and had not before.
    fn grow(&mut self) -> bool {
        let more = self.vars.saturating_sub(self.scratch.len());
        let grown = more > 0
            && self.vars <= FieldVar::MAX_COUNT
            && self.scratch.try_reserve_exact(more).is_ok();
        if grown {
            self.scratch.resize(self.vars, 0);
        }
        grown
    }

    /// The instance that was read.
    fn instance(
        mut self,
        record: Instance,
        label: String,
    ) -> PermutationInstance<BabyBearUnit, WIDTH> {
        self.publics.truncate(2 * record.publics as usize);
        self.queries.truncate(record.queries as usize);
        self.equations.truncate(record.words as usize);
        PermutationInstance::new(label, record, self.publics, self.queries, self.equations)
    }
}

impl<const WIDTH: usize> PermutationInstance<BabyBearUnit, WIDTH> {
    /// The instance as SFRI.
    #[must_use]
    pub fn to_bytes(&self) -> Vec<u8> {
        let parts = self.parts();
        let ins = parts.instance;
        let len = sfri_bytes(
            parts.label.len(),
            ins.width,
            ins.publics,
            ins.queries,
            ins.words,
        );
        let mut out = vec![0; len];
        let written = crate::instance_to_bytes(parts, &mut out).accepted();
        written.unwrap_or_else(|refused| refuse(refused));
        out
    }

    /// Reads SFRI, and asks what [`compile`](super::PermutationRelation::compile) asks.
    ///
    /// It takes a word of scratch per wire that the bytes name; if these are more than the bytes,
    /// then only once the rest has been read.
    pub fn from_bytes(bytes: &[u8]) -> Result<Self, InvalidRelation> {
        let mut room = Room::of(bytes);
        let mut read = room.read(bytes);
        if matches!(read, Err(refused) if refused.number() == 16) && room.grow() {
            read = room.read(bytes);
        }
        match read {
            Ok((record, label)) => Ok(room.instance(record, label)),
            Err(refused) => {
                let message = message::of_instance(refused, bytes, width::<WIDTH>());
                Err(InvalidRelation::new(refused, message))
            }
        }
    }
}

impl<const WIDTH: usize> PermutationWitness<BabyBearUnit, WIDTH> {
    /// The witness as SFRW.
    #[must_use]
    pub fn to_bytes(&self) -> Vec<u8> {
        let rec = QueryAnswerPair::record(&self.trace);
        let trace = QueryAnswerPair::cells(&self.trace);
        let mut out = vec![0; sfrw_bytes(rec.width, rec.steps)];
        let written = crate::witness_to_bytes(rec, trace, &mut out).accepted();
        written.unwrap_or_else(|refused| refuse(refused));
        out
    }

    /// Reads SFRW.
    pub fn from_bytes(bytes: &[u8]) -> Result<Self, InvalidRelation> {
        let steps = items(bytes, 17, 8 * WIDTH);
        let mut trace = vec![QueryAnswerPair::ROOM; steps];
        let store = QueryAnswerPair::cells_mut(&mut trace);
        let read = crate::witness_from_bytes(width::<WIDTH>(), bytes, store).accepted();
        match read {
            Ok(_) => Ok(Self { trace }),
            Err(refused) => {
                let message = message::of_witness(refused, bytes, width::<WIDTH>());
                Err(InvalidRelation::new(refused, message))
            }
        }
    }
}
