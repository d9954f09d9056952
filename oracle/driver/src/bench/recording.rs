//! Queries recorded and minted in a relation alone, one call for each item, beside the sources'
//! calls.

use sfr::FieldVar;

use super::{
    best,
    input::{FEWER, LABEL, OLD},
    table, timed, Line,
};
use crate::rng::Rng;

const WIDTHS: [u32; 3] = [1, 8, 24];

pub fn tables(last: usize) {
    let last = last.min(FEWER);
    for width in WIDTHS {
        table(
            &format!("record, width {width}"),
            "An item is a query, a call of its own: its outputs are wires of its own, its inputs any. The library counts \
             the cells, anywhere in the use store. The source takes its lock (a stand-in) and makes its wires of words; its \
             list grows within the time.",
            last,
            |items| record(width, items),
        );
        table(
            &format!("mint, width {width}"),
            "An item is a query with its outputs, a call of its own. The library counts the cells. The source takes its \
             locks (stand-ins); its lists grow within the time.",
            last,
            |items| mint(width, items),
        );
    }
}

/// A relation and its stores.
pub struct Recorded {
    pub rel: sfr::Relation,
    pub slots: Vec<u32>,
    pub queries: Vec<u32>,
    pub uses: Vec<u32>,
}

impl Recorded {
    /// A fresh relation, and room for so many wires and queries.
    pub fn new(width: u32, vars: usize, queries: usize) -> Self {
        let (mut slots, mut uses) = (vec![OLD; vars], vec![OLD; vars]);
        let fresh = sfr::new_relation(width, &mut slots, &mut uses).accepted();
        Self {
            rel: fresh.expect("a relation"),
            slots,
            queries: vec![OLD; 2 * width as usize * queries],
            uses,
        }
    }

    /// Records queries that lie one after the other.
    pub fn record(&mut self, cells: &[u32]) {
        let width = self.rel.width as usize;
        for query in cells.chunks(2 * width) {
            let (input, output) = query.split_at(width);
            let (input, output) = (FieldVar::list(input), FieldVar::list(output));
            let (slots, uses) = (&self.slots, &mut self.uses);
            let queries = FieldVar::list_mut(&mut self.queries);
            let answer = sfr::add_permutation(self.rel, slots, queries, uses, input, output);
            assert_eq!(answer.number, 0);
            self.rel = answer.relation;
        }
    }
}

/// So many queries, whose outputs are the wires from 1 on, and whose inputs are any of them.
pub fn queries(width: u32, items: usize) -> Vec<u32> {
    let mut rng = Rng::new(items as u64);
    let width = width as usize;
    let mut cells = Vec::new();
    for item in 0..items {
        cells.extend((0..width).map(|_| rng.below(1 + items * width) as u32));
        cells.extend((0..width).map(|i| (1 + item * width + i) as u32));
    }
    cells
}

fn record(width: u32, items: usize) -> Line {
    let (cells, w) = (queries(width, items), width as usize);
    let library = timed(
        || Recorded::new(width, 1 + items * w, items),
        |recorded| recorded.record(&cells),
    );
    let source = timed(
        || source::relation(width, LABEL),
        |relation| {
            for query in cells.chunks(2 * w) {
                let (input, output) = query.split_at(w);
                relation.add_permutation(input, output);
            }
        },
    );
    let [library, source] = best([library, source]);
    Line {
        items,
        bytes: 4 * 6 * w * items,
        library,
        source,
    }
}

fn mint(width: u32, items: usize) -> Line {
    let w = width as usize;
    let mut rng = Rng::new(items as u64);
    let inputs: Vec<u32> = (0..items * w).map(|_| rng.below(items) as u32).collect();
    let library = timed(
        || Recorded::new(width, 1 + items * w, items),
        |recorded| {
            let slots = &mut recorded.slots;
            let queries = FieldVar::list_mut(&mut recorded.queries);
            for input in FieldVar::list(&inputs).chunks(w) {
                let (rel, uses) = (recorded.rel, &mut recorded.uses);
                let answer = sfr::allocate_permutation(rel, slots, queries, uses, input);
                assert_eq!(answer.number, 0);
                recorded.rel = answer.relation;
            }
        },
    );
    let source = timed(
        || source::relation(width, LABEL).ready_mints(&inputs),
        |ready| ready(),
    );
    let [library, source] = best([library, source]);
    Line {
        items,
        bytes: 4 * 6 * w * items,
        library,
        source,
    }
}
