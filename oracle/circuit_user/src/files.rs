//! Files to be read: an instance's or a witness's bytes, whole, with parts changed, or damaged.

use reading::MAX_COUNT;

use crate::{
    calls::{SeenInstance, SeenWitness},
    rng::{Rng, EDGES},
};

/// Labels that aren't UTF-8, and one that is.
const LABELS: [&[u8]; 4] = [b"\xC0\x80", b"\xED\xA0\x80", b"e\xC3", b"\xF4\x8F\xBF\xBF"];

fn put(out: &mut Vec<u8>, words: &[u32]) {
    out.extend(words.iter().flat_map(|word| word.to_le_bytes()));
}

/// An instance's parts as SFRI, whatever they are.
fn encode(width: usize, label: &[u8], instance: &SeenInstance) -> Vec<u8> {
    let mut out = b"SFRI\x01".to_vec();
    put(&mut out, &[width as u32, 4, label.len() as u32]);
    out.extend(label);
    put(
        &mut out,
        &[instance.count as u32, instance.publics.len() as u32],
    );
    for &(var, value) in &instance.publics {
        put(&mut out, &[var, value]);
    }
    put(&mut out, &[instance.queries.len() as u32]);
    for query in &instance.queries {
        put(&mut out, query);
    }
    put(&mut out, &[instance.equations.len() as u32]);
    for (terms, image) in &instance.equations {
        put(&mut out, &[terms.len() as u32]);
        for &(var, weight) in terms {
            put(&mut out, &[var, weight]);
        }
        put(&mut out, &[*image]);
    }
    out
}

/// An instance with a part changed, so that one of the questions about parts may say no.
fn changed(rng: &mut Rng, width: usize, instance: &SeenInstance) -> Vec<u8> {
    let mut it = instance.clone();
    let label = it.label.clone().into_bytes();
    match rng.below(9) {
        0 => it.count = rng.below(it.count + 2),
        1 if it.publics.len() > 1 => {
            let i = rng.below(it.publics.len() - 1);
            it.publics.swap(i, i + 1);
        }
        2 if it.publics.len() > 1 => {
            let i = rng.below(it.publics.len() - 1);
            it.publics[i].0 = it.publics[i + 1].0;
        }
        3 => drop(it.publics.drain(rng.below(it.publics.len() + 1)..)),
        4 if !it.queries.is_empty() => {
            let query = rng.below(it.queries.len());
            it.queries[query][rng.below(2 * width)] = *rng.pick(&EDGES);
        }
        5 if !it.queries.is_empty() => drop(it.queries.remove(rng.below(it.queries.len()))),
        6 => {
            let var = it.count + rng.below(3) - rng.below(it.count.min(3) + 1);
            let terms = vec![(var as u32, rng.unit())];
            it.equations.insert(0, (terms, *rng.pick(&EDGES)));
        }
        7 => {
            // A wire more, which an equation weights and nothing binds.
            it.equations.push((vec![(it.count as u32, 1)], 0));
            it.count += 1;
        }
        _ => {
            let label = *rng.pick(&LABELS);
            return encode(width, label, &it);
        }
    }
    encode(width, &label, &it)
}

/// Bytes with a word or a byte replaced, cut off, or with some left over.
fn damaged(rng: &mut Rng, mut bytes: Vec<u8>) -> Vec<u8> {
    match rng.below(8) {
        0 => drop(bytes.drain(rng.below(bytes.len())..)),
        1 => bytes.truncate(rng.below(bytes.len().min(40))),
        2 => bytes.extend(vec![rng.word() as u8; 1 + rng.below(9)]),
        3 => {
            let at = rng.below(bytes.len());
            bytes[at] = rng.word() as u8;
        }
        4 | 5 => {
            // Magic, version, width, unit length and, of an instance, label length.
            let (at, len) = *rng.pick(&[(0, 4), (4, 1), (5, 4), (9, 4), (13, 4)]);
            bytes[at + rng.below(len)] ^= 1 << rng.below(8);
        }
        _ if bytes.len() >= 9 => {
            // A word of a field, of which all but the first five bytes and the label are.
            let at = 5 + 4 * rng.below((bytes.len() - 5) / 4);
            let word = if rng.once_in(2) {
                rng.word() % 8
            } else {
                *rng.pick(&EDGES)
            };
            bytes[at..at + 4].copy_from_slice(&word.to_le_bytes());
        }
        _ => {}
    }
    bytes
}

/// The wire count in a file, and where it stands.
pub fn wire_count(bytes: &[u8]) -> Option<(usize, u32)> {
    let word = |at: usize| {
        let word = bytes.get(at..at + 4)?;
        Some(u32::from_le_bytes(word.try_into().ok()?))
    };
    let at = 17 + word(13)? as usize;
    Some((at, word(at)?))
}

/// Keeps the wire count of a file away from what takes gigabytes of memory on either side, but where it is more than 2^30.
fn tamed(mut bytes: Vec<u8>) -> Vec<u8> {
    match wire_count(&bytes) {
        Some((at, count)) if (1 << 20..=MAX_COUNT).contains(&count) => {
            bytes[at..at + 4].copy_from_slice(&(count % 1_000_003).to_le_bytes());
        }
        _ => {}
    }
    bytes
}

/// A file of an instance of this width.
pub fn of_instance(rng: &mut Rng, width: usize, instance: &SeenInstance) -> Vec<u8> {
    let whole = instance.bytes.clone();
    tamed(match rng.below(8) {
        0 => whole,
        1..=3 => changed(rng, width, instance),
        4 => {
            let mut huge = instance.clone();
            huge.count = MAX_COUNT as usize + 1 + rng.below(1 << 20);
            encode(width, huge.label.as_bytes(), &huge)
        }
        _ => damaged(rng, whole),
    })
}

/// A file of a witness.
pub fn of_witness(rng: &mut Rng, witness: &SeenWitness) -> Vec<u8> {
    let whole = witness.bytes.clone();
    if rng.once_in(5) {
        whole
    } else {
        damaged(rng, whole)
    }
}
