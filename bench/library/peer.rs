//! The yardstick of `bench/library`: what a Rust programmer would write to read a library's file.
//! It counts no rows of buckets, and keeps its terms as slices of the file.
use std::time::Instant;

struct Library<'a> {
    terms: Vec<&'a str>,
    weights: Vec<(u32, u32, u16)>,
    records: Vec<u8>,
    bins: Vec<u8>,
}

fn number(bytes: &[u8], at: usize) -> Option<u32> {
    Some(u32::from_be_bytes(bytes.get(at..at + 4)?.try_into().ok()?))
}

fn read(bytes: &[u8]) -> Option<Library<'_>> {
    if bytes.get(..8)? != b"COEUSLB1" {
        return None;
    }
    let mut shape = [0; 8];
    for (i, field) in shape.iter_mut().enumerate() {
        *field = number(bytes, 8 + 4 * i)?;
    }
    let [degree, documents, count, _, _, _, bin_count, chunks] = shape;
    let mut at = 40;
    let mut terms: Vec<&str> = Vec::new();
    for _ in 0..count {
        let size = *bytes.get(at)? as usize;
        let term = std::str::from_utf8(bytes.get(at + 1..at + 1 + size)?).ok()?;
        if size < 1 || size > 64 || terms.last().is_some_and(|last| *last >= term) {
            return None;
        }
        terms.push(term);
        at += 1 + size;
    }
    let entries = number(bytes, at)? as usize;
    at += 4;
    let mut weights = Vec::with_capacity(entries.min((bytes.len() - at) / 10));
    let mut before: Option<(u32, u32)> = None;
    for entry in bytes.get(at..at + 10 * entries)?.chunks_exact(10) {
        let term = number(entry, 0)?;
        let document = number(entry, 4)?;
        let weight = u16::from_be_bytes([entry[8], entry[9]]);
        let good = term < count && document < documents && (1..=4032).contains(&weight);
        if !good || before.is_some_and(|last| last >= (term, document)) {
            return None;
        }
        weights.push((term, document, weight));
        before = Some((term, document));
    }
    at += 10 * entries;
    let records = bytes.get(at..at + 256 * documents as usize)?.to_vec();
    at += records.len();
    let size = bin_count as usize * chunks as usize * 2 * degree as usize;
    let bins = bytes.get(at..at + size)?.to_vec();
    (at + size == bytes.len()).then_some(Library { terms, weights, records, bins })
}

fn main() {
    let name = std::env::args().nth(1).expect("a library's file");
    let bytes = std::fs::read(name).expect("readable");
    let begun = Instant::now();
    let found = read(&bytes);
    let took = begun.elapsed().as_millis();
    match found {
        Some(l) => println!("{} ms, {} entries, {} bytes", took, l.weights.len(), l.terms.len() + l.records.len() + l.bins.len()),
        None => println!("{} ms, wrong", took),
    }
}
