//! The yardstick of `bench/plain`: what a Rust programmer would write to index a corpus file for speed, over the same word
//! segmentation: one look-up in a hash map a word, and no copy of a word that is there.
//! Debian has no package of the case folding crate, so words are put into lower case instead.
use std::borrow::Cow;
use std::collections::HashMap;
use unicode_segmentation::UnicodeSegmentation;

/// Documents that have a term, each with how often.
type Postings = Vec<(u32, u32)>;

/// A word in lower case, copied only where it isn't so already.
fn lower(word: &str) -> Cow<'_, str> {
    if word.bytes().all(|b| b.is_ascii() && !b.is_ascii_uppercase()) {
        Cow::Borrowed(word)
    } else {
        Cow::Owned(word.to_lowercase())
    }
}

fn count(postings: &mut Postings, document: u32) {
    match postings.last_mut() {
        Some((last, times)) if *last == document => *times = (*times + 1).min(63),
        _ => postings.push((document, 1)),
    }
}

fn main() {
    let name = std::env::args().nth(1).expect("a corpus file");
    let bytes = std::fs::read(name).expect("readable");
    let mut texts: Vec<String> = Vec::new();
    for line in bytes.split(|&b| b == b'\n').filter(|line| !line.is_empty()) {
        let mut value: serde_json::Value = serde_json::from_slice(line).expect("JSON");
        match value["text"].take() {
            serde_json::Value::String(text) => texts.push(text),
            _ => panic!("no text"),
        }
    }
    drop(bytes);
    let mut all: HashMap<String, Postings> = HashMap::new();
    for (document, text) in texts.iter().enumerate() {
        for word in text.unicode_words() {
            let term = lower(word);
            if term.len() > 64 {
                continue;
            }
            match all.get_mut(term.as_ref()) {
                Some(postings) => count(postings, document as u32),
                None => {
                    all.insert(term.into_owned(), vec![(document as u32, 1)]);
                }
            }
        }
    }
    let mut ranked: Vec<(usize, &String)> = all.iter().map(|(term, list)| (list.len(), term)).collect();
    ranked.sort_by(|a, b| b.0.cmp(&a.0).then(a.1.cmp(b.1)));
    ranked.truncate(16384);
    let entries: usize = ranked.iter().map(|(length, _)| length).sum();
    println!("documents {} terms {} entries {}", texts.len(), ranked.len(), entries);
}
