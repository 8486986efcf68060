//! Matches each key of a file with the facts of some targets, by the crate cargo-platform, by calls of the library, and
//! by the crate nevgrasi.
//!
//! `measure/prepared` builds and runs this program. It reads keys from the standard input, one per line. For each
//! target it prints how many facts it has, and nanoseconds for each key: those of cargo-platform, of flat facts, of
//! prepared facts, and of prepared facts by the crate nevgrasi; and of the texts of keys, by a call for each of them,
//! and by one call for all. Each is the least of all rounds. With the name of a function as its argument, it calls this
//! one once.
#[allow(dead_code)]
mod raw;

use cargo_platform::{Cfg, Platform};
use raw::Outcome;
use std::hint::black_box;
use std::str::FromStr;
use std::time::Instant;

const TARGETS: [&str; 3] = ["x86_64-unknown-linux-gnu", "x86_64-pc-windows-msvc", "riscv64a23-unknown-linux-gnu"];
const ROUNDS: u32 = 300;
const TIMES: u32 = 10;

/// What a call of the library writes.
fn written(call: impl Fn(*mut u8, usize, *mut Outcome) -> u32) -> Vec<u8> {
    let mut outcome = Outcome::default();
    call(std::ptr::null_mut(), 0, &mut outcome);
    let mut out = vec![0; outcome.needed];
    assert_eq!(call(out.as_mut_ptr(), out.len(), &mut outcome), raw::DONE);
    out
}

/// A fact as a record of flat facts.
fn record(fact: &Cfg) -> Vec<u8> {
    let (first, second, tag) = match fact {
        Cfg::Name(name) => (name.as_str(), "", 0),
        Cfg::KeyPair(key, value) => (key.as_str(), value.as_str(), 2),
    };
    let numbers = [first.len().to_le_bytes(), second.len().to_le_bytes()].concat();
    [first.as_bytes(), second.as_bytes(), &numbers, &[tag]].concat()
}

struct Work {
    platforms: Vec<Platform>,
    facts: Vec<Cfg>,
    flats: Vec<Vec<u8>>,
    flat_facts: Vec<u8>,
    prepared: Vec<u8>,
    conditions: Vec<nevgrasi::Condition>,
    read_facts: nevgrasi::Facts,
    keys: Vec<String>,
    lines: String,
}

#[inline(never)]
fn by_crate(work: &Work) -> usize {
    work.platforms.iter().filter(|it| black_box(it.matches("x", &work.facts))).count()
}

#[inline(never)]
fn by_flat(work: &Work) -> usize {
    let (mut outcome, facts) = (Outcome::default(), &work.flat_facts);
    let is_true = |it: &&Vec<u8>| unsafe {
        raw::nevgrasi_flat_matches(it.as_ptr(), it.len(), b"x".as_ptr(), 1, facts.as_ptr(), facts.len(), &mut outcome);
        outcome.holds
    };
    work.flats.iter().filter(is_true).count()
}

#[inline(never)]
fn by_prepared(work: &Work) -> usize {
    let (mut outcome, facts) = (Outcome::default(), &work.prepared);
    let is_true = |it: &&Vec<u8>| unsafe {
        raw::nevgrasi_prepared_matches(
            it.as_ptr(),
            it.len(),
            b"x".as_ptr(),
            1,
            facts.as_ptr(),
            facts.len(),
            &mut outcome,
        );
        outcome.holds
    };
    work.flats.iter().filter(is_true).count()
}

#[inline(never)]
fn by_nevgrasi(work: &Work) -> usize {
    work.conditions.iter().filter(|it| it.matches(&work.read_facts).expect("an answer")).count()
}

#[inline(never)]
fn by_each(work: &Work) -> usize {
    let (mut outcome, lines) = (Outcome::default(), &work.lines);
    let mut out = [0; 512];
    let is_true = |it: &&String| unsafe {
        raw::nevgrasi_matches(
            it.as_ptr(),
            it.len(),
            b"x".as_ptr(),
            1,
            lines.as_ptr(),
            lines.len(),
            out.as_mut_ptr(),
            out.len(),
            &mut outcome,
        );
        outcome.holds
    };
    work.keys.iter().filter(is_true).count()
}

#[inline(never)]
fn by_batch(work: &Work) -> usize {
    let answers = nevgrasi::match_keys(&work.keys, &work.read_facts).expect("answers");
    answers.iter().filter(|it| **it == Ok(true)).count()
}

/// How many of the calls are on parsed conditions. These are the first ones.
const ON_PARSED: usize = 4;

const CALLS: [(&str, fn(&Work) -> usize); 6] = [
    ("by_crate", by_crate),
    ("by_flat", by_flat),
    ("by_prepared", by_prepared),
    ("by_nevgrasi", by_nevgrasi),
    ("by_each", by_each),
    ("by_batch", by_batch),
];

fn work_of(keys: &[String], lines: &str) -> Work {
    let facts: Vec<Cfg> = lines.lines().map(|it| Cfg::from_str(it).expect("a fact")).collect();
    Work {
        platforms: keys.iter().map(|it| Platform::from_str(it).expect("a key")).collect(),
        flats: keys
            .iter()
            .map(|it| written(|out, room, o| unsafe { raw::nevgrasi_read_key(it.as_ptr(), it.len(), out, room, o) }))
            .collect(),
        flat_facts: facts.iter().flat_map(record).collect(),
        prepared: written(|out, room, o| unsafe {
            raw::nevgrasi_prepare_facts(lines.as_ptr(), lines.len(), out, room, o)
        }),
        facts,
        conditions: keys.iter().map(|it| condition(it).expect("a key")).collect(),
        read_facts: nevgrasi::Facts::new("x", lines).expect("facts"),
        keys: keys.to_vec(),
        lines: lines.to_string(),
    }
}

/// The condition of a key.
fn condition(key: &str) -> Result<nevgrasi::Condition, nevgrasi::Error> {
    nevgrasi::Key::new(key)?.condition()
}

fn main() {
    let which = std::env::args().nth(1);
    let keys: Vec<String> = std::io::stdin().lines().map(|it| it.expect("a line")).collect();
    let lines_of = |name: &&str| {
        let lines = |out, room, o| unsafe { raw::nevgrasi_facts(name.as_ptr(), name.len(), out, room, o) };
        String::from_utf8(written(lines)).expect("a text")
    };
    let thousand = (0..1000).map(|k| format!("target_feature = \"f{k}\"\n")).collect();
    for lines in TARGETS.iter().map(lines_of).chain([thousand]) {
        let work = work_of(&keys, &lines);
        if let Some(name) = &which {
            let call = CALLS.iter().find(|it| it.0 == name).expect("a call").1;
            black_box(call(&work));
            return;
        }
        let mut least = [f64::MAX; CALLS.len()];
        for round in 0..ROUNDS {
            // The calls on texts take longer, and are made in every tenth round.
            let calls = if round % 10 == 0 { CALLS.len() } else { ON_PARSED };
            for (place, (_, call)) in CALLS.iter().enumerate().take(calls) {
                let start = Instant::now();
                let counts: Vec<usize> = (0..TIMES).map(|_| black_box(call(&work))).collect();
                let time = start.elapsed().as_nanos() as f64;
                assert!(counts.iter().all(|it| *it == by_crate(&work)), "another answer");
                least[place] = least[place].min(time / f64::from(TIMES) / keys.len() as f64);
            }
        }
        let times: Vec<String> = least.iter().map(|it| format!("{it:.1}")).collect();
        println!("{}\t{}", work.facts.len(), times.join("\t"));
    }
}
