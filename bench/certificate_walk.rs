//! The plain walk over two dear certificates within the limits: 65,536 triples
//! in 64 groups of 1,024, over 64 events. It's what `check` of `qc_cert` is
//! measured against: bench/certificate.py builds and runs both. It looks at each
//! set of a group in turn.
//!
//! In state 0 each event is legal and leads to state 0; in each other state it
//! leads to another one past 0. No invocation depends on anything, so that each
//! event is looked up twice at each triple, left out and taken. The groups are
//! those of view 0 with each log, and the last triple of each alone covers what
//! is looked up in it. The sets of the one list are drawn by chance, few events
//! each, so that a declaration holds many of them. Those of the other, with the
//! word `wide`, meet most parts of the eight groups that all is looked up in.

use std::time::Instant;

const STATES: usize = 64;
const EVENTS: usize = 64;
const GROUP: usize = 1024;
const INVS: usize = 32;

/// The event that each of the sets has.
const LAST: u64 = 1 << 63;

struct Triple {
    view: usize,
    log: usize,
    out: u64,
}

/// The state after an event: each of the states past 0, or one of the first
/// eight of them.
fn step(is_wide: bool, state: usize, event: usize) -> usize {
    if state == 0 {
        0
    } else if is_wide {
        1 + (state % 8 + event) % 8
    } else {
        1 + (state + event % 62) % 63
    }
}

/// The next number that seems drawn by chance.
fn next(seed: u64) -> u64 {
    seed.wrapping_mul(6364136223846793005).wrapping_add(1442695040888963407)
}

/// The set of an event but the last, drawn by a seed.
fn one(seed: u64) -> u64 {
    let mixed = (seed ^ (seed >> 29)).wrapping_mul(0xbf58476d1ce4e5b9);
    1 << ((mixed ^ (mixed >> 32)) % 63)
}

/// What the triple at a place of a group leaves out, always the last event.
fn out(is_wide: bool, log: u64, place: u64) -> u64 {
    if place == 1023 {
        return if log == 0 { 0 } else { LAST };
    }
    if !is_wide {
        let seed = (place * 64 + log).wrapping_mul(0x9e3779b97f4a7c15);
        return LAST | one(seed) | one(next(seed)) | one(next(next(seed)));
    }
    if log <= 8 {
        return LAST | 1 << 11 | (place + 1);
    }
    let (first, apart) = (place % 51, 1 + place / 51);
    LAST | 0x3ff | 1 << (12 + first) | 1 << (12 + (first + apart) % 51)
}

/// The triples, those of a group in the order of the walk.
fn triples(is_wide: bool) -> Vec<Triple> {
    let mut list = Vec::new();
    for place in 0..GROUP {
        for log in 0..STATES {
            list.push(Triple { view: 0, log, out: out(is_wide, log as u64, place as u64) });
        }
    }
    list
}

/// Whether a triple of the group leaves out none but these.
fn is_covered(group: &[u64], out: u64) -> bool {
    group.iter().any(|o| o & out == *o)
}

/// Whether each triple's events lead to triples that are covered, and its
/// states have the same responses.
fn walk(list: &[Triple], next: &[[usize; EVENTS]; STATES], responses: &[[u32; INVS]; STATES]) -> bool {
    let mut groups = vec![Vec::new(); STATES * STATES];
    for triple in list {
        groups[triple.view * STATES + triple.log].push(triple.out);
    }
    if !is_covered(&groups[0], 0) {
        return false;
    }
    for triple in list {
        for event in 0..EVENTS {
            let group = &groups[triple.view * STATES + next[triple.log][event]];
            if !is_covered(group, triple.out | 1 << event) {
                return false;
            }
        }
        for inv in 0..INVS {
            if responses[triple.view][inv] != responses[triple.log][inv] {
                return false;
            }
            for event in [2 * inv, 2 * inv + 1] {
                let group = &groups[next[triple.view][event] * STATES + next[triple.log][event]];
                if !is_covered(group, triple.out) {
                    return false;
                }
            }
        }
    }
    true
}

fn main() {
    let is_wide = std::env::args().any(|word| word == "wide");
    let mut next = [[0; EVENTS]; STATES];
    for state in 0..STATES {
        for event in 0..EVENTS {
            next[state][event] = step(is_wide, state, event);
        }
    }
    let responses = [[3; INVS]; STATES];
    let list = triples(is_wide);
    let start = Instant::now();
    let accepted = walk(&list, &next, &responses);
    println!("{} {:.3}", accepted, start.elapsed().as_secs_f64());
}
