//! Damaged inputs for a comparison of an end's traces: short runs, each spoiled in one way.

#[cfg(test)]
mod tests;

use std::fs;
use std::io::Result;
use std::path::Path;

use crate::draw::Draw;
use crate::event_record::{decode, EVENT_OCTETS};
use crate::make_trace::{self, FEW_KEYS};
use crate::vocabulary::Node;

/// The most records of a run before it is spoiled.
const MOST_RECORDS: usize = 40;

type Damage = fn(Node, &mut Draw, Vec<[u8; EVENT_OCTETS]>) -> Vec<u8>;

/// File after file takes the next, counted round.
const DAMAGES: [Damage; 9] = [
    octets_at_random,
    records_at_random,
    bits_flipped,
    octets_cut_out,
    ended_early,
    record_inserted,
    records_dropped,
    records_swapped,
    record_made_bad,
];

/// Writes so many files, 0001 and on, the same for the same seed.
pub fn write(node: Node, seed: u64, count: u64, folder: &Path) -> Result<()> {
    fs::create_dir_all(folder)?;
    for (octets, number) in inputs(node, seed).zip(1..=count) {
        fs::write(folder.join(format!("{number:04}")), octets)?;
    }
    Ok(())
}

/// The damaged inputs of a seed, one after the other.
fn inputs(node: Node, seed: u64) -> impl Iterator<Item = Vec<u8>> {
    let mut draw = Draw::from_seed(seed);
    DAMAGES.iter().cycle().map(move |damage| {
        let run = short_run(node, &mut draw);
        damage(node, &mut draw, run)
    })
}

/// The records of a made run that go to two of its keys, or to key 0, from its start.
fn short_run(node: Node, draw: &mut Draw) -> Vec<[u8; EVENT_OCTETS]> {
    let keys = [draw.among(FEW_KEYS), draw.among(FEW_KEYS), 0];
    let count = draw.below(MOST_RECORDS + 1);
    let run = make_trace::records(node, u64::from(draw.word()), u64::MAX);
    let goes_to_keys = |octets: &[u8; EVENT_OCTETS]| {
        decode(node, octets).is_some_and(|asked| keys.contains(&asked.key))
    };
    run.filter(goes_to_keys).take(count).collect()
}

fn octets_at_random(_: Node, draw: &mut Draw, run: Vec<[u8; EVENT_OCTETS]>) -> Vec<u8> {
    let count = draw.below(run.len() * EVENT_OCTETS + 1);
    draw.octets(count)
}

/// Whole records, most of their octets so small that they are often named.
fn records_at_random(_: Node, draw: &mut Draw, run: Vec<[u8; EVENT_OCTETS]>) -> Vec<u8> {
    run.iter().flat_map(|_| record_at_random(draw)).collect()
}

fn record_at_random(draw: &mut Draw) -> [u8; EVENT_OCTETS] {
    let mut octets = [0; EVENT_OCTETS].map(|_: u8| match draw.below(64) {
        0 => draw.octet(),
        1..=40 => 0,
        _ => draw.below(4) as u8,
    });
    octets[0] = draw.below(11) as u8;
    octets
}

/// One to three bits.
fn bits_flipped(_: Node, draw: &mut Draw, run: Vec<[u8; EVENT_OCTETS]>) -> Vec<u8> {
    let mut octets = run.concat();
    for _ in 0..=draw.below(3) {
        let place = draw.below(octets.len());
        if let Some(octet) = octets.get_mut(place) {
            *octet ^= 1 << draw.below(8);
        }
    }
    octets
}

/// Up to twenty octets: what follows is no longer where records begin.
fn octets_cut_out(_: Node, draw: &mut Draw, run: Vec<[u8; EVENT_OCTETS]>) -> Vec<u8> {
    let mut octets = run.concat();
    let start = draw.below(octets.len());
    let end = octets.len().min(start + 1 + draw.below(20));
    octets.drain(start..end);
    octets
}

fn ended_early(_: Node, draw: &mut Draw, run: Vec<[u8; EVENT_OCTETS]>) -> Vec<u8> {
    let mut octets = run.concat();
    octets.truncate(draw.below(octets.len() + 1));
    octets
}

/// One of its own once more, or one at random.
fn record_inserted(_: Node, draw: &mut Draw, mut run: Vec<[u8; EVENT_OCTETS]>) -> Vec<u8> {
    let place = draw.below(run.len() + 1);
    let at_random = record_at_random(draw);
    let own = run.get(draw.below(run.len())).copied().unwrap_or(at_random);
    run.insert(place, draw.among([own, own, at_random]));
    run.concat()
}

/// One to three.
fn records_dropped(_: Node, draw: &mut Draw, mut run: Vec<[u8; EVENT_OCTETS]>) -> Vec<u8> {
    for _ in 0..=draw.below(3) {
        let place = draw.below(run.len());
        if place < run.len() {
            run.remove(place);
        }
    }
    run.concat()
}

fn records_swapped(_: Node, draw: &mut Draw, mut run: Vec<[u8; EVENT_OCTETS]>) -> Vec<u8> {
    if !run.is_empty() {
        let (one, other) = (draw.below(run.len()), draw.below(run.len()));
        run.swap(one, other);
    }
    run.concat()
}

/// In one of the ways of `make_trace`. Cut short, it moves what stands behind it.
fn record_made_bad(node: Node, draw: &mut Draw, run: Vec<[u8; EVENT_OCTETS]>) -> Vec<u8> {
    let place = draw.below(run.len());
    let way = u64::from(draw.word());
    let mut octets = Vec::new();
    for (number, &record) in run.iter().enumerate() {
        if number == place {
            octets.extend(make_trace::bad_record(node, way, record, draw));
        } else {
            octets.extend(record);
        }
    }
    octets
}
