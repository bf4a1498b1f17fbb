//! Tables: fit ones, and ones damaged in each way that 101 names of records. (The way that it names
//! of the whole table, over 1,024 records, is a matter of the count.)

use crate::call::{Call, Soft, State};
use crate::draw::Draw;
use crate::tables::RECORD_OCTETS;

/// Keys that share their low octets with small ones, or with each other.
const FAR_KEYS: [u32; 6] = [65_536, 65_537, 65_538, 0x0100_0001, 0x8000_0002, u32::MAX];

/// Numbers with one octet that is not 0, and the greatest.
const SPARSE_NUMBERS: [u32; 5] = [1, 256, 65_536, 16_777_216, u32::MAX];

pub struct MadeTable {
    /// A key for each place, also where its record is empty, and then some that no place has.
    pub keys: Vec<u32>,
    pub calls: Vec<Call>,
}

/// What makes a table unfit, one entry for each cause of 101 that damage to records can bring
/// about.
#[derive(Clone, Copy, Debug, PartialEq, Eq)]
pub enum Damage {
    KeyDoubled,
    EmptyNotAllEmpty,
    CallInNull,
    LastNumberZero,
    HeldNumberZero,
    HeldNumberAboveLast,
    HeldNumbersEqual,
}

pub const DAMAGES: [Damage; 7] = [
    Damage::KeyDoubled,
    Damage::EmptyNotAllEmpty,
    Damage::CallInNull,
    Damage::LastNumberZero,
    Damage::HeldNumberZero,
    Damage::HeldNumberAboveLast,
    Damage::HeldNumbersEqual,
];

impl MadeTable {
    /// A table without damage, of so many records.
    pub fn fit(draw: &mut Draw, count: usize) -> Self {
        let keys = keys(draw, count);
        let mut calls: Vec<Call> =
            keys.iter().take(count).map(|&key| fit_call(draw, key)).collect();
        empty_some(draw, &mut calls);
        Self { keys, calls }
    }

    /// One damage; none where the table is too small for it.
    pub fn damage(&mut self, damage: Damage, draw: &mut Draw) {
        let place = draw.place(self.calls.len());
        match damage {
            Damage::KeyDoubled => self.double_key(draw),
            Damage::EmptyNotAllEmpty => self.change(place, draw, not_all_empty),
            Damage::CallInNull => {
                self.change(place, draw, |_, call| Call { state: State::Null, ..call })
            }
            Damage::LastNumberZero => self.change(place, draw, without_last_number),
            Damage::HeldNumberZero => self.change(place, draw, holding_zero),
            Damage::HeldNumberAboveLast => self.change(place, draw, holding_above_last),
            Damage::HeldNumbersEqual => self.change(place, draw, holding_twice),
        }
    }

    /// Changes the call at a place; where the record is empty, a call is put there first.
    fn change(
        &mut self,
        place: usize,
        draw: &mut Draw,
        changed: impl FnOnce(&mut Draw, Call) -> Call,
    ) {
        if let (Some(call), Some(&key)) = (self.calls.get_mut(place), self.keys.get(place)) {
            let before = if call.key == 0 { fit_call(draw, key) } else { *call };
            *call = changed(draw, before);
        }
    }

    /// One key at two places: the first and the last, neighbours at either end or in the middle,
    /// the middle and an end, or any two.
    fn double_key(&mut self, draw: &mut Draw) {
        let count = self.calls.len();
        if count < 2 {
            return;
        }
        let (last, middle) = (count - 1, count / 2);
        let any = draw.below(count);
        let any_other = (any + 1 + draw.below(last)) % count;
        let (first_place, second_place) = draw.among([
            (0, last),
            (0, 1),
            (last - 1, last),
            (middle - 1, middle),
            (0, middle),
            (middle - 1, last),
            (any, any_other),
        ]);
        let mut key = 0;
        self.change(first_place, draw, |_, call| {
            key = call.key;
            call
        });
        self.change(second_place, draw, |_, call| Call { key, ..call });
    }

    /// The records in octets. What is not read is 0 in half of the tables and anything in the
    /// others.
    pub fn octets(&self, draw: &mut Draw) -> Vec<[u8; RECORD_OCTETS]> {
        let blank = draw.one_in(2);
        self.calls.iter().map(|call| record_octets(draw, call, blank)).collect()
    }
}

/// Small keys, more than there are places, and a few far ones, all different and in any order.
fn keys(draw: &mut Draw, count: usize) -> Vec<u32> {
    let spare = count / 2 + 4;
    let mut keys: Vec<u32> = (1..).take(count + spare).chain(FAR_KEYS).collect();
    for place in (1..keys.len()).rev() {
        keys.swap(place, draw.below(place + 1));
    }
    keys
}

/// Empties no record in half of the tables, in the others one, an eighth, a half, or all.
fn empty_some(draw: &mut Draw, calls: &mut [Call]) {
    match draw.below(16) {
        0..=7 => {}
        8..=9 => {
            let place = draw.place(calls.len());
            calls.iter_mut().skip(place).take(1).for_each(|call| *call = Call::EMPTY);
        }
        10..=12 => empty_one_in(8, draw, calls),
        13..=14 => empty_one_in(2, draw, calls),
        _ => calls.fill(Call::EMPTY),
    }
}

fn empty_one_in(rarity: usize, draw: &mut Draw, calls: &mut [Call]) {
    calls.iter_mut().filter(|_| draw.one_in(rarity)).for_each(|call| *call = Call::EMPTY);
}

/// A call in any state but Null, with any services (decision 15): its held numbers differ and are
/// not above the last. The rerouting connection is often the last given, as in a node.
fn fit_call(draw: &mut Draw, key: u32) -> Call {
    let number = draw.among([1, 2, 3, 4, 5, 6, 7]);
    let connections = if number < 5 { 1 } else { 2 };
    let last = last_number(draw).max(connections);
    let rerouting = if draw.one_in(2) { last } else { draw.number_to(last) };
    let incumbent = number_beside(draw, rerouting, last);
    let state = State::of_number(number, incumbent, rerouting).unwrap_or(State::Null);
    Call { key, hard: draw.one_in(2), soft: soft(draw), state, last, remote: remote(draw) }
}

/// A number given that is not the rerouting connection's, wherever two were given.
fn number_beside(draw: &mut Draw, rerouting: u16, last: u16) -> u16 {
    match draw.number_to(last) {
        same if same == rerouting && same > 1 => same - 1,
        same if same == rerouting && last > 1 => same + 1,
        other => other,
    }
}

fn last_number(draw: &mut Draw) -> u16 {
    match draw.below(8) {
        0 => 1,
        1..=3 => draw.number_to(12),
        4 => 65_534,
        5..=6 => 65_535,
        _ => draw.number_to(65_535),
    }
}

/// Symmetric in half of the calls, since at the source a setup without it means nothing.
fn soft(draw: &mut Draw) -> Soft {
    draw.among([Soft::None, Soft::Asymmetric, Soft::Symmetric, Soft::Symmetric])
}

fn remote(draw: &mut Draw) -> u32 {
    match draw.below(4) {
        0 => 0,
        1 => 1 + u32::from(draw.octet()),
        2 => draw.among(SPARSE_NUMBERS),
        _ => draw.word(),
    }
}

/// A record with key 0 and one other value that an empty record has not, or a whole call.
fn not_all_empty(draw: &mut Draw, call: Call) -> Call {
    match draw.below(6) {
        0 => Call { hard: true, ..Call::EMPTY },
        1 => Call { soft: draw.among([Soft::Asymmetric, Soft::Symmetric]), ..Call::EMPTY },
        2 => Call { state: State::HardWaiting, ..Call::EMPTY },
        3 => Call { last: draw.among([1, 256, 65_535]), ..Call::EMPTY },
        4 => Call { remote: draw.among(SPARSE_NUMBERS), ..Call::EMPTY },
        _ => Call { key: 0, ..call },
    }
}

/// In the one state but Null that holds nothing, so that no held number is above the last.
fn without_last_number(_: &mut Draw, call: Call) -> Call {
    Call { state: State::HardWaiting, last: 0, ..call }
}

fn holding_zero(draw: &mut Draw, call: Call) -> Call {
    Call { state: wrongly_held(draw, call.last, 0), ..call }
}

/// Above the last by 1, or by anything.
fn holding_above_last(draw: &mut Draw, call: Call) -> Call {
    let last = call.last.min(65_534);
    let above = if draw.one_in(2) { last + 1 } else { last + draw.number_to(65_535 - last) };
    Call { state: wrongly_held(draw, last, above), last, ..call }
}

/// A state that holds the wrong number; where it holds two, the other is right.
fn wrongly_held(draw: &mut Draw, last: u16, wrong: u16) -> State {
    let number = draw.among([1, 3, 4, 5, 6, 7]);
    let right = draw.number_to(last);
    let (incumbent, rerouting) = match number {
        1 | 3 | 4 => (wrong, wrong),
        _ => draw.among([(wrong, right), (right, wrong)]),
    };
    State::of_number(number, incumbent, rerouting).unwrap_or(State::Null)
}

fn holding_twice(draw: &mut Draw, call: Call) -> Call {
    let held = draw.number_to(call.last);
    let state = State::of_number(draw.among([5, 6, 7]), held, held).unwrap_or(State::Null);
    Call { state, ..call }
}

/// A connection that the state does not hold stands as 0 or as a number that an event may well
/// name.
fn record_octets(draw: &mut Draw, call: &Call, blank: bool) -> [u8; RECORD_OCTETS] {
    let small = draw.number_to(12);
    let unheld = if blank { 0 } else { draw.among([call.last, small]) };
    let unread = if blank { 0 } else { draw.octet() };
    let [k0, k1, k2, k3] = call.key.to_be_bytes();
    let (hard, soft, state) = (u8::from(call.hard), call.soft.number(), call.state.number());
    let [i0, i1] = call.state.incumbent().unwrap_or(unheld).to_be_bytes();
    let [r0, r1] = call.state.rerouting().unwrap_or(unheld).to_be_bytes();
    let [l0, l1] = call.last.to_be_bytes();
    let [n0, n1, n2, n3] = call.remote.to_be_bytes();
    [
        k0, k1, k2, k3, hard, soft, state, unread, i0, i1, r0, r1, l0, l1, n0, n1, n2, n3, unread,
        unread,
    ]
}
