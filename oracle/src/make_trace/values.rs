//! The values of an event, from the call that it meets.

use crate::call::{Call, Services, Soft};
use crate::draw::Draw;
use crate::made_event::Values;
use crate::vocabulary::{Event, Node, SwitchoverCode};

/// Default services in one opening of eight; else mostly hard on and symmetric soft, with which
/// every event has a meaning somewhere. At the destination a setup has one with any service.
pub fn opening(node: Node, draw: &mut Draw) -> Option<Services> {
    let hard = draw.among([true, true, false]);
    let soft = match node {
        Node::Source => draw.among([
            Soft::None,
            Soft::Asymmetric,
            Soft::Symmetric,
            Soft::Symmetric,
            Soft::Symmetric,
            Soft::Symmetric,
        ]),
        Node::Destination => draw.among([
            Soft::None,
            Soft::Asymmetric,
            Soft::Symmetric,
            Soft::Symmetric,
            Soft::Symmetric,
        ]),
    };
    if draw.one_in(8) {
        None
    } else {
        Some(Services { hard, soft })
    }
}

/// A setup that is newer by one, with that switchover.
pub fn newer_setup(call: Call, switchover: SwitchoverCode) -> Event {
    let number = call.remote.saturating_add(1);
    Event::Setup { switchover, number }
}

pub struct OfRuns;

impl Values for OfRuns {
    fn opening(node: Node, draw: &mut Draw, unread: u8) -> [u8; 3] {
        match opening(node, draw) {
            None => [0, unread, unread],
            Some(Services { hard, soft }) => [1, u8::from(hard), soft.number()],
        }
    }

    /// Mostly such as the end takes.
    fn switchover_code(node: Node, draw: &mut Draw) -> u8 {
        let any = draw.octet();
        match (node, draw.one_in(8)) {
            (Node::Source, true) => draw.among([0, 0, 2, 255, any]),
            (Node::Source, false) => 1,
            (Node::Destination, true) => draw.among([2, 255, any]),
            (Node::Destination, false) => draw.among([0, 1]),
        }
    }

    /// Mostly newer by one; sometimes late, and seldom far ahead, since every later one is late
    /// then.
    fn incarnation_number(draw: &mut Draw, call: Call) -> u32 {
        let above = call.remote.saturating_add(1);
        let far = draw.word();
        match draw.below(16) {
            0..=11 => above,
            12..=13 => call.remote,
            14 => call.remote.saturating_sub(1),
            _ => draw.among([above.saturating_add(1), 0, far, u32::MAX]),
        }
    }

    /// Mostly one that the call holds; else the last given, the next, a small one, 0 or the
    /// greatest.
    fn connection(draw: &mut Draw, call: Call) -> u32 {
        let incumbent = call.state.incumbent().unwrap_or(0);
        let rerouting = call.state.rerouting().unwrap_or(incumbent);
        let small = draw.number_to(12);
        let next = call.last.saturating_add(1);
        let other = draw.among([call.last, next, small, 0, u16::MAX]);
        let held = draw.among([incumbent, rerouting, rerouting]);
        u32::from(if draw.one_in(10) { other } else { held })
    }

    fn cause_and_crankback(draw: &mut Draw, unread: u8) -> [u8; 3] {
        let any = draw.octet();
        let crankback = draw.among([0, 1, 2]);
        let [present, cause] = draw.among([
            [0, unread],
            [0, unread],
            [0, unread],
            [1, 0],
            [1, 1],
            [1, 2],
            [1, 4],
            [1, 255],
            [1, any],
        ]);
        [present, cause, crankback]
    }
}
