//! Traces inside the domain: no refusal but 7, 9 and 11, so that the Rust decides every line.

use crate::material::{inside_message, settings};
use crate::script::Script;
use records::{Answer, Class, Id, Record, LAST_CLOCK, NO_MAXIMUM};

/// The longest message that a record of each kind has room for: 4,096 bytes less clock and address.
const MESSAGE_ROOM: usize = 4060;

/// The longest request.
const REQUEST_ROOM: usize = 1024;

/// What a step does.
#[derive(Clone, Copy)]
enum Act {
    Request,
    Send,
    Answer,
    Unasked,
    Hear,
    PollTransmit,
    Poll,
    Silence,
    Cancel,
    Configure,
    IsPeer,
    Validate,
    Statistics,
    Reset,
    Query,
    Fresh,
}

const ACTS: [Act; 16] = [
    Act::Request,
    Act::Send,
    Act::Answer,
    Act::Unasked,
    Act::Hear,
    Act::PollTransmit,
    Act::Poll,
    Act::Silence,
    Act::Cancel,
    Act::Configure,
    Act::IsPeer,
    Act::Validate,
    Act::Statistics,
    Act::Reset,
    Act::Query,
    Act::Fresh,
];

/// How often each act comes, in the order of ACTS, by theme; the last theme follows the waits it is told.
const THEMES: [(&str, [u64; 16]); 7] = [
    ("mixed", [10, 3, 6, 3, 3, 14, 14, 4, 3, 5, 2, 2, 4, 1, 3, 1]),
    ("crowd", [40, 0, 6, 1, 0, 25, 20, 6, 4, 4, 0, 0, 2, 0, 2, 0]),
    ("silence", [10, 0, 4, 1, 0, 25, 25, 15, 8, 6, 0, 0, 4, 0, 1, 0]),
    ("waits", [8, 0, 3, 0, 0, 25, 20, 4, 2, 20, 0, 0, 3, 0, 1, 2]),
    ("answers", [15, 5, 20, 8, 8, 8, 8, 4, 4, 1, 6, 2, 8, 2, 2, 1]),
    ("peers", [6, 4, 8, 4, 12, 3, 3, 1, 1, 1, 30, 20, 2, 0, 2, 1]),
    ("rounds", [6, 1, 1, 0, 0, 45, 45, 1, 1, 1, 0, 0, 3, 0, 0, 0]),
];

/// The trace of this seed.
pub fn trace(seed: u64) -> Vec<u8> {
    script(seed).finish()
}

/// The same, still open for more records.
pub fn script(seed: u64) -> Script {
    let (name, weights) = THEMES[(seed % THEMES.len() as u64) as usize];
    let (ids, steps) = if name == "crowd" { (40, 120) } else { (2 + seed as usize % 7, 40) };
    let mut script = Script::new(seed, ids, 12);
    fresh(&mut script);
    for _ in 0..4 + script.random.below(steps) {
        let act = ACTS[script.random.weighted(&weights)];
        step(&mut script, act);
    }
    if script.agent().statistics.is_some() {
        script.play(Record::Statistics);
    }
    script
}

/// Settings inside the domain.
pub fn fresh(script: &mut Script) {
    let tcp = script.random.chance(20);
    let statistics = script.random.chance(80);
    let rto = settings(&mut script.random, tcp);
    script.play(Record::Settings { tcp, statistics, rto });
}

fn step(script: &mut Script, act: Act) {
    match act {
        Act::Request => request(script),
        Act::Send => send(script),
        Act::Answer => {
            let id = script.outstanding(100);
            answer(script, id);
        }
        Act::Unasked => {
            let id = script.id();
            answer(script, id);
        }
        Act::Hear => hear(script),
        Act::PollTransmit => {
            let clock = script.clock();
            transmit_round(script, clock);
        }
        Act::Poll => {
            let clock = script.clock();
            script.play(Record::Poll(clock));
        }
        Act::Silence => {
            let id = script.outstanding(90);
            script.play(Record::CancelRetransmissions(id));
        }
        Act::Cancel => {
            let id = script.outstanding(90);
            script.play(Record::Cancel(id));
        }
        Act::Configure => {
            let id = script.outstanding(90);
            let tcp = script.agent().tcp;
            let rto = settings(&mut script.random, tcp);
            script.play(Record::Configure { id, rto });
        }
        Act::IsPeer => {
            let address = script.address();
            script.play(Record::IsPeerValid(address));
        }
        Act::Validate => {
            let address = script.address();
            script.play(Record::ValidatePeer(address));
        }
        Act::Statistics => drop(script.play(Record::Statistics)),
        Act::Reset => drop(script.play(Record::Reset)),
        Act::Query => {
            let id = script.outstanding(80);
            script.play(Record::Query(id));
        }
        Act::Fresh => fresh(script),
    }
}

/// One poll_transmit, or as many as go out at this clock (some, where zero waits would never stop).
fn transmit_round(script: &mut Script, clock: u64) {
    let most = if script.random.chance(30) { 40 } else { 1 };
    for _ in 0..most {
        if script.play(Record::PollTransmit(clock)) == Answer::Nothing {
            break;
        }
    }
}

/// A request, unless the table is full and the Rust, which has no limit, couldn't say so.
fn request(script: &mut Script) {
    let id = if script.random.chance(8) { script.outstanding(100) } else { script.id() };
    if script.agent().requests.len() >= reading::ROWS && script.agent().find(&id).is_none() {
        return;
    }
    let clock = if script.random.chance(60) { script.agent().mark } else { script.clock() };
    let to = script.address();
    let message = inside_message(&mut script.random, Class::Request, &id, REQUEST_ROOM);
    script.play(Record::Request { clock, to, message });
}

fn send(script: &mut Script) {
    let class = script.random.pick(&[Class::Indication, Class::Success, Class::Error]);
    let (to, id) = (script.address(), script.id());
    let message = inside_message(&mut script.random, class, &id, MESSAGE_ROOM);
    script.play(Record::Send { to, message });
}

/// A response to this identifier, mostly from the address asked.
fn answer(script: &mut Script, id: Id) {
    let asked = script.agent().find(&id).map(|at| script.agent().requests[at].clone());
    let from = match &asked {
        Some(request) if script.random.chance(70) => request.to,
        _ => script.address(),
    };
    let class = script.random.pick(&[Class::Success, Class::Success, Class::Error]);
    let clock = (!script.random.chance(25)).then(|| script.clock());
    let sent = asked.map_or(LAST_CLOCK, |request| request.last_send);
    let message = inside_message(&mut script.random, class, &id, MESSAGE_ROOM);
    let clock = clock.filter(|&clock| sum_stays_low(script, clock.saturating_sub(sent)));
    script.play(Record::Received { clock, from, message });
}

/// Whether the sum of round trips stays at or below 2^61 with this one.
fn sum_stays_low(script: &Script, rtt: u64) -> bool {
    script.agent().statistics.as_ref().is_none_or(|statistics| statistics.rtt_sum + rtt <= NO_MAXIMUM)
}

/// A request or an indication from somebody.
fn hear(script: &mut Script) {
    let class = script.random.pick(&[Class::Request, Class::Indication]);
    let id = script.outstanding(30);
    let from = script.address();
    let clock = script.random.chance(50).then(|| script.clock());
    let message = inside_message(&mut script.random, class, &id, MESSAGE_ROOM);
    script.play(Record::Received { clock, from, message });
}
