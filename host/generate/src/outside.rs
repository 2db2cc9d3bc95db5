//! Traces outside the domain: refusals alone and together, full table and list, broken records, limits passed by one.

use crate::inside;
use crate::material::{bad_message, crowded_message, extend_within, inside_message};
use crate::random::Random;
use crate::script::Script;
use records::{message, Address, Answer, Class, Id, Record, Rto, BODY_LIMIT, LAST_CLOCK, MARK, NO_MAXIMUM};

/// The trace of this seed.
pub fn trace(seed: u64) -> Vec<u8> {
    let recipes: [fn(u64) -> Vec<u8>; 10] =
        [refusals, refusals, full_table, full_peers, damaged, framing, noise, long_durations, crowded, first_records];
    recipes[(seed % recipes.len() as u64) as usize](seed)
}

/// Good calls among calls with one or several faults.
fn refusals(seed: u64) -> Vec<u8> {
    let mut script = inside::script(seed);
    for _ in 0..6 + script.random.below(20) {
        faulty_call(&mut script);
        if script.random.chance(30) {
            let clock = script.clock();
            script.play(Record::Poll(clock));
        }
    }
    script.finish()
}

/// A call that some number, or several, may refuse.
fn faulty_call(script: &mut Script) {
    let clock = any_clock(script);
    let (id, address) = (script.outstanding(40), script.address());
    let record = match script.random.below(12) {
        0..=2 => Record::Request { clock, to: address, message: faulty_message(script, &id) },
        3 => Record::Send { to: address, message: faulty_message(script, &id) },
        4..=5 => Record::Received { clock: Some(clock), from: address, message: faulty_message(script, &id) },
        6 => Record::Received { clock: None, from: address, message: faulty_message(script, &id) },
        7 => Record::PollTransmit(clock),
        8 => Record::Poll(clock),
        9..=10 => Record::Configure { id, rto: any_settings(&mut script.random) },
        _ => Record::Settings {
            tcp: script.random.chance(30),
            statistics: script.random.chance(50),
            rto: any_settings(&mut script.random),
        },
    };
    script.play(record);
}

/// A clock on either side of the mark and of the limit.
fn any_clock(script: &mut Script) -> u64 {
    let mark = script.agent().mark;
    let far = LAST_CLOCK + script.random.below(3) - 1;
    let most = script.random.pick(&[far, 1 << 61, u64::MAX]);
    let choices = [mark, mark, mark, mark + 1, mark.saturating_sub(1), 0];
    if script.random.chance(10) {
        most
    } else {
        script.random.pick(&choices)
    }
}

/// Settings on either side of each limit.
fn any_settings(random: &mut Random) -> Rto {
    let mut duration =
        || random.pick(&[0, 1, 500, 500, 1_000_000, NO_MAXIMUM - 1, NO_MAXIMUM, NO_MAXIMUM + 1, u64::MAX]);
    let (initial, max, final_wait) = (duration(), duration(), duration());
    Rto { initial, max, transmissions: random.pick(&[0, 1, 2, 7, 32, 33, 34, u32::MAX]), final_wait }
}

/// A message of any class and often with a fault: bad, too long, or both.
fn faulty_message(script: &mut Script, id: &Id) -> Vec<u8> {
    let random = &mut script.random;
    let class = random.pick(&[Class::Request, Class::Request, Class::Indication, Class::Success, Class::Error]);
    let mut message = inside_message(random, class, id, 1024);
    if random.chance(30) {
        let length = random.pick(&[1024, 1028, 2000]);
        fill(&mut message, length);
    }
    if random.chance(30) {
        message = bad_message(random, &message);
    }
    message
}

/// Lengthens a message to this length, with one attribute, if it is shorter.
fn fill(message: &mut Vec<u8>, length: usize) {
    if message.len() + 4 <= length {
        let value = length - message.len() - 4;
        let head = [0x80, 0x22, (value / 256) as u8, (value % 256) as u8];
        extend_within(message, &[&head, vec![0x5A; value].as_slice()].concat());
    }
}

/// 32 requests outstanding and more asked for, then places that come free and are taken again.
fn full_table(seed: u64) -> Vec<u8> {
    let mut script = Script::new(seed, 40, 4);
    inside::fresh(&mut script);
    let ids = script.ids.clone();
    for id in &ids {
        ask(&mut script, id);
    }
    for _ in 0..30 {
        let id = script.outstanding(60);
        let clock = script.clock();
        match script.random.below(6) {
            0 => drop(script.play(Record::Poll(clock))),
            1 => drop(script.play(Record::PollTransmit(clock))),
            2 => drop(script.play(Record::Cancel(id))),
            3 => drop(script.play(response(clock, script.addresses[0], &id))),
            _ => ask(&mut script, &id),
        }
    }
    script.finish()
}

/// A bare request at the mark.
fn ask(script: &mut Script, id: &Id) {
    let record = Record::Request {
        clock: script.agent().mark,
        to: script.address(),
        message: message(Class::Request, 1, id, &[]),
    };
    script.play(record);
}

/// A bare success response.
fn response(clock: u64, from: Address, id: &Id) -> Record {
    Record::Received { clock: Some(clock), from, message: message(Class::Success, 1, id, &[]) }
}

/// 64 peers and more, heard, answered and validated while the list fills and after.
fn full_peers(seed: u64) -> Vec<u8> {
    let mut script = Script::new(seed, 4, 70);
    inside::fresh(&mut script);
    let all = script.addresses.clone();
    let last_free = all.len() - 8;
    for (place, address) in all.into_iter().enumerate() {
        if place < last_free || script.random.chance(50) {
            script.play(Record::ValidatePeer(address));
        }
    }
    for _ in 0..24 {
        let id = script.id();
        let (clock, from) = (script.clock(), script.address());
        let class = script.random.pick(&[Class::Request, Class::Indication, Class::Success, Class::Error]);
        let message = message(class, 1, &id, &[]);
        match script.random.below(6) {
            0 => ask(&mut script, &id),
            1 => drop(script.play(Record::IsPeerValid(from))),
            2 => drop(script.play(Record::ValidatePeer(from))),
            3 => drop(script.play(Record::Received { clock: None, from, message })),
            _ => drop(script.play(Record::Received { clock: Some(clock), from, message })),
        }
    }
    script.finish()
}

/// A good trace with a few bytes changed, lost or added.
fn damaged(seed: u64) -> Vec<u8> {
    let mut bytes = inside::trace(seed);
    let mut random = Random::new(!seed);
    for _ in 0..1 + random.below(3) {
        let at = random.index(bytes.len().max(1));
        match random.below(5) {
            _ if bytes.is_empty() => {}
            0 => bytes[at] ^= 1 << random.below(8),
            1 => bytes[at] = random.byte(),
            2 => drop(bytes.remove(at)),
            3 => bytes.insert(at, random.byte()),
            _ => bytes.truncate(at.max(1)),
        }
    }
    bytes
}

/// A good beginning and one frame that may be wrong: mark, kind, length, code or filler.
fn framing(seed: u64) -> Vec<u8> {
    let mut script = Script::new(seed, 3, 4);
    inside::fresh(&mut script);
    let id = script.ids[0];
    ask(&mut script, &id);
    let good = sample(&mut script);
    let mut body = good.body();
    let mut kind = good.kind();
    match script.random.below(6) {
        0 => kind = script.random.pick(&[0, 16, 255]),
        1 => body.resize(script.random.pick(&[0, 4095, BODY_LIMIT, BODY_LIMIT + 1, 65_535]), 0),
        2 => body.truncate(body.len().saturating_sub(1)),
        3 => body.push(0),
        4 if !body.is_empty() => {
            let codes = script.random.pick(&[2, 40]);
            let at = script.random.index(body.len().min(codes));
            body[at] = script.random.pick(&[0, 1, 2, 4, 5, 6, 255]);
        }
        _ => {}
    }
    let mut frame = Record::frame(kind, &body);
    if script.random.chance(10) {
        frame[script.random.index(5)] ^= 1 << script.random.below(8);
    }
    script.write(&frame);
    script.write(&Record::Poll(0).encode());
    script.finish()
}

/// A record of any kind.
fn sample(script: &mut Script) -> Record {
    let (id, address, clock) = (script.id(), script.address(), script.agent().mark);
    let message = message(Class::Indication, 1, &id, &[]);
    let rto = any_settings(&mut script.random);
    match script.random.below(14) {
        0..=2 => Record::Settings { tcp: script.random.chance(50), statistics: script.random.chance(50), rto },
        3 => Record::Request { clock, to: address, message },
        4 => Record::Send { to: address, message },
        5 => Record::Received { clock: Some(clock), from: address, message },
        6 => Record::Received { clock: None, from: address, message },
        7 => Record::Configure { id, rto },
        8 => Record::IsPeerValid(address),
        9 => Record::ValidatePeer(address),
        10 => script.random.pick(&[Record::Statistics, Record::Reset]),
        11 => script.random.pick(&[Record::Cancel(id), Record::CancelRetransmissions(id)]),
        12 => Record::Query(id),
        _ => script.random.pick(&[Record::Poll(clock), Record::PollTransmit(clock)]),
    }
}

/// Random bytes: bare, behind a mark, or behind good settings.
fn noise(seed: u64) -> Vec<u8> {
    let mut script = Script::new(seed, 1, 2);
    if script.random.chance(50) {
        inside::fresh(&mut script);
    }
    if script.random.chance(50) {
        script.write(&MARK);
    }
    let count = script.random.pick(&[0, 1, 4, 5, 6, 30, 60]);
    let bytes = script.random.bytes(count);
    script.write(&bytes);
    script.finish()
}

/// Products, sums and round trips above 2^61, where the Rust has no stop and document 01 has one.
fn long_durations(seed: u64) -> Vec<u8> {
    let mut script = Script::new(seed, 34, 4);
    let rto = Rto {
        initial: script.random.pick(&[1 << 40, 1 << 58, NO_MAXIMUM]),
        max: script.random.pick(&[1 << 50, NO_MAXIMUM]),
        transmissions: script.random.pick(&[2, 4, 33]),
        final_wait: script.random.pick(&[1 << 50, NO_MAXIMUM]),
    };
    let tcp = script.random.chance(50);
    script.play(Record::Settings { tcp, statistics: true, rto });
    let ids = script.ids.clone();
    for id in &ids {
        ask(&mut script, id);
    }
    for id in &ids {
        if script.random.chance(10) {
            let clock = script.clock();
            script.play(Record::PollTransmit(clock));
        }
        script.play(response(LAST_CLOCK, script.addresses[0], id));
        if script.random.chance(30) {
            script.play(Record::Statistics);
        }
    }
    script.play(Record::Statistics);
    script.play(Record::Poll(LAST_CLOCK));
    script.finish()
}

/// Requests with integrity attributes in any number and order, and queries.
fn crowded(seed: u64) -> Vec<u8> {
    let mut script = Script::new(seed, 12, 4);
    inside::fresh(&mut script);
    let ids = script.ids.clone();
    for id in &ids {
        let record = Record::Request {
            clock: 0,
            to: script.addresses[0],
            message: crowded_message(&mut script.random, Class::Request, id),
        };
        script.play(record);
        script.play(Record::Query(*id));
    }
    script.finish()
}

/// First records that are refused or of another kind, and settings refused later, which keep the old agent.
fn first_records(seed: u64) -> Vec<u8> {
    let mut script = Script::new(seed, 3, 4);
    let rto = any_settings(&mut script.random);
    let first =
        if script.random.chance(80) { Record::Settings { tcp: false, statistics: true, rto } } else { Record::Poll(0) };
    let id = script.ids[0];
    if script.play(first) == Answer::Ok {
        ask(&mut script, &id);
        let later = Record::Settings { tcp: true, statistics: false, rto: any_settings(&mut script.random) };
        script.play(later);
        script.play(Record::Query(id));
        script.play(Record::Statistics);
    }
    script.play(Record::Poll(0));
    script.finish()
}
