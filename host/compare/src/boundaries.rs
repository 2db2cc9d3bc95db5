//! The boundaries that a run should meet: names, and how a call is seen to be on one.

use reading::{Agent, Request, Standing, Waits};
use records::{
    Address, Answer, Class, Head, Id, Record, BODY_LIMIT, FINGERPRINT, INTEGRITY, LAST_CLOCK, MARK, NO_MAXIMUM,
};

/// A call, its answer, and the second reading's agent before it.
pub struct Sight<'a> {
    agent: Option<&'a Agent>,
    record: &'a Record,
    answer: &'a Answer,
}

type Boundary = (&'static str, fn(&Sight) -> bool);

/// The names of the boundaries that a call is on.
pub fn met<'a>(
    agent: Option<&'a Agent>,
    record: &'a Record,
    answer: &'a Answer,
) -> impl Iterator<Item = &'static str> + 'a {
    let sight = Sight { agent, record, answer };
    MET.iter().filter(move |(_, on)| on(&sight)).map(|&(name, _)| name)
}

/// Every boundary of a record that can be read.
pub const MET: &[Boundary] = &[
    ("send due exactly now", |s| s.sends(|due, now| due == now)),
    ("send due one later", |s| s.sends(|due, now| due == now + 1)),
    ("send due one earlier", |s| s.sends(|due, now| due + 1 == now)),
    ("end exactly now", |s| s.ends(|end, now| end == now)),
    ("end one later", |s| s.ends(|end, now| end == now + 1)),
    ("end one earlier", |s| s.ends(|end, now| end + 1 == now)),
    ("poll_transmit at or past an end", |s| {
        s.at_transmit().is_some_and(|now| s.requests().iter().any(|r| r.end().is_some_and(|end| end <= now)))
    }),
    ("silent step", |s| s.silent_steps() > 0),
    ("two silent steps in one call", |s| s.silent_steps() > 1),
    ("silent step before a send", |s| s.silent_steps() > 0 && s.sent().is_some()),
    ("due request left behind the one that goes out", |s| s.left_behind(|_| true)),
    ("silent request left behind the one that goes out", |s| s.left_behind(|request| request.silent)),
    ("silenced, cancelled at once", |s| s.reported().is_some_and(|r| r.silent && !r.cancelled && s.is_cancelled())),
    ("silenced, timed out", |s| s.reported().is_some_and(|r| r.silent && !s.is_cancelled())),
    ("silenced with steps left at a poll", |s| {
        s.at_poll().is_some() && s.requests().iter().any(|r| r.silent && !r.cancelled && r.due().is_some())
    }),
    ("cancelled past its end", |s| s.cancelled_where(|r, now| r.end().is_some_and(|end| end <= now))),
    ("cancelled with steps left", |s| s.cancelled_where(|r, _| r.due().is_some())),
    ("cancelled request passed by when due", |s| {
        s.at_transmit()
            .is_some_and(|now| s.requests().iter().any(|r| r.cancelled && r.due().is_some_and(|due| due <= now)))
    }),
    ("overdue: wait until now", |s| s.waits_until(|wait, now, empty| wait == now && !empty)),
    ("wait cut at an hour", |s| s.waits_until(|wait, now, empty| wait == now + 3_600_000_000_000 && !empty)),
    ("poll of an empty table", |s| s.waits_until(|_, _, empty| empty)),
    ("two ready at one poll", |s| s.ready() > 1),
    ("timed out behind one that waits", |s| {
        s.reported().is_some_and(|r| s.requests().iter().any(|other| other.id < r.id))
    }),
    ("answer past the end", |s| s.answers(|r, now| r.end().zip(now).is_some_and(|(end, now)| end <= now))),
    ("answer before the first retransmission", |s| s.answers(|r, _| r.steps == 0)),
    ("answer after a step", |s| s.answers(|r, now| r.steps > 0 && now.is_some())),
    ("answer at the clock of the send", |s| s.answers(|r, now| now == Some(r.last_send.into()))),
    ("answer without a clock", |s| s.answers(|_, now| now.is_none())),
    ("answer to a cancelled request", |s| s.answers(|r, _| r.cancelled)),
    ("answer to a silenced request", |s| s.answers(|r, _| r.silent && !r.cancelled)),
    ("answer from another address", |s| s.answers(|r, _| s.sender() != Some(r.to))),
    ("answer by an error", |s| s.answers(|_, _| s.class() == Some(Class::Error))),
    ("answer that nobody asked for", |s| *s.answer == Answer::No && s.class().is_some()),
    ("request heard with an outstanding identifier", |s| {
        s.received() && s.class() == Some(Class::Request) && s.named().is_some()
    }),
    ("configured to fewer waits than steps passed", |s| s.configured(|r, waits| r.steps > waits.between.len())),
    ("configured to more waits after the last step", |s| {
        s.configured(|r, waits| r.steps > 0 && r.due().is_none() && r.steps < waits.between.len())
    }),
    ("configured after a cancel", |s| s.configured(|r, _| r.silent)),
    ("configured by TCP", |s| s.configured(|_, _| s.agent.is_some_and(|agent| agent.tcp))),
    ("query of a cancelled request", |s| {
        matches!(s.record, Record::Query(_)) && s.named().is_some_and(|r| r.cancelled)
    }),
    ("R 0", |s| s.settings_have(|rto| rto.transmissions == 0)),
    ("R 1", |s| s.settings_have(|rto| rto.transmissions == 1)),
    ("R 33", |s| s.settings_have(|rto| rto.transmissions == 33)),
    ("R 2 to 32", |s| s.settings_have(|rto| (2..33).contains(&rto.transmissions))),
    ("R 34", |s| s.settings_have(|rto| rto.transmissions == 34)),
    ("zero initial", |s| s.settings_have(|rto| rto.initial == 0 && rto.transmissions > 1)),
    ("zero maximum", |s| s.settings_have(|rto| rto.max == 0 && rto.transmissions > 1)),
    ("zero final wait", |s| s.settings_have(|rto| rto.final_wait == 0)),
    ("maximum below a doubled wait", |s| {
        s.settings_have(|rto| rto.transmissions > 2 && rto.initial < rto.max && rto.max < rto.initial.saturating_mul(2))
    }),
    ("duration of 2^61", |s| s.settings_have(|rto| rto.final_wait == NO_MAXIMUM)),
    ("duration of 2^61 + 1", |s| {
        s.settings_have(|rto| [rto.initial, rto.max, rto.final_wait].contains(&(NO_MAXIMUM + 1)))
    }),
    ("settings in the middle", |s| s.resettled() && *s.answer == Answer::Ok),
    ("settings refused in the middle", |s| s.resettled() && *s.answer == Answer::Refused(2)),
    ("first settings refused", |s| s.agent.is_none() && *s.answer == Answer::Refused(2)),
    ("first record of another kind", |s| *s.answer == Answer::Bad),
    ("32 outstanding", |s| s.requests().len() == 32),
    ("7 with a full table", |s| *s.answer == Answer::Refused(7) && s.requests().len() == 32),
    ("64 peers", |s| s.peers() == 64),
    ("known sender with a full list", |s| s.peers() == 64 && *s.answer == Answer::Yes && s.received()),
    ("unasked answer with a full list", |s| s.peers() == 64 && *s.answer == Answer::No && s.received()),
    ("answer refused by a full list", |s| *s.answer == Answer::Refused(10) && s.named().is_some()),
    ("clock 2^60", |s| s.record.clock() == Some(LAST_CLOCK)),
    ("clock 2^60 + 1", |s| s.record.clock() == Some(LAST_CLOCK + 1)),
    ("clock one below the mark", |s| {
        s.agent.zip(s.record.clock()).is_some_and(|(agent, clock)| clock.checked_add(1) == Some(agent.mark))
    }),
    ("clock moved by an unaccepted answer", |s| {
        *s.answer == Answer::No && s.agent.zip(s.record.clock()).is_some_and(|(agent, clock)| clock > agent.mark)
    }),
    ("empty message", |s| s.record.message().is_some_and(<[u8]>::is_empty)),
    ("body of 4,096 bytes", |s| s.record.message().is_some() && s.record.body().len() == BODY_LIMIT),
    ("request of 20 bytes", |s| s.request_of(20)),
    ("request of 1,024 bytes", |s| s.request_of(1024)),
    ("request of 1,028 bytes", |s| s.request_of(1028)),
    ("SHA-1 integrity with FINGERPRINT behind it", |s| {
        s.head().is_some_and(|head| {
        matches!(head.attributes.as_slice(), [.., last, end] if last.kind == INTEGRITY && end.kind == FINGERPRINT)
    })
    }),
    ("padding that isn't zero", |s| {
        s.record.message().is_some_and(|bytes| {
            s.head().is_some_and(|head| {
                head.attributes.iter().any(|a| {
                    let end = a.at + 4 + a.value.len();
                    bytes[end..end.next_multiple_of(4)].iter().any(|&filler| filler != 0)
                })
            })
        })
    }),
];

/// Every way for bytes to be no record.
pub const BROKEN: [&str; 7] = [
    "broken: head cut short",
    "broken: another mark",
    "broken: body above 4,096 bytes",
    "broken: body cut short",
    "broken: unknown kind",
    "broken: body empty",
    "broken: body of another length, code or filler",
];

/// The way in which these bytes are no record.
pub fn broken(bytes: &[u8]) -> &'static str {
    let length = bytes.get(3..5).map_or(0, |two| usize::from(two[0]) << 8 | usize::from(two[1]));
    match bytes {
        [first, second, ..] if [*first, *second] != MARK => BROKEN[1],
        _ if bytes.len() < 5 => BROKEN[0],
        _ if length > BODY_LIMIT => BROKEN[2],
        _ if bytes.len() < 5 + length => BROKEN[3],
        [_, _, 0 | 16.., ..] => BROKEN[4],
        _ if length == 0 => BROKEN[5],
        _ => BROKEN[6],
    }
}

impl Sight<'_> {
    fn requests(&self) -> &[Request] {
        self.agent.map_or(&[], |agent| &agent.requests)
    }

    fn peers(&self) -> usize {
        self.agent.map_or(0, |agent| agent.peers.len())
    }

    fn at_transmit(&self) -> Option<u128> {
        match self.record {
            Record::PollTransmit(clock) if !self.refused() => Some((*clock).into()),
            _ => None,
        }
    }

    fn at_poll(&self) -> Option<u128> {
        match self.record {
            Record::Poll(clock) if !self.refused() => Some((*clock).into()),
            _ => None,
        }
    }

    fn refused(&self) -> bool {
        matches!(self.answer, Answer::Refused(_) | Answer::Bad)
    }

    fn received(&self) -> bool {
        matches!(self.record, Record::Received { .. })
    }

    fn head(&self) -> Option<Head<'_>> {
        self.record.message().and_then(Head::read)
    }

    fn class(&self) -> Option<Class> {
        self.head().map(|head| head.class)
    }

    fn sender(&self) -> Option<Address> {
        match self.record {
            Record::Received { from, .. } => Some(*from),
            _ => None,
        }
    }

    /// The outstanding request that the record names.
    fn named(&self) -> Option<&Request> {
        let id: Id = match self.record {
            Record::CancelRetransmissions(id) | Record::Cancel(id) | Record::Query(id) => *id,
            Record::Configure { id, .. } => *id,
            _ => self.head()?.id,
        };
        self.requests().iter().find(|request| request.id == id)
    }

    fn sends(&self, on: fn(u128, u128) -> bool) -> bool {
        self.at_transmit()
            .is_some_and(|now| self.requests().iter().any(|r| !r.cancelled && r.due().is_some_and(|due| on(due, now))))
    }

    fn ends(&self, on: fn(u128, u128) -> bool) -> bool {
        self.at_poll().is_some_and(|now| self.requests().iter().any(|r| r.end().is_some_and(|end| on(end, now))))
    }

    /// The identifier that went out by poll_transmit.
    fn sent(&self) -> Option<Id> {
        match (self.at_transmit(), self.answer) {
            (Some(_), Answer::Send { id, .. }) => Some(*id),
            _ => None,
        }
    }

    fn due_now(&self, request: &Request) -> bool {
        !request.cancelled && self.at_transmit().is_some_and(|now| request.due().is_some_and(|due| due <= now))
    }

    fn silent_steps(&self) -> usize {
        let reached = |r: &Request| self.sent().is_none_or(|sent| r.id < sent);
        self.requests().iter().filter(|r| r.silent && self.due_now(r) && reached(r)).count()
    }

    fn left_behind(&self, which: fn(&Request) -> bool) -> bool {
        self.sent().is_some_and(|sent| self.requests().iter().any(|r| r.id > sent && self.due_now(r) && which(r)))
    }

    /// The request that a poll reports.
    fn reported(&self) -> Option<&Request> {
        match self.answer {
            Answer::TimedOut(id) | Answer::Cancelled(id) => self.requests().iter().find(|request| request.id == *id),
            _ => None,
        }
    }

    fn is_cancelled(&self) -> bool {
        matches!(self.answer, Answer::Cancelled(_))
    }

    fn cancelled_where(&self, on: fn(&Request, u128) -> bool) -> bool {
        self.reported().zip(self.at_poll()).is_some_and(|(r, now)| r.cancelled && on(r, now))
    }

    fn waits_until(&self, on: fn(u128, u128, bool) -> bool) -> bool {
        match (self.at_poll(), self.answer) {
            (Some(now), Answer::Wait(moment)) => on((*moment).into(), now, self.requests().is_empty()),
            _ => false,
        }
    }

    fn ready(&self) -> usize {
        let Record::Poll(now) = self.record else { return 0 };
        self.requests().iter().filter(|r| !matches!(r.standing(*now), Standing::Until(_))).count()
    }

    fn answers(&self, on: impl Fn(&Request, Option<u128>) -> bool) -> bool {
        let response = matches!(self.class(), Some(Class::Success | Class::Error));
        let accepted = self.received() && response && *self.answer == Answer::Yes;
        accepted && self.named().is_some_and(|request| on(request, self.record.clock().map(u128::from)))
    }

    fn configured(&self, on: impl Fn(&Request, &Waits) -> bool) -> bool {
        match (self.record, self.agent) {
            (Record::Configure { rto, .. }, Some(agent)) if !self.refused() => {
                self.named().is_some_and(|request| on(request, &Waits::new(agent.tcp, rto)))
            }
            _ => false,
        }
    }

    fn settings_have(&self, on: fn(&records::Rto) -> bool) -> bool {
        matches!(self.record, Record::Settings { rto, .. } | Record::Configure { rto, .. } if on(rto))
    }

    fn resettled(&self) -> bool {
        matches!(self.record, Record::Settings { .. }) && self.agent.is_some()
    }

    fn request_of(&self, length: usize) -> bool {
        matches!(self.record, Record::Request { message, .. } if message.len() == length)
    }
}
