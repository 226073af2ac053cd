// The engine as ordinary Rust, with nothing proved: the algorithm, the command lines and the printed lines of the proved one.

use std::cmp::Reverse;
use std::collections::BinaryHeap;
use std::fmt;
use std::io::Write;

const RECORD_BYTES: usize = 16;
const MOST_EVENTS: usize = 1_024;
const LAST_MINUTE: u32 = 999_999;
const LONGEST_RIDE: u16 = 1_440;
const STOPS: usize = 256;

// Why there is no answer. A case with a place tells where.
#[derive(Clone, Copy, Debug)]
enum Fault {
    PartialRecord(usize),
    TooManyRecords(usize),
    WrongKind(usize),
    SpareByteSet(usize),
    EqualStops(usize),
    DurationOutOfRange(usize),
    TimeOutOfRange(usize),
    OutOfOrder(usize),
    NotACommand(usize),
    UnknownEvent(usize),
    NoticeWithoutEffect(usize),
    EqualQueryStops,
    BadWindow,
    NoJourney,
}

impl fmt::Display for Fault {
    fn fmt(&self, f: &mut fmt::Formatter<'_>) -> fmt::Result {
        let (number, layer, place) = match *self {
            Fault::PartialRecord(place) => (1, 1, place),
            Fault::TooManyRecords(place) => (2, 1, place),
            Fault::WrongKind(place) => (3, 2, place),
            Fault::SpareByteSet(place) => (4, 2, place),
            Fault::EqualStops(place) => (5, 2, place),
            Fault::DurationOutOfRange(place) => (6, 2, place),
            Fault::TimeOutOfRange(place) => (8, 2, place),
            Fault::OutOfOrder(place) => (9, 3, place),
            Fault::NotACommand(place) => (11, 4, place),
            Fault::UnknownEvent(place) => (12, 5, place),
            Fault::NoticeWithoutEffect(place) => (13, 5, place),
            Fault::EqualQueryStops => (14, 6, 0),
            Fault::BadWindow => (15, 6, 0),
            Fault::NoJourney => (18, 6, 0),
        };
        write!(f, "no {number} {layer} {place}")
    }
}

// A minute in which a place at a stop can be used, or a ride from stop to stop.
#[derive(Clone, Copy, Debug)]
enum Event {
    Opening {
        stop: u8,
        minute: u32,
    },
    Ride {
        from: u8,
        to: u8,
        departure: u32,
        duration: u16,
    },
}

impl Event {
    fn is_opening(self) -> bool {
        matches!(self, Event::Opening { .. })
    }

    fn time(self) -> u32 {
        match self {
            Event::Opening { minute, .. } => minute,
            Event::Ride { departure, .. } => departure,
        }
    }

    fn end(self) -> u32 {
        match self {
            Event::Opening { minute, .. } => minute,
            Event::Ride {
                departure,
                duration,
                ..
            } => departure + u32::from(duration),
        }
    }

    fn leaves(self) -> u8 {
        match self {
            Event::Opening { stop, .. } => stop,
            Event::Ride { from, .. } => from,
        }
    }

    fn reaches(self) -> u8 {
        match self {
            Event::Opening { stop, .. } => stop,
            Event::Ride { to, .. } => to,
        }
    }

    // Reads a record, which is the one at `place`.
    fn read(record: &[u8; RECORD_BYTES], place: usize) -> Result<Event, Fault> {
        let [
            kind,
            first,
            second,
            third,
            t0,
            t1,
            t2,
            t3,
            d0,
            d1,
            spare @ ..,
        ] = *record;
        let time = u32::from_be_bytes([t0, t1, t2, t3]);
        let duration = u16::from_be_bytes([d0, d1]);
        let spare_set = third != 0 || spare != [0; 6];
        match kind {
            1 if spare_set || second != 0 || duration != 0 => Err(Fault::SpareByteSet(place)),
            1 if time > LAST_MINUTE => Err(Fault::TimeOutOfRange(place)),
            1 => Ok(Event::Opening {
                stop: first,
                minute: time,
            }),
            2 if spare_set => Err(Fault::SpareByteSet(place)),
            2 if first == second => Err(Fault::EqualStops(place)),
            2 if duration == 0 || duration > LONGEST_RIDE => Err(Fault::DurationOutOfRange(place)),
            2 if time > LAST_MINUTE - u32::from(duration) => Err(Fault::TimeOutOfRange(place)),
            2 => Ok(Event::Ride {
                from: first,
                to: second,
                departure: time,
                duration,
            }),
            _ => Err(Fault::WrongKind(place)),
        }
    }
}

// Reads the records of a day.
fn read_day(day: &[u8]) -> Result<Vec<Event>, Fault> {
    let (records, rest) = day.as_chunks::<RECORD_BYTES>();
    if !rest.is_empty() {
        return Err(Fault::PartialRecord(records.len()));
    }
    if records.len() > MOST_EVENTS {
        return Err(Fault::TooManyRecords(MOST_EVENTS));
    }
    let mut events: Vec<Event> = Vec::with_capacity(records.len());
    for (place, record) in records.iter().enumerate() {
        let event = Event::read(record, place)?;
        // Within a minute openings stand before rides.
        let order = |event: Event| (event.time(), !event.is_opening());
        if events
            .last()
            .is_some_and(|last| order(*last) > order(event))
        {
            return Err(Fault::OutOfOrder(place));
        }
        events.push(event);
    }
    Ok(events)
}

// What is carried along of a journey that is under way; every measure compares and scores by these.
#[derive(Clone, Copy, Debug)]
struct Label {
    begin: u32,
    riding: u32,
    rides: u32,
}

trait Measure {
    // What labels at one stop are compared by; lower is better.
    type Key: Ord;

    fn key(label: Label) -> Self::Key;

    // What journeys are compared by; lower is better.
    fn score(label: Label, end: u32) -> (u32, u32);
}

struct EarliestArrival;
struct LatestDeparture;
struct Fastest;
struct LeastRiding;
struct FewestRides;
struct LeastWaiting;

impl Measure for EarliestArrival {
    type Key = Reverse<u32>;

    fn key(label: Label) -> Reverse<u32> {
        Reverse(label.begin)
    }

    fn score(label: Label, end: u32) -> (u32, u32) {
        (end, LAST_MINUTE - label.begin)
    }
}

impl Measure for LatestDeparture {
    type Key = Reverse<u32>;

    fn key(label: Label) -> Reverse<u32> {
        Reverse(label.begin)
    }

    fn score(label: Label, end: u32) -> (u32, u32) {
        (LAST_MINUTE - label.begin, end)
    }
}

impl Measure for Fastest {
    type Key = (Reverse<u32>, u32);

    fn key(label: Label) -> (Reverse<u32>, u32) {
        (Reverse(label.begin), label.riding)
    }

    fn score(label: Label, end: u32) -> (u32, u32) {
        (end - label.begin, label.riding)
    }
}

impl Measure for LeastRiding {
    type Key = u32;

    fn key(label: Label) -> u32 {
        label.riding
    }

    fn score(label: Label, end: u32) -> (u32, u32) {
        (label.riding, end)
    }
}

impl Measure for FewestRides {
    type Key = u32;

    fn key(label: Label) -> u32 {
        label.rides
    }

    fn score(label: Label, end: u32) -> (u32, u32) {
        (label.rides, end)
    }
}

impl Measure for LeastWaiting {
    type Key = Reverse<u32>;

    fn key(label: Label) -> Reverse<u32> {
        Reverse(label.begin + label.riding)
    }

    fn score(label: Label, end: u32) -> (u32, u32) {
        (end - label.begin - label.riding, end)
    }
}

#[derive(Clone, Copy, Debug)]
enum Criterion {
    EarliestArrival,
    LatestDeparture,
    Fastest,
    LeastRiding,
    FewestRides,
    LeastWaiting,
}

#[derive(Clone, Copy, Debug)]
struct Query {
    from: u8,
    to: u8,
    open: u32,
    close: u32,
    call: bool,
}

#[derive(Clone, Copy, Debug)]
enum Command {
    Withdraw(usize),
    Reinstate(usize),
    Tally,
    Find(Criterion, Query),
}

// A line and a place in it. Up to the place the line begins a command.
struct Reader<'a> {
    line: &'a [u8],
    at: usize,
}

impl Reader<'_> {
    fn parse(line: &[u8]) -> Result<Command, Fault> {
        let mut reader = Reader { line, at: 0 };
        let letter = *line.first().ok_or(Fault::NotACommand(0))?;
        reader.at = 1;
        let command = match letter {
            b'w' => Command::Withdraw(reader.number(LAST_MINUTE)? as usize),
            b'r' => Command::Reinstate(reader.number(LAST_MINUTE)? as usize),
            b't' => Command::Tally,
            b'e' => Command::Find(Criterion::EarliestArrival, reader.query()?),
            b'l' => Command::Find(Criterion::LatestDeparture, reader.query()?),
            b'f' => Command::Find(Criterion::Fastest, reader.query()?),
            b's' => Command::Find(Criterion::LeastRiding, reader.query()?),
            b'n' => Command::Find(Criterion::FewestRides, reader.query()?),
            b'c' => Command::Find(Criterion::LeastWaiting, reader.query()?),
            _ => return Err(Fault::NotACommand(0)),
        };
        if reader.at < line.len() {
            return Err(Fault::NotACommand(reader.at));
        }
        Ok(command)
    }

    fn query(&mut self) -> Result<Query, Fault> {
        let from = self.number(255)? as u8;
        let to = self.number(255)? as u8;
        let open = self.number(LAST_MINUTE)?;
        let close = self.number(LAST_MINUTE)?;
        let call = self.line.get(self.at) == Some(&b' ');
        if call {
            self.expect(b' ')?;
            self.expect(b'v')?;
        }
        Ok(Query {
            from,
            to,
            open,
            close,
            call,
        })
    }

    fn expect(&mut self, byte: u8) -> Result<(), Fault> {
        if self.line.get(self.at) != Some(&byte) {
            return Err(Fault::NotACommand(self.at));
        }
        self.at += 1;
        Ok(())
    }

    fn digit(&self) -> Option<u32> {
        let byte = self.line.get(self.at)?;
        byte.is_ascii_digit().then(|| u32::from(byte - b'0'))
    }

    // A number behind a space. Nothing follows a leading 0, nor a digit with which it would be above the most.
    fn number(&mut self, most: u32) -> Result<u32, Fault> {
        self.expect(b' ')?;
        let mut value = self.digit().ok_or(Fault::NotACommand(self.at))?;
        self.at += 1;
        while let Some(digit) = self.digit() {
            if value == 0 || value * 10 + digit > most {
                break;
            }
            value = value * 10 + digit;
            self.at += 1;
        }
        Ok(value)
    }
}

// An event, by its number, in a call state.
#[derive(Clone, Copy, PartialEq, Eq, PartialOrd, Ord, Debug)]
struct Stage {
    event: u16,
    called: bool,
}

// The best label of an event in a call state, its predecessor, and where and when it ends.
#[derive(Clone, Copy, Debug)]
struct Entry {
    label: Label,
    predecessor: Option<Stage>,
    stop: u8,
    end: u32,
}

// The best label that stands ready at a stop in a call state, and the event that brought it there.
#[derive(Clone, Copy, Debug)]
struct Incumbent {
    label: Label,
    event: u16,
}

// The best journey for a query.
struct Journey {
    label: Label,
    end: u32,
    steps: Vec<usize>,
}

impl fmt::Display for Journey {
    fn fmt(&self, f: &mut fmt::Formatter<'_>) -> fmt::Result {
        let Label {
            begin,
            riding,
            rides,
        } = self.label;
        write!(f, "go {begin} {} {riding} {rides} :", self.end)?;
        self.steps.iter().try_for_each(|step| write!(f, " {step}"))
    }
}

// The tables of a search, kept from one query to the next for their memory. Pairs are by call state, the one without a call first.
struct Search {
    log: Vec<[Option<Entry>; 2]>,
    board: [[Option<Incumbent>; 2]; STOPS],
    awaited: BinaryHeap<Reverse<(u32, Stage)>>,
}

impl Search {
    fn new() -> Search {
        Search {
            log: Vec::new(),
            board: [[None; 2]; STOPS],
            awaited: BinaryHeap::new(),
        }
    }

    fn run<M: Measure>(
        &mut self,
        events: &[Event],
        withdrawn: &[bool],
        query: Query,
    ) -> Option<Journey> {
        self.log.clear();
        self.board.fill([None; 2]);
        self.awaited.clear();
        for (number, (event, withdrawn)) in (0..).zip(events.iter().zip(withdrawn)) {
            if event.time() > query.close {
                break;
            }
            self.bring_due::<M>(event.time());
            let mut entries = [None; 2];
            for called in [false, true] {
                if !withdrawn && let Some(entry) = self.enter::<M>(query, *event, called) {
                    self.awaited.push(Reverse((
                        entry.end,
                        Stage {
                            event: number,
                            called,
                        },
                    )));
                    entries[usize::from(called)] = Some(entry);
                }
            }
            self.log.push(entries);
        }
        self.best::<M>(query)
    }

    // Brings the arrivals that are due by a minute to the board.
    fn bring_due<M: Measure>(&mut self, minute: u32) {
        while let Some(&Reverse((due, stage))) = self.awaited.peek() {
            if due > minute {
                break;
            }
            self.awaited.pop();
            let Some(entry) = self.entry(stage) else {
                continue;
            };
            let slot = &mut self.board[usize::from(entry.stop)][usize::from(stage.called)];
            if slot.is_none_or(|incumbent| M::key(entry.label) < M::key(incumbent.label)) {
                *slot = Some(Incumbent {
                    label: entry.label,
                    event: stage.event,
                });
            }
        }
    }

    fn entry(&self, stage: Stage) -> Option<Entry> {
        self.log[usize::from(stage.event)][usize::from(stage.called)]
    }

    // The entry of an event in a call state, from a fresh start or from who stands ready, the latter if they are as good.
    fn enter<M: Measure>(&self, query: Query, event: Event, called: bool) -> Option<Entry> {
        let opening = event.is_opening();
        if opening && !called {
            return None;
        }
        let called_before = called && !opening;
        let incumbent = self.board[usize::from(event.leaves())][usize::from(called_before)];
        let may_begin =
            called == opening && event.leaves() == query.from && query.open <= event.time();
        let fresh = may_begin.then(|| Label {
            begin: event.time(),
            riding: 0,
            rides: 0,
        });
        let (label, predecessor) = match (incumbent, fresh) {
            (Some(incumbent), Some(fresh)) if M::key(fresh) < M::key(incumbent.label) => {
                (fresh, None)
            }
            (Some(incumbent), _) => (
                incumbent.label,
                Some(Stage {
                    event: incumbent.event,
                    called: called_before,
                }),
            ),
            (None, Some(fresh)) => (fresh, None),
            (None, None) => return None,
        };
        let label = match event {
            Event::Opening { .. } => label,
            Event::Ride { duration, .. } => Label {
                riding: label.riding + u32::from(duration),
                rides: label.rides + 1,
                ..label
            },
        };
        Some(Entry {
            label,
            predecessor,
            stop: event.reaches(),
            end: event.end(),
        })
    }

    // The first of the best entries that end as the query asks, with the steps that led to it.
    fn best<M: Measure>(&self, query: Query) -> Option<Journey> {
        let (event, entry) = (0..)
            .zip(&self.log)
            .filter_map(|(event, entries)| Some((event, entries[usize::from(query.call)]?)))
            .filter(|(_, entry)| entry.stop == query.to && entry.end <= query.close)
            .min_by_key(|(_, entry)| M::score(entry.label, entry.end))?;
        let last = Stage {
            event,
            called: query.call,
        };
        let stages = std::iter::successors(Some(last), |stage| self.entry(*stage)?.predecessor);
        let mut steps: Vec<usize> = stages.map(|stage| usize::from(stage.event)).collect();
        steps.reverse();
        Some(Journey {
            label: entry.label,
            end: entry.end,
            steps,
        })
    }
}

enum Reply {
    Accepted,
    Count(usize),
    Journey(Journey),
}

impl fmt::Display for Reply {
    fn fmt(&self, f: &mut fmt::Formatter<'_>) -> fmt::Result {
        match self {
            Reply::Accepted => write!(f, "ok"),
            Reply::Count(count) => write!(f, "{count}"),
            Reply::Journey(journey) => write!(f, "{journey}"),
        }
    }
}

// A day's events, which of them are withdrawn, and the tables for its queries.
struct Post {
    events: Vec<Event>,
    withdrawn: Vec<bool>,
    search: Search,
}

impl Post {
    fn new(events: Vec<Event>) -> Post {
        Post {
            withdrawn: vec![false; events.len()],
            events,
            search: Search::new(),
        }
    }

    fn answer(&mut self, line: &[u8]) -> Result<Reply, Fault> {
        match Reader::parse(line)? {
            Command::Withdraw(event) => self.note(event, true),
            Command::Reinstate(event) => self.note(event, false),
            Command::Tally => Ok(Reply::Count(
                self.withdrawn
                    .iter()
                    .filter(|withdrawn| **withdrawn)
                    .count(),
            )),
            Command::Find(criterion, query) => self.find(criterion, query).map(Reply::Journey),
        }
    }

    fn note(&mut self, event: usize, out: bool) -> Result<Reply, Fault> {
        let withdrawn = self
            .withdrawn
            .get_mut(event)
            .ok_or(Fault::UnknownEvent(event))?;
        if *withdrawn == out {
            return Err(Fault::NoticeWithoutEffect(event));
        }
        *withdrawn = out;
        Ok(Reply::Accepted)
    }

    fn find(&mut self, criterion: Criterion, query: Query) -> Result<Journey, Fault> {
        if query.from == query.to {
            return Err(Fault::EqualQueryStops);
        }
        if query.close < query.open {
            return Err(Fault::BadWindow);
        }
        let Post {
            events,
            withdrawn,
            search,
        } = self;
        let journey = match criterion {
            Criterion::EarliestArrival => search.run::<EarliestArrival>(events, withdrawn, query),
            Criterion::LatestDeparture => search.run::<LatestDeparture>(events, withdrawn, query),
            Criterion::Fastest => search.run::<Fastest>(events, withdrawn, query),
            Criterion::LeastRiding => search.run::<LeastRiding>(events, withdrawn, query),
            Criterion::FewestRides => search.run::<FewestRides>(events, withdrawn, query),
            Criterion::LeastWaiting => search.run::<LeastWaiting>(events, withdrawn, query),
        };
        journey.ok_or(Fault::NoJourney)
    }
}

// Answers lines over a day's records, as a post does that was just put up over them, and puts what is printed behind `out`.
pub fn answer_lines(day: &[u8], lines: &[u8], out: &mut Vec<u8>) -> std::io::Result<()> {
    let mut post = match read_day(day) {
        Ok(events) => Post::new(events),
        Err(fault) => return writeln!(out, "{fault}"),
    };
    for line in lines.split_inclusive(|byte| *byte == b'\n') {
        match post.answer(line.strip_suffix(b"\n").unwrap_or(line)) {
            Ok(reply) => writeln!(out, "{reply}")?,
            Err(fault) => writeln!(out, "{fault}")?,
        }
    }
    Ok(())
}
