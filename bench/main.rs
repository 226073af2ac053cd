// Compares the proved library with the plain version: what they print, and how long a query takes.
//     benchmark EVENTS..
// Prints the number of lines that were compared, of those that found a journey, and of those whose replies are the same byte for byte;
// then for each number of events a line: the events, the microseconds of a query in the proved and in the plain version, how many
// queries were measured, how many of them find a journey, and how many events these journeys have on average.

mod plain;
mod proved;

use std::hint::black_box;
use std::time::{Duration, Instant};

const STOPS: u64 = 40;
const FIRST_MINUTE: u64 = 300;
const LAST_START: u64 = 1_320;
const CLOSE: u64 = 1_700;
const LETTERS: [char; 6] = ['e', 'l', 'f', 's', 'n', 'c'];
const MEASURED_PAIRS: usize = 20;
const REPETITIONS: usize = 150;
const CHECKED_DAYS: u64 = 20;

// Numbers that look random, the same ones from the same seed.
struct Random(u64);

impl Random {
    fn below(&mut self, bound: u64) -> u64 {
        self.0 = self.0.wrapping_add(0x9e37_79b9_7f4a_7c15);
        let mut mixed = self.0;
        mixed = (mixed ^ (mixed >> 30)).wrapping_mul(0xbf58_476d_1ce4_e5b9);
        mixed = (mixed ^ (mixed >> 27)).wrapping_mul(0x94d0_49bb_1331_11eb);
        (mixed ^ (mixed >> 31)) % bound
    }

    fn between(&mut self, least: u64, most: u64) -> u64 {
        least + self.below(most - least + 1)
    }

    // Two stops that differ.
    fn pair(&mut self) -> (u64, u64) {
        let from = self.below(STOPS);
        let to = (from + self.between(1, STOPS - 1)) % STOPS;
        (from, to)
    }
}

// An event as its minute, its kind and the rest of its record, which is how events are sorted.
type Record = (u64, u8, [u8; 4]);

// The records of a day: one event in eight is an opening, the others are rides of vehicles that run along lines of eight stops.
fn day(events: usize, random: &mut Random) -> Vec<u8> {
    let lines: Vec<Vec<u8>> = (0..10).map(|_| line(random)).collect();
    let openings = events / 8;
    let mut records: Vec<Record> = Vec::with_capacity(events);
    for _ in 0..openings {
        let stop = random.below(STOPS) as u8;
        records.push((random.between(FIRST_MINUTE, LAST_START), 1, [stop, 0, 0, 0]));
    }
    while records.len() < events {
        let mut stops = lines[random.below(lines.len() as u64) as usize].clone();
        if random.below(2) == 1 {
            stops.reverse();
        }
        let mut minute = random.between(FIRST_MINUTE, LAST_START);
        for leg in stops.windows(2).take(events - records.len()) {
            let duration = random.between(4, 40);
            records.push((minute, 2, [leg[0], leg[1], 0, duration as u8]));
            minute += duration + random.below(4);
        }
    }
    records.sort();
    let mut bytes = Vec::with_capacity(records.len() * 16);
    for (minute, kind, [first, second, high, low]) in records {
        bytes.extend([kind, first, second, 0]);
        bytes.extend((minute as u32).to_be_bytes());
        bytes.extend([high, low, 0, 0, 0, 0, 0, 0]);
    }
    bytes
}

// Eight stops that all differ.
fn line(random: &mut Random) -> Vec<u8> {
    let mut stops: Vec<u8> = Vec::new();
    while stops.len() < 8 {
        let stop = random.below(STOPS) as u8;
        if !stops.contains(&stop) {
            stops.push(stop);
        }
    }
    stops
}

// The queries between two stops under each measure, without a call and with one.
fn queries((from, to): (u64, u64), open: u64) -> Vec<String> {
    let each = LETTERS
        .iter()
        .flat_map(|letter| [(letter, ""), (letter, " v")]);
    each.map(|(letter, call)| format!("{letter} {from} {to} {open} {CLOSE}{call}\n"))
        .collect()
}

// A line as a post may get it: mostly a query, else a notice, a tally, or one of these with a byte changed.
fn any_line(events: usize, random: &mut Random) -> Vec<u8> {
    let letter = LETTERS[random.below(6) as usize];
    let (from, to) = random.pair();
    let mut line = match random.below(20) {
        0 | 1 => format!("w {}", random.below(events as u64 + 3)),
        2 => format!("r {}", random.below(events as u64 + 3)),
        3 => String::from("t"),
        4 => format!("{letter} {from} {from} 0 1"),
        _ => {
            let open = random.between(FIRST_MINUTE - 50, LAST_START);
            let close = random.between(open - 20, CLOSE);
            let call = if random.below(2) == 1 { " v" } else { "" };
            format!("{letter} {from} {to} {open} {close}{call}")
        }
    }
    .into_bytes();
    if random.below(10) == 0 {
        let at = random.below(line.len() as u64) as usize;
        line[at] = b" 0v9xe"[random.below(6) as usize];
    }
    line.push(b'\n');
    line
}

fn ask_plain(day: &[u8], lines: &[u8], out: &mut Vec<u8>) {
    out.clear();
    plain::answer_lines(day, lines, out).expect("memory takes every write");
}

fn ask_proved<'a>(day: &[u8], lines: &[u8], out: &'a mut [u8]) -> &'a [u8] {
    let length = proved::answer_lines(day, lines, out).expect("the printed lines fit");
    &out[..length]
}

// The score that a printed journey has by what is told of it; none where no journey is printed.
fn score(letter: u8, reply: &str) -> Option<(i64, i64)> {
    let told = reply.strip_prefix("go ")?.split(" :").next()?;
    let numbers: Vec<i64> = told
        .split(' ')
        .map_while(|number| number.parse().ok())
        .collect();
    let [begin, end, riding, rides] = numbers[..] else {
        return None;
    };
    match letter {
        b'e' => Some((end, -begin)),
        b'l' => Some((-begin, end)),
        b'f' => Some((end - begin, riding)),
        b's' => Some((riding, end)),
        b'n' => Some((rides, end)),
        _ => Some((end - begin - riding, end)),
    }
}

// What was compared: the lines, those of them that found a journey, and those whose replies are the same byte for byte.
#[derive(Default)]
struct Compared {
    lines: usize,
    journeys: usize,
    same: usize,
}

// Compares what both versions print for lines over a day. They may name different journeys where both are best.
fn compare(day: &[u8], lines: &[u8], compared: &mut Compared) {
    let (mut plain, mut proved) = (Vec::new(), vec![0; 65_536]);
    ask_plain(day, lines, &mut plain);
    let plain = std::str::from_utf8(&plain).expect("text is printed");
    let proved = std::str::from_utf8(ask_proved(day, lines, &mut proved)).expect("text is printed");
    assert_eq!(
        plain.lines().count(),
        proved.lines().count(),
        "the versions print as many lines"
    );
    for (line, (plain, proved)) in lines
        .split(|byte| *byte == b'\n')
        .zip(plain.lines().zip(proved.lines()))
    {
        let letter = line.first().copied().unwrap_or(0);
        let scores = (score(letter, plain), score(letter, proved));
        let agree = plain == proved || scores.0.is_some() && scores.0 == scores.1;
        assert!(
            agree,
            "{}: plain {plain}, proved {proved}",
            String::from_utf8_lossy(line)
        );
        compared.lines += 1;
        compared.journeys += usize::from(scores.0.is_some());
        compared.same += usize::from(plain == proved);
    }
}

// Compares the versions on days of a number of events, on one that is damaged among them.
fn check(events: usize, compared: &mut Compared) {
    for seed in 0..CHECKED_DAYS {
        let mut random = Random(seed * 1_000_003 + events as u64);
        let mut day = day(events, &mut random);
        let lines: Vec<u8> = (0..200)
            .flat_map(|_| any_line(events, &mut random))
            .collect();
        compare(&day, &lines, compared);
        let at = random.below(day.len() as u64) as usize;
        day[at] ^= random.between(1, 255) as u8;
        compare(&day, &lines, compared);
    }
}

// The queries that are measured: between pairs of stops for which there is a journey.
fn measured(day: &[u8], random: &mut Random) -> Vec<String> {
    let mut lines = Vec::new();
    let mut out = Vec::new();
    for _ in 0..10_000 {
        let asked = queries(
            random.pair(),
            random.between(FIRST_MINUTE, FIRST_MINUTE + 60),
        );
        ask_plain(day, asked[0].as_bytes(), &mut out);
        if out.starts_with(b"go") {
            lines.extend(asked);
        }
        if lines.len() == MEASURED_PAIRS * 12 {
            return lines;
        }
    }
    panic!("the day has too few journeys");
}

fn time(work: impl FnOnce()) -> Duration {
    let start = Instant::now();
    work();
    start.elapsed()
}

// Measures a query in both versions, on a day of so many events, and prints the line of the table.
fn measure(events: usize) {
    let mut random = Random(events as u64);
    let day = day(events, &mut random);
    let asked = measured(&day, &mut random);
    let (one, all) = (asked[0].as_bytes(), asked.concat().into_bytes());
    let (mut plain_out, mut proved_out) = (Vec::with_capacity(65_536), vec![0; 65_536]);
    let [mut plain_one, mut plain_all, mut proved_one, mut proved_all] = [Duration::MAX; 4];
    for _ in 0..REPETITIONS {
        proved_one = proved_one.min(time(|| {
            black_box(ask_proved(&day, one, &mut proved_out));
        }));
        plain_one = plain_one.min(time(|| ask_plain(&day, black_box(one), &mut plain_out)));
        proved_all = proved_all.min(time(|| {
            black_box(ask_proved(&day, &all, &mut proved_out));
        }));
        plain_all = plain_all.min(time(|| ask_plain(&day, black_box(&all), &mut plain_out)));
    }
    let printed = std::str::from_utf8(&plain_out).expect("text is printed");
    // As in the time, the first query is left out.
    let journeys = printed
        .lines()
        .skip(1)
        .filter_map(|reply| reply.strip_prefix("go "));
    let legs: Vec<usize> = journeys
        .map(|journey| journey.split(' ').count() - 5)
        .collect();
    let micros =
        |all: Duration, one: Duration| (all - one).as_secs_f64() * 1e6 / (asked.len() - 1) as f64;
    println!(
        "{events} {:.3} {:.3} {} {} {:.1}",
        micros(proved_all, proved_one),
        micros(plain_all, plain_one),
        asked.len() - 1,
        legs.len(),
        legs.iter().sum::<usize>() as f64 / legs.len() as f64,
    );
}

fn main() {
    let sizes: Vec<usize> = std::env::args()
        .skip(1)
        .filter_map(|size| size.parse().ok())
        .collect();
    let mut compared = Compared::default();
    for events in &sizes {
        check(*events, &mut compared);
    }
    println!("{} {} {}", compared.lines, compared.journeys, compared.same);
    for events in &sizes {
        measure(*events);
    }
}
