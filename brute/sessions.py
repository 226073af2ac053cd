#!/usr/bin/env python3
"""Random days and sessions for the program `post`, from a seed.

    brute/sessions.py [--seed N] [--number N] [--commands N] [--large] FOLDER

writes the day and the input of session NUMBER into FOLDER, as `day.tt` and `stdin`: those that tools/trials has under
the same seed.

Days are small and dense (few stops, few minutes: events repeat, arrivals meet departures, places are open at first and
last stops), of middle size, or, if large ones are asked for, sparse with up to 1,024 events. A session mixes notices,
tallies, queries under every letter and damaged lines.
"""
import argparse
import pathlib
import random

import lister
import model

BASES = [0, 100, 999_960]
ODD_BYTES = b'\0\t\r !+-./0123456789:EVWelfsncrtvw\x7f\x80\xb2\xc3\xff'
UNKNOWN = [1_023, 1_024, 1_025, 99_999, 999_999]


# Days

def ordered(events):
    """The events in an order that a block may have; equal times of one kind stay as they are."""
    return sorted(events, key=lambda event: (event.time, event.is_ride))


def some_stops(rng, count):
    """So many stops; the first and the last number there is are often among them."""
    stops = rng.sample(range(model.LAST_STOP + 1), count)
    if rng.random() < 0.5 and count > 1:
        stops[:2] = [0, model.LAST_STOP] if not {0, model.LAST_STOP} & set(stops[2:]) else stops[:2]
    return stops


def some_event(rng, stops, minute, longest, openings):
    """An event at a minute; its end is within the limits."""
    longest = min(longest, lister.LAST_MINUTE - minute)
    if longest < 1 or rng.random() < openings:
        return lister.Opening(rng.choice(stops), minute)
    leaves, reaches = rng.sample(stops, 2)
    return lister.Ride(leaves, reaches, minute, rng.randint(1, longest))


def some_events(rng, count, stops, base, span, longest, openings, repeats):
    """So many events within a span of minutes, some of them repeated."""
    events = []
    while len(events) < count:
        if events and rng.random() < repeats:
            events.append(rng.choice(events))
        else:
            minute = min(base + rng.randrange(span), lister.LAST_MINUTE)
            events.append(some_event(rng, stops, minute, longest, openings))
    return ordered(events)


def small_day(rng):
    """A dense day of at most 12 events."""
    stops = some_stops(rng, rng.choice([2, 2, 3, 3, 4]))
    span = rng.choice([1, 12, 12, 24, 24, 40])
    longest = rng.choice([1, 2, 3, 6, 6, 12, model.MOST_MINUTES])
    count = max(rng.randint(0, model.MOST_TRIED), rng.randint(0, model.MOST_TRIED))
    return some_events(rng, count, stops, rng.choice(BASES), span, longest,
                       rng.choice([0.1, 0.25, 0.25, 0.5]), rng.choice([0, 0, 0.2]))


def middle_day(rng):
    """A day of 13 to 60 events."""
    count = rng.randint(13, 60)
    stops = some_stops(rng, max(3, count // rng.randint(3, 15)))
    return some_events(rng, count, stops, rng.choice(BASES), rng.choice([24, 40, 200]), rng.choice([3, 6, 30]), 0.2,
                       rng.choice([0, 0.1]))


def sparse_day(rng):
    """A day of up to 1,024 events with many stops."""
    count = rng.choice([rng.randint(100, 1_000), 1_023, 1_024])
    stops = some_stops(rng, min(256, count // rng.choice([3, 6, 12, 24])))
    base = rng.choice([0, 100, 990_000])
    return some_events(rng, count, stops, base, rng.choice([300, 1_440, 9_000]), rng.choice([5, 60, model.MOST_MINUTES]),
                       rng.choice([0.05, 0.2]), rng.choice([0, 0.05]))


def chain_day(rng):
    """A day of rides that go on from one another, each leaving when the one before arrives, with other events strewn in."""
    stops = rng.sample(range(model.LAST_STOP + 1), rng.randint(100, 256))
    minute, events = rng.choice(BASES[:2]), []
    for leaves, reaches in zip(stops, stops[1:]):
        duration = rng.randint(1, 5)
        events.append(lister.Ride(leaves, reaches, minute, duration))
        minute += duration + rng.choice([0, 0, 0, 1])
        if rng.random() < 0.05:
            events.append(lister.Opening(reaches, minute))
    return ordered(events + some_events(rng, 40, stops, events[0].time, minute, 30, 0.2, 0))


def random_day(rng, large):
    """A day of any of the kinds; small and middle ones, or large ones."""
    if large:
        return rng.choices([sparse_day, chain_day], [3, 1])[0](rng)
    return rng.choices([small_day, middle_day], [2, 1])[0](rng)


# Commands

def notice(rng, size, out_of_force):
    """A withdrawal or a reinstatement, often of an unknown event or without effect; what it does is done."""
    kind = rng.random()
    letter = rng.choice('wr')
    if kind < 0.15 or size == 0:
        return b'%c %d' % (ord(letter), rng.choice([size, size, size + 1, *(n for n in UNKNOWN if n >= size)]))
    in_force = [n for n in range(size) if n not in out_of_force]
    few = len(out_of_force) <= size * rng.choice([0, 0.1, 0.3])
    if kind < 0.75:
        letter = 'w' if few and in_force else 'r'
    chosen = sorted(out_of_force) if (letter == 'r') == (kind < 0.75) else in_force
    number = rng.choice(chosen or range(size))
    if (letter == 'w') != (number in out_of_force):
        out_of_force ^= {number}
    return b'%c %d' % (ord(letter), number)


def led(rng, events, following, out_of_force):
    """Two stops with a walk from one to the other, where that walk begins and ends, and how many openings it has.

    It is mostly one of events in force.
    """
    def chosen(numbers):
        good = [n for n in numbers if n not in out_of_force]
        return rng.choice(good if good and rng.random() < 0.9 else numbers)

    steps = [chosen(range(len(events)))]
    for _ in range(rng.choice([0, 1, 2, 3, 3, 4, 8, 300])):
        further = following[steps[-1]]
        if not further:
            break
        steps.append(chosen(further[:3] if rng.random() < 0.7 else further))
    first, last = events[steps[0]], events[steps[-1]]
    return first.leaves, last.reaches, first.time, last.end, sum(not events[n].is_ride for n in steps)


def any_stops(rng, events):
    """Two stops, mostly some of the day's, a stretch of minutes, and a number of openings."""
    stops = sorted({e.leaves for e in events} | {e.reaches for e in events}) + [rng.randrange(256) for _ in range(2)]
    times = [e.time for e in events] or [rng.choice(BASES)]
    return rng.choice(stops), rng.choice(stops), rng.choice(times), rng.choice(times) + rng.randrange(20), rng.randrange(2)


def some_window(rng, begin, end):
    """A window around two minutes: as wide as can be, or cutting at one edge or at both, or of one minute, or none."""
    kind = rng.random()
    if kind < 0.20:
        return 0, lister.LAST_MINUTE
    if kind < 0.23:
        return begin, begin
    if kind < 0.27:
        return max(begin, end) + rng.choice([1, 2, 50]), min(begin, end)
    return begin - rng.choice([0, 0, 0, 1, 10, 40, 300, -1]), end + rng.choice([0, 0, 0, 1, 10, 40, 300, -1])


def question(rng, events, following, out_of_force):
    """What stands behind the letter of a query."""
    if events and rng.random() < 0.9:
        leaves, reaches, begin, end, openings = led(rng, events, following, out_of_force)
    else:
        leaves, reaches, begin, end, openings = any_stops(rng, events)
    if leaves == reaches and rng.random() < 0.9:
        reaches = rng.choice([e.reaches for e in events if e.reaches != leaves] or [0])
    opens, closes = (min(max(0, minute), lister.LAST_MINUTE) for minute in some_window(rng, begin, end))
    call = b' v' if rng.random() < (0.9 if openings == 1 else 0.1) else b''
    return b' %d %d %d %d' % (leaves, reaches, opens, closes) + call


def queries(rng, events, following, out_of_force):
    """One query, or the same one under every letter."""
    asked = question(rng, events, following, out_of_force)
    letters = model.MEASURES if rng.random() < 0.2 else rng.choice(model.MEASURES)
    return [letter.encode() + asked for letter in letters]


# Damage

def put_byte(rng, line):
    """One odd byte more."""
    at = rng.randint(0, len(line))
    return line[:at] + bytes([rng.choice(ODD_BYTES)]) + line[at:]


def change_byte(rng, line):
    """One byte changed into any other but a line's end."""
    at = rng.randrange(len(line))
    return line[:at] + bytes([rng.choice([b for b in range(256) if b != 10])]) + line[at + 1:]


def leave_out_byte(rng, line):
    """One byte less."""
    at = rng.randrange(len(line))
    return line[:at] + line[at + 1:]


def truncate(rng, line):
    """The front of the line."""
    return line[:rng.randrange(len(line))]


def more_spaces(rng, line):
    """A space more where one stands, in front or at the end."""
    at = rng.choice([0, len(line)] + [k for k in range(len(line)) if line[k] == 32])
    return line[:at] + b' ' + line[at:]


def change_number(rng, line):
    """One number changed: a leading 0, seven digits, none, or no digit."""
    words = line.split(b' ')
    at = rng.randrange(len(words))
    words[at] = rng.choice([b'0' + words[at], b'00', b'1000000', b'1234567', b'9999990', b'-1', b'+1', b'1_0', b''])
    return b' '.join(words)


def change_stop(rng, line):
    """One of the first two numbers just above a stop's limit, or just below."""
    words = line.split(b' ')
    at = min(rng.choice([1, 2]), len(words) - 1)
    words[at] = rng.choice([b'255', b'256', b'257', b'259', b'260', b'265', b'299', b'300', b'2550', b'999', b'0255'])
    return b' '.join(words)


def change_end(rng, line):
    """Something behind the line."""
    return line + rng.choice([b'\r', b' ', b' v', b'v', b'\0', b' v ', b'\xff', b' 1', b'\t', b' V', b' v v'])


def change_letter(rng, line):
    """Another letter in front."""
    return rng.choice([b'E', b'W', b'T', b'x', b'v', b't', b'w', b'r', b'e', b'\0', b' ', b'\xe5']) + line[1:]


def nothing(rng, line):
    """The empty line."""
    return b''


def noise(rng, line):
    """Any bytes, or such as stand in commands."""
    letters = rng.choice([b'wrtelfsnc  0123456789v', bytes(b for b in range(256) if b != 10)])
    return bytes(rng.choice(letters) for _ in range(rng.choice([1, 3, 10, 40, 300])))


DAMAGES = [put_byte, change_byte, leave_out_byte, truncate, more_spaces, change_number, change_stop, change_end,
           change_letter, nothing, noise]


def damaged(rng, line):
    """The line with some damage; by chance it may be a command still."""
    for _ in range(rng.choice([1, 1, 1, 2])):
        line = rng.choice(DAMAGES)(rng, line) if line else b''
    return line


# Sessions

def session_lines(rng, events, commands):
    """So many lines for a day."""
    following, out_of_force, lines = model.followers(events), set(), []
    while len(lines) < commands:
        kind = rng.random()
        if kind < 0.3:
            lines.append(notice(rng, len(events), out_of_force))
        elif kind < 0.35:
            lines.append(b't')
        elif kind < 0.85:
            lines.extend(queries(rng, events, following, out_of_force))
        else:
            lines.append(damaged(rng, rng.choices([notice(rng, len(events), set(out_of_force)), b't',
                                                   queries(rng, events, following, out_of_force)[0]], [5, 1, 14])[0]))
    return lines[:commands]


def session(seed, number, commands, large):
    """The events and the input of a session. The input's last line may be without its end."""
    rng = random.Random('%d %d %d' % (seed, number, large))
    events = random_day(rng, large)
    lines = session_lines(rng, events, commands)
    return events, b'\n'.join(lines) + rng.choice([b'\n', b''])


def main():
    parser = argparse.ArgumentParser(description=__doc__, formatter_class=argparse.RawDescriptionHelpFormatter)
    parser.add_argument('--seed', type=int, default=1)
    parser.add_argument('--number', type=int, default=0)
    parser.add_argument('--commands', type=int, default=200)
    parser.add_argument('--large', action='store_true')
    parser.add_argument('folder', type=pathlib.Path)
    args = parser.parse_args()
    events, data = session(args.seed, args.number, args.commands, args.large)
    args.folder.mkdir(parents=True, exist_ok=True)
    (args.folder / 'day.tt').write_bytes(model.block(events))
    (args.folder / 'stdin').write_bytes(data)


if __name__ == '__main__':
    main()
