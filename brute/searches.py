#!/usr/bin/env python3
"""Random small days with queries, and the best scores by trying every journey, for the program `trial_search`.

    brute/searches.py [--seed N] [--days N] [--events N]   > crates/trial_search/stdin
    brute/searches.py --answer < crates/trial_search/stdin > crates/trial_search/stdout

The days are dense: three stops and few minutes, so that events repeat, times tie and arrivals meet departures. The
windows open and close at the days' own minutes or one beside them, some queries ask for a call, which may then fall
at the first or the last stop, and some are refused. The answer to a query is a line with the lowest score under
e, l, f, s, n and c, as 'first;second', or 'none' where no journey fits; or 'no' and the fault.
"""
import argparse
import random
import sys

import generate
import lister

BASES = [0, 100, 999_960]
MINUTES = 16
STOPS = [0, 1, 2, 128, 254, 255]


def minute_of(row):
    return row[2] if row[0] == 'o' else row[3]


def end_of(row):
    return row[2] if row[0] == 'o' else row[3] + row[4]


def stop_after(row):
    return row[1] if row[0] == 'o' else row[2]


def onward_row(rng, row):
    """An event that can be taken after another one, most often in the minute in which that ends."""
    stop, minute = stop_after(row), end_of(row) + rng.choice([0, 0, 0, 1, 2])
    if rng.random() < 0.35:
        return ('o', stop, minute)
    return ('r', stop, (stop + rng.choice([1, 2])) % 3, minute, rng.randint(1, 6))


def next_row(rng, base, rows):
    """Any event, one that stands there already, or one that can be taken after another."""
    kind = rng.random()
    if rows and kind < 0.12:
        return rng.choice(rows)
    if rows and kind < 0.6:
        return onward_row(rng, rng.choice(rows))
    return generate.random_event(rng, base + rng.randrange(MINUTES))


def with_stops(row, stops):
    """The event with its stops 0, 1 and 2 taken for numbers of these stops."""
    if row[0] == 'o':
        return ('o', stops[row[1]], row[2])
    return ('r', stops[row[1]], stops[row[2]], row[3], row[4])


def random_day(rng, most, stops):
    base, rows = rng.choice(BASES), []
    least = 0 if rng.random() < 0.1 else most // 2 + 1
    for _ in range(rng.randint(least, most)):
        rows.append(next_row(rng, base, rows))
    rows = [row for row in rows if end_of(row) <= lister.LAST_MINUTE]
    rows.sort(key=lambda row: (minute_of(row), row[0] == 'r'))
    return base, [with_stops(row, stops) for row in rows]


def random_edge(rng, whole, minutes):
    """The whole day's edge, or one of the minutes or one beside it."""
    if not minutes or rng.random() < 0.6:
        return whole
    return max(0, rng.choice(minutes) + rng.choice([-1, 0, 0, 1]))


def random_window(rng, base, rows, leaves, reaches):
    opens = random_edge(rng, base, [minute_of(row) for row in rows if row[1] == leaves])
    last = min(base + 60, lister.LAST_MINUTE)
    closes = random_edge(rng, last, [end_of(row) for row in rows if stop_after(row) == reaches])
    if rng.random() < 0.02:
        closes = lister.LAST_MINUTE + rng.randrange(2)
    return opens, closes


def random_stops(rng, rows, stops):
    """Two stops, most often one that a ride leaves and one that a ride reaches."""
    rides = [row for row in rows if row[0] == 'r']
    leaves, reaches = rng.sample(stops, 2)
    if rides and rng.random() < 0.8:
        leaves, reaches = rng.choice(rides)[1], rng.choice(rides)[2]
    if leaves == reaches and rng.random() < 0.9:
        reaches = rng.choice([stop for stop in stops if stop != leaves])
    return leaves, reaches


def random_query(rng, base, rows, stops):
    leaves, reaches = random_stops(rng, rows, stops)
    return [leaves, reaches, *random_window(rng, base, rows, leaves, reaches), int(rng.random() < 0.45)]


def write_days(args):
    rng = random.Random(args.seed)
    for _ in range(args.days):
        stops = rng.sample(STOPS, 3)
        base, rows = random_day(rng, args.events, stops)
        print('d')
        for row in rows:
            print(*row)
        for number in range(len(rows)):
            if rng.random() < 0.08:
                print('x', number)
        for _ in range(4):
            print('q', *random_query(rng, base, rows, stops))


def refusal(query):
    if query.leaves == query.reaches:
        return 'no 14 6 0'
    if query.closes < query.opens or query.closes > lister.LAST_MINUTE:
        return 'no 15 6 0'
    return None


def best_scores(events, out_of_force, query):
    """The lowest score under each measure, none where no journey fits."""
    scored = [lister.scores(events, steps)[4] for steps in lister.journeys(events, out_of_force, query)]
    if not scored:
        return ' '.join(['none'] * 6)
    return ' '.join('%d;%d' % min(scores[letter] for scores in scored) for letter in range(6))


def write_answers(lines):
    events, out_of_force = [], set()
    for line in lines:
        word, *rest = line.split()
        numbers = [int(n) for n in rest]
        if word == 'd':
            events, out_of_force = [], set()
        elif word == 'o':
            events.append(lister.Opening(*numbers))
        elif word == 'r':
            events.append(lister.Ride(*numbers))
        elif word == 'x':
            out_of_force.add(numbers[0])
        elif word == 'q':
            query = lister.Query(*numbers)
            print(refusal(query) or best_scores(events, out_of_force, query))


def main():
    parser = argparse.ArgumentParser(description=__doc__, formatter_class=argparse.RawDescriptionHelpFormatter)
    parser.add_argument('--seed', type=int, default=1)
    parser.add_argument('--days', type=int, default=1000)
    parser.add_argument('--events', type=int, default=9)
    parser.add_argument('--answer', action='store_true')
    args = parser.parse_args()
    if args.answer:
        write_answers(sys.stdin)
    else:
        write_days(args)


if __name__ == '__main__':
    main()
