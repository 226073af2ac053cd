#!/usr/bin/env python3
"""Random small days with steps to judge, for brute/lister.py and the program `trial_judge`.

    brute/generate.py [--seed N] [--days N] [--events N]

The days are dense: few stops, few minutes, so that events repeat, arrivals meet departures, windows cut at both
edges and calls fall at the first and the last stop. For each query a few journeys that fit are judged, and as many
lists that are one change away from such a journey.
"""
import argparse
import random

import lister


def random_event(rng, minute):
    if rng.random() < 0.25:
        return ('o', rng.randrange(3), minute)
    leaves = rng.randrange(3)
    reaches = rng.choice([s for s in range(3) if s != leaves])
    return ('r', leaves, reaches, minute, rng.randint(1, 6))


def random_day(rng, most):
    base = rng.choice([0, 100, 999_960])
    events = [random_event(rng, base + rng.randrange(24)) for _ in range(rng.randint(0, most))]
    events.sort(key=lambda e: (e[2], 0) if e[0] == 'o' else (e[3], 1))
    return base, events


def random_query(rng, base):
    leaves = rng.randrange(3)
    reaches = rng.choice([s for s in range(3) if s != leaves]) if rng.random() < 0.9 else leaves
    opens = base + rng.choice([0, 0, 0, rng.randrange(24)])
    closes = min(base + rng.choice([40, 40, rng.randrange(30)]), lister.LAST_MINUTE)
    return [leaves, reaches, opens, closes, int(rng.random() < 0.4)]


def changed(rng, steps, n):
    steps = list(steps)
    kind = rng.randrange(4)
    if kind == 0 and steps:
        steps.pop(rng.randrange(len(steps)))
    elif kind == 1:
        steps.insert(rng.randint(0, len(steps)), rng.randint(0, n + 1))
    elif kind == 2 and steps:
        steps[rng.randrange(len(steps))] = rng.randint(0, n + 1)
    else:
        rng.shuffle(steps)
    return steps


def main():
    parser = argparse.ArgumentParser(description=__doc__)
    parser.add_argument('--seed', type=int, default=1)
    parser.add_argument('--days', type=int, default=200)
    parser.add_argument('--events', type=int, default=9)
    args = parser.parse_args()
    rng = random.Random(args.seed)
    for _ in range(args.days):
        base, rows = random_day(rng, args.events)
        print('d')
        for row in rows:
            print(*row)
        events = [lister.Opening(*r[1:]) if r[0] == 'o' else lister.Ride(*r[1:]) for r in rows]
        out = {i for i in range(len(rows)) if rng.random() < 0.1}
        for i in sorted(out):
            print('x', i)
        for _ in range(3):
            query = random_query(rng, base)
            fitting = lister.journeys(events, out, lister.Query(*query))
            chosen = rng.sample(fitting, min(3, len(fitting)))
            for steps in chosen:
                print('j', *query, *steps)
                print('j', *query, *changed(rng, steps, len(rows)))
            print('j', *query, *[rng.randrange(len(rows) + 2) for _ in range(rng.randrange(4))])


if __name__ == '__main__':
    main()
