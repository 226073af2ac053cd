#!/usr/bin/env python3
"""Lists or judges journeys by trying them all: the independent side of the tests. Written from docs/journeys.md.

Reads lines from standard input:
    d                                a new day
    o STOP MINUTE                    its next event, an opening
    r FROM TO DEPARTURE DURATION     its next event, a ride
    x NUMBER                         the event with this number is out of force
    q FROM TO OPEN CLOSE CALL        print every journey that fits, one to a line, then 'end'
    j FROM TO OPEN CLOSE CALL STEP.. print what these steps are: 'none', or as a journey that fits
A journey is printed as begin, end, riding, rides, and the two parts of its score under e, l, f, s, n and c;
under 'q' its steps come first, and a colon.
"""
import sys

LAST_MINUTE = 999_999


class Opening:
    def __init__(self, stop, minute):
        self.leaves = self.reaches = stop
        self.time = self.end = minute
        self.duration = 0
        self.is_ride = False


class Ride:
    def __init__(self, leaves, reaches, departure, duration):
        self.leaves, self.reaches = leaves, reaches
        self.time, self.duration = departure, duration
        self.end = departure + duration
        self.is_ride = True


class Query:
    def __init__(self, leaves, reaches, opens, closes, call):
        self.leaves, self.reaches = leaves, reaches
        self.opens, self.closes = opens, closes
        self.call = bool(call)


def fits(events, out_of_force, query, steps):
    """Whether the steps are a journey that fits, straight by the definition."""
    if any(s < 0 or s >= len(events) or s in out_of_force for s in steps):
        return False
    if any(a >= b for a, b in zip(steps, steps[1:])):
        return False
    chosen = [events[s] for s in steps]
    if not any(e.is_ride for e in chosen):
        return False
    if sum(not e.is_ride for e in chosen) != (1 if query.call else 0):
        return False
    if any(a.reaches != b.leaves or a.end > b.time for a, b in zip(chosen, chosen[1:])):
        return False
    if chosen[0].leaves != query.leaves or chosen[-1].reaches != query.reaches:
        return False
    return query.opens <= chosen[0].time and chosen[-1].end <= query.closes


def rising_lists(n):
    for bits in range(1, 1 << n):
        yield [i for i in range(n) if bits >> i & 1]


def linked_lists(events):
    """The rising lists in which each event can be followed by the next. No other is a journey, whatever is asked."""
    def linked(steps):
        chosen = [events[s] for s in steps]
        return all(a.reaches == b.leaves and a.end <= b.time for a, b in zip(chosen, chosen[1:]))
    return [s for s in rising_lists(len(events)) if linked(s)]


def journeys(events, out_of_force, query, lists=None):
    """Every journey that fits, out of all rising lists or out of those that are handed."""
    if lists is None:
        lists = rising_lists(len(events))
    return [s for s in lists if fits(events, out_of_force, query, s)]


def scores(events, steps):
    chosen = [events[s] for s in steps]
    begin, end = chosen[0].time, chosen[-1].end
    riding = sum(e.duration for e in chosen)
    rides = sum(e.is_ride for e in chosen)
    waiting = end - begin - riding
    return begin, end, riding, rides, [
        (end, LAST_MINUTE - begin),
        (LAST_MINUTE - begin, end),
        (end - begin, riding),
        (riding, end),
        (rides, end),
        (waiting, end),
    ]


def shown(events, steps):
    begin, end, riding, rides, six = scores(events, steps)
    return ' '.join(str(n) for n in [begin, end, riding, rides] + [part for score in six for part in score])


def main():
    events, out_of_force = [], set()
    for line in sys.stdin:
        word, *rest = line.split()
        numbers = [int(n) for n in rest]
        if word == 'd':
            events, out_of_force = [], set()
        elif word == 'o':
            events.append(Opening(*numbers))
        elif word == 'r':
            events.append(Ride(*numbers))
        elif word == 'x':
            out_of_force.add(numbers[0])
        elif word == 'q':
            for steps in journeys(events, out_of_force, Query(*numbers)):
                print(*steps, ':', shown(events, steps))
            print('end')
        elif word == 'j':
            steps = numbers[5:]
            good = fits(events, out_of_force, Query(*numbers[:5]), steps)
            print(shown(events, steps) if good else 'none')


if __name__ == '__main__':
    main()
