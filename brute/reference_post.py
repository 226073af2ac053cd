#!/usr/bin/env python3
"""The program `post` by plain means, for trying tools/trials. Written from docs/; it stands on no other file.

It opens `day.tt` in the current folder, reads commands from standard input and answers each with a line before it reads the next.

A best journey is found so: for each event that a journey may begin with, the lightest way on to each later event, for
those called already and for those not yet. Begin and end are then given, so the lightest way has the lowest score
where the riding, the rides or what is not waited is the weight.
"""
import collections
import heapq
import itertools
import re
import sys

LAST_MINUTE = 999_999

Event = collections.namedtuple('Event', 'ride leaves reaches time duration end')


# The day

def event_of(data):
    """The event of sixteen bytes, within the limits or not."""
    time = data[4] << 24 | data[5] << 16 | data[6] << 8 | data[7]
    if data[0] == 1:
        return Event(False, data[1], data[1], time, 0, time)
    duration = data[8] << 8 | data[9]
    return Event(True, data[1], data[2], time, duration, time + duration)


def rules(data, before):
    """The rules of a record and its place behind the event before it, in their order; each with its fault and layer."""
    yield data[0] in (1, 2), 3, 2
    event = event_of(data)
    yield not any(data[n] for n in ([3, *range(10, 16)] if event.ride else [2, 3, *range(8, 16)])), 4, 2
    yield not event.ride or event.leaves != event.reaches, 5, 2
    yield not event.ride or 0 < event.duration <= 1_440, 6, 2
    yield event.end <= LAST_MINUTE, 8, 2
    yield before is None or (before.time, before.ride) <= (event.time, event.ride), 9, 3


def open_day(data):
    """The events, or the line that tells the first fault."""
    if len(data) % 16 != 0:
        return None, 'no 1 1 %d' % (len(data) // 16)
    if len(data) > 16 * 1_024:
        return None, 'no 2 1 1024'
    day = []
    for place in range(len(data) // 16):
        part = data[16 * place:16 * place + 16]
        for kept, number, layer in rules(part, day[-1] if day else None):
            if not kept:
                return None, 'no %d %d %d' % (number, layer, place)
        day.append(event_of(part))
    return day, None


# Command lines

NUMBER = rb'(0|[1-9][0-9]{0,5})'
STOP = rb'([0-9]|[1-9][0-9]|1[0-9][0-9]|2[0-4][0-9]|25[0-5])'
NOTICE = re.compile(rb'([wr]) ' + NUMBER)
QUERY = re.compile(rb'([elfsnc]) ' + STOP + b' ' + STOP + b' ' + NUMBER + b' ' + NUMBER + rb'( v)?')
ENDINGS = [b'', b't', b'v'] + [space + b' '.join([b'0'] * n) for n in range(1, 5) for space in (b'', b' ')]


def is_command(line):
    return line == b't' or NOTICE.fullmatch(line) or QUERY.fullmatch(line)


def place_of(line):
    """The length of the longest part of a line that some ending makes a command."""
    return max(k for k in range(min(len(line), 25) + 1) if any(is_command(line[:k] + ending) for ending in ENDINGS))


# Journeys

def weight(letter, event):
    """What an event adds to the weight of a way."""
    return {'f': event.duration, 's': event.duration, 'n': int(event.ride), 'c': -event.duration}.get(letter, 0)


def score(letter, day, steps):
    """The score of a journey."""
    begin, end, riding, rides = told(day, steps)
    return {'c': (end - begin - riding, end), 'e': (end, -begin), 'f': (end - begin, riding), 'l': (-begin, end), 'n': (rides, end),
            's': (riding, end)}[letter]


def told(day, steps):
    """Begin, end, riding and rides."""
    events = [day[step] for step in steps]
    return events[0].time, events[-1].end, sum(e.duration for e in events), sum(e.ride for e in events)


def chain(link):
    """The steps of a way, from its first on."""
    steps = []
    while link is not None:
        link, step = link
        steps.append(step)
    return steps[::-1]


def ways_from(first, letter, day, out, reaches, closes, call):
    """The lightest ways from an event on that end at a stop in time, one for each event that may come last."""
    waiting, under_way, order = {(day[first].leaves, 0): (0, None)}, [], itertools.count()
    for k in range(first, len(day)):
        event = day[k]
        while under_way and under_way[0][0] <= event.time:
            _, _, at, arrived = heapq.heappop(under_way)
            if at not in waiting or arrived[0] < waiting[at][0]:
                waiting[at] = arrived
        if k not in out and event.end <= closes and (event.ride or call):
            for calls in ([0, 1] if event.ride else [0]):
                if (event.leaves, calls) in waiting:
                    before, link = waiting[event.leaves, calls]
                    at = event.reaches, calls + (not event.ride)
                    heapq.heappush(under_way, (event.end, next(order), at, (before + weight(letter, event), (link, k))))
                    if at == (reaches, call):
                        yield chain((link, k))
        if k == first:
            waiting.clear()


def best(letter, day, out, leaves, reaches, opens, closes, call):
    """The steps of a journey with the lowest score, or None."""
    lowest = None
    for first, event in enumerate(day):
        if event.leaves == leaves and event.time >= opens and first not in out:
            for steps in ways_from(first, letter, day, out, reaches, closes, call):
                found = score(letter, day, steps)
                if lowest is None or found < lowest[0]:
                    lowest = found, steps
    return lowest and lowest[1]


# Answers

def answer_notice(letter, number, day, out):
    """Takes a notice and answers it."""
    if number >= len(day):
        return 'no 12 5 %d' % number
    if (letter == 'w') == (number in out):
        return 'no 13 5 %d' % number
    if letter == 'w':
        out.add(number)
    else:
        out.remove(number)
    return 'ok'


def answer_query(letter, numbers, call, day, out):
    """Answers a query."""
    leaves, reaches, opens, closes = numbers
    if leaves == reaches:
        return 'no 14 6 0'
    if closes < opens or closes > LAST_MINUTE:
        return 'no 15 6 0'
    steps = best(letter, day, out, leaves, reaches, opens, closes, call)
    if steps is None:
        return 'no 18 6 0'
    return 'go %d %d %d %d : ' % told(day, steps) + ' '.join(map(str, steps))


def answer(line, day, out):
    """Answers a line."""
    if line == b't':
        return '%d' % len(out)
    if match := NOTICE.fullmatch(line):
        return answer_notice(match[1].decode(), int(match[2]), day, out)
    if match := QUERY.fullmatch(line):
        return answer_query(match[1].decode(), [int(match[n]) for n in range(2, 6)], int(match[6] is not None), day, out)
    return 'no 11 4 %d' % place_of(line)


def main():
    try:
        with open('day.tt', 'rb') as file:
            data = file.read()
    except OSError:
        data = b''
    day, fault = open_day(data)
    if fault:
        print(fault)
        return
    out = set()
    for line in sys.stdin.buffer:
        print(answer(line.removesuffix(b'\n'), day, out), flush=True)


if __name__ == '__main__':
    main()
