"""What the program `post` must answer: a reference in another language. Written from docs/, and not from the code.

Events are those of lister.py. A fault is a triple of number, layer and place. A day is opened by `open_block`, a
line is read by `parse`, and a `Post` judges one answer after another.

The lowest scores are found by listing journeys, in two ways that share nothing but the formulas of the scores:
- `lister.journeys` tries every rising list; on days of at most MOST_TRIED events;
- `extended` goes on from event to event; on every day. It is cut off after MOST_WALKS walks.
Where both are used they must list the same journeys.
"""
import collections
import re
import struct

import lister

RECORD = 16
MOST_RECORDS = 1_024
MOST_MINUTES = 1_440
LAST_STOP = 255

MOST_TRIED = 12
MOST_WALKS = 20_000

MEASURES = 'elfsnc'
NUMBERS_OF = {'w': [999_999], 'r': [999_999], 't': []}
NUMBERS_OF.update({letter: [LAST_STOP, LAST_STOP, 999_999, 999_999] for letter in MEASURES})

Command = collections.namedtuple('Command', 'letter numbers call')
Verdict = collections.namedtuple('Verdict', 'right kind listing wanted')
Listing = collections.namedtuple('Listing', 'lowest whole')
Named = collections.namedtuple('Named', 'out_of_force letter query answer score')


# Records and blocks

def record(event):
    """The sixteen bytes of an event."""
    if event.is_ride:
        return struct.pack('>BBBxIH6x', 2, event.leaves, event.reaches, event.time, event.duration)
    return struct.pack('>BB2xI8x', 1, event.leaves, event.time)


def block(events):
    """The bytes of a list of events."""
    return b''.join(record(event) for event in events)


def read_record(data):
    """The event of sixteen bytes, or the number of the first rule that they break."""
    if data[0] not in (1, 2):
        return 3
    spare = data[3:4] + data[10:] if data[0] == 2 else data[2:4] + data[8:]
    if any(spare):
        return 4
    time = int.from_bytes(data[4:8], 'big')
    if data[0] == 2:
        event = lister.Ride(data[1], data[2], time, int.from_bytes(data[8:10], 'big'))
        if event.leaves == event.reaches:
            return 5
        if not 1 <= event.duration <= MOST_MINUTES:
            return 6
    else:
        event = lister.Opening(data[1], time)
    return 8 if event.end > lister.LAST_MINUTE else event


def in_order(before, after):
    """Whether an event may stand right after another."""
    if after.time == before.time:
        return after.is_ride or not before.is_ride
    return after.time > before.time


def open_block(data):
    """The events of a block and None, or no events and the first fault."""
    whole, rest = divmod(len(data), RECORD)
    if rest:
        return [], (1, 1, whole)
    if whole > MOST_RECORDS:
        return [], (2, 1, MOST_RECORDS)
    events = []
    for place in range(whole):
        event = read_record(data[place * RECORD:(place + 1) * RECORD])
        if isinstance(event, int):
            return [], (event, 2, place)
        if events and not in_order(events[-1], event):
            return [], (9, 3, place)
        events.append(event)
    return events, None


# Lines and commands

def lines_of(data):
    """What an input has between its newlines, and behind the last one, unless nothing is there."""
    lines = data.split(b'\n')
    return lines if lines[-1] else lines[:-1]


def number_length(data, most):
    """How many bytes at the front of the data are a number up to the given one; 0 if none is."""
    length = 0
    while length < len(data):
        text = data[:length + 1]
        if not text.isdigit() or (len(text) > 1 and text[:1] == b'0') or int(text) > most:
            break
        length += 1
    return length


def parse(line):
    """The command that a line spells and None; or None and the length of the longest part that begins a command."""
    letter = chr(line[0]) if line else ''
    if letter not in NUMBERS_OF:
        return None, 0
    at, numbers, call = 1, [], False
    for most in NUMBERS_OF[letter]:
        if line[at:at + 1] != b' ':
            return None, at
        at += 1
        length = number_length(line[at:at + 7], most)
        if length == 0:
            return None, at
        numbers.append(int(line[at:at + length]))
        at += length
    if letter in MEASURES and line[at:at + 1] == b' ':
        at += 1
        if line[at:at + 1] != b'v':
            return None, at
        at += 1
        call = True
    if at < len(line):
        return None, at
    return Command(letter, numbers, call), None


# Journeys

def can_follow(before, after):
    """Whether a traveller can go on from an event to a later one of the list."""
    return before.reaches == after.leaves and before.end <= after.time


def followers(events):
    """For each event, the numbers of the later ones that can follow it."""
    leaving = collections.defaultdict(list)
    for number, event in enumerate(events):
        leaving[event.leaves].append(number)
    return [[k for k in leaving[event.reaches] if k > number and can_follow(event, events[k])]
            for number, event in enumerate(events)]


def extended(events, following, out_of_force, query, most=MOST_WALKS):
    """Journeys that fit, and whether they are all.

    Walks begin with each event that may come first and go on by each that can follow; those with fewer events come
    first. After `most` walks the listing is cut off.
    """
    usable = [number not in out_of_force and event.end <= query.closes and (event.is_ride or query.call)
              for number, event in enumerate(events)]
    walks = collections.deque()

    def go_on(steps, calls, number):
        calls += not events[number].is_ride
        if usable[number] and calls <= 1:
            walks.append((steps + (number,), calls))

    for number, event in enumerate(events):
        if event.leaves == query.leaves and event.time >= query.opens:
            go_on((), 0, number)
    found, seen = [], 0
    while walks:
        if seen == most:
            return found, False
        seen += 1
        steps, calls = walks.popleft()
        if events[steps[-1]].reaches == query.reaches and calls == query.call and len(steps) > calls:
            found.append(list(steps))
        for number in following[steps[-1]]:
            go_on(steps, calls, number)
    return found, True


def lowest_scores(events, listed):
    """The lowest score under each measure, or None where no journey is listed."""
    if not listed:
        return None
    six = [lister.scores(events, steps)[4] for steps in listed]
    return [min(scores[m] for scores in six) for m in range(len(MEASURES))]


# The program

def refusal(number, layer, place):
    """The line that tells a fault."""
    return b'no %d %d %d' % (number, layer, place)


def told(events, steps):
    """The line that tells a journey."""
    begin, end, riding, rides, _ = lister.scores(events, steps)
    return b'go %d %d %d %d : ' % (begin, end, riding, rides) + b' '.join(b'%d' % step for step in steps)


GO = re.compile(rb'go [0-9]{1,7} [0-9]{1,7} [0-9]{1,7} [0-9]{1,7} :((?: [0-9]{1,7})+)')


def told_steps(answer):
    """The steps that a line tells, or None where it tells none."""
    match = GO.fullmatch(answer)
    return [int(step) for step in match[1].split()] if match else None


class Post:
    """A post with a day's events. It takes a line and the answer to it, judges the answer, and does what the line says.

    `named` has each answer that rightly named a journey, with the events then out of force, the query's letter, the
    query, and the lowest score; after a cut, the journey's own.
    """

    def __init__(self, data):
        """Opens the bytes of a file; None stands for a file that can't be opened."""
        self.events, self.fault = open_block(data or b'')
        self.out_of_force = set()
        self.following = followers(self.events)
        self.tried = lister.linked_lists(self.events) if len(self.events) <= MOST_TRIED else None
        self.listings = {}
        self.named = []

    def judge(self, line, answer):
        """The verdict on an answer: whether it is right, its kind, which listing told so, and what was wanted."""
        command, place = parse(line)
        if command is None:
            return self.same(answer, refusal(11, 4, place))
        if command.letter == 't':
            return self.same(answer, b'%d' % len(self.out_of_force))
        if command.letter in 'wr':
            return self.same(answer, self.notice(command))
        return self.judge_query(command, answer)

    def same(self, answer, wanted, listing=None):
        """The verdict where one answer alone is right."""
        words = wanted.decode().split()
        kind = 'tally' if words[0].isdigit() else ' '.join(words[:2])
        return Verdict(answer == wanted, kind, listing, wanted.decode())

    def notice(self, command):
        """Takes a notice: the answer to it."""
        number = command.numbers[0]
        if number >= len(self.events):
            return refusal(12, 5, number)
        if (number in self.out_of_force) == (command.letter == 'w'):
            return refusal(13, 5, number)
        self.out_of_force ^= {number}
        return b'ok'

    def judge_query(self, command, answer):
        """The verdict on an answer to a query."""
        leaves, reaches, opens, closes = command.numbers
        if leaves == reaches:
            return self.same(answer, refusal(14, 6, 0))
        if closes < opens or closes > lister.LAST_MINUTE:
            return self.same(answer, refusal(15, 6, 0))
        query = lister.Query(leaves, reaches, opens, closes, command.call)
        listing = self.listing(query)
        way = 'whole' if listing.whole else 'cut'
        none = refusal(18, 6, 0)
        if listing.lowest is None and (listing.whole or answer == none):
            return self.same(answer, none, way)
        lowest = listing.lowest and listing.lowest[MEASURES.index(command.letter)]
        return self.judge_journey(command, query, answer, lowest, way)

    def judge_journey(self, command, query, answer, lowest, way):
        """The verdict on an answer where a journey is wanted: with the given score or, after a cut, with a lower one."""
        wanted = 'go with score %s' % (lowest,) if lowest else 'go'
        steps = told_steps(answer)
        if steps is None or not lister.fits(self.events, self.out_of_force, query, steps):
            return Verdict(False, 'go', way, wanted + '; this tells no journey that fits')
        if told(self.events, steps) != answer:
            return Verdict(False, 'go', way, told(self.events, steps).decode())
        score = lister.scores(self.events, steps)[4][MEASURES.index(command.letter)]
        good = score == lowest if way == 'whole' else lowest is None or score <= lowest
        if good:
            wanted_score = lowest if way == 'whole' else score
            self.named.append(Named(frozenset(self.out_of_force), command.letter, query, answer, wanted_score))
        return Verdict(good, 'go', way, wanted + '; this one has %s' % (score,))

    def listing(self, query):
        """The lowest scores of the journeys that fit, and whether all of them were listed."""
        key = (frozenset(self.out_of_force), query.leaves, query.reaches, query.opens, query.closes, query.call)
        if key not in self.listings:
            listed, whole = extended(self.events, self.following, self.out_of_force, query)
            if self.tried is not None:
                tried = lister.journeys(self.events, self.out_of_force, query, self.tried)
                if not whole or sorted(listed) != sorted(tried):
                    raise AssertionError('the two listings differ: %s and %s' % (listed, tried))
                listed = tried
            self.listings[key] = Listing(lowest_scores(self.events, listed), whole)
        return self.listings[key]
