"""Makes small wrong edits of a crate's sources, one line each, and takes a sample of them.

Each kind of edit is a function from a place, which is a line of a function's body, to the lines that may stand there instead.
"""
import itertools
import random
import re
from dataclasses import dataclass

from planting.source import KEYWORDS, Function, closing, is_balanced, names_bound_by, parts, pattern_end, tokens

COMPARISONS = {'<': ('<=', '>'), '<=': ('<', '>='), '>': ('>=', '<'), '>=': ('>', '<='), '==': ('!=', '>='), '!=': ('==', '<=')}
CONNECTIVES = {'&&': '||', '||': '&&'}
OPERATIONS = {'+': '-', '-': '+', '*': '+', '/': '*', '%': '/', '+=': '-=', '-=': '+=', '<<': '>>'}
METHODS = {'min': 'max', 'first': 'last', 'any': 'all', 'is_some': 'is_none', 'is_ok': 'is_err', 'take': 'skip',
           'saturating_add': 'saturating_sub', 'wrapping_add': 'wrapping_sub', 'is_some_and': 'is_none_or'}
METHODS |= {other: one for one, other in METHODS.items()}


@dataclass(frozen=True)
class Edit:
    kind: str
    file: str
    # Counted from 1.
    line: int
    function: str
    old: str
    new: str

    def text(self):
        """As a must-fail edit."""
        return f'file: {self.file}\nold: {self.old}\nnew: {self.new}\n'


@dataclass(frozen=True)
class Place:
    function: Function
    lines: list
    at: int
    row: list
    types: object

    @property
    def line(self):
        return self.lines[self.at]

    @property
    def indent(self):
        return re.match(' *', self.line)[0]

    def read(self):
        """The places in the row of the tokens that are read, and bind nothing."""
        return range(pattern_end(self.row), len(self.row))

    def with_token(self, at, text):
        return self.line[:self.row[at].start] + text + self.line[self.row[at].end:]

    def text_at(self, at):
        return self.row[at].text if 0 <= at < len(self.row) else ''

    def is_binary(self, at):
        """Whether the token at a place of the row stands between two operands."""
        around = self.line[self.row[at].start - 1], self.line[self.row[at].end:][:1]
        return around == (' ', ' ') and at > 0 and self.text_at(at - 1) not in ('(', ',', '=', '=>', '{', 'return')


# The kinds

def comparison(place):
    for at in place.read():
        if place.text_at(at) in COMPARISONS and place.is_binary(at):
            for other in COMPARISONS[place.text_at(at)]:
                yield place.with_token(at, other)


def constant(place):
    for at, token in enumerate(place.row):
        if token.kind == 'number' and place.text_at(at - 1) != '.':
            digits, suffix = re.fullmatch(r'([\d_]+)(.*)', token.text).groups()
            number = int(digits.replace('_', ''))
            for other in (number + 1, number - 1):
                if other >= 0:
                    yield place.with_token(at, f'{other}{suffix}')
        elif token.kind == 'char' and token.text[-3:-2] == "'":
            yield place.with_token(at, token.text[:-2] + chr(ord(token.text[-2]) + 1) + "'")


def connective(place):
    for at in place.read():
        if place.text_at(at) in CONNECTIVES and place.is_binary(at):
            yield place.with_token(at, CONNECTIVES[place.text_at(at)])
        is_macro = at > 0 and place.row[at - 1].kind == 'word' and place.row[at - 1].end == place.row[at].start
        if place.text_at(at) == '!' and not is_macro:
            yield place.with_token(at, '')


def arithmetic(place):
    for at in place.read():
        if place.text_at(at) in OPERATIONS and place.is_binary(at):
            yield place.with_token(at, OPERATIONS[place.text_at(at)])


def truth(place):
    for at in place.read():
        if place.text_at(at) in ('true', 'false'):
            yield place.with_token(at, 'false' if place.text_at(at) == 'true' else 'true')


def method(place):
    for at in place.read():
        if place.text_at(at) in METHODS and place.text_at(at - 1) == '.' and place.text_at(at + 1) == '(':
            yield place.with_token(at, METHODS[place.text_at(at)])


def lists_in(place):
    """The argument lists, tuples and arrays of a line: where the inside begins and ends, and how many parts come before those to be swapped."""
    for at in place.read():
        end = closing(place.row, at) if place.text_at(at) in ('(', '[') else None
        if end is None or place.text_at(at - 1) == '!' and place.text_at(at - 2) != 'write':
            continue
        yield place.row[at].end, place.row[end].start, 2 * (place.text_at(at - 1) == '!')


def may_swap(one, other, kinds):
    """Whether two arguments differ, and not in their types as far as these are in sight."""
    told = [kinds.get(it) or it.startswith('&') and '&' for it in (one, other)]
    return one != other and (not all(told) or '&' in told and told[0][0] == told[1][0] or told[0] == told[1])


def swapped(place):
    for start, end, fixed in lists_in(place):
        listed = parts(place.line[start:end])
        if ', '.join(listed) != place.line[start:end]:
            continue
        for one, other in itertools.combinations(range(fixed, len(listed)), 2):
            if may_swap(listed[one], listed[other], place.function.variables) and (other == one + 1 or len(listed) < 5):
                turned = list(listed)
                turned[one], turned[other] = listed[other], listed[one]
                yield place.line[:start] + ', '.join(turned) + place.line[end:]


def begins_statement(place):
    """Whether the line before ends a statement or begins a block."""
    before = next((it for it in reversed(place.lines[:place.at]) if not it.strip().startswith('//')), '')
    return before.endswith((';', '{', '}'))


def dropped(place):
    text = place.line.strip()
    is_write = re.match(r'let _ = ', text) or not re.match(r'(let|return|const|use|break|continue)\b', text)
    # An assertion that is left out says nothing of the code.
    is_assertion = text.startswith('assert')
    if text.endswith(';') and is_write and not is_assertion and is_balanced(text) and begins_statement(place):
        yield place.indent + '{}'
    arm = re.fullmatch(r'( *.+ =>) (?:.* [-+]?= .*|.*\)\?),', place.line)
    if arm and is_balanced(place.line):
        yield arm[1] + ' {}'


def arm_of(line):
    """The two sides of an arm that is whole on its line, or None."""
    found = re.fullmatch(r'( *\S.* => )(.+),', line)
    return found.groups() if found and is_balanced(line) else None


def case(place):
    """Another arm's or branch's value, none in place of some, and an early return that is left out."""
    yield from neighbours_value(place)
    yield from other_branch(place)
    for at in place.read():
        end = closing(place.row, at + 1) if place.text_at(at) == 'Some' and place.text_at(at + 1) == '(' else None
        if end and place.text_at(end + 1) not in ('=', '=>', '|', 'if'):
            yield place.line[:place.row[at].start] + 'None' + place.line[place.row[end].end:]
    text = place.line.strip()
    if text.startswith('return') and text.endswith(';') and is_balanced(text):
        yield place.indent + '{}'
    is_last = place.at == place.function.body.stop - 1
    if is_last and place.function.gives.startswith('Option<') and begins_statement(place) and is_balanced(text):
        yield place.indent + 'None'


def neighbours_value(place):
    arm = arm_of(place.line)
    for near in (place.at - 1, place.at + 1):
        other = arm and arm_of(place.lines[near])
        if other and other[1] != arm[1]:
            yield f'{arm[0]}{other[1]},'


def other_branch(place):
    within = re.fullmatch(r'(.*\bif .+) \{ (.+) \} else \{ (.+) \}(.*)', place.line)
    if within:
        for value in within[2], within[3]:
            yield '%s { %s } else { %s }%s' % (within[1], value, value, within[4])
    at, lines = place.at, place.lines
    if lines[at + 1].strip() == '} else {' and re.search(r'\bif .* \{$', lines[at - 1]) and lines[at + 3].strip().startswith('}'):
        yield lines[at + 2]
    if lines[at - 1].strip() == '} else {' and re.search(r'\bif .* \{$', lines[at - 3]) and lines[at + 1].strip().startswith('}'):
        yield lines[at - 2]


def variant(place):
    """Another case of the same enum, of the same shape, where a value is made."""
    for at in place.read():
        cases = place.types.cases.get(place.text_at(at - 2), {}) if place.text_at(at - 1) == '::' else {}
        name = place.text_at(at)
        if name in cases:
            alike = [it for it in cases if cases[it] == cases[name]]
            where = alike.index(name)
            for other in {alike[where - 1], alike[(where + 1) % len(alike)]} - {name}:
                yield place.with_token(at, other)


def are_alike(one, other, kinds):
    """Whether two variables have a type in common, or a word of their names."""
    same_type = kinds[one] != '' and kinds[one] == kinds[other]
    words = {it for it in one.split('_') if len(it) > 2} & set(other.split('_'))
    return same_type or bool(words) or (len(one) > 3 and one[:4] == other[:4])


def names_before(place):
    """The variables that may be in sight at a place."""
    lines = place.lines[place.function.body.start:place.at + 1]
    bound = {name for line in lines for name in names_bound_by(line)}
    body = {name for line in place.lines[place.function.body.start:place.function.body.stop] for name in names_bound_by(line)}
    return [it for it in place.function.variables if it in bound or it not in body]


def stale(place):
    """Another variable, or another field, of the same type or a like name."""
    kinds = place.function.variables
    for at in place.read():
        name, before, after = place.text_at(at), place.text_at(at - 1), place.text_at(at + 1)
        if before == '.' and after not in ('(', '::'):
            yield from (place.with_token(at, it) for it in other_fields(name, owners_of(place, at - 2)))
        elif name in kinds and name not in KEYWORDS and before not in ('.', '::') and after not in ('(', '::', '!', ':'):
            label = f'{name}: ' if is_shorthand(place, at) else ''
            yield from (place.with_token(at, label + it) for it in names_before(place) if it != name and are_alike(name, it, kinds))


def is_shorthand(place, at):
    """Whether a name stands for a field and its value: alone on its line, or between the braces behind a type."""
    open_at = next((it for it in range(at, -1, -1) if place.text_at(it) in ('(', '[', '{') and (closing(place.row, it) or 0) > at), -1)
    in_braces = place.text_at(open_at) == '{' and place.text_at(open_at - 1)[:1].isupper()
    return bool(re.fullmatch(r' *\w+,', place.line)) or in_braces and place.text_at(at - 1) in ('{', ',')


def owners_of(place, at):
    """The fields of the struct that the variable at a place of the row is, or of each struct where its type is not in sight."""
    name = place.text_at(at)
    kind = place.function.name.split('::')[0] if name == 'self' else place.function.variables.get(name, '')
    owner = re.sub(r'^&?(?:mut )?|<.*', '', kind)
    return [place.types.fields[owner]] if owner in place.types.fields else list(place.types.fields.values())


def other_fields(name, owners):
    if name in ('0', '1'):
        yield '1' if name == '0' else '0'
    for fields in owners:
        if name in fields:
            yield from (it for it in fields if it != name and fields[it] == fields[name])


KINDS = {'comparison': comparison, 'constant': constant, 'connective': connective, 'arithmetic': arithmetic, 'truth': truth, 'method': method,
         'swapped': swapped, 'dropped': dropped, 'case': case, 'variant': variant, 'stale': stale}


# All edits, and a sample

def places_of(crate, is_promised):
    """The lines of code in bodies of functions of which a contract says something, or of which none does."""
    for function in crate.functions:
        lines = crate.texts[function.file].split('\n')
        for at in function.body if function.is_promised == is_promised else ():
            row = tokens(lines[at])
            if row and row[0].text != '#' and not re.match(r' *ghost\b', lines[at]) and crate.texts[function.file].count(lines[at]) == 1:
                yield Place(function, lines, at, row, crate.types)


def edits_of(crate, is_promised):
    """All edits of a crate, each once."""
    found = {}
    for place in places_of(crate, is_promised):
        for kind, make in KINDS.items():
            for new in make(place):
                edit = Edit(kind, place.function.file, place.at + 1, place.function.name, place.line, new)
                if new != place.line:
                    found.setdefault((edit.file, edit.line, new), edit)
    return list(found.values())


class Sample:
    """Edits in the order in which they are to be tried: each time one whose kind, function and line are the least tried so far."""

    def __init__(self, edits, seed):
        self.left = sorted(edits, key=lambda it: (it.file, it.line, it.new))
        random.Random(seed).shuffle(self.left)

    def take(self, count, tried):
        """So many further edits, beside those that were tried."""
        taken = []
        while self.left and len(taken) < count:
            taken.append(min(self.left, key=lambda it: weight(it, [*tried, *taken])))
            self.left.remove(taken[-1])
        return taken


def weight(edit, tried):
    kinds = sum(it.kind == edit.kind for it in tried)
    functions = sum((it.file, it.function) == (edit.file, edit.function) for it in tried)
    lines = sum((it.file, it.line) == (edit.file, edit.line) for it in tried)
    return kinds + functions + 3 * lines
