"""Reads a crate's Rattle sources: its functions with what is promised of them, and the tokens of a line.

Line by line, and by the indentation that `rt fmt` gives.
"""
import re
from dataclasses import dataclass, replace

TOKEN = re.compile(r'''
    (?P<comment>//.*)
  | (?P<string>b?"(?:\\.|[^"\\])*")
  | (?P<char>b?'(?:\\.|[^'\\])')
  | (?P<lifetime>'\w+)
  | (?P<number>\d[\d_]*(?:[iu](?:8|16|32|64|128|size))?)
  | (?P<word>[A-Za-z_]\w*)
  | (?P<mark>::|->|=>|\.\.=|\.\.|&&|\|\||[-+*/%]=|<<|<=|>=|==|!=|\S)
''', re.X)

CLAUSE = re.compile(r'\s*(pub )?(ghost|requires|ensures)\b')
FN = re.compile(r'(\s*)(?:pub(?:\(\w+\))? )?(?:extern "C" )?fn (\w+)')
BLOCK = re.compile(r'(\s*)(?:pub(?:\(\w+\))? )?(impl\b|trait\b|mod\b).*\{$')
DECLARATION = re.compile(r'^(?:pub(?:\(\w+\))? )?(struct|enum) (\w+)[^;{(]*\{\n(.*?)^\}', re.M | re.S)
VARIANT = re.compile(r'^    (\w+)(?: (\{[^}]*\})|(\([^)]*\)))?(?: = \d+)?,$', re.M)
FIELD = re.compile(r'(\w+): ((?:\([^)]*\)|[^,{}\n])+)')

RESULT = re.compile(r'\bfn (\w+).*-> (.+?)(?: \{)?$', re.M)

KEYWORDS = ('let', 'for', 'in', 'if', 'while', 'match', 'return', 'true', 'false', 'else', 'self')

OPENING, CLOSING = '([{', ')]}'


@dataclass(frozen=True)
class Token:
    kind: str
    text: str
    start: int
    end: int


@dataclass(frozen=True)
class Function:
    file: str
    name: str
    # The lines from its attributes on, the lines of its body alone, and whether a contract says anything of it. Lines are counted from 0.
    lines: range
    body: range
    is_promised: bool
    gives: str
    # The variables, each with its type, or '' where none is in sight.
    variables: dict


def tokens(line):
    found = [Token(it.lastgroup, it[0], it.start(), it.end()) for it in TOKEN.finditer(line)]
    return [it for it in found if it.kind != 'comment']


def closing(row, at):
    """Where the bracket that opens at a place of a row of tokens is closed, or None if it is not on this line."""
    depth = 0
    for place in range(at, len(row)):
        if row[place].kind == 'mark':
            depth += (row[place].text in OPENING) - (row[place].text in CLOSING)
        if depth == 0:
            return place
    return None


def is_balanced(text):
    depths, depth = [], 0
    for token in tokens(text):
        if token.kind == 'mark':
            depth += (token.text in OPENING) - (token.text in CLOSING)
            depths.append(depth)
    return depth == 0 and min(depths, default=0) >= 0


def parts(text):
    """What stands between the commas of a list, those within brackets aside."""
    found, depth = [''], 0
    for letter in text:
        depth += (letter in '([{<') - (letter in ')]}>')
        if letter == ',' and depth == 0:
            found.append('')
        else:
            found[-1] += letter
    return [it.strip() for it in found if it.strip()]


def without_generics(text):
    kept, depth = '', 0
    for at, letter in enumerate(text):
        depth += letter == '<'
        if depth == 0:
            kept += letter
        depth -= letter == '>' and text[at - 1] != '-'
    return kept


def end_of(lines, first, indent):
    """The line that closes the block whose header is indented so."""
    return next(at for at in range(first, len(lines)) if lines[at].startswith(indent + '}'))


@dataclass(frozen=True)
class Block:
    """An impl, a trait or a module within a file."""
    head: str
    lines: range
    has_ghosts: bool

    def is_test(self):
        return self.head.startswith('mod ')

    def owner(self):
        return re.split(r'^impl | for |^(?:pub )?trait ', without_generics(self.head))[-1].removesuffix(' {')


def blocks_of(lines):
    found = []
    for at, line in enumerate(lines):
        head = BLOCK.match(line)
        if head:
            within = range(at, end_of(lines, at, head[1]))
            ghosts = any(CLAUSE.match(it) for it in lines[at:within.stop] if 'ghost use ' not in it and re.match(r'\s*ghost', it))
            found.append(Block(line.strip(), within, ghosts))
    return found


def body_of(lines, at, indent):
    """The lines of the body of the function whose header begins here; none where it is empty or missing."""
    for here in range(at, len(lines)):
        line = lines[here]
        if line == indent + '{' or (line.endswith(' {') and not CLAUSE.match(line)):
            return range(here + 1, end_of(lines, here + 1, indent))
        if line.endswith(('{}', ';')):
            return range(here, here)
    raise ValueError('a function without an end')


def parameters(header):
    """The parameters of a header with their types, and the type of the result."""
    header = header[header.index('fn '):]
    row = tokens(header)
    first = next(at for at, it in enumerate(row) if it.text == '(')
    last = closing(row, first)
    found = {}
    for part in parts(header[row[first].end:row[last].start]):
        names, _, kind = part.partition(': ')
        found[names.split()[-1].lstrip('&')] = kind
    found.pop('self', None)
    rest = header[row[last].end:].split(' where ')[0]
    return found, rest.replace('->', '').strip()


def bound_names(row):
    """The names that a pattern binds."""
    return [it.text for at, it in enumerate(row) if it.kind == 'word' and it.text[0].islower() and it.text not in ('mut', 'ref')
            and not (at + 1 < len(row) and row[at + 1].text in ('::', ':', '(', '!')) and not (at and row[at - 1].text in ('.', '::'))]


def pattern_end(row):
    """How many tokens at the start of a line are a pattern, which binds, or a label, and read nothing."""
    words = [it.text for it in row]
    for start, stop in (('let', '='), ('for', 'in')):
        if start in words and stop in words:
            return words.index(stop)
    if '=>' in words:
        return words.index('if') if 'if' in words[:words.index('=>')] else words.index('=>')
    return 0


def names_bound_by(line):
    """The names that a line binds: by a pattern, by a closure, or as one of many lines of a pattern."""
    row = tokens(line)
    names = bound_names(row[:pattern_end(row)])
    for closure in re.findall(r'[( ]\|([^|]+)\|', line):
        names += bound_names(tokens(closure))
    if re.fullmatch(r'\s*\w+,', line):
        names += bound_names(row[:1])
    return [it for it in names if it not in KEYWORDS]


def guessed(value, known, results):
    """The type of the value of a `let`, where it is easily told: a number, another variable, or a call of a function of the crate."""
    call = re.match(r'(\w+)(?:::<.*>)?\(', value)
    if call and call[1] in results:
        return re.sub(r'^(?:Option|Result)<([^,]*).*>$', r'\1', results[call[1]]) if value.endswith('?') else results[call[1]]
    if re.match(r'\d|.*\.len\(\)|.* [-+*/] ', value):
        return 'usize'
    return known.get(value.lstrip('*'), '').removeprefix('&').removeprefix('mut ')


def variables_of(lines, body, given, field_types, results):
    """The variables of a function with their types, where a type is told, guessed, or that of every field of the name."""
    found = dict(given)
    for line in lines[body.start:body.stop]:
        told = re.search(r'let (?:mut )?\w+: ([^=]+) =', line)
        let = re.search(r'let (?:mut )?\w+ = (.+);$', line)
        for name in names_bound_by(line):
            found.setdefault(name, told[1] if told else let and guessed(let[1], found, results) or field_types.get(name, ''))
    return found


def results_of(texts):
    """The types of what the functions of a crate give, by their last names."""
    return {name: gives for text in texts for name, gives in RESULT.findall(text)}


def header_of(lines, at, body):
    told = [it.strip() for it in lines[at:max(body.start, at + 1)] if not CLAUSE.match(it)]
    return ' '.join(told).rstrip('{} ;')


def with_attributes(lines, at):
    """The first line of an item whose header is at a line: that of its first attribute, if it has one."""
    while lines[at - 1].strip().startswith('#['):
        at -= 1
    return at


def functions_of(file, text, field_types, results):
    """The functions of a file that have a body, but for those of `mod tests`."""
    lines, found = text.split('\n'), []
    blocks = blocks_of(lines)
    for at, line in enumerate(lines):
        head = FN.match(line)
        around = [it for it in blocks if at in it.lines]
        body = head and body_of(lines, at, head[1])
        if not body or any(it.is_test() for it in around):
            continue
        given, gives = parameters(header_of(lines, at, body))
        ensured = any(re.match(r'\s*ensures\b', it) for it in lines[at:body.start])
        by_trait = any(it.has_ghosts and ' for ' in it.head for it in around)
        name = '::'.join([*(it.owner() for it in around), head[2]])
        variables = variables_of(lines, body, given, field_types, results)
        found.append(Function(file, name, range(with_attributes(lines, at), body.stop), body, ensured or by_trait, gives, variables))
    return found


class Types:
    """The structs and enums of all crates: the fields of each with their types, and the cases of each enum with their shapes."""

    def __init__(self, texts):
        self.fields, self.cases = {}, {}
        for text in texts:
            plain = '\n'.join(it for it in text.split('\n') if not CLAUSE.match(it) and not it.strip().startswith(('//', '#')))
            for kind, name, inside in DECLARATION.findall(plain):
                self.fields[name] = {field: of.strip() for field, of in FIELD.findall(inside)}
                if kind == 'enum':
                    self.cases[name] = {case: tuple(FIELD.findall(named)) or row for case, named, row in VARIANT.findall(inside)}

    def by_name(self):
        """For each name of a field its type, or '' where fields of this name differ in it."""
        found = {}
        for fields in self.fields.values():
            for name, kind in fields.items():
                found[name] = kind if found.get(name, kind) == kind else ''
        return found


class Crate:
    """A crate's sources."""

    def __init__(self, folder, types):
        self.name = folder.name
        self.texts = {f'src/{it.name}': it.read_text() for it in sorted(folder.glob('src/*.rt'))}
        self.types = types
        by_name, results = types.by_name(), results_of(self.texts.values())
        self.functions = [it for file, text in self.texts.items() for it in functions_of(file, text, by_name, results)]
        if self.name.endswith('_tests'):
            # Proved only together with its tests, so that these tell.
            self.functions = [replace(it, is_promised=False) for it in self.functions]

    def function_at(self, file, line):
        """The name of the function at a line, counted from 1."""
        return next((it.name for it in self.functions if it.file == file and line - 1 in it.lines), None)
