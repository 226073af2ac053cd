"""Tries wrong edits in a scratch copy of the repository, by the toolchain's own commands."""
import hashlib
import os
import pathlib
import re
import shutil
import subprocess
import tempfile
from dataclasses import dataclass

SECONDS = 120

# What rt must-fail says of an edit, up to what it says next.
SAID = re.compile(r'^rt: must-fail \w+/p(\w+)\.edit: (refused, as it must be|NOT REFUSED|BAD EDIT|NOT TRIED)(.*?)(?=^rt: |\Z)', re.M | re.S)
LITTLE = '(only '
PLACES = re.compile(r'(src/\w+\.rt):(\d+):\d+|proofs/([\w/]+)\.antt')

REFUSED, MISSED, BAD, UNTRIED = 'refused', 'NOT REFUSED', 'bad edit', 'not tried'
FOUND, LOST = 'found', 'NOT FOUND'


@dataclass(frozen=True)
class Verdict:
    what: str
    # Where the first error was, or which run found it.
    by: str = ''


class Scratch:
    """A clone of the repository's last commit in a folder that goes when it is left."""

    def __init__(self, root, jobs):
        self.folder = pathlib.Path(tempfile.mkdtemp(prefix='plant-bugs-'))
        self.root = self.folder / 'copy'
        self.crates = self.root / 'crates'
        subprocess.run(['git', 'clone', '-q', root, self.root], check=True)
        # rt runs as many checks side by side.
        self.world = {**os.environ, 'RT_JOBS': str(jobs)}

    def __enter__(self):
        return self

    def __exit__(self, *_):
        shutil.rmtree(self.folder, ignore_errors=True)

    def run(self, name, *words, given=None):
        """Runs a command in the folder of a crate, and tells its status and what it printed."""
        done = subprocess.run(words, cwd=self.crates / name, env=self.world, input=given, stdin=None if given else subprocess.DEVNULL,
                              stdout=subprocess.PIPE, stderr=subprocess.STDOUT)
        return done.returncode, done.stdout.decode(errors='replace')

    def check(self, name):
        status, said = self.run(name, 'rt', 'check')
        if status:
            raise SystemExit('%s is not proved as it stands:\n%s' % (name, said[-2000:]))

    # By the proof

    def must_fail(self, crate, edits):
        """Whether each of these edits, by their numbers, is refused by the prover."""
        folder = self.crates / crate.name / 'must-fail'
        shutil.rmtree(folder, ignore_errors=True)
        folder.mkdir()
        # Named by their texts, under which rt keeps what an edit came to, for a later run.
        names = {number: hashlib.sha256(edit.text().encode()).hexdigest()[:12] for number, edit in edits.items()}
        for number, edit in edits.items():
            (folder / f'p{names[number]}.edit').write_text(edit.text())
        _, said = self.run(crate.name, 'rt', 'must-fail', crate.name)
        told = {name: verdict_of(what, more, crate) for name, what, more in SAID.findall(said)}
        return {number: told.get(name, Verdict(UNTRIED, said[-200:])) for number, name in names.items()}

    # By a run

    def builds(self, name):
        """Whether a program is proved and built as it stands, and what was said."""
        program = self.crates / name / 'out' / name
        program.unlink(missing_ok=True)
        _, said = self.run(name, 'rt', 'run')
        return program.exists(), said

    def prints_as_stored(self, name):
        """Whether a program that is built prints what is stored, on the input that is stored."""
        folder = self.crates / name
        given = folder / 'stdin'
        room = pathlib.Path(tempfile.mkdtemp(dir=self.folder))
        if (folder / 'data').is_dir():
            shutil.copytree(folder / 'data', room, dirs_exist_ok=True)
        with open(given if given.exists() else os.devnull, 'rb') as told:
            try:
                done = subprocess.run([folder / 'out' / name], cwd=room, stdin=told, capture_output=True, timeout=SECONDS)
            except subprocess.TimeoutExpired:
                return False
        return done.returncode == 0 and done.stdout == (folder / 'stdout').read_bytes()

    def observed(self, name, programs, edit):
        """What the tests of a crate and these programs, among them maybe its own, say of an edit of its sources."""
        file = self.crates / name / edit.file
        text = file.read_text()
        file.write_text(text.replace(edit.old, edit.new))
        try:
            return next((it for it in self.observations(name, programs) if it), Verdict(LOST))
        finally:
            file.write_text(text)

    def observations(self, name, programs):
        """What the check, the tests and each program find, one after another; None for nothing."""
        for program in [name] if name in programs else []:
            yield self.run_of(program, name)
        if name not in programs:
            status, said = self.run(name, 'rt', 'test')
            yield failure(name, 'its tests', said) if status else None
        for program in [it for it in programs if it != name]:
            yield self.run_of(program, name)

    def run_of(self, program, name):
        is_built, said = self.builds(program)
        if not is_built:
            return failure(name, program, said)
        return None if self.prints_as_stored(program) else Verdict(FOUND, f'output of {program}')


def failure(name, what, said):
    """Why a crate or what stands on it does not run: the edit does not compile, is not proved, or fails a test."""
    if re.search(r'\berror\[[\w-]+\]', said):
        return Verdict(BAD, first_error(said))
    if 'not-proved' in said:
        return Verdict(REFUSED, first_error(said))
    return Verdict(FOUND, what)


def first_error(said):
    lines = [it for it in said.strip().split('\n') if re.search(r'\berror\b|^note: ', it)] or said.strip().split('\n')
    return lines[0][:160]


def verdict_of(what, more, crate):
    """The verdict that a line of `rt must-fail` tells, with the function in which the first error is."""
    if what == 'NOT REFUSED':
        return Verdict(MISSED)
    if what == 'BAD EDIT':
        return Verdict(BAD, first_error(more))
    if what == 'NOT TRIED':
        return Verdict(UNTRIED, more[:160])
    # A refusal by a name that is gone or by a limit of the prover says little of the contract.
    return Verdict(BAD if more.lstrip().startswith(LITTLE) else REFUSED, place_of(more, crate))


def place_of(said, crate):
    """The function in which an error is, or the lemma's file."""
    found = PLACES.search(said)
    if not found:
        return said[:160]
    if found[1]:
        return crate.function_at(found[1], int(found[2])) or f'{found[1]}:{found[2]}'
    return re.sub(r'/(Answers|Invariants|Proof)$', '', found[3])
