"""What tools/goals and tools/edits share: the repository, a run of the check, and its errors in short."""
import argparse
import os
import re
import signal
import subprocess
import sys
from pathlib import Path
from typing import NamedTuple

ROOT = Path(__file__).resolve().parent.parent

# A module's path before a name, as `mathlib.Core.Path.` of `mathlib.Core.Path.◌≡◌`: its last part is in capitals, or it is a module that the check
# makes. A field of a record, as in `c.args.x`, is neither.
QUALIFIER = re.compile(r"(?<![\w.'«/-])(?:(?:[A-Za-z][\w'+-]*\.)+[A-Z][\w']*\.|Rattle\.(?:[\w+-]+\.)+|[A-Z][\w']*\.)(?=[^\W\d]|_|\[|«|⟦|◌)")
# What every place's record takes: the callees' contracts, the function's own, and its loops'.
PARAMETERS = re.compile(r'\s+the-claims\s+Pre\s+Post\b(?:\s+the-(?:invariant|decreases)-[^\s)]+)*')
ERROR = re.compile(r'(?P<file>\S+?):(?P<line>\d+):\d+: error(?:\[[\w-]+\])?: (?P<text>.*)', re.S)
# Where two types differ: as they are written, and then as they compute.
PLACE = re.compile(r'the two types (?:first differ|differ only) where one has `([^`]+)` \(expected\).*? and the other has `([^`]+)`')
# Before some causes antt says what to do.
ADVICE = re.compile(r'give a proof of that as the last argument.*? to the list ')
LONGEST_CODE = 90
LONGEST_CAUSE = 300


class Problem(NamedTuple):
    """An error of the check: where it stands, the declaration that it refuses, and what it says."""
    file: str
    line: str
    name: str
    text: str

    @property
    def follows(self):
        """It only says that something which it needs was refused."""
        return bool(re.search(r'was (not admitted|rejected)', self.text))

    def __str__(self):
        return f'{self.file}:{self.line}: {cause(self.text)}'


def die(message):
    """Ends with a message: wrong use, or no check was possible."""
    print(f'{Path(sys.argv[0]).name}: {message}', file=sys.stderr)
    sys.exit(2)


def parser(description, epilog):
    return argparse.ArgumentParser(description=description, epilog=epilog, usage=argparse.SUPPRESS,
                                   formatter_class=argparse.RawDescriptionHelpFormatter)


def crates():
    """The crates that crates.txt lists."""
    lines = [line.split('#')[0] for line in (ROOT / 'crates.txt').read_text().splitlines()]
    return [line.split(':')[0].split()[0] for line in lines if ':' in line]


def crate_folder(name):
    if name not in crates():
        die(f'crates.txt lists no crate {name}; it lists {", ".join(crates())}')
    return ROOT / 'crates' / name


def check(crate, log, *words, limits=False):
    """Runs `rt check` in a crate's folder and keeps what it prints in a file of target/: its status, and the text. Status 3, that
    the prover met a limit of its own, is an answer only where `limits` says so."""
    try:
        run = subprocess.Popen(['rt', 'check', *words], cwd=crate_folder(crate), text=True, start_new_session=True,
                               stdout=subprocess.PIPE, stderr=subprocess.STDOUT)
    except FileNotFoundError:
        die("there is no `rt` on the path: it is the Rattle kit's")
    try:
        text = run.communicate()[0]
    except BaseException:
        os.killpg(run.pid, signal.SIGKILL)
        run.wait()
        raise
    log = ROOT / 'target' / log
    log.parent.mkdir(parents=True, exist_ok=True)
    log.write_text(text)
    below = re.search(r'^rt: the library (\S+) did not build', text, re.M)
    if below or run.returncode not in ((0, 1, 3) if limits else (0, 1)):
        said = re.search(r'^rattle: (?:error: )?(.*)', text, re.M)
        reason = (f'what it stands on is not proved: {below[1]}' if below
                  else said[1] if said else f'rt ended with status {run.returncode}')
        die(f'{crate} was not checked: {reason}. See {log.relative_to(ROOT)}')
    return run.returncode, text


def blocks(text):
    """The parts of what the check prints: a line, and the indented ones below it."""
    return re.split(r'\n(?=\S)', text)


def relative(crate, path):
    """A file's path below the repository; the check names it from the crate's folder on."""
    return os.path.relpath(crate_folder(crate) / path, ROOT)


def problems(crate, text):
    """The errors, in the order in which they are printed."""
    found = []
    for match in filter(None, map(ERROR.match, blocks(text))):
        said = ' '.join(match['text'].split())
        name = re.match(r'`([^`]+)`: ', said)
        found.append(Problem(relative(crate, match['file']), match['line'], name.group(1) if name else '', said))
    return found


def of_function(file):
    """Whether a file is a part of one function's proof, and no lemma's or definition's."""
    return '/proofs/' in file and Path(file).name in ('Answers.antt', 'Invariants.antt', 'Proof.antt')


def brief(text):
    """A term or a goal without the modules' paths and the parameters of a place's record."""
    return PARAMETERS.sub('', QUALIFIER.sub('', text))


def cause(text):
    """One line of an error: what it says first, or the two types that differ, and where omega's goal fails."""
    text = ADVICE.sub('', text)
    name = re.match(r'`[^`]+`: ', text)
    places = PLACE.findall(text)
    differ = f'`{places[-1][0]}` is expected, and `{places[-1][1]}` found' if places else re.search(r'expected type .*', text)
    fails = re.search(r'the goal fails, at .*?(?=\. It read|$)', text)
    if differ:
        said = (name.group() if name else '') + (differ if places else differ.group())
    else:
        said = re.split(r'(?<=\w)\. (?=[A-Z])', text)[0]
    if fails and fails.group() not in said:
        said += '; ' + fails.group()
    said = re.sub(r'`[^`]*`', lambda code: code.group() if len(code.group()) <= LONGEST_CODE else '`..`', brief(said))
    return said if len(said) <= LONGEST_CAUSE else said[:LONGEST_CAUSE] + ' ..'
