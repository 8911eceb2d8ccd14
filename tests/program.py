#!/usr/bin/env python3
"""Compares the program with the reference implementation, byte for byte.

usage: program.py [--count N] [--seed S]

The stored texts of tests/nets/cases, N seeded ones (3,000) and those of the named nets go through ./refine's program and through the reference; of the
seeded ones a third are OBJ texts, and about half of the others ask for letters. Then come inputs that no file can give: in small pieces, without end,
unreadable. The exit status is 1 if an answer differs, or if some letter of a text occurs in no answer.
"""
import argparse
import os
import pathlib
import subprocess
import sys
import tempfile
import time

ROOT = pathlib.Path(__file__).resolve().parent.parent
PROGRAM = ROOT / 'crates/gedrovit/out/gedrovit'
CASES = ROOT / 'tests/nets/cases'
CARGO = ['cargo', 'run', '--release', '--offline', '--quiet', '--manifest-path', str(ROOT / 'tests/Cargo.toml'), '-p']
SAMPLE = (CASES / 'paper-sample.txt').read_bytes()
ANSWER = (CASES / 'paper-sample.out').read_bytes()
# the same with letters, and without marks as OBJ text
LETTERED, OBJ = ([(CASES / f'{name}.{part}').read_bytes() for part in ('txt', 'out')] for name in ('rule-sample', 'obj-square'))
# all but S, which needs side counts
LETTERS = set('VABMCDE')
LIMIT = 32768


def answer(text):
    """What the program prints for a text; it must end well and say nothing on standard error."""
    done = subprocess.run([PROGRAM], input=text, capture_output=True, timeout=20)
    return done.stdout if done.returncode == 0 and not done.stderr else None


def different(folder):
    """The texts of a folder whose stored answer is not the program's."""
    return [path.name for path in sorted(folder.glob('*.txt')) if answer(path.read_bytes()) != path.with_suffix('.out').read_bytes()]


def answered(folder, *texts):
    """Texts of the generator with the reference's answers; returns how many."""
    subprocess.run([*CARGO, 'nets', '--', *texts, '--dir', str(folder)], check=True)
    subprocess.run([*CARGO, 'reference', '--', '--batch', str(folder / 'list')], check=True)
    return len((folder / 'list').read_text().splitlines())


def letters(folder):
    """How many stored answers have letters, and which."""
    with_letters = [lines for lines in (path.read_text().splitlines() for path in folder.glob('*.out')) if lines[2:3] == ['x y z corner rule']]
    return len(with_letters), {line[-1] for lines in with_letters for line in lines[3:lines.index('a b c d')]}


def obj_texts(folder):
    """How many texts of a folder are read as OBJ."""
    return sum(path.read_bytes().startswith(b'#') for path in folder.glob('*.txt'))


def in_pieces():
    """A text that arrives in pieces of a few bytes, with letters, without, and as OBJ."""
    return all(pieces(text) == due for text, due in ((SAMPLE, ANSWER), LETTERED, OBJ))


def pieces(text):
    program = subprocess.Popen([PROGRAM], stdin=subprocess.PIPE, stdout=subprocess.PIPE)
    for at in range(0, len(text), 7):
        program.stdin.write(text[at:at + 7])
        program.stdin.flush()
        time.sleep(0.002)
    return program.communicate(timeout=20)[0]


def endless():
    """An input without end is refused as too long, and the program does not wait for its end."""
    with open('/dev/zero', 'rb') as zeros:
        done = subprocess.run([PROGRAM], stdin=zeros, capture_output=True, timeout=20)
    return done.stdout == b'refusal place\n13 0\n'


def long_texts():
    """The longest text is read to its last line; one byte more is too long, whatever it says."""
    padded = [(text + b'0' * (LIMIT - len(text)), b'refusal place\n13 10\n') for text in (SAMPLE, LETTERED[0])]
    padded.append((OBJ[0].ljust(LIMIT - 1, b'#') + b'\n', OBJ[1]))
    return all(answer(text) == due and answer(text + b'\n') == b'refusal place\n13 0\n' for text, due in padded)


def unreadable():
    """A read that fails prints no answer and says why on standard error."""
    folder = os.open('/', os.O_RDONLY)
    try:
        done = subprocess.run([PROGRAM], stdin=folder, capture_output=True, timeout=20)
    finally:
        os.close(folder)
    return done.stdout == b'' and done.stderr.startswith(b'standard input: ')


def unwritable():
    """An answer that cannot be written is told on standard error."""
    with open('/dev/full', 'wb') as full:
        done = subprocess.run([PROGRAM], input=SAMPLE, stdout=full, stderr=subprocess.PIPE, timeout=20)
    return done.stderr.startswith(b'standard output: ')


def command():
    """./refine from another folder gives the answer and nothing else."""
    done = subprocess.run([ROOT / 'refine'], input=SAMPLE, stdout=subprocess.PIPE, cwd='/', timeout=600)
    return done.stdout == ANSWER and done.returncode == 0


def main():
    options = argparse.ArgumentParser()
    options.add_argument('--count', type=int, default=3000)
    options.add_argument('--seed', type=int, default=1)
    options = options.parse_args()
    failures = [f'stored text {name}' for name in different(CASES)]
    seed, made, lettered, obj = str(options.seed), [], [letters(CASES)], [obj_texts(CASES)]
    for texts in (['batch', '--seed', seed, '--count', str(options.count)], ['named', '--seed', seed]):
        with tempfile.TemporaryDirectory() as name:
            made.append(answered(pathlib.Path(name), *texts))
            lettered.append(letters(pathlib.Path(name)))
            obj.append(obj_texts(pathlib.Path(name)))
            failures += [f'nets {" ".join(texts)}, text {name}' for name in different(pathlib.Path(name))]
    failures += [f'letters in answers: {"".join(sorted(met))}' for _, met in lettered if met != LETTERS]
    checks = [in_pieces, endless, long_texts, unreadable, unwritable, command]
    failures += [check.__doc__.split('\n')[0] for check in checks if not check()]
    for failure in failures[:20]:
        print(f'program: NOT as it must be: {failure}')
    stored = len(list(CASES.glob('*.txt')))
    counts = ' and '.join(str(count) for count, _ in lettered)
    print(f'program: {stored} stored and {made[0]} seeded texts, {obj[0]} and {obj[1]} of them OBJ, {made[1]} of named nets, {counts} answers with letters, '
          f'{len(checks)} ways of input and output: {len(failures)} failures')
    return 1 if failures else 0


if __name__ == '__main__':
    sys.exit(main())
