#!/usr/bin/env python3
"""Tests the script ./refine: inputs, outputs, exit status, messages, links and folders, and what a first build shows;
then every command that README.md shows, the texts that docs/FORMS.md shows, and the links of the documents.

The exit status is 1 if a check fails.
"""
import os
import pathlib
import pty
import re
import shutil
import subprocess
import sys
import tempfile

ROOT = pathlib.Path(__file__).resolve().parent.parent
REFINE = ROOT / 'refine'
NET = ROOT / 'tests/nets/cases/paper-sample.txt'
TEXT = NET.read_bytes()
ANSWER = NET.with_suffix('.out').read_bytes()
LONG = ROOT / 'examples/panel.txt'
faults = []

# A kit that needs no time: it says what `rt run` would of its crates, and its program is `cat`. PAUSE are seconds before `search` is proved.
KIT = '''#!/bin/sh
[ "$*" = run ] || exit 2
for crate in ${CRATES:-lists search gedrovit}; do
    seq 300
    mkdir -p ../$crate/out
    mktemp >/dev/null
    [ $crate != search ] || sleep ${PAUSE:-0}
    sleep 0.1
    echo "logic=proved functions=1"
done
[ ! -e ../../broken ] || { echo "rattle build: nothing was built, since only a proved crate is built"; exit 1; }
printf '#!/bin/sh\\nexec cat\\n' >out/gedrovit && chmod +x out/gedrovit
exec out/gedrovit
'''


def check(name, done, status, out=b'', err=''):
    """The exit status, the whole standard output, and a part of standard error, which is empty where no part is given."""
    said = done.stderr.decode()
    if (done.returncode, done.stdout) != (status, out) or err not in said or (said and not err):
        faults.append(f'{name}: status {done.returncode}, wrote {done.stdout[:60]}, said {said!r}')


def run(*words, **options):
    return subprocess.run(words, capture_output=True, **{'input': b'', 'timeout': 60, **options})


def shell(command, **options):
    return run('bash', '-c', command.format(REFINE, NET, LONG), **options)


def inputs(folder):
    (folder / '-net').write_bytes(TEXT)
    (folder / 'link').symlink_to(NET)
    check('a file', run(REFINE, NET), 0, ANSWER)
    check('standard input', run(REFINE, input=TEXT), 0, ANSWER)
    check('a dash', run(REFINE, '-', input=TEXT), 0, ANSWER)
    check('a name that begins with a dash', run(REFINE, '--', '-net', cwd=folder), 0, ANSWER)
    check('a link to a file', run(REFINE, 'link', cwd=folder), 0, ANSWER)
    check('a pipe with a name', shell('{} <(cat {})'), 0, ANSWER)
    check('a file, standard input closed', shell('{} {} <&-'), 0, ANSWER)
    check('a text that asks for letters', run(REFINE, NET.with_name('rule-sample.txt')), 0, NET.with_name('rule-sample.out').read_bytes())
    check('a refusal is an answer', run(REFINE), 0, b'refusal place\n13 1\n', 'refine: refusal 13, line 1: not in the text form')
    check('no such file', run(REFINE, 'nowhere', cwd=folder), 1, err='refine: nowhere: no such file')
    check('an empty name', run(REFINE, ''), 1, err='no such file')
    check('a folder', run(REFINE, '/'), 1, err='refine: /: is a folder')
    check('a folder as standard input', shell('{} </'), 1, err='Is a directory')
    check('standard input closed', shell('{} <&-'), 1, err='standard input is closed')
    check('standard input closed, a dash', shell('{} - <&-'), 1, err='standard input is closed')


def outputs(folder):
    check('a full disk', shell('{} {} >/dev/full'), 1, err='not written whole: No space left on device')
    check('a limit on the file', shell(f'ulimit -f 1; {{0}} {{2}} >{folder}/cut'), 1, err='not written whole')
    check('standard output closed', shell('{} {} >&-'), 1, err='standard output is closed')
    closed = shell('{{ sleep 0.2; {} {}; echo $? >&2; }} | true')
    check('a closed pipe', closed, 0, err='1\n')
    if closed.stderr != b'1\n':
        faults.append(f'a reader that goes away: {closed.stderr}')
    check('help on a full disk', shell('{} --help >/dev/full'), 1, err='No space left')
    check('version on a full disk', shell('{} --version >/dev/full'), 1, err='No space left')
    reader, writer = os.pipe()
    os.set_blocking(writer, False)
    while True:
        try:
            os.write(writer, b'x' * 4096)
        except BlockingIOError:
            break
    done = subprocess.run([REFINE, NET], stdin=subprocess.DEVNULL, stdout=writer, stderr=subprocess.PIPE, timeout=60)
    done.stdout = b''
    check('a full pipe', done, 1, err='not written whole: Resource temporarily unavailable')
    os.close(reader)
    os.close(writer)


def uses(folder):
    version = re.search(r'^#define GEDROVIT_VERSION "(.*)"$', (ROOT / 'package/include/gedrovit.h').read_text(), re.M)[1]
    check('--version', run(REFINE, '--version'), 0, f'gedrovit {version}\n'.encode())
    told = run(REFINE, '--help')
    check('--help', told, 0, told.stdout)
    if not all(word in told.stdout for word in (b'usage: refine [--strict] [FILE]', b'Exit status', b'refusal', b'--version', b'--strict', b'vertices faces rounds rule', b'# rounds N',
                                              b'32,768 bytes, 1,024 vertices, 256 refined faces, 0 to 6 rounds')):
        faults.append(f'--help says {told.stdout}')
    check('-h', run(REFINE, '-h'), 0, told.stdout)
    for words in ('-x',), ('--halp',), ('a', 'b'), ('--help', 'a'), ('-h', 'a'), ('--strict', '--version', 'a'), ('--', 'a', 'b'), ('--strict', 'a', 'b'):
        check(f'wrong use {words}', run(REFINE, *words), 2, err='refine --help')
    link, second = folder / 'refiner', folder / 'second'
    link.symlink_to(REFINE)
    second.symlink_to('refiner')
    check('by two links, from another folder', run(second, NET, cwd='/'), 0, ANSWER)
    check('by the search path', shell(f'PATH={folder}:$PATH; second {{1}}'), 0, ANSWER)


def refusals(folder):
    """One stored text for each refusal: its answer, and on standard error number, place, meaning and cure; then the hints."""
    table = {row[0]: row[1:] for row in re.findall(r'^\| (\d+) \| (\w+) \|.*\| (.*?) \| (.*?) \|$', (ROOT / 'docs/REFUSALS.md').read_text(encoding='utf-8'), re.M)}
    stored = {path.read_text().split()[2]: path for path in sorted(NET.parent.glob('*.out')) if path.read_bytes().startswith(b'refusal')}
    for number, path in stored.items():
        place, what, cure = table[number]
        at = path.read_text().split()[3]
        where = f', {place} {at}' if place in ('vertex', 'face') or at != '0' else ''
        said = [f'refine: refusal {number}{where}: {plain(what)}. What to do: {plain(cure)}\n']
        for words, status in ((), 0), (('--strict',), 3):
            check(f'refusal {number}', run(REFINE, *words, path.with_suffix('.txt')), status, path.read_bytes(), *said)
    if set(stored) != {str(n) for n in range(1, 14)} - {'2'}:
        faults.append(f'stored texts have the refusals {sorted(stored)}')
    check('--strict with a net', run(REFINE, '--strict', NET), 0, ANSWER)
    (folder / 'long').write_bytes(b'1\n' * 20000)
    for name, done in ('file', run(REFINE, folder / 'long')), ('pipe', shell(f'cat {folder}/long | {{}}')), ('file beside others', shell(f'{{}} {folder}/long 8</dev/zero')):
        check(f'a long {name}', done, 0, b'refusal place\n13 0\n', 'refine: the text has 40000 bytes; at most 32768 are read\n')
    check('a pipe without end', shell('yes | {}'), 0, b'refusal place\n13 0\n', 'refine: refusal 13: ')
    for text, asked in (TEXT.replace(b'4 1 1', b'4 1 5'), '1024 refined faces, from 1 in 5 rounds, and 4 vertices'), (b'# rounds 6\n' + b'v 0 0 0\n' * 9 + b'f 1 2 3 4\n' * 2, '8192 refined faces, from 2 in 6 rounds, and 9 vertices'):
        check('too many faces', run(REFINE, input=text), 0, b'refusal place\n4 0\n', f'refine: {asked} are asked for; the program serves 256 and 1024; with rounds ')
    for form in b'o wing\nv 0 0 0\n', b'# another program\r\nv 0.5 0 0\r\n':
        check('an OBJ file of another program', run(REFINE, input=form), 0, b'refusal place\n13 1\n', 'tools/convert.py text --scale 100 --weld --corners FILE | ./refine\n')


def plain(cell):
    """A cell of the table of refusals as ./refine says it."""
    return re.sub(r'`|\[|\]\([^)]*\)', '', cell).split('in ./refine: ')[-1]


def terminal(*words, **options):
    """The exit status of a command on a terminal, and what it showed there."""
    screen, line = pty.openpty()
    done = subprocess.Popen(words, stdin=line, stdout=line, stderr=line, **options)
    os.close(line)
    shown = rest_of(screen)
    return done.wait(timeout=60), shown


def rest_of(screen):
    """All that a terminal still shows."""
    shown = b''
    while True:
        try:
            part = os.read(screen, 4096)
        except OSError:
            part = b''
        if not part:
            os.close(screen)
            return shown.decode()
        shown += part


def terminals():
    status, shown = terminal(REFINE)
    if status != 2 or shown.count('\n') != 1 or 'refine --help' not in shown:
        faults.append(f'a terminal without input: status {status}, showed {shown!r}')


def copy(folder):
    """A tree with all that the script needs, and a kit of our own before the installed one."""
    tree, kit = folder / 'tree', folder / 'kit'
    (tree / 'crates/gedrovit/src').mkdir(parents=True)
    (tree / 'tools').mkdir()
    kit.mkdir()
    shutil.copy(REFINE, tree)
    shutil.copy(ROOT / 'tools/crates_under.awk', tree / 'tools')
    (tree / 'crates.txt').write_text('lists:\nsearch staticlib:\nother:\ngedrovit: lists search std\n')
    (kit / 'rt').write_text(KIT)
    (kit / 'rt').chmod(0o755)
    return tree, {**os.environ, 'PATH': f'{kit}:{os.environ["PATH"]}'}


def builds(folder):
    tree, environment = copy(folder)
    check('no kit', run('/bin/bash', tree / 'refine', NET, env={'PATH': str(tools(folder))}), 1,
          err="refine: building needs the Rattle kit, which proves and compiles the crates: no command 'rt'; kit.txt has the kit's name and checksum\n")
    (tree / 'broken').touch()
    check('a failed build', run(tree / 'refine', NET, env=environment), 1, err='only a proved crate is built\nrefine: the build failed; target/refine.log')
    (tree / 'broken').unlink()
    status, shown = terminal(tree / 'refine', NET, env=environment)
    counts = re.findall(r'\rrefine: (\d) of 3 crates proved', shown)
    answer = TEXT.decode().replace('\n', '\r\n')
    if status != 0 or list(dict.fromkeys(counts)) != list('0123') or shown.count('\n') != 1 + answer.count('\n') or not shown.endswith(answer):
        faults.append(f'a first build on a terminal: status {status}, showed {shown!r}')
    if len((tree / 'target/refine.log').read_text().splitlines()) != 903:
        faults.append('the log of the build has other lines')
    check('a second run', run(tree / 'refine', NET, env=environment), 0, TEXT)
    refusal = b'refusal place\n9 4\n'
    check('a refusal without the documents', run(tree / 'refine', input=refusal, env=environment), 0, refusal, 'refine: refusal 9, place 4\n')
    os.utime(tree / 'crates.txt')
    first = subprocess.Popen([tree / 'refine', NET], env=environment, stdout=subprocess.PIPE, stderr=subprocess.PIPE)
    first.stderr.readline()
    check('a second run while the first builds', run(tree / 'refine', NET, env=environment), 0, TEXT, 'refine: waiting for another run')
    if first.communicate(timeout=60) != (TEXT, b''):
        faults.append('a first run fails beside a second one')
    os.utime(tree / 'crates.txt')
    done = run(tree / 'refine', NET, env=environment)
    check('a build without a terminal', done, 0, TEXT, 'refine: building')
    if done.stderr.count(b'\n') != 1:
        faults.append(f'a build without a terminal says {done.stderr}')
    stopped_build(tree, environment)
    many = 'abcdefghijklmnopqrstu'
    (tree / 'crates.txt').write_text(''.join(f'{crate}:\n' for crate in many) + f'gedrovit: {" ".join(many)}\n')
    done = run(tree / 'refine', NET, env={**environment, 'CRATES': f'{" ".join(many)} gedrovit'})
    check('a longer build without a terminal', done, 0, TEXT, '\nrefine: 10 of 22 crates proved\nrefine: 20 of 22 crates proved\n')


def runs(command):
    """Whether a process has this command line."""
    for path in pathlib.Path('/proc').glob('[0-9]*/cmdline'):
        try:
            if path.read_bytes().startswith(command):
                return True
        except OSError:
            pass
    return False


def stopped_build(tree, environment):
    """Ctrl-C while `search` is being proved: a line, no process and no file left."""
    os.utime(tree / 'crates.txt')
    before = {path for path in tree.rglob('*') if path.name != 'refine.log'}
    temporary = tree.parent / 'temporary'
    temporary.mkdir()
    child, screen = pty.fork()
    if child == 0:
        os.execve(tree / 'refine', ['refine', NET], {**environment, 'PAUSE': '37.125', 'TMPDIR': str(temporary)})
    shown = b''
    while b'1 of 3' not in shown:
        shown += os.read(screen, 4096)
    os.write(screen, b'\x03')
    shown = rest_of(screen)
    status = os.waitstatus_to_exitcode(os.waitpid(child, 0)[1])
    left = {*tree.rglob('*'), *temporary.iterdir()}
    if status != 130 or 'are proved are kept' not in shown or shown.count('\n') != 1:
        faults.append(f'Ctrl-C while building: status {status}, showed {shown!r}')
    if left != before or runs(b'sleep\x0037.125'):
        faults.append(f'Ctrl-C while building leaves {sorted(map(str, left ^ before))} or a process')


def tools(folder):
    """A folder with the commands that the script needs, and no kit."""
    place = folder / 'tools'
    place.mkdir()
    for name in 'bash dirname readlink find flock'.split():
        (place / name).symlink_to(shutil.which(name))
    return place


def documents():
    """The texts and answers that docs/FORMS.md shows are the program's; files that the documents name are there, and their links lead somewhere."""
    pages = {path: path.read_text(encoding='utf-8') for path in (*sorted(ROOT.glob('*.md')), *sorted(ROOT.glob('docs/*.md')))}
    for path, page in pages.items():
        if path.stem not in ('ARCHITECTURE', 'CHANGES', 'DECISIONS', 'GUARANTEES'):
            named = re.findall(r'(?<![\w/])(?:bench|crates|docs|examples|package|tests|tools)/[\w./-]*\w', page)
            faults.extend(f'{path.name}: no {name}' for name in named if not (ROOT / name).exists() and not (path.parent / name).exists())
        for link, anchor in re.findall(r'\]\(([^)#]*)(?:#([^)]*))?\)', page):
            target = path.parent / link if link else path
            if '://' not in link and (not target.exists() or anchor and anchor not in anchors(pages[target.resolve()])):
                faults.append(f'{path.name}: nothing at {link}#{anchor}')
    shown = [text.encode() for text in re.findall(r'```\n(.*?)```', pages[ROOT / 'docs/FORMS.md'], re.S)]
    if shown[:2] != [TEXT, ANSWER]:
        faults.append('FORMS.md shows another text than tests/nets/cases/paper-sample')
    lettered = [NET.with_name(f'rule-sample.{part}').read_bytes() for part in ('txt', 'out')]
    if not all(whole.startswith(part) for whole, part in zip(lettered, shown[2:])):
        faults.append('FORMS.md shows another text than tests/nets/cases/rule-sample')
    check('the OBJ text of FORMS.md', run(REFINE, input=b''.join(shown[4:5])), 0, b''.join(shown[5:]))


def readme(folder):
    """Every command that README.md shows, in a folder that looks like a clone; the answer that stands after one is its beginning. Those that take long are named."""
    page, clone = (ROOT / 'README.md').read_text(encoding='utf-8'), folder / 'clone'
    clone.mkdir()
    for path in ROOT.iterdir():
        if path.name != '.git':
            (clone / path.name).symlink_to(path)
    run('make', '-C', ROOT, timeout=1200)
    done = None
    for kind, text in re.findall(r'```(\w*)\n(.*?)```', page, re.S):
        if kind == 'c':
            (clone / 'square.c').write_text(text)
            strict = ['cc', '-std=c11', '-Wall', '-Wextra', '-Werror', '-pedantic', '-fsyntax-only', '-I', ROOT / 'package/include', 'square.c']
            check('the C of README.md', run(*strict, cwd=clone), 0)
        elif kind == 'sh' and ('pkg-config' not in text or shutil.which('pkg-config')):
            done = run('bash', '-ec', text, cwd=clone)
            check(f'README.md: {text}', done, 0, done.stdout, done.stderr.decode())
        elif not kind and not done.stdout.decode().startswith(text):
            faults.append(f'README.md shows another answer than {done.stdout[:200]}')
    if done.stdout.decode().strip() != re.search(r'It prints `(.*?)`', page)[1] and shutil.which('pkg-config'):
        faults.append(f'the C of README.md prints {done.stdout}')
    if (clone / 'refined.obj').read_text().count('\nf ') != 256:
        faults.append('README.md: another refined.obj')
    for command in re.findall(r'`((?:\./\w+|make|tools/\S+|bench/\S+) ?[^`]*)`', page):
        if command in ('make check', './test.sh', 'bench/run.sh'):
            check(command, run('bash', '-c', f'test -x {command}' if '/' in command else f'{command} -n', cwd=clone), 0, b'' if '/' in command else b'./test.sh\n')
        elif ' ' in command:
            done = run('bash', '-c', command, cwd=clone)
            check(f'README.md: {command}', done, 0, done.stdout, done.stderr.decode())


def anchors(page):
    """The names by which the headings of a page are linked."""
    return {re.sub(r'[^\w -]', '', heading).lower().replace(' ', '-') for heading in re.findall(r'^#+ (.*)$', page, re.M)}


def main():
    with tempfile.TemporaryDirectory() as name:
        folder = pathlib.Path(name)
        run(REFINE, timeout=1200)  # so that no check meets a build of the true program
        for part in inputs, outputs, uses, refusals, builds, readme:
            part(folder)
        terminals()
        documents()
    print(*faults, sep='\n', end='\n' if faults else '')
    sys.exit(1 if faults else 0)


if __name__ == '__main__':
    main()
