"""What the documents show is what the programs write: every block of README.md and docs/CASES.md that begins with `$`. What README's tables
name is there."""
import glob, os, re, subprocess

from trial import *


def examples(path):
    """Commands with the text that follows each."""
    text = open(path, encoding='utf-8').read()
    for block in re.findall(r'(?:^    .*\n)+', text, re.M):
        lines = [line[4:] for line in block.split('\n')[:-1]]
        if lines[0].startswith('$ '):
            yield lines[0][2:], '\n'.join(lines[1:]) + '\n'


def test_examples():
    path = ':'.join((os.path.abspath(BIN), os.path.abspath('build/bin'), os.environ['PATH']))
    found = 0
    for page in ('README.md', 'docs/CASES.md'):
        for command, shown in examples(page):
            done = subprocess.run(['bash', '-c', command], capture_output=True, text=True, timeout=PATIENCE, env={**os.environ, 'PATH': path})
            count(done.stdout + done.stderr == shown, f'{page}: {command}', f'wrote {done.stdout + done.stderr!r}')
            found += 1
    count(found >= 4, 'examples are found', found)


def test_numbers():
    """README's table and --help tell of the same numbers."""
    text = open('README.md', encoding='utf-8').read()
    told = {int(n) for row in re.findall(r'^\| ([0-9, ]+?)(?:, with a lead byte)? \| ', text, re.M) for n in row.split(',')}
    numbers = run('gullcheck', '--help').out.decode().split('Numbers:')[1].split('Exit status:')[0]
    shown = {int(n) for n in re.findall(r'^  (\d+) ', numbers, re.M)}
    count(told - {0} == shown, 'the numbers of README and of --help', f'{told} {shown}')


def rows(heading):
    """The rows of the table behind a heading of README.md, cell by cell, without its head."""
    text = open('README.md', encoding='utf-8').read().split(f'\n## {heading}\n')[1].split('\n## ')[0]
    lines = [line for line in text.split('\n') if line.startswith('|')]
    return [[cell.strip() for cell in line.strip('|').split('|')] for line in lines[2:]]


def is_callable(name):
    """A program, a function of the header, or a public function of a crate."""
    if '::' in name:
        crate, function = name.split('::')
        return any(f'pub fn {function}(' in re.sub(r"<'\w+>", '', open(path, encoding='utf-8').read())
                   for path in glob.glob(f'crates/{crate}/src/*.rt'))
    if name.startswith('gull_'):
        return f'uint32_t {name}(' in open(f'{SOURCE}/include/gullcordage.h', encoding='utf-8').read()
    return os.access(f'build/bin/{name}', os.X_OK)


def test_tables():
    for what, *names in rows('What can be called from where'):
        for name in re.findall('`([^`]+)`', ' '.join(names)):
            count(is_callable(name), f'README: {what}: {name} can be called')
    places = [place for row in rows('The map') for place in re.findall('`([^`]+)`', row[0])]
    for place in places:
        count(os.path.exists(place), f'README: {place} is there')
    crates = {f'crates/{line.split(":")[0].split()[0]}' for line in open('crates.txt', encoding='utf-8') if line.strip() and line[0] != '#'}
    count(crates <= set(places), 'README has every crate', crates - set(places))


def test_all():
    test_examples()
    test_numbers()
    test_tables()
