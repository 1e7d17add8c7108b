"""What the tests of the programs share: running one, counting, and making volumes.

GULL_BIN names the folder of the programs, GULL_SOURCE the tree they were built from, GULL_WORK a folder to write in; GULL_FIRST=1 ends at
the first failure. Nothing may run for longer than PATIENCE seconds."""
import atexit, os, shutil, struct, subprocess, sys

BIN = os.environ.get('GULL_BIN', 'build/bin')
SOURCE = os.environ.get('GULL_SOURCE', '.')
WORK = os.environ.get('GULL_WORK', 'build/test-programs')
LIBRARY = 'build/libgullcordage.a'
SAMPLES = 'samples/volumes'
PATIENCE = 10
PARTS = {'gullcheck': ('gullcheck', 'report', 'names', 'volume', 'hint', 'jobs'), 'gullpack': ('gullpack', 'convert', 'letters'),
         'gullunpack': ('gullunpack', 'convert', 'letters')}
SANITIZERS = ('-g', '-fsanitize=address,undefined', '-fno-sanitize-recover')

passed = failed = 0


def count(good, what, why=''):
    """Counts one check; a failed one is told."""
    global passed, failed
    if good:
        passed += 1
        return
    failed += 1
    print(f'not so: {what}\n  {why}'[:2000], flush=True)
    if os.environ.get('GULL_FIRST'):
        finish()


def unlinked():
    """Takes the links out of WORK at the end: `rt ci` stops at a link in a checkout."""
    for folder, folders, names in os.walk(WORK):
        for name in folders + names:
            path = os.path.join(folder, name)
            if os.path.islink(path):
                os.remove(path)


atexit.register(unlinked)


def skipped(what, why):
    print(f'left out: {what}: {why}')


def finish():
    print(f'{passed} passed, {failed} failed')
    sys.exit(1 if failed or not passed else 0)


class Done:
    """How a program ended: its status, and what it wrote."""

    def __init__(self, status, out, err):
        self.status, self.out, self.err = status, out, err

    def __str__(self):
        return f'status {self.status}, wrote {self.out!r}, told {self.err!r}'

    def lines(self):
        return self.out.decode().splitlines()


def run(program, *words, data=b'', **options):
    """Runs a program of BIN, or one by its path. Words may be bytes; `data` is standard input."""
    path = program if '/' in program else os.path.join(BIN, program)
    if 'stdin' not in options:
        options['input'] = data
    options.setdefault('stdout', subprocess.PIPE)
    try:
        done = subprocess.run([path, *words], stderr=subprocess.PIPE, timeout=PATIENCE, **options)
    except subprocess.TimeoutExpired:
        return Done('none: it did not end', b'', b'')
    return Done(done.returncode, done.stdout, done.stderr)


def want(what, done, status, out=None, told=None):
    """The status, all of standard output (text or bytes), and a part of standard error; told='' for nothing there."""
    good = done.status == status
    if out is not None:
        good = good and done.out == (out if isinstance(out, bytes) else out.encode())
    if told is not None:
        good = good and (told.encode() in done.err if told else done.err == b'')
    count(good, what, f'{done}\n  wanted status {status}, output {out!r}, told {told!r}')


def fresh(name):
    """An empty folder of this name in WORK."""
    path = os.path.join(WORK, name)
    shutil.rmtree(path, ignore_errors=True)
    os.makedirs(path)
    return path


def read(path):
    with open(path, 'rb') as file:
        return file.read()


def write(path, data):
    with open(path, 'wb') as file:
        file.write(data)


def copy_volume(name, to):
    """The three files of a sample under another base name; its index."""
    kind = 'p' if os.path.exists(f'{SAMPLES}/{name}.pin') else 'n'
    for ending in ('in', 'sq', 'hr'):
        shutil.copyfile(f'{SAMPLES}/{name}.{kind}{ending}', os.fsencode(to) + f'.{kind}{ending}'.encode())
    return f'{to}.{kind}in' if isinstance(to, str) else to + f'.{kind}in'.encode()


def tables(index):
    """Where the offset tables of an index begin, and N."""
    title = struct.unpack_from('>i', index, 8)[0]
    stamp = struct.unpack_from('>i', index, 12 + title)[0]
    return 32 + title + stamp, struct.unpack_from('>i', index, 16 + title + stamp)[0]


def texts(index):
    """The title and the timestamp of an index."""
    title = struct.unpack_from('>i', index, 8)[0]
    return index[12:12 + title], index[16 + title:tables(index)[0] - 16]


def with_texts(index, title, stamp):
    """An index with another title and timestamp: everything behind them moves."""
    return index[:8] + struct.pack('>i', len(title)) + title + struct.pack('>i', len(stamp)) + stamp + index[tables(index)[0] - 16:]


def padded(index, more):
    """An index with NULs behind its timestamp."""
    title, stamp = texts(index)
    return with_texts(index, title, stamp + bytes(more))


def command(program, tree, path, *more):
    """The command that builds a program of a tree, with more flags and files."""
    sources = [f'{tree}/console/{part}.c' for part in (*PARTS[program], 'gull', 'text', 'input')]
    return ['gcc', '-std=c99', '-O1', '-o', path, *sources, *more, LIBRARY, '-pthread']


def build(name, program, *more):
    """Another build of a program, with flags or more files; its path."""
    path = os.path.join(WORK, name)
    subprocess.run(command(program, SOURCE, path, *more), check=True)
    return path


def build_second():
    """The second program, which the programs' output is held against."""
    os.environ.setdefault('CARGO_HOME', os.path.abspath('second/target/cargo-home'))
    subprocess.run(['cargo', 'build', '--offline', '--release', '--quiet'], cwd='second', check=True)


def as_nobody(*words):
    """A command as a user without rights, or None where that cannot be had."""
    if os.geteuid() != 0:
        return list(words)
    if not shutil.which('setpriv'):
        return None
    return [shutil.which('setpriv'), '--reuid=65534', '--regid=65534', '--clear-groups', *words]


def passed_line(name):
    """What gullcheck tells of a sample that passes, behind the name."""
    return {'mb_prot': 'passed: protein, 15 sequences, 1648 residues, longest 1500, title "made up proteins", timestamp "Nov 15, 2026  2:23 PM"',
            'mb_protidt': 'passed: protein, 18 sequences, 333 residues, longest 27, title "protid parse tax", timestamp "Nov 15, 2026  2:23 PM"',
            're_nuc0': 'passed: dna, 23 sequences, 5796 residues, longest 4298, title "made up nucleotides", timestamp "Nov 15, 2026  2:23 PM"'}[name]
