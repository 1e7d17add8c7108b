"""gullcheck's words: directories, lists of names, options, lines in order, and output that fails."""
import os, pty, resource, signal, socket, subprocess, threading

from trial import *


def names_of(done):
    """The name of each line."""
    return [line.split(': ')[0] for line in done.lines()]


def tree():
    """Volumes of both kinds at several depths, files that are none, and links to directories."""
    w = fresh('tree')
    for folder in ('b', 'a/deep/er', 'a.d', 'empty', '.hidden'):
        os.makedirs(f'{w}/{folder}')
    found = [copy_volume(sample, f'{w}/{base}') for sample, base in (
        ('mb_prot', 'b/one'), ('re_nuc0', 'b/one'), ('re_nuc0', 'a/deep/er/two'), ('mb_prot', 'a.d/three'), ('mb_prot', 'top'),
        ('mb_prot', '.hidden/four'), ('mb_prot', 'a.d/'))]
    for name in ('b/notes', 'b/x.pin.old', 'a/pin', 'empty/lone.psq'):
        write(f'{w}/{name}', b'')
    os.symlink('../a', f'{w}/b/link')
    os.symlink('..', f'{w}/a/up')
    os.mkdir(f'{w}/a/folder.pin')
    return w, sorted(found)


def test_directories():
    w, found = tree()
    done = run('gullcheck', w)
    want('a directory', done, 0, told='')
    count(names_of(done) == found, 'every index below it, sorted', f'{names_of(done)} is not {found}')
    done = run('gullcheck', w + '/')
    count(names_of(done) == found, 'with a slash behind it', done)
    done = run('gullcheck', f'{w}/b', f'{w}/a')
    count(names_of(done) == [n for n in found if '/b/' in n] + [n for n in found if '/a/' in n], 'two directories in their order', done)
    os.symlink('tree', f'{WORK}/linked')
    done = run('gullcheck', f'{WORK}/linked')
    os.remove(f'{WORK}/linked')
    count(len(names_of(done)) == len(found), 'a name that is a link to a directory is followed', done)
    want('a directory with one volume', run('gullcheck', f'{w}/.hidden'), 0, f'{w}/.hidden/four.pin: {passed_line("mb_prot")}\n', '')
    none = 'no volume is below this directory, neither .pin nor .nin'
    want('a directory without a volume', run('gullcheck', f'{w}/empty'), 2, '', f'gullcheck: {w}/empty: {none}\n')
    want('beside one with', run('gullcheck', '--quiet', f'{w}/b', f'{w}/empty'), 2, '', f'{w}/empty: {none}\n')
    want('a directory named as an index', run('gullcheck', f'{w}/a/folder.pin'), 2, '', f'{w}/a/folder.pin: {none}\n')
    os.symlink('nowhere', f'{w}/b/gone.nin')
    want('a dangling index in it is told', run('gullcheck', '--quiet', f'{w}/b'), 2, '',
         f'{w}/b/gone.nin: a link to a file that is not there\n')
    os.mkdir(f'{w}/top')
    copy_volume('re_nuc0', f'{w}/top/inside')
    done = run('gullcheck', f'{w}/top')
    count(names_of(done) == [f'{w}/top.pin', f'{w}/top/inside.nin'], 'a base name that is a directory too', done)


def test_once():
    w, found = tree()
    words = sorted(f'{w}/b/{name}' for name in os.listdir(f'{w}/b') if name.startswith('one'))
    done = run('gullcheck', *words)
    want('DIR/*', done, 0, told='')
    count(sorted(names_of(done)) == [f'{w}/b/one.nin', f'{w}/b/one.pin'], 'checks each volume once', done)
    write(f'{w}/b/one.psd', b'')
    for word, index in (('one.psq', 'one.pin'), ('one.nhr', 'one.nin'), ('one.psd', 'one.pin')):
        want(f'{word} names its volume', run('gullcheck', '--quiet', f'{w}/b/{word}'), 0, '', '')
        count(names_of(run('gullcheck', f'{w}/b/{word}')) == [f'{w}/b/{index}'], f'{word} names {index}')
    for word in ('.pin', '.phr'):
        want(f'{word} without a base name', run(os.path.abspath(os.path.join(BIN, 'gullcheck')), word, cwd=f'{w}/a.d'), 0,
             f'.pin: {passed_line("mb_prot")}\n', '')
    want('a file that is none', run('gullcheck', f'{w}/b/notes'), 2, '', 'there is no index')
    want('a lone sequence file', run('gullcheck', f'{w}/empty/lone.psq'), 2, '', f'{w}/empty/lone.pin: No such file or directory')
    done = run('gullcheck', f'{w}/top', w, f'{w}/top.pin', f'{w}/b')
    count(names_of(done) == [f'{w}/top.pin'] + [n for n in found if 'top' not in n], 'the first place counts', done)
    done = run('gullcheck', f'{w}/none', f'{w}/none')
    count(done.err.count(b'\n') == 1, 'what is told is told once', done)


def test_lists():
    w, found = tree()
    v = SAMPLES
    good = [f'{v}/mb_prot.pin', f'{v}/re_nuc0.nin']
    for what, data in (('line feeds', '\n'.join(good) + '\n'), ('no line feed behind the last', '\n'.join(good)),
                       ('empty lines', '\n\n'.join(good) + '\n\n'),
                       ('NUL', '\0'.join(good) + '\0'), ('no NUL behind the last', '\0'.join(good))):
        write(f'{w}/list', data.encode())
        for done in (run('gullcheck', '--files-from', f'{w}/list'), run('gullcheck', f'--files-from={w}/list'),
                     run('gullcheck', '--files-from', '-', data=data.encode())):
            want(f'a list: {what}', done, 0, told='')
            count(names_of(done) == good, f'its names: {what}', done)
    copy_volume('mb_prot', f'{w}/line\nfeed')
    done = run('gullcheck', '--files-from', '-', data=f'{w}/line\nfeed\0{w}/b\0'.encode())
    want('a line feed in a name, between NULs', done, 0, told='')
    count(len(done.lines()) == 3, 'and a directory', done)
    done = run('gullcheck', '--files-from', '-', f'{v}/mb_protidt', data=good[0].encode())
    count(names_of(done) == [good[0], f'{v}/mb_protidt.pin'], 'names of the list, then words', done)
    for data in (b'', b'\n', b'\0', b'\0\0'):
        want(f'an empty list {data}', run('gullcheck', '--files-from', '-', data=data), 2, '', 'gullcheck: -: the list has no name\n')
    want('a list that is not there', run('gullcheck', '--files-from', f'{w}/none'), 2, '', f'{w}/none: No such file or directory\n')
    want('a list that is a directory', run('gullcheck', '--files-from', w), 2, '', 'Is a directory\n')
    many = ''.join(f'{w}/n{k}\n' for k in range(5000))
    done = run('gullcheck', '--files-from', '-', data=many.encode())
    count(done.err.count(b'\n') == 5000 and done.status == 2, 'a long list', f'{done.status}, {len(done.err)} bytes')


def test_usage():
    v = f'{SAMPLES}/mb_prot'
    for words in ((), ('--json',), ('--jsn', v), ('-j', '0', v), ('-j', '257', v), ('-j', 'x', v), ('-j', '', v),
                  ('-j', '99999999999999999999', v), ('-j',),
                  ('--files-from',), ('--files-from', '-', '--files-from', '-'), ('-x', v), ('--jsonx', v)):
        done = run('gullcheck', *words)
        want(f'wrong usage {words}', done, 2, '', 'usage: gullcheck')
        count(done.err.endswith(b'] NAME..\ngullcheck --help tells more.\n'), f'{words}: it says where more is told', done)
    want('an option with ESC', run('gullcheck', '-\x1b[2J'), 2, '', r'"-\x1b[2J"')
    want('the option is told, not its value', run('gullcheck', '-j', '0', v), 2, '', 'wrong or incomplete option -j\n')
    bad = f'{SAMPLES}/mb_nuc'
    first = run('gullcheck', '--json', '--quiet', '-j', '2', v, bad)
    for words in ((v, '--json', bad, '--quiet', '-j', '2'), (v, bad, '-j2', '--quiet', '--json'), (v, '--quiet', '--json', '--', bad)):
        want(f'options behind names {words}', run('gullcheck', *words), 1, first.out, '')
    for words in (('-j', '1'), ('-j', '10'), ('-j256',), ('--json', '-j', '2', '--quiet')):
        want(f'good usage {words}', run('gullcheck', '--quiet', *words, v), 0, '', '')
    w = fresh('dashes')
    copy_volume('mb_prot', f'{w}/-x')
    copy_volume('mb_prot', f'{w}/--json')
    copy_volume('mb_prot', f'{w}/-')
    program = os.path.abspath(os.path.join(BIN, 'gullcheck'))
    for name in ('-x', '--json', '-x.pin'):
        done = run(program, '--', name, cwd=w)
        want(f'-- {name}', done, 0, f'{name.removesuffix(".pin")}.pin: {passed_line("mb_prot")}\n', '')
    want('a lone - is a name', run(program, '-', cwd=w), 0, f'-.pin: {passed_line("mb_prot")}\n', '')
    want('-x without --', run(program, '-x', cwd=w), 2, '', 'usage: gullcheck')
    want('-- and nothing', run('gullcheck', '--'), 2, '', 'usage: gullcheck')


def version():
    for line in open(f'{SOURCE}/include/gullcordage.h', encoding='utf-8'):
        if line.startswith('#define GULL_VERSION "'):
            return line.split('"')[1]


def test_help():
    for program in ('gullcheck', 'gullpack', 'gullunpack'):
        for word in ('--help', '-h'):
            done = run(program, word)
            whole = done.out.startswith(f'usage: {program} '.encode()) and b'Exit status:' in done.out
            count(done.status == 0 and whole and not done.err, f'{program} {word}', done)
        want(f'{program} --version', run(program, '--version'), 0, f'{program} {version()}\n', '')
    text = run('gullcheck', '--help').out.decode()
    for number in (1, 2, 3, 4, 5, 6, 7, 8, 9, 22):
        count(f'\n  {number:<2}  ' in text, f'--help tells of number {number}')


def test_full():
    """Output that cannot be written is status 2, whatever was found."""
    v = SAMPLES
    for words in (('gullcheck', f'{v}/mb_prot'), ('gullcheck', f'{v}/mb_nuc'), ('gullcheck', '--json', f'{v}/mb_nuc'),
                  ('gullcheck', '--json', f'{v}/none'),
                  ('gullcheck', '-j', '3', f'{v}'), ('gullcheck', '--help'), ('gullcheck', '--version'), ('gullpack', 'dna'),
                  ('gullpack', '--help'),
                  ('gullpack', '--version'), ('gullpack', '--letters', 'dna'), ('gullunpack', '--help')):
        with open('/dev/full', 'wb') as full:
            done = run(*words, stdout=full)
        want(f'{words} to a full device', done, 2, told=f'{words[0]}: standard output could not be written: No space left on device\n')
    for words in (('gullunpack', 'dna'), ('gullunpack', '--letters', 'dna')):
        with open('/dev/full', 'wb') as full:
            want(f'{words} to a full device', run(*words, stdout=full, data=b'\xff\x0f\x11\xc0'), 2, told='No space left on device\n')
    small = {'preexec_fn': lambda: (signal.signal(signal.SIGXFSZ, signal.SIG_IGN), resource.setrlimit(resource.RLIMIT_FSIZE, (100, 100)))}
    with open(f'{WORK}/part', 'wb') as file:
        want('a file that takes a part only', run('gullcheck', f'{v}/mb_prot', stdout=file, **small), 2,
             told='could not be written: File too large\n')
    with open(f'{WORK}/part', 'wb') as file:
        want('and of packets', run('gullpack', 'dna', data=bytes(9000), stdout=file, **small), 2,
             told='could not be written: File too large\n')
    want('a line to a closed output', run('/bin/sh', '-c', f'{os.path.join(BIN, "gullcheck")} {v}/mb_prot >&-'), 2,
         told='Bad file descriptor\n')
    want('--quiet has nothing to write', run('/bin/sh', '-c', f'{os.path.join(BIN, "gullcheck")} --quiet {v}/mb_prot >/dev/full'), 0, '',
         '')


def test_lines():
    """Each line is one write, at once; side by side the lines are the same, in the same order."""
    words = ['--json', 'samples', *(f'{SAMPLES}/none{k}' for k in range(20)), f'{WORK}/damaged']
    single = run('gullcheck', *words)
    for jobs in ('2', '7', '64'):
        done = run('gullcheck', '-j', jobs, *words)
        count((done.status, done.out, done.err) == (single.status, single.out, single.err), f'-j {jobs} writes what -j 1 does', done)
    for jobs in ('1', '4'):
        ours, theirs = socket.socketpair(socket.AF_UNIX, socket.SOCK_DGRAM)
        pieces = []
        reader = threading.Thread(target=lambda: pieces.extend(iter(lambda: ours.recv(1 << 16), b'end')))
        reader.start()
        run('gullcheck', '-j', jobs, *words, stdout=theirs)
        theirs.send(b'end')
        reader.join()
        count(b''.join(pieces) == single.out and all(p.endswith(b'\n') and p.count(b'\n') == 1 for p in pieces),
              f'-j {jobs}: a write a line',
              [p for p in pieces if p.count(b'\n') != 1][:3])


def test_jobs(swapped):
    """With -j 2 the second volume is read while the first is; without, the first line is there before the second volume is opened."""
    w = fresh('jobs')
    a, b = copy_volume('mb_prot', f'{w}/a'), copy_volume('mb_prot', f'{w}/b')
    wait = f'for k in 1 2 3 4 5 6 7 8 9 10 11 12 13 14 15 16 17 18 19 20; do test -e {w}/met && exit 0; sleep 0.1; done; exit 1'
    done = run(swapped, '-j', '2', a, b, env={'AT_OPEN_1': wait, 'AT_OPEN_2': f'touch {w}/met', 'PATH': os.environ['PATH']})
    want('two volumes side by side', done, 0, f'{a}: {passed_line("mb_prot")}\n{b}: {passed_line("mb_prot")}\n', '')
    os.remove(f'{w}/met')
    alone = {'AT_OPEN_1': f'sleep 0.3; test ! -e {w}/met', 'AT_OPEN_2': f'touch {w}/met', 'PATH': os.environ['PATH']}
    want('no more than -j says', run(swapped, '-j', '1', a, b, env=alone), 0, told='')
    with open(f'{w}/out', 'wb') as out:
        done = run(swapped, a, b, stdout=out, env={'AT_OPEN_4': f'test "$(grep -c passed {w}/out)" = 1', 'PATH': os.environ['PATH']})
    want('a line is written when its volume is done', done, 0, told='')


def test_swapped(swapped):
    """A file that is replaced while the volume is read gets no answer; each of the two looks finds what the other cannot."""
    w = fresh('swap')
    told = 'the file was swapped while the volume was read\n'
    path = {'PATH': os.environ['PATH']}
    copy_volume('re_nuc0', f'{w}/v')
    want('nothing happens', run(swapped, f'{w}/v', env={'AT_READ_1': 'true', **path}), 0, f'{w}/v.nin: {passed_line("re_nuc0")}\n', '')
    write(f'{w}/new', read(f'{w}/v.nhr'))
    want('a header file is replaced', run(swapped, f'{w}/v', env={'AT_READ_1': f'mv {w}/new {w}/v.nhr', **path}), 2, '',
         f'{w}/v.nhr: {told}')
    want('an index is touched once it is open', run(swapped, f'{w}/v', env={'AT_READ_1': f'touch -d 2001-01-01 {w}/v.nin', **path}), 2,
         '', f'{w}/v.nin: {told}')
    want('an index is gone at the end', run(swapped, f'{w}/v', env={'AT_OPEN_3': f'rm {w}/v.nin', **path}), 2, '',
         f'{w}/v.nin: {told}')
    # the directory is exchanged for another while the sequence file is opened, and back again: only what was opened shows it
    for folder in ('one', 'two'):
        os.mkdir(f'{w}/{folder}')
        copy_volume('re_nuc0', f'{w}/{folder}/v')
    os.symlink('one', f'{w}/now')
    env = {'AT_OPEN_2': f'ln -sfn two {w}/now', 'AT_READ_3': f'ln -sfn one {w}/now', 'AT_OPEN_3': f'ln -sfn one {w}/now', **path}
    want('another file was opened', run(swapped, f'{w}/now/v', env=env), 2, '', f'{w}/now/v.nsq: {told}')
    os.mkfifo(f'{w}/pipe')
    copy_volume('re_nuc0', f'{w}/p')
    want('a FIFO in its place does not hang', run(swapped, f'{w}/p', env={'AT_OPEN_2': f'mv {w}/pipe {w}/p.nsq', **path}), 2, '',
         f'{w}/p.nsq: {told}')


def test_limit(small):
    """22 by size alone: nothing is read or reserved. `small` is a build with a limit of 100,000 bytes."""
    w = fresh('limit')
    tight = {'preexec_fn': lambda: resource.setrlimit(resource.RLIMIT_AS, (256 << 20, 256 << 20))}
    for k, (ending, file) in enumerate((('nin', 'index'), ('nsq', 'sequence file'), ('nhr', 'header file'))):
        index = copy_volume('re_nuc0', f'{w}/{k}')
        os.truncate(f'{w}/{k}.{ending}', 2**31)
        want(f'a large {file}', run('gullcheck', index, **tight), 1,
             f'{index}: refused 22: an input is over 2,147,483,647 bytes (the {file} has 2147483648)\n', '')
        os.truncate(f'{w}/{k}.{ending}', 2**31 - 1)
        want(f'a {file} for which there is no memory', run('gullcheck', index, **tight), 2, '',
             f'{w}/{k}.{ending}: Cannot allocate memory\n')
        os.remove(f'{w}/{k}.{ending}')
    index = copy_volume('re_nuc0', f'{w}/edge')
    os.truncate(f'{w}/edge.nhr', 100000)
    stated = 'the index states 1786 bytes for the header file, it has 100000'
    want('at the limit it is read', run(small, index), 1, f'{index}: refused 7: offsets break their rules ({stated})\n')
    os.truncate(f'{w}/edge.nhr', 100001)
    want('a byte over it is 22', run(small, index), 1, f'{index}: refused 22: an input is over 2,147,483,647 bytes (the header file has 100001)\n')


def test_header(swapped, lent):
    """The header file is not read: the library is lent a range of its length that is really there, all zeros."""
    w = fresh('header')
    index = copy_volume('re_nuc0', f'{w}/v')
    path = {'PATH': os.environ['PATH']}
    line = f'{index}: {passed_line("re_nuc0")}\n'
    want('two reads of index and sequence file each, none of the header file', run(swapped, index, env={'AT_READ_5': 'false', **path}), 0,
         line, '')
    want('a read too many ends the trial', run(swapped, index, env={'AT_READ_4': 'false', **path}), -signal.SIGABRT)
    want('every byte of the ranges is there', run(lent, index), 0, line, '')
    want('also for a hint', run(lent, f'{SAMPLES}/mb_nuc'), 1, run('gullcheck', f'{SAMPLES}/mb_nuc').out, '')
    os.truncate(f'{w}/v.nhr', 100000000)
    want('also of a large header file', run(lent, index), 1,
         f'{index}: refused 7: offsets break their rules (the index states 1786 bytes for the header file, it has 100000000)\n', '')
    more = fresh('headers')
    for k in range(4):
        copy_volume('re_nuc0', f'{more}/{k}')
        os.truncate(f'{more}/{k}.nhr', 100000000)
    tight = {'preexec_fn': lambda: resource.setrlimit(resource.RLIMIT_AS, (256 << 20, 256 << 20))}
    done = run('gullcheck', more, **tight)
    count(done.status == 1 and len(done.lines()) == 4 and not done.err, 'a range is given back behind its volume', done)
    os.truncate(f'{w}/v.nhr', 0)
    want('and of an empty one', run(lent, index), 1,
         f'{index}: refused 7: offsets break their rules (the index states 1786 bytes for the header file, it has 0)\n', '')


def test_guarded(guarded):
    """The same lines under the compiler's sanitizers, which end a program that reads or writes outside its memory, or leaks."""
    w, found = tree()
    write(f'{w}/list', '\0'.join((*found, w, f'{w}/none', *found)).encode())
    for words in (('--json', '-j', '2', f'{WORK}/damaged'), (f'{w}/top', w, f'{w}/none', f'{w}/none', f'{w}/empty', '', *found),
                  ('--files-from', f'{w}/list', '--json', '-j', '3'), ('--files-from', f'{w}/nowhere'), ('--files-from', w), (f'{WORK}/unreadable', '--json'),
                  (f'{w}/b/one.psq', f'{w}/b/one.xyz', f'{w}/b/one.pxy', 'x' * 254), ('--help',), ('-j', '0'), ()):
        plain, done = run('gullcheck', *words), run(guarded, *words)
        count((done.status, done.out, done.err) == (plain.status, plain.out, plain.err), f'the sanitizers find nothing: {words[:4]}', done.err)


def on_terminal(*words):
    """What a terminal gets, escape sequences made visible."""
    ours, theirs = pty.openpty()
    process = subprocess.Popen([os.path.join(BIN, words[0]), *words[1:]], stdin=subprocess.DEVNULL, stdout=theirs, stderr=theirs)
    os.close(theirs)
    parts = []
    try:
        while data := os.read(ours, 1 << 16):
            parts.append(data)
    except OSError:
        pass  # the terminal's other side is closed
    os.close(ours)
    return process.wait(), b''.join(parts).decode().replace('\r\n', '\n').replace('\r\x1b[K', '|')


def test_terminal():
    v, w = SAMPLES, fresh('terminal')
    shown = (0, f'|gullcheck: 1 of 2: {v}/mb_prot.pin|{v}/mb_prot.pin: {passed_line("mb_prot")}\n'
                f'|gullcheck: 2 of 2: {v}/re_nuc0.nin|{v}/re_nuc0.nin: {passed_line("re_nuc0")}\n')
    got = on_terminal('gullcheck', f'{v}/mb_prot', f'{v}/re_nuc0')
    count(got == shown, 'progress on a terminal, and lines that stand alone', f'{got} is not {shown}')
    got = on_terminal('gullcheck', f'{v}/mb_prot')
    count(got == (0, f'{v}/mb_prot.pin: {passed_line("mb_prot")}\n'), 'no progress for one volume', got)
    index = copy_volume('mb_prot', f'{w}/esc\x1b[2J')
    status, got = on_terminal('gullcheck', '-j', '2', '--quiet', index, f'{v}/none', f'{v}/re_nuc0')
    count(status == 2 and '\x1b' not in got and got.count('\n') == 1, 'no name reaches the terminal raw', got)


def test_all():
    swapped = build('swapped', 'gullcheck', '-Wl,--wrap=open,--wrap=read', 'tests/swap.c')
    small = build('small', 'gullcheck', '-DMOST_INPUT=100000')
    guarded = build('guarded', 'gullcheck', *SANITIZERS)
    lent = build('lent', 'gullcheck', '-Wl,--wrap=gull_check_volume', 'tests/lent.c')
    test_usage()
    test_help()
    test_directories()
    test_once()
    test_lists()
    test_full()
    test_swapped(swapped)
    test_jobs(swapped)
    test_limit(small)
    test_header(swapped, lent)
    test_guarded(guarded)
    test_lines()
    test_terminal()
