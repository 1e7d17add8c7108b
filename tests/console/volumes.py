"""gullcheck on one volume: its lines, its numbers, its hints, and files that cannot be read."""
import json, os, resource, struct, subprocess

from trial import *


def json_of(done):
    """The objects of the lines; a line that is none is a failure."""
    try:
        return [json.loads(line) for line in done.out.decode('ascii').split('\n')[:-1]]
    except ValueError as error:
        count(False, 'each line is a JSON object', f'{error}: {done}')
        return [{}]


def test_samples():
    v = SAMPLES
    want('a volume that passes', run('gullcheck', f'{v}/mb_prot'), 0, f'{v}/mb_prot.pin: {passed_line("mb_prot")}\n', '')
    want('the same by its index', run('gullcheck', f'{v}/mb_prot.pin'), 0, f'{v}/mb_prot.pin: {passed_line("mb_prot")}\n', '')
    want('dna', run('gullcheck', f'{v}/re_nuc0'), 0, f'{v}/re_nuc0.nin: {passed_line("re_nuc0")}\n', '')
    want('--quiet', run('gullcheck', '--quiet', f'{v}/mb_prot', f'{v}/mb_protidt', f'{v}/re_nuc0'), 0, '', '')
    want('a timestamp that ends at 60', run('gullcheck', f'{v}/re_nuc04'), 0, f'{v}/re_nuc04.nin: {passed_line("re_nuc0")}\n', '')
    want('a file is missing', run('gullcheck', f'{v}/fd_v3'), 2, '', 'fd_v3.nsq: No such file or directory')
    want('an index is missing', run('gullcheck', f'{v}/none.pin'), 2, '', f'gullcheck: {v}/none.pin: No such file or directory\n')
    want('standard input is closed', run('/bin/sh', '-c', f'{os.path.join(BIN, "gullcheck")} {v}/mb_prot <&-'), 0,
         f'{v}/mb_prot.pin: {passed_line("mb_prot")}\n', '')
    want('nothing of that name', run('gullcheck', f'{v}/none'), 2, '', f'gullcheck: {v}/none: there is no index, neither .pin nor .nin\n')


def test_statuses():
    good, bad, none = (f'{SAMPLES}/{name}' for name in ('mb_prot', 'mb_nuc', 'none'))
    for words, status in (((good, good), 0), ((bad, good), 1), ((good, bad), 1), ((none, good), 2), ((good, none), 2), ((none, bad), 2),
                          ((bad, none), 2)):
        for jobs in ('1', '3'):
            want(f'the worst status of {words}', run('gullcheck', '--quiet', '-j', jobs, *words), status)


def test_timestamps():
    """A timestamp may end at any multiple of 4; every other end is 5."""
    folder, meaning = fresh('stamps'), 'the timestamp does not end at a multiple of 4'
    for more in range(1, 9):
        index = copy_volume('mb_prot', f'{folder}/{more}')
        write(index, padded(read(index), more))
        what = f'a timestamp with {more} NULs more'
        if more % 4 == 0:
            want(what, run('gullcheck', index), 0, f'{index}: {passed_line("mb_prot")}\n', '')
        else:
            want(what, run('gullcheck', index), 1, f'{index}: refused 5: {meaning} (in the index)\n', '')
    done = run('gullcheck', '--json', f'{folder}/2')
    want('--json of 5', done, 1, told='')
    count(json_of(done) == [{'volume': f'{folder}/2.pin', 'answer': 5, 'meaning': meaning, 'hint': 'in the index'}], 'its object', done)


def test_json():
    v = SAMPLES
    done = run('gullcheck', '--json', f'{v}/re_nuc0')
    want('--json of one that passes', done, 0, told='')
    stamp = 'Nov 15, 2026  2:23 PM'
    count(json_of(done) == [{'volume': f'{v}/re_nuc0.nin', 'answer': 0, 'type': 'dna', 'sequences': 23, 'residues': 5796, 'longest': 4298,
                             'title': 'made up nucleotides', 'timestamp': stamp}], 'its object', done)
    done = run('gullcheck', '--json', f'{v}/mb_nuc')
    want('--json of a refusal', done, 1, told='')
    count(json_of(done) == [{'volume': f'{v}/mb_nuc.nin', 'answer': 7, 'meaning': 'offsets break their rules',
                             'hint': 'the sequence file begins with a lead byte, without it the volume would pass'}],
          'its object', done)
    done = run('gullcheck', '--json', f'{v}/fd_v3', f'{v}/none')
    want('--json without an answer', done, 2, told=f'gullcheck: {v}/fd_v3.nin: {v}/fd_v3.nsq: No such file or directory\n')
    count(json_of(done) == [{'volume': f'{v}/fd_v3.nin', 'file': f'{v}/fd_v3.nsq', 'error': 'No such file or directory'},
                            {'volume': f'{v}/none', 'file': f'{v}/none', 'error': 'there is no index, neither .pin nor .nin'}],
                            'its objects', done)
    done = run('gullcheck', '--json', '--quiet', f'{v}/mb_prot', f'{v}/mb_nuc', f'{v}/none')
    want('--json --quiet', done, 2)
    count([sorted(o) for o in json_of(done)] == [['answer', 'hint', 'meaning', 'volume'], ['error', 'file', 'volume']],
          'only what did not pass', done)


def retitled(name, title):
    """A sample with these bytes at the start of its title."""
    index = copy_volume('mb_prot', f'{fresh("titles")}/{name}')
    data = read(index)
    write(index, data[:12] + title + data[12 + len(title):])
    return index


def test_titles():
    title = b'\x1b[2J"\\\n\xff\xc3\xa9\0\x7f'
    index = retitled('t', title)
    shown = r'\x1b[2J\"\\\x0a\xff\xc3\xa9\x00\x7f'
    want('a title that a terminal would obey', run('gullcheck', index), 0,
         f'{index}: ' + passed_line('mb_prot').replace('made up proteins'[:len(title)], shown) + '\n', '')
    done = run('gullcheck', '--json', index)
    count(json_of(done)[0].get('title', '').encode('latin-1') == title + b'made up proteins'[len(title):],
          'its bytes come back from JSON', done)


def test_large_title():
    """A title that is too long for memory as text costs its own line, and no other."""
    w, size = fresh('title'), 40000000
    write(f'{w}/a.pin', struct.pack('>3i', 4, 1, size) + bytes(size) + struct.pack('>2i', 0, 0) + bytes(12) + struct.pack('>2i', 0, 1))
    write(f'{w}/a.psq', bytes(1))
    write(f'{w}/a.phr', b'')
    index = copy_volume('mb_prot', f'{w}/b')
    tight = {'preexec_fn': lambda: resource.setrlimit(resource.RLIMIT_AS, (192 << 20, 192 << 20))}
    want('no memory for a line', run('gullcheck', w, **tight), 2, f'{index}: {passed_line("mb_prot")}\n',
         f'gullcheck: {w}/a.pin: no memory for its line\n')
    want('and with memory', run('gullcheck', '--quiet', w), 0, '', '')


def test_names():
    folder = fresh('names')
    forged = f'x.pin: passed: protein\n{SAMPLES}/mb_nuc.nin: passed'
    for name in ('line\nfeed', 'esc\x1b[2J', 'quo"te', 'back\\slash', 'spa ce', 'co:lon', 'é', b'\xff\xfe', forged.replace('/', '_')):
        base = os.fsencode(folder) + b'/' + os.fsencode(name)
        index = copy_volume('mb_prot', base)
        done = run('gullcheck', base)
        shown = ''.join(chr(b) if 32 <= b < 127 and b not in b'"\\' else '\\' + chr(b) if b in b'"\\' else f'\\x{b:02x}' for b in index)
        want(f'the name {name!r}', done, 0, f'"{shown}": {passed_line("mb_prot")}\n', '')
        done = run('gullcheck', '--json', base)
        count(json_of(done)[0].get('volume', '').encode('latin-1') == index, f'the bytes of {name!r} come back from JSON', done)
        os.remove(base + b'.psq')
        done = run('gullcheck', '--json', base)
        count(done.err.count(b'\n') == 1 and b'\x1b' not in done.err and b'\xff' not in done.err, f'{name!r} in a message', done)
        count(json_of(done)[0].get('file', '').encode('latin-1') == base + b'.psq', f'{name!r} in an error object', done)


def test_plain_names():
    w = fresh('plain')
    for name in ('!', '~x', 'a~', "it's", '(1)', '#', '$x', '-', '%', '@{}', 'x,y;z'):
        index = copy_volume('mb_prot', f'{w}/{name}')
        want(f'the name {name} needs no quotes', run('gullcheck', f'{w}/{name}'), 0, f'{index}: {passed_line("mb_prot")}\n', '')


def test_stale_files():
    v, w = SAMPLES, fresh('stale')
    rule = 'refused 7: offsets break their rules'
    index = copy_volume('mb_prot', f'{w}/s')
    write(f'{w}/s.psq', read(f'{v}/mb_prot.psq') + b'\1\2\3\0')
    want('a longer sequence file', run('gullcheck', index), 1,
         f'{index}: {rule} (the index states 1664 bytes for the sequence file, it has 1668)\n', '')
    write(f'{w}/s.phr', read(f'{v}/mb_prot.phr')[:-1])
    want('and a shorter header file', run('gullcheck', index), 1,
         f'{index}: {rule} (the index states 1119 bytes for the header file, it has 1118; '
         'the index states 1664 bytes for the sequence file, it has 1668)\n')
    write(f'{w}/s.psq', read(f'{v}/mb_prot.psq'))
    done = run('gullcheck', '--json', index)
    count(json_of(done)[0].get('hint') == 'the index states 1119 bytes for the header file, it has 1118', 'the hint in JSON', done)
    start, n = tables(read(index))
    change(index, start + 4 * n, 0x01020304)
    want('a large number is stated', run('gullcheck', index), 1,
         f'{index}: {rule} (the index states 16909060 bytes for the header file, it has 1118)\n', '')
    index = copy_volume('re_nuc0', f'{w}/d')
    write(f'{w}/d.nsq', read(f'{v}/re_nuc0.nsq')[:-1])
    want('a shorter dna file', run('gullcheck', index), 1, f'{index}: {rule} (the index states 2058 bytes for the sequence file, it has 2057)\n')


def put(data, place, value):
    """Bytes with a big-endian number at a place."""
    return data[:place] + struct.pack('>i', value) + data[place + 4:]


def change(index, place, value):
    """The same in a file."""
    write(index, put(read(index), place, value))


def test_uncertain():
    rule, w = 'refused 7: offsets break their rules', fresh('uncertain')
    index = copy_volume('mb_prot', f'{w}/fall')
    start, n = tables(read(index))
    change(index, start + 4, 2000)
    want('an offset inside: no hint', run('gullcheck', index), 1, f'{index}: {rule}\n', '')
    index = copy_volume('re_nuc0', f'{w}/two')
    start, n = tables(read(index))
    change(index, start + 12 * n + 8, 77)
    want('the two last offsets of dna differ: no hint', run('gullcheck', index), 1, f'{index}: {rule}\n', '')
    change(index, start + 8 * n + 4, 99)
    want('and neither is the length: no hint', run('gullcheck', index), 1, f'{index}: {rule}\n', '')
    change(index, start + 8 * n + 4, -5)
    want('a negative last offset: no hint', run('gullcheck', index), 1, f'{index}: {rule}\n', '')


def test_index_hints():
    """1 to 6 are the index; 8 and 9 have no hint."""
    w = fresh('numbers')
    whole = read(f'{SAMPLES}/mb_prot.pin')
    start, n = tables(whole)
    numbers = {1: whole[:-1], 2: put(whole, 0, 5), 3: put(whole, 4, 2), 4: put(whole, 8, -1), 6: whole + b'\0', 9: put(whole, start - 4, 1501)}
    for number, data in numbers.items():
        index = copy_volume('mb_prot', f'{w}/{number}')
        write(index, data)
        hint = ' (in the index)' if number <= 6 else ''
        line = run('gullcheck', index).out.decode()
        count(line.startswith(f'{index}: refused {number}: ') and line.endswith(hint + '\n') and line.count('(') == (number <= 6),
              f'the hint of {number}', line)
    index = copy_volume('mb_prot', f'{w}/8')
    write(f'{w}/8.psq', b'\1' + read(f'{SAMPLES}/mb_prot.psq')[1:])
    want('8 has no hint', run('gullcheck', index), 1, f'{index}: refused 8: a protein separator is not NUL\n', '')


def test_lead_byte():
    rule, lead = 'refused 7: offsets break their rules', 'the sequence file begins with a lead byte'
    w = fresh('lead')
    for name in ('mb_nuc', 'mb_nucidt', 'mb_short', 'fd_nuc', 'fd_titles'):
        index = f'{SAMPLES}/{name}.nin'
        want(f'the lead byte of {name}', run('gullcheck', index), 1, f'{index}: {rule} ({lead}, without it the volume would pass)\n', '')
    index = copy_volume('mb_nuc', f'{w}/l')
    data = read(f'{w}/l.nsq')
    write(f'{w}/l.nsq', data + b'\0')
    want('a lead byte, and stale', run('gullcheck', index), 1,
         f'{index}: {rule} (the index states 2059 bytes for the sequence file, it has 2060; {lead}, without it the volume would be refused 7)\n')
    write(f'{w}/l.nsq', b'\1' + data[1:])
    want('a first byte that is not NUL: no hint', run('gullcheck', index), 1, f'{index}: {rule}\n', '')
    write(f'{w}/l.nsq', data)
    start, n = tables(read(index))
    change(index, start + 4 * n + 8, -2147483648)
    want('a lead byte and a damaged offset', run('gullcheck', index), 1, f'{index}: {rule} ({lead})\n', '')
    index = copy_volume('mb_nuc', f'{w}/stamp')
    write(index, padded(read(index), 4))
    want('a lead byte and a timestamp that ends at 60', run('gullcheck', index), 1,
         f'{index}: {rule} ({lead}, without it the volume would pass)\n', '')
    index = copy_volume('mb_nuc', f'{w}/count')
    start, n = tables(read(index))
    change(index, start - 4, 4299)
    want('a lead byte and a wrong longest length', run('gullcheck', index), 1,
         f'{index}: {rule} ({lead}, without it the volume would be refused 9)\n')
    index = f'{w}/none.nin'
    write(index, struct.pack('>4i8xi', 4, 0, 0, 8, 0) + bytes(12) + struct.pack('>3i', 0, 1, 1))
    write(f'{w}/none.nsq', b'\0')
    write(f'{w}/none.nhr', b'')
    whole = read(index)
    write(index, put(whole[:16] + whole[24:], 12, 0))
    want('and an empty timestamp', run('gullcheck', index), 1, f'{index}: {rule} ({lead}, without it the volume would pass)\n')
    write(index, whole)
    write(f'{w}/none.nhr', b'h')
    want('a header file where the index states none', run('gullcheck', index), 1,
         f'{index}: {rule} (the index states 0 bytes for the header file, it has 1; {lead}, without it the volume would be refused 7)\n')
    write(f'{w}/none.nhr', b'')
    want('a lead byte and no sequence', run('gullcheck', index), 1, f'{index}: {rule} ({lead}, without it the volume would pass)\n')


def damaged(folder, how_many):
    """Volumes with one byte changed, one cut and one byte more, by a fixed rule; their indexes."""
    state, names = 12345, []
    for k in range(how_many):
        state = (state * 6364136223846793005 + 1442695040888963407) % 2**64
        sample = ('mb_prot', 'mb_protidt', 're_nuc0', 'mb_nuc', 'mb_short')[k % 5]
        index = copy_volume(sample, f'{folder}/{k:04}')
        path = index if k % 3 else index[:-2] + ('sq', 'hr')[k % 2]
        data = bytearray(read(path))
        place = (state >> 24) % len(data)
        if k % 7 == 0:
            data = data[:place]
        elif k % 11 == 0:
            data.append(0)
        else:
            data[place] ^= 1 << (state >> 60) % 8
        write(path, data)
        names.append(index)
    return names


def test_damaged():
    """The number of each damaged volume is that of the second program: no hint changes an answer."""
    names = damaged(fresh('damaged'), 400)
    stream = b''
    for index in names:
        stream += b'\1' + b''.join(struct.pack('<I', len(data)) + data for data in (read(index[:-2] + ending) for ending in ('in', 'sq',
                                                                                                                             'hr')))
    expected = subprocess.run(['second/target/release/own-cases'], input=stream, capture_output=True,
                              check=True).stdout.decode().split('\n')[:-1]
    done = run('gullcheck', '--json', '-j', '2', os.path.dirname(names[0]))
    answers = [str(o.get('answer')) for o in json_of(done)]
    count(answers == [line.split(' ')[0] for line in expected], 'the answers of 400 damaged volumes', answers)
    count(len(set(answers)) > 6, 'of many kinds', set(answers))


def test_unreadable():
    w = fresh('unreadable')
    for k, (ending, make, told) in enumerate((
            ('psq', os.mkfifo, 'not a regular file'), ('pin', os.mkfifo, 'not a regular file'), ('phr', os.mkdir, 'not a regular file'),
            ('pin', lambda p: os.symlink('nowhere', p), 'a link to a file that is not there'),
            ('psq', lambda p: os.symlink('nowhere', p), 'a link to a file that is not there'),
            ('pin', lambda p: os.symlink(os.path.basename(p), p), 'Too many levels of symbolic links'),
            ('phr', lambda p: os.symlink('/dev/null', p), 'not a regular file'),
            ('psq', lambda p: os.symlink('/proc/version', p), 'the file was swapped while the volume was read'))):
        copy_volume('mb_prot', f'{w}/{k}')
        os.remove(f'{w}/{k}.{ending}')
        make(f'{w}/{k}.{ending}')
        for name in (f'{w}/{k}', f'{w}/{k}.pin'):
            want(f'{told}: {name} {ending}', run('gullcheck', name), 2, '', f'{w}/{k}.{ending}: {told}\n')
    os.symlink('nowhere', f'{w}/word')
    want('a name that is a dangling link', run('gullcheck', f'{w}/word'), 2, '', f'{w}/word: a link to a file that is not there\n')
    os.symlink('loop', f'{w}/loop')
    want('a name that is a loop of links', run('gullcheck', f'{w}/loop'), 2, '', f'{w}/loop: Too many levels of symbolic links\n')
    want('an empty name', run('gullcheck', ''), 2, '', 'gullcheck: "": an empty name\n')
    want('a name through a file', run('gullcheck', f'{SAMPLES}/mb_prot.pin/x'), 2, '', 'Not a directory')
    want('a name that is too long', run('gullcheck', 'x' * 5000), 2, '', 'File name too long')
    want('a name that is too long with its ending', run('gullcheck', 'x' * 254), 2, '', 'File name too long')


def test_no_rights():
    w = fresh('rights')
    program = os.path.abspath(os.path.join(BIN, 'gullcheck'))
    command = as_nobody(program)
    if not command or subprocess.run([*command, '--version'], capture_output=True).returncode != 0:
        skipped('files without rights', 'no other user can be had here')
        return
    os.chmod(w, 0o755)
    for ending in ('pin', 'psq'):
        copy_volume('mb_prot', f'{w}/{ending}')
        os.chmod(f'{w}/{ending}.{ending}', 0)
        want(f'a .{ending} that may not be read', run(*command, f'{w}/{ending}'), 2, '', f'{w}/{ending}.{ending}: Permission denied\n')
    os.mkdir(f'{w}/shut')
    copy_volume('mb_prot', f'{w}/shut/v')
    os.chmod(f'{w}/shut', 0)
    want('a directory that may not be read', run(*command, f'{w}/shut'), 2, '', f'{w}/shut: Permission denied\n')
    want('a name in it', run(*command, f'{w}/shut/v'), 2, '', f'gullcheck: {w}/shut/v: Permission denied\n')
    want('an index in it', run(*command, f'{w}/shut/v.pin'), 2, '', f'{w}/shut/v.pin: Permission denied\n')
    done = run(*command, w)
    want('a directory above it', done, 2, '', f'gullcheck: {w}/shut: Permission denied\n')
    os.chmod(f'{w}/shut', 0o755)
    os.truncate(f'{w}/pin.phr', 2**31)
    want('22 by size alone, the index not opened', run(*command, f'{w}/pin'), 1,
         f'{w}/pin.pin: refused 22: an input is over 2,147,483,647 bytes (the header file has 2147483648)\n', '')


def test_all():
    for test in (test_samples, test_statuses, test_timestamps, test_json, test_titles, test_large_title, test_names, test_plain_names,
                 test_stale_files, test_uncertain, test_index_hints, test_lead_byte, test_unreadable, test_no_rights, test_damaged):
        test()
