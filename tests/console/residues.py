"""gullpack and gullunpack beside the second program, on inputs of many sizes; letters; input and output that fail."""
import os, random, resource, subprocess

from trial import *

OWN = 'second/target/release/own-convert'
NUCLEIC, AMINO = 'ACGT-RYMKSWHBVDN', 'ACDEFGHIKLMNPQRSTVWY-BJZOUX*'
SIZES = [*range(33), 44, 45, 46, 89, 90, 91, 1000, 4095, 4096, 9999, 65535, 65536, 65537, 131073, 400000]


def codes(alphabet, size, chance, kind):
    """Codes of an alphabet: any (0), plain bases (1), plain with some that are not (2)."""
    most = 28 if alphabet == 3 else 16
    if kind == 0:
        return bytes(chance.randrange(most) for _ in range(size))
    return bytes(most - 1 if kind == 2 and chance.random() < 0.02 else chance.randrange(4) for _ in range(size))


def own(way, alphabet, data):
    """What the second program gives: its output, or the number of its refusal."""
    done = subprocess.run([OWN, way, str(alphabet)], input=data, capture_output=True)
    return done.stdout if done.returncode == 0 else int(done.stderr)


def agree(way, alphabet, data):
    """A program and the second one give the same bytes, or the same number; the bytes."""
    program = 'gull' + way
    done, expected = run(program, str(alphabet), data=data), own(way, alphabet, data)
    if isinstance(expected, int):
        want(f'{program} {alphabet} refuses {len(data)} bytes', done, 1, b'', f'{program}: refused {expected}: ')
        return b''
    count((done.status, done.out, done.err) == (0, expected, b''),
          f'{program} {alphabet} on {len(data)} bytes is what the second program gives',
          f'status {done.status}, {len(done.out)} bytes, wanted {len(expected)}, told {done.err!r}')
    return expected


def test_sizes():
    chance = random.Random(7)
    for size in SIZES:
        for alphabet in (1, 2, 3):
            kinds = (0, 1, 2) if size > 14 else (0,)
            for kind in kinds[:2 + (size < 5000)]:
                data = codes(alphabet, size, chance, kind)
                packets = agree('pack', alphabet, data)
                count(agree('unpack', alphabet, packets) == data, f'{size} residues come back')


def test_refusals():
    chance = random.Random(8)
    for alphabet in (0, 1, 2, 3, 4, 4294967295):
        for size in (0, 1, 7, 500):
            agree('pack', alphabet, bytes(chance.randrange(40) for _ in range(size)))
            agree('unpack', alphabet, bytes(chance.randrange(256) for _ in range(size)))
    for alphabet in (2, 3):
        packets = bytearray(own('pack', alphabet, codes(alphabet, 300, chance, 0)))
        for k in range(40):
            place = chance.randrange(len(packets))
            packets[place] ^= 1 << chance.randrange(8)
            agree('unpack', alphabet, bytes(packets))
    want('18', run('gullpack', 'amino', data=b'\x1c'), 1, b'', 'gullpack: refused 18: a residue code is not valid\n')
    want('17', run('gullunpack', 'rna', data=bytes(4)), 1, b'', 'gullunpack: refused 17: the packets are not a well-formed run\n')


def test_inputs():
    w = fresh('inputs')
    data = bytes(range(16)) * 20000
    write(f'{w}/codes', data)
    packed = own('pack', 2, data)
    with open(f'{w}/codes', 'rb') as file:
        count(run('gullpack', 'dna', stdin=file).out == packed, 'from a file')
    done = run('/bin/sh', '-c', f'(sleep 0.1; cat {w}/codes; sleep 0.1; cat {w}/codes) | {os.path.join(BIN, "gullpack")} dna')
    want('from a slow pipe', done, 0, own('pack', 2, data + data), '')
    with open(f'{w}/codes', 'rb') as file:
        file.seek(319990)
        want('from the middle of a file', run('gullpack', 'dna', stdin=file), 0, own('pack', 2, data[319990:]), '')
    for program in ('gullpack', 'gullunpack'):
        folder = os.open(w, os.O_RDONLY)
        want(f'{program} from a directory', run(program, 'dna', stdin=folder), 2, b'',
             f'{program}: standard input could not be read: Is a directory\n')
        os.close(folder)
        want(f'{program} from a closed input', run('/bin/sh', '-c', f'{os.path.join(BIN, program)} dna <&-'), 2, b'',
             'Bad file descriptor\n')


def test_limit():
    w = fresh('large')
    write(f'{w}/sparse', b'')
    os.truncate(f'{w}/sparse', 2**31)
    tight = {'preexec_fn': lambda: resource.setrlimit(resource.RLIMIT_AS, (256 << 20, 256 << 20))}
    for program in ('gullpack', 'gullunpack'):
        for word in ('dna', '9'):
            with open(f'{w}/sparse', 'rb') as file:
                want(f'{program} {word} on a large file', run(program, word, stdin=file, **tight), 1, b'',
                     f'{program}: refused 22: an input is over 2,147,483,647 bytes\n')
        with open(f'{w}/sparse', 'rb') as file:
            file.seek(1)
            want(f'{program} without memory', run(program, 'dna', stdin=file, **tight), 2, b'', 'Cannot allocate memory\n')
    for program, size in (('gullpack', 200000000), ('gullunpack', 80000000)):
        os.truncate(f'{w}/sparse', size)
        with open(f'{w}/sparse', 'rb') as file:
            want(f'{program} without memory for its output', run(program, 'dna', stdin=file, **tight), 2, b'', f'{program}: no memory\n')
    os.remove(f'{w}/sparse')
    small = build('small-pack', 'gullpack', '-DMOST_INPUT=100000')
    full = bytes(100000)
    want('a pipe at the limit', run(small, 'dna', data=full), 0, own('pack', 2, full), '')
    want('a pipe a byte over it', run(small, 'dna', data=full + b'\0'), 1, b'', 'refused 22')
    want('22 stands before 3', run(small, '9', data=full + b'\0'), 1, b'', 'refused 22')
    for extra in (0, 1):
        write(f'{w}/edge', full + bytes(extra))
        with open(f'{w}/edge', 'rb') as file:
            want(f'a file of the limit and {extra}', run(small, 'dna', stdin=file), extra)
    with open(f'{w}/edge', 'rb') as file:
        file.seek(1)
        want('what is left of a file counts', run(small, 'dna', stdin=file), 0, own('pack', 2, full), '')
    with open('/dev/zero', 'rb') as file:
        want('an input without end', run(small, 'dna', stdin=file), 1, b'', 'refused 22')


def test_letters():
    chance = random.Random(9)
    for alphabet, name, letters in ((1, 'rna', NUCLEIC), (2, 'dna', NUCLEIC), (3, 'amino', AMINO)):
        every = bytes(range(len(letters)))
        for text in (letters, letters.lower(), ' \t\v\f\r\n'.join(letters) + '\n'):
            want(f'{name} letters {text[:12]!r}', run('gullpack', '--letters', name, data=text.encode()), 0, own('pack', alphabet, every),
                 '')
        want(f'{name} as letters', run('gullunpack', '--letters', name, data=own('pack', alphabet, every)), 0, letters + '\n', '')
        for size in (0, 1, 15, 16, 4000, 70000):
            data = codes(alphabet, size, chance, size % 3)
            text = ''.join(letters[c] for c in data)
            want(f'{size} {name} letters', run('gullpack', name, '--letters', data=text.encode()), 0, own('pack', alphabet, data), '')
            want(f'{size} letters of {name}', run('gullunpack', '--letters', str(alphabet), data=own('pack', alphabet, data)), 0,
                 text + '\n', '')
    want('T and U alike', run('gullpack', '--letters', 'rna', data=b'TUtu'), 0, own('pack', 1, b'\3\3\3\3'), '')
    want('T and U of amino', run('gullpack', '--letters', 'amino', data=b'TU'), 0, own('pack', 3, bytes([16, 25])), '')


def test_guarded():
    """The same output under the compiler's sanitizers, which end a program that reads or writes outside its memory, or leaks."""
    chance = random.Random(10)
    pack, unpack = build('guarded-pack', 'gullpack', *SANITIZERS), build('guarded-unpack', 'gullunpack', *SANITIZERS)
    for alphabet, letters in ((2, NUCLEIC), (3, AMINO)):
        for size in (0, 1, 6, 15, 90, 70000):
            data = codes(alphabet, size, chance, size % 15 == 0)
            text, packets = ''.join(letters[c] for c in data).encode(), own('pack', alphabet, data)
            want(f'gullpack on {size} codes', run(pack, str(alphabet), data=data), 0, packets, '')
            want(f'gullpack on {size} letters', run(pack, '--letters', str(alphabet), data=text), 0, packets, '')
            want(f'gullunpack of {size} codes', run(unpack, str(alphabet), data=packets), 0, data, '')
            want(f'gullunpack of {size} letters', run(unpack, '--letters', str(alphabet), data=packets), 0, text + b'\n', '')
        every = bytes(range(256))
        want('every byte as a letter', run(pack, '--letters', str(alphabet), data=every), 1, b'', r'("\x00" at line 1, column 1 is no residue)')
        want('every byte as a packet', run(unpack, str(alphabet), data=every), 1, b'', 'refused 17')


def test_unknown_letters():
    told = 'refused 18: a residue code is not valid'
    for text, word, shown in ((b'ACGJ', 'dna', '"J" at line 1, column 4'), (b'AC\nGT\n\n A?T!', 'dna', '"?" at line 4, column 3'),
                              (b'>id\nACGT', 'dna', '">" at line 1, column 1'),
                              (b'AC\x1bG', 'dna', r'"\x1b" at line 1, column 3'), (b'\0', 'amino', r'"\x00" at line 1, column 1'),
                              (b'MK@', '3', '"@" at line 1, column 3')):
        want(f'the letter {shown}', run('gullpack', '--letters', word, data=text), 1, b'', f'gullpack: {told} ({shown} is no residue)\n')
    want('an alphabet that is none', run('gullpack', '--letters', '9', data=b'?'), 1, b'', 'refused 3')
    want('letters that are not asked for', run('gullpack', 'dna', data=b'ACGT'), 1, b'', f'gullpack: {told}\n')
    want('no packets', run('gullunpack', '--letters', 'dna', data=b''), 1, b'', 'refused 17')


def test_usage():
    for program in ('gullpack', 'gullunpack'):
        for words in ((), ('protein',), ('-1',), ('dna', 'dna'), ('0', 'dna'), ('--leters', 'dna'), ('--letters',), ('4294967296',), ('2x',), ('',),
                      (' 2',), ('--', '--letters'), ('--', '--letters', 'dna'), ('--', '--help')):
            want(f'{program} {words}', run(program, *words), 2, b'', f'usage: {program}')
    want('--', run('gullpack', '--', 'dna'), 0, b'\xff\xff\xff\xff', '')
    for word in ('1', 'rna', '2', 'dna'):
        want(f'gullpack {word}', run('gullpack', word, data=b'\0\1\2\3'), 0, b'\xff\x0f\x11\xc0', '')
        want(f'gullunpack {word}', run('gullunpack', word, data=b'\xff\x0f\x11\xc0'), 0, b'\0\1\2\3', '')
    for word in ('3', 'amino'):
        want(f'gullpack {word}', run('gullpack', word, data=b'\x0a\x08'), 0, b'\xff\xff\x8f\xd4', '')
        want(f'gullunpack {word}', run('gullunpack', word, data=b'\xff\xff\x8f\xd4'), 0, b'\x0a\x08', '')


def test_all():
    for test in (test_usage, test_refusals, test_letters, test_guarded, test_unknown_letters, test_inputs, test_limit, test_sizes):
        test()
