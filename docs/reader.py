"""Opens a record of a cartridge label, whole or cut, and says what it is worth.

usage: python3 reader.py LABEL RECORD PICTURE [R]

LABEL is eight characters, 0-9 or A-Z, leading zeros counted, RECORD the file of
the record, PICTURE a new file for the picture (binary PGM). The first word said
is WHOLE or CUT (status 0) or REFUSED (status 1, no picture); wrong usage: 2.
R, from 1 to L, asks for a thumbnail, the side halved R times: the promise has
L - R for L, and off is off from the same thumbnail of the picture as it was.

A record is a grey picture of side 8 to 256 in a run of 512-byte blocks. Bits of
its wavelet numbers stand there, the most significant first. So the blocks that
are left, from the front, show all of it, less exactly. FORMAT.md has the rules.

The promise: with p of n planes unfinished and L levels no grey is off by more
than (7L + 1)(2^p - 1), and with p = 0 it is the very picture; if all blocks are
of one shot. Blocks of two shots under one label with the same k, L and n splice
unnoticed in edition 1, and in 2 only if arm and mount number are the same too.
"""
import os, sys

def is_label(text): return len(text) == 8 and all('0' <= c <= '9' or 'A' <= c <= 'Z' for c in text)
def named(b): return (b[16], int.from_bytes(b[17:20], 'big')) if b[0] == 2 else ()  # arm, mount
def full(b): return 3904 if b[0] == 2 else 3936  # the bits that a block of its edition holds

def blocks_kept(record, asked):
    """Which blocks a reader keeps: their bits, how many they are, what is wrong with the next."""
    bits, kept, bad, due = [], 0, [], ('start of the record asked for', 'next block of this record')
    while not bad and len(bits) == full(record) * kept and len(record) >= 512 * (kept + 1):
        block = record[512 * kept:512 * (kept + 1)]
        (edition, k, L, n), label = block[:4], block[4:12].decode('latin-1')
        number, count, A, B = [256 * block[i] + block[i + 1] for i in (12, 14, 508, 510)]
        payload = [block[i // 8] >> (7 - i % 8) & 1 for i in range(8 * 508 - full(block), 8 * 508)]
        sums = sum(block[:508]) % 65521, sum((i + 1) * block[i] for i in range(508)) % 65521
        if (A, B) != sums: bad = ['damaged, a check is wrong (8)']
        elif (edition not in (1, 2) or not 3 <= k <= 8 or not 1 <= L <= min(5, k - 1) or n > 18
              or not is_label(label) or edition == 2 and named(block)[0] not in (1, 2)
              or count > full(block) or any(payload[count:])):  # 80 columns: less from 100 on
            bad = ['no block of edition 1 or 2%s (9)' % (', a field is wrong' * (kept < 100))]
        else:
            its = zip(('number', 'label', 'edition', '', 'arm', 'mount'),
                      (number, label, edition, block[1:4]) + named(block),
                      (kept, asked, record[0], record[1:4]) + named(record))  # two editions: no arm
            side = "    its side, levels or planes are not block 0's"
            bad = ['    its %s is %s and not %s' % i if i[0] else side for i in its if i[1] != i[2]]
            if bad: bad = ['not the %s (10)' % due[kept > 0]] + bad
            else: bits, kept = bits + payload[:count], kept + 1
    return bits, kept, bad

def wavelet_numbers(bits, k, L, n):
    """From bits to wavelet numbers in Z order, p, the unfinished planes, and where bits ran out."""
    S, p, bits, magnitude, sign, at = 2 ** k, n, iter(bits), [0] * 4 ** k, [1] * 4 ** k, [0]
    def is_open(a, b): at[0] = a; return max(magnitude[a:b]) >= 2 * T or next(bits) == 1
    def read_set(start, length):
        if length == 1: at[0] = start; read_number(start)
        elif is_open(start, start + length):
            for i in range(4): read_set(start + i * length // 4, length // 4)
    def read_number(place):
        if magnitude[place] >= 2 * T: magnitude[place] += next(bits) * T
        elif next(bits) == 1: sign[place], magnitude[place] = 1 - 2 * next(bits), T
    try:
        while p > 0:
            T, q = 2 ** (p - 1), (S // 2 ** L) ** 2; read_set(0, q)
            while q < S ** 2 and is_open(q, S ** 2):
                for start in (q, 2 * q, 3 * q): read_set(start, q)
                q = 4 * q
            p = p - 1
    except StopIteration: pass  # the bits ran out: the numbers keep what they have
    return [sign[place] * magnitude[place] for place in range(S ** 2)], p, at[0] * (p > 0)

def undo_line(x, at):
    """Where x has h lows and then h highs, at these places, it gets the line they were made of."""
    h, even, odd = len(at) // 2, at[0::2], at[1::2]
    low, high = [x[place] for place in at[:h]], [x[place] for place in at[h:]]
    for i in range(h): x[even[i]] = low[i] - (high[max(i - 1, 0)] + high[i] + 2) // 4
    for i in range(h): x[odd[i]] = high[i] + (x[even[i]] + x[even[min(i + 1, h - 1)]]) // 2

def greys(x, k, L, r):
    """From wavelet numbers to greys, r halvings short. z has bits two apart, as a Z place has."""
    z = [sum((i >> j & 1) << 2 * j for j in range(k)) for i in range(2 ** (k - r))]
    for level in range(L, r, -1):
        square = z[:2 ** k // 2 ** (level - 1)]
        for column in square: undo_line(x, [2 * row + column for row in square])
        for row in square: undo_line(x, [2 * row + column for column in square])
    return bytes([max(0, min(255, x[2 * row + column] + 128)) for row in z for column in z])

def opened(label, record, R=''):
    """What is said of a record, and its picture, the side halved R times: none if it is refused."""
    six = 'REFUSED: no whole block came, only %d of 512 bytes (6)' % len(record)
    seven = 'REFUSED: a label is eight characters, 0-9 or A-Z; leading zeros count (7)'
    if len(record) < 512 or not is_label(label): return [six if len(record) < 512 else seven], b''
    (bits, kept, bad), (k, L, n) = blocks_kept(record, label), record[1:4]
    if kept == 0: return ['REFUSED %s: block 0 is %s' % (label, bad[0])] + bad[1:], b''
    if R and R.lstrip('0') not in list('12345'[:L]):
        return ['REFUSED %s: R goes from 1 to %d, the levels of this record (13)' % (label, L)], b''
    numbers, p, at = wavelet_numbers(bits, k, L, n)
    S, r, s, what = 2 ** k, int(R[-1:] or 0), 's' * (kept > 1), 'thumbnail' if R else 'picture'
    side, limit, gap = S // 2 ** r, min(255, (7 * (L - r) + 1) * (2 ** p - 1)), ' '
    verdict, worth = 'CUT', 'no grey is off by more than %d of 255' % limit
    if limit == 255: worth = 'any grey may be wrong: too little is left to promise more'
    if p == 0: verdict, worth = 'WHOLE', 'every grey is right: the very ' + what
    more = 'more' if p > 0 and len(bits) == full(record) * kept else 'no more'
    part = ' and %d%% of the next' % (100 * at // S ** 2) if p > 0 else ''  # all before at is in
    size = 'thumbnail, side %d of %d' % (side, S) if R else 'side %d' % S
    if record[0] == 2: size, gap = size + ', arm %d, mount %d' % named(record), '\n  ' if R else ' '
    said = ['%s %s, %s:%s%d block%s, %s expected' % (verdict, label, size, gap, kept, s, more),
            '  ' + worth + (', if its blocks are of one shot' if kept > 1 and limit < 255 else ''),
            '  planes finished: %d of %d%s, levels: %d, bits: %d' % (n - p, n, part, L, len(bits))]
    if bad: said += ['  block %d ended the run: it is %s' % (kept, bad[0])] + bad[1:]
    header = 'P5\n# %s %s, p = %d,%s no grey off by more than %d of 255%s\n%d %d\n255\n' % (
        label, verdict, p, ' thumbnail from side %d,' % S if R else '', limit,
        ', if of one shot' if kept > 1 else '', side, side)
    return said, header.encode() + greys(numbers, k, L, r)

if __name__ == '__main__':
    given, text, version = sys.argv[1:], __doc__.strip(), 'reader.py 0.7.0, editions 1 and 2'
    if given in (['--help'], ['--version']): sys.exit(print(text if '--help' in given else version))
    wrong = len(given) not in (3, 4) or not all(os.fsencode(R).isdigit() for R in given[3:])
    if wrong or given[0][:1] == '-': sys.exit(print(text, file=sys.stderr) or 2)
    try:
        with open(given[1], 'rb') as file: said, picture = opened(given[0], file.read(), *given[3:])
        if picture:
            file = open(given[2], 'xb')  # a file that is there already is left alone
            try:
                with file: file.write(picture)
            except: os.remove(given[2]); raise  # no part of a picture stays
    except OSError as error: said, picture = [('REFUSED: %s' % error)[:80]], b''
    sys.exit(print('\n'.join(said)) or (0 if picture else 1))
