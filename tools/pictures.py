"""Pictures for the tools: PGM, read with any header that netpbm's tools read, or refused by name; grey PNG, made and opened."""
import struct
import sys
import zlib

WIDE = 80
PNG = b'\x89PNG\r\n\x1a\n'  # the first bytes of each


class Refused(Exception):
    """A file that is no picture that can be shown, and why."""


def header(data):
    """The numbers of a binary PGM's header, its first comment, and where the greys start."""
    numbers, digits, comment, at = [], '', '', 2
    if data[:2] != b'P5':
        raise Refused('it is no binary PGM (P5)')
    while len(numbers) < 3:
        letter = data[at:at + 1].decode('latin-1')
        at += 1
        if letter == '#':  # a comment is a white space as long as its line
            end = min([i for i in (data.find(b'\n', at), data.find(b'\r', at)) if i >= 0] + [len(data)])
            comment = comment or data[at:end].decode('ascii', 'replace').strip()
            at, letter = end + 1, '\n'
        if letter in ('0', '1', '2', '3', '4', '5', '6', '7', '8', '9') and at > 3:
            digits += letter
            if len(digits) > 9:
                raise Refused('its header has a number of more than nine digits')
        elif letter and letter in ' \t\n\v\f\r':
            numbers += [int(digits)] if digits else []
            digits = ''
        else:
            raise Refused('its header ends early' if at > len(data) else 'its header has a %r' % letter)
    return numbers, comment, at


def read(name):
    """The rows of greys of a picture, and its comment."""
    try:
        with open(name, 'rb') as file:
            data = file.read()
    except OSError as error:
        raise Refused(error.strerror or 'it could not be read')
    (width, height, most), comment, at = header(data)
    if width == 0 or height == 0:
        raise Refused('it has no greys: %d by %d' % (width, height))
    if most != 255:
        raise Refused('its greys run to %d, and not to 255' % most)
    if len(data) - at < width * height:
        raise Refused('greys are missing: %d of %d are there' % (len(data) - at, width * height))
    return [data[at + row * width:at + (row + 1) * width] for row in range(height)], comment


def shown(name, width):
    """A name as a terminal shows it in so many columns: its end if it is long, ? for what is no letter of ASCII."""
    name = ''.join(c if ' ' <= c <= '~' else '?' for c in name)
    return name if len(name) <= width else '..' + name[2 - width:]


def refuse(tool, name, why):
    """Says in one line which file is bad, and why, and ends with 1."""
    why = ': %s' % why
    print('%s: %s%s' % (tool, shown(name, WIDE - len(tool) - 2 - len(why)), why), file=sys.stderr)
    sys.exit(1)


def read_all(tool, names):
    """Pictures of one size, with their comments; else says which file is bad, and ends with 1."""
    pictures = []
    for name in names:
        try:
            rows, comment = read(name)
            if pictures and (len(rows), len(rows[0])) != (len(pictures[0][0]), len(pictures[0][0][0])):
                first = pictures[0][0]
                raise Refused('it is %d by %d, and the first is %d by %d' % (len(rows[0]), len(rows), len(first[0]), len(first)))
        except Refused as refused:
            refuse(tool, name, refused)
        pictures.append((rows, comment))
    return pictures


def png(rows, depth=8):
    """A grey PNG of rows of one byte a grey, each from 0 to 2^depth - 1, packed into as many bits as it needs (8, 4, 2 or 1)."""
    def packed(row):
        if depth == 8:
            return bytes(row)
        count = 8 // depth  # of greys in a byte; the spare ones of the last are 0
        row = bytes(row) + bytes(-len(row) % count)
        return bytes(sum(row[at + i] << 8 - depth * (i + 1) for i in range(count)) for at in range(0, len(row), count))

    def chunk(kind, data):
        return struct.pack('>I', len(data)) + kind + data + struct.pack('>I', zlib.crc32(kind + data))

    header = struct.pack('>IIBBBBB', len(rows[0]), len(rows), depth, 0, 0, 0, 0)
    lines = b''.join(b'\0' + packed(row) for row in rows)
    return PNG + chunk(b'IHDR', header) + chunk(b'IDAT', zlib.compress(lines, 9)) + chunk(b'IEND', b'')


def drawn(data):
    """What a PNG draws, its header and its lines, to compare two by: another zlib packs the same lines into other bytes."""
    header, lines, at = None, b'', len(PNG)
    if data[:at] != PNG:
        raise Refused('it is no PNG')
    try:
        while at < len(data):
            size, kind = struct.unpack_from('>I4s', data, at)
            inner = data[at + 8:at + 8 + size]
            header = inner if kind == b'IHDR' else header
            lines += inner if kind == b'IDAT' else b''
            at += 12 + size
        return header, zlib.decompress(lines)
    except (struct.error, zlib.error):
        raise Refused('it is a damaged PNG')
