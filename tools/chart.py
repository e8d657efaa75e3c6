"""Charts as grey pictures: lines with smooth edges, and letters made of strokes. Nothing but the standard library is needed."""
import math

# A letter is a few strokes, a stroke a few points, a point its x and its y: capitals and digits stand from y 0 to 7, small
# letters from 2 to 7, what hangs below the line goes to 9.
LETTERS = {
    'A': '072047 1434', 'B': '0007 003041423303 3344463707', 'C': '4130100106173746', 'D': '0007 002042452707',
    'E': '40000747 0333', 'F': '400007 0333', 'G': '41301001061737464424', 'H': '0007 4047 0343', 'I': '0007',
    'J': '4046371706', 'K': '0007 4004 1347', 'L': '000747', 'M': '0700244047', 'N': '07004740',
    'O': '103041463717060110', 'P': '07003041433404', 'Q': '103041463717060110 2547', 'R': '07003041433404 2447',
    'S': '413010010213334446371706', 'T': '2027 0040', 'U': '000617374640', 'V': '002740', 'W': '0017335760',
    'X': '0047 4007', 'Y': '002340 2327', 'Z': '00400747',
    'a': '4247 4332120306173746', 'b': '0007 0312324346371706', 'c': '4332120306173746', 'd': '4047 4332120306173746',
    'e': '04444332120306173746', 'f': '30201117 0232', 'g': '4248391908 4332120306173746', 'h': '0007 0312324347',
    'i': '0207 0000', 'j': '121809 1010', 'k': '0007 4205 1447', 'l': '000617', 'm': '0207 0312223337 3342526367',
    'n': '0207 0312324347', 'o': '123243463717060312', 'p': '0209 0312324346371706', 'q': '4249 4332120306173746',
    'r': '0207 04132232', 's': '43321203143546371706', 't': '10162737 0232', 'u': '0206173746 4247', 'v': '022742',
    'w': '0217335762', 'x': '0247 4207', 'y': '0227 4219', 'z': '02420747',
    '0': '103041463717060110', '1': '022027 0747', '2': '01103041420747', '3': '0110304142334446371706 1333',
    '4': '37300545', '5': '400003334446371706', '6': '413010010617374644331304', '7': '004017',
    '8': '103041423313020110 13040617374644331333', '9': '433414030110304146371706',
    ' ': '', '.': '0707', ',': '1708', ':': '0303 0707', '-': '0434', '+': '0444 2226', '=': '0343 0545',
    '(': '20020527', ')': '00222507', '/': '4007',
}
STROKES = {letter: [[(int(part[i]), int(part[i + 1])) for i in range(0, len(part), 2)] for part in parts.split()]
           for letter, parts in LETTERS.items()}
BETWEEN, SPACE = 2.2, 2.5  # from one letter to the next, and the width of a blank


def width_of(words, size):
    """How wide words are, with a unit of a letter so many pixels."""
    wide = [max((x for stroke in STROKES[letter] for x, _ in stroke), default=SPACE) for letter in words]
    return size * (sum(wide) + BETWEEN * (len(wide) - 1))


class Sheet:
    """White paper, so many pixels wide and high. Places are counted from its upper left; ink goes from 0 (none) to 1 (black)."""

    def __init__(self, width, height):
        self.width, self.height = width, height
        self.light = [[1.0] * width for _ in range(height)]

    def lay(self, x, y, ink, part):
        if 0 <= x < self.width and 0 <= y < self.height:
            self.light[y][x] += part * (1 - ink - self.light[y][x])

    def box(self, left, top, right, bottom, ink):
        """A filled box; right and bottom are outside."""
        for y in range(top, bottom):
            for x in range(left, right):
                self.lay(x, y, ink, 1)

    def line(self, points, wide, ink):
        """A line from point to point. Where its parts meet it is as dark as elsewhere: the most that a part covers counts."""
        cover = {}
        reach = wide / 2 + 0.5
        for (x, y), (to_x, to_y) in zip(points, points[1:]):
            along_x, along_y = to_x - x, to_y - y
            square = along_x * along_x + along_y * along_y
            for row in range(math.floor(min(y, to_y) - reach), math.ceil(max(y, to_y) + reach) + 1):
                for column in range(math.floor(min(x, to_x) - reach), math.ceil(max(x, to_x) + reach) + 1):
                    off_x, off_y = column + 0.5 - x, row + 0.5 - y
                    share = min(1.0, max(0.0, (off_x * along_x + off_y * along_y) / square)) if square else 0.0
                    off_x, off_y = off_x - share * along_x, off_y - share * along_y
                    far = math.sqrt(off_x * off_x + off_y * off_y)
                    if far < reach:
                        cover[column, row] = max(cover.get((column, row), 0.0), min(1.0, reach - far))
        for (column, row), part in cover.items():
            self.lay(column, row, ink, part)

    def words(self, x, y, words, size=1.7, ink=1.0, share=0.0):
        """Words on a line at y; x is where they start, or with a share of 0.5 their middle, or of 1 their end."""
        x -= share * width_of(words, size)
        for letter in words:
            for stroke in STROKES[letter]:
                points = [(x + size * across, y + size * (down - 7)) for across, down in stroke]
                self.line(points if len(points) > 1 else points * 2, 0.8 * size, ink)
            x += width_of(letter, size) + size * BETWEEN

    def greys(self, count):
        """Its rows, in so many greys, 0 being black."""
        return [bytes(int(light * (count - 1) + 0.5) for light in row) for row in self.light]
