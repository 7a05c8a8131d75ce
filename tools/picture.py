"""The picture of a table of losses: an SVG, with the shares of all packets as areas, and the table's numbers below each step."""

from html import escape

COLOURS = '#9DBAD5', '#2E9E6B', '#F0A030', '#7B4FA8', '#C62F1C'
WORDS = 'received', 'from a spare copy', 'repaired by parity', 'only by solving', 'lost'
LEFT, TOP, WIDTH, HEIGHT = 190, 84, 800, 320  # where the areas begin, and their least size
MARGIN, LINE, DIGIT = 20, 24, 9               # at the edges; the height of a row of numbers; the width of a digit
GREY, DARK = '#D0D0D0', '#505050'


class Svg:
    """An SVG while it is drawn."""

    def __init__(self, width, height):
        self.parts = ['<svg xmlns="http://www.w3.org/2000/svg" viewBox="0 0 %d %d" width="%d" height="%d" font-family="sans-serif">'
                      % (width, height, width, height), '<rect width="%d" height="%d" fill="white"/>' % (width, height)]

    def text(self, x, y, words, size=13, anchor='middle', more=''):
        """Words at a place."""
        place = 'x="%g" y="%g" font-size="%d" text-anchor="%s"%s' % (x, y, size, anchor, more)
        self.parts.append('<text %s>%s</text>' % (place, escape(str(words))))

    def across(self, x, to_x, y):
        """A line across."""
        self.parts.append('<line x1="%g" y1="%g" x2="%g" y2="%g" stroke="%s"/>' % (x, y, to_x, y, GREY))

    def area(self, points, colour):
        """A filled area."""
        self.parts.append('<polygon fill="%s" points="%s"/>' % (colour, ' '.join('%.1f,%.1f' % point for point in points)))

    def box(self, x, y, size, colour):
        """A small box, the key of a row."""
        self.parts.append('<rect x="%g" y="%g" width="%d" height="%d" fill="%s"/>' % (x, y, size, size, colour))

    def end(self):
        """The whole file."""
        return '\n'.join(self.parts + ['</svg>', ''])


def picture(title, remark, rows):
    """The picture; a row has the percent to be dropped, the datagrams dropped and the five counts."""
    whole = sum(rows[0].counts)
    column = max(WIDTH / len(rows), DIGIT * (len(str(whole)) + 2))
    places = [LEFT + column * (at + 0.5) for at in range(len(rows))]
    right = LEFT + column * len(rows)
    svg = Svg(right + MARGIN, TOP + HEIGHT + LINE * (len(WORDS) + 3))
    svg.text(MARGIN, 34, title, 20, 'start', ' font-weight="bold"')
    svg.text(MARGIN, 58, remark, 13, 'start', ' fill="%s"' % DARK)
    axis(svg, whole, right)
    areas(svg, rows, whole, places)
    numbers(svg, rows, places, right)
    return svg.end()


def height(share):
    """Where a share of all packets stands."""
    return TOP + HEIGHT * (1 - share)


def axis(svg, whole, right):
    """The lines of the shares, and what they are."""
    for percent in range(0, 101, 20):
        svg.across(LEFT, right, height(percent / 100))
        svg.text(LEFT - 8, height(percent / 100) + 5, '%d %%' % percent, 13, 'end')
    x, y = LEFT - 70, TOP + HEIGHT / 2
    svg.text(x, y, 'share of all %d packets' % whole, 13, more=' transform="rotate(-90 %g %g)"' % (x, y))


def areas(svg, rows, whole, places):
    """An area for each kind, one upon the other."""
    below = [0] * len(rows)
    for kind, colour in enumerate(COLOURS):
        above = [low + row.counts[kind] for low, row in zip(below, rows)]
        edge = [(x, height(count / whole)) for x, count in zip(places, above)]
        svg.area(edge + [(x, height(count / whole)) for x, count in reversed(list(zip(places, below)))], colour)
        below = above


def numbers(svg, rows, places, right):
    """The table below the areas, a column a step; the heads of its rows are the key of the colours."""
    table = [('dropped by the line', [percent_text(row.percent) for row in rows], ''),
             ('datagrams dropped', [row.dropped for row in rows], '')]
    table += [(words, [row.counts[kind] for row in rows], COLOURS[kind]) for kind, words in enumerate(WORDS)]
    for at, (words, values, colour) in enumerate(table, 1):
        y = TOP + HEIGHT + LINE * at
        if colour:
            svg.box(MARGIN, y - 11, 13, colour)
        svg.text(MARGIN + 20 if colour else MARGIN, y, words, 13, 'start')
        for x, value in zip(places, values):
            svg.text(x, y, value)
        svg.across(MARGIN, right, y + 7)


def percent_text(percent):
    """A percentage, as short as it is."""
    return '%g %%' % round(percent, 1)
