"""What surveys say and what is least over them: readers, writers, a search and a pricing for the scripts.

They follow docs/SURVEY-FILE.md, docs/SURVEY-TEXT.md and docs/REFUSALS.md, and share nothing with the programs. The
module csv splits a text into rows and fields. Needs python3.11 or newer.
"""
import collections, csv, heapq, io, re, sys

PER_100_METRES = {'U': 220, 'S': 90, 'F': 4}
MOST_PLACES, MOST_WAYS, MOST_METRES, MOST_PRICE = 256, 1024, 200, 1000000
MOST_BOUND, PAGE = 1000, 65536

Way = collections.namedtuple('Way', 'start end letter metres price grade loss')
# The names of the places, the prices of their repeaters, where a blank is None, and the ways.
Survey = collections.namedtuple('Survey', 'names places ways')

class Fault(Exception):
    """Why a survey file cannot be read: the number of a refusal and the byte place."""
    def __init__(self, number, place):
        super().__init__('REFUSED %d %d' % (number, place))
        self.number, self.place = number, place

class Trouble(Exception):
    """Why a row of a text cannot be read: one of TROUBLES, and its words."""
    def __init__(self, sort, *words):
        super().__init__(TROUBLES[sort] % words)
        self.sort, self.line = sort, None

    def __str__(self):
        return 'line %d: %s' % (self.line, self.args[0])

TROUBLES = {
    'no UTF-8': 'a field is no UTF-8 text',
    'control': 'a field holds a control character, such as a line break',
    'no kind': 'the row begins with "%s", not with place or way',
    'blank': '%s is blank',
    'taken name': 'there is a place "%s" already',
    'other number': 'the name "%s" is the number of another place',
    'no place': 'there is no place "%s"',
    'no letter': 'CABLE is "%s", not one of the letters U, S and F',
    'no number': '%s is "%s", not a whole number',
    'too large': '%s is "%s", too large',
    'behind': '"%s" stands behind %s, the last field',
    'refusal 5': 'REFUSED 5: a survey has at most 256 places and 1,024 ways',
    'refusal 6': 'REFUSED 6: a way leads from a place to another',
    'refusal 7': 'REFUSED 7: the cable is not U, S or F',
    'refusal 8': 'REFUSED 8: over 200 metres',
    'refusal 9': 'REFUSED 9: a price over 1,000,000 cents',
}

def need(right, sort, *words):
    if not right: raise Trouble(sort, *words)

def loss_of(letter, metres): return -(-metres * PER_100_METRES[letter] // 100)

# ---- a survey file

def two(b, i): return b[i] * 256 + b[i + 1]
def four(b, i): return two(b, i) * 65536 + two(b, i + 2)

def read_file(b):
    """The survey that a file says; its names are the places' numbers."""
    phase, at, places, ways = 'head', 0, [], []
    while True:
        if len(b) - at < 3: raise Fault(1, at)
        tag, length, body = b[at], two(b, at + 1), at + 3
        accepted = {'head': (1,), 'places': (2, 3, 4), 'ways': (3, 4)}[phase]
        if tag not in accepted: raise Fault(2, at)
        if length not in {1: (2,), 2: (0, 4), 3: (12,), 4: (0,)}[tag]: raise Fault(3, at)
        if len(b) - body < length: raise Fault(1, at)
        if tag == 1:
            if two(b, body) != 1: raise Fault(4, at)
            phase = 'places'
        elif tag == 2:
            if len(places) == MOST_PLACES: raise Fault(5, at)
            price = four(b, body) if length else None
            if length and price > MOST_PRICE: raise Fault(9, at)
            places.append(price)
        elif tag == 3:
            phase = 'ways'
            start, end, letter, grade = two(b, body), two(b, body + 2), chr(b[body + 4]), b[body + 5]
            metres, price = two(b, body + 6), four(b, body + 8)
            if len(ways) == MOST_WAYS: raise Fault(5, at)
            if start >= len(places) or end >= len(places) or start == end: raise Fault(6, at)
            if letter not in PER_100_METRES: raise Fault(7, at)
            if metres > MOST_METRES: raise Fault(8, at)
            if price > MOST_PRICE: raise Fault(9, at)
            ways.append(Way(start, end, letter, metres, price, grade, loss_of(letter, metres)))
        elif body < len(b): raise Fault(10, body)
        else: return Survey([str(n) for n in range(len(places))], places, ways)
        at = body + length

def file_of(survey):
    b = bytearray(b'\1\0\2\0\1')
    for price in survey.places: b += b'\2\0\0' if price is None else b'\2\0\4' + price.to_bytes(4, 'big')
    for w in survey.ways:
        b += b'\3\0\14' + w.start.to_bytes(2, 'big') + w.end.to_bytes(2, 'big') + w.letter.encode() + bytes([w.grade])
        b += w.metres.to_bytes(2, 'big') + w.price.to_bytes(4, 'big')
    return bytes(b + b'\4\0\0')

# ---- a text

MARK = b'\xef\xbb\xbf'
COLUMNS = {'NAME': 1, 'REPEATER': 2, 'FROM': 1, 'TO': 2, 'CABLE': 3, 'METRES': 4, 'PRICE': 5, 'GRADE': 6}
MOST = {'REPEATER': 2 ** 32 - 1, 'METRES': 2 ** 16 - 1, 'PRICE': 2 ** 32 - 1, 'GRADE': 255}

def rows_of(text):
    """The rows of a text, each with the line on which it begins and with its fields as bytes."""
    csv.field_size_limit(sys.maxsize)
    # Latin-1 has a character for each byte, so that bytes that are no UTF-8 come back unchanged.
    reader, line = csv.reader(io.StringIO(text.removeprefix(MARK).decode('latin-1'), newline='')), 1
    for row in reader:
        yield line, [field.encode('latin-1') for field in row]
        line = reader.line_num + 1

def is_text(field):
    try: field.decode('utf-8')
    except UnicodeDecodeError: return False
    return True

def words_of(row):
    """The fields of a row as text."""
    for field in row:
        need(is_text(field), 'no UTF-8')
        need(all(byte >= 32 and byte != 127 for byte in field), 'control')
    return [field.decode('utf-8') for field in row]

def value_of(word):
    """The number that plain digits write, or None. The first thirty digits tell that a longer one is too large."""
    return int(word.lstrip('0')[:30] or 0) if re.fullmatch('[0-9]+', word) else None

def place_of(names, word):
    """The place of a name, or else of a number, or None."""
    if word in names: return names.index(word)
    number = value_of(word)
    return number if number is not None and number < len(names) else None

def word_in(row, column):
    return row[COLUMNS[column]] if COLUMNS[column] < len(row) else ''

def filled(row, column):
    word = word_in(row, column)
    need(word, 'blank', column)
    return word

def number_in(row, column):
    word = filled(row, column)
    number = value_of(word)
    need(number is not None, 'no number', column, word)
    need(number <= MOST[column], 'too large', column, word)
    return number

def end_in(row, column, names):
    word = filled(row, column)
    place = place_of(names, word)
    need(place is not None, 'no place', word)
    return place

def check_behind(row, last):
    behind = [word for word in row[COLUMNS[last] + 1:] if word]
    need(not behind, 'behind', *behind[:1], last)

def enter_place(row, survey):
    name, next_place = filled(row, 'NAME'), len(survey.places)
    need(name not in survey.names, 'taken name', name)
    need(value_of(name) in (None, next_place), 'other number', name)
    price = number_in(row, 'REPEATER') if word_in(row, 'REPEATER') else None
    check_behind(row, 'REPEATER')
    need(next_place < MOST_PLACES, 'refusal 5')
    need(price is None or price <= MOST_PRICE, 'refusal 9')
    survey.names.append(name)
    survey.places.append(price)

def enter_way(row, survey):
    start, end = end_in(row, 'FROM', survey.names), end_in(row, 'TO', survey.names)
    letter = filled(row, 'CABLE')
    need(len(letter.encode()) == 1, 'no letter', letter)
    metres, price, grade = (number_in(row, column) for column in ('METRES', 'PRICE', 'GRADE'))
    check_behind(row, 'GRADE')
    need(len(survey.ways) < MOST_WAYS, 'refusal 5')
    need(start != end, 'refusal 6')
    need(letter in PER_100_METRES, 'refusal 7')
    need(metres <= MOST_METRES, 'refusal 8')
    need(price <= MOST_PRICE, 'refusal 9')
    survey.ways.append(Way(start, end, letter, metres, price, grade, loss_of(letter, metres)))

def read_text(text):
    """The survey that a text says."""
    survey, begun = Survey([], [], []), False
    for line, row in rows_of(text):
        try:
            row = words_of(row)
            if not any(row) or row[0].startswith('#'): continue
            heads, begun = not begun and row[:2] == ['place', 'name'], True
            if heads: continue
            need(row[0] in ('place', 'way'), 'no kind', row[0])
            (enter_place if row[0] == 'place' else enter_way)(row, survey)
        except Trouble as trouble:
            trouble.line = line
            raise
    return survey

def row_text(words):
    """A row of a text; the words that need quotes are in quotes."""
    return ','.join('"%s"' % w.replace('"', '""') if re.search('[,"\r\n]', w) else w for w in words) + '\n'

def text_of(survey):
    rows = [['place', 'name', 'repeater']]
    for name, price in zip(survey.names, survey.places):
        rows.append(['place', name] + ([] if price is None else [str(price)]))
    for w in survey.ways:
        ends = [survey.names[w.start], survey.names[w.end]]
        rows.append(['way', *ends, w.letter, str(w.metres), str(w.price), str(w.grade)])
    return ''.join(map(row_text, rows)).encode()

def read_either(data):
    """The survey of a survey file or of a text, which are told apart by the first three bytes."""
    return read_file(data) if data[:3] == b'\1\0\2' else read_text(data)

# ---- a plan: its least total, of the prices ('money') or as the highest grade ('disturbance'), or a refusal's number

def least(survey, closed, request, rows=None, kind='money'):
    places, (start, end, bound) = survey.places, request
    if start >= len(places) or end >= len(places): return 'refused', 14
    if bound == 0 or bound > MOST_BOUND: return 'refused', 15
    if rows is not None and rows < len(places) * (bound + 1): return 'refused', 16
    by_money = kind == 'money'
    out = collections.defaultdict(list)
    for n, w in enumerate(survey.ways):
        if n not in closed: out[w.start].append((w.end, w.loss, w.price if by_money else w.grade))
    best, heap = {(start, 0): 0}, [(0, start, 0)]
    while heap:
        cost, p, l = heapq.heappop(heap)
        if cost > best[p, l]: continue
        if p == end: return 'total', cost
        for to, loss, charge in out[p]:
            if l + loss > bound: continue
            paid = cost + charge if by_money else max(cost, charge)
            arrivals = [(to, l + loss, paid)]
            if places[to] is not None and to not in (start, end):
                arrivals.append((to, 0, paid + places[to] if by_money else paid))
            for q, m, c in arrivals:
                if c < best.get((q, m), c + 1):
                    best[q, m] = c
                    heapq.heappush(heap, (c, q, m))
    return 'refused', 17

# ---- steps that were drawn: the lines of their sheet, or a refusal's number

def drawn(survey, request, steps):
    places, ways, (start, end, bound) = survey.places, survey.ways, request
    if start >= len(places) or end >= len(places): return 14
    if bound == 0 or bound > MOST_BOUND: return 15
    at, loss, total, lines = start, 0, 0, ['RUN %d %d %d' % request]
    for n, mark in steps:
        if n >= len(ways) or ways[n].start != at: return 19
        before, at = at, ways[n].end
        loss, total = loss + ways[n].loss, total + ways[n].price
        if loss > bound: return 19
        lines.append('%d %d %d %d %s' % (n, before, at, loss, 'R' if mark else '-'))
        if mark:
            if places[at] is None or at in (start, end): return 19
            loss, total = 0, total + places[at]
    if at != end: return 19
    lines.append('TOTAL %d' % total)
    return lines if sum(len(line) + 1 for line in lines) <= PAGE else 18

# ---- a list of steps with names, in columns as wide as their words

def list_of(survey, steps):
    names, loss, rows = survey.names, 0, []
    for n, mark in steps:
        w = survey.ways[n]
        rows.append((names[w.start], names[w.end], w.letter, w.metres, loss + w.loss, 'R' if mark else '-'))
        loss = 0 if mark else loss + w.loss
    start, end = (max([len(row[k]) for row in rows] + [least]) for k, least in ((0, 4), (1, 2)))
    head = 'FROM'.ljust(start) + '  ' + 'TO'.ljust(end) + '  CABLE  METRES  LOSS  REPEATER'
    return ['', head] + ['%s  %s  %-5s  %6d  %4d  %s' % (a.ljust(start), z.ljust(end), *more) for a, z, *more in rows]
