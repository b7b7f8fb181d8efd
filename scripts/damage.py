"""The inputs of scripts/garbled: surveys, requests, calls, steps and texts, and what damages them.

Each function draws from `r`, which has a fixed seed. Damage is to bytes, to the rows of a text, or to its lines.
"""
import collections
from surveys import MARK, Fault, Trouble, read_either, read_file, row_text, rows_of, text_of

# ---- the inputs: surveys, requests, calls and steps

def a_survey(r, most, metres=200):
    places = r.choice([most] * 6 + [0, 1, r.randrange(most + 1)])
    b = bytearray(b'\1\0\2\0\1')
    for _ in range(places):
        price = r.choice([None, 0, r.randrange(3000), r.randrange(1000001)])
        b += b'\2\0\0' if price is None else b'\2\0\4' + price.to_bytes(4, 'big')
    for _ in range(r.randrange(6 * most + 1) if places > 1 else 0):
        start, end = r.sample(range(places), 2)
        b += b'\3\0\14' + start.to_bytes(2, 'big') + end.to_bytes(2, 'big') + r.choice(b'USF').to_bytes(1, 'big')
        b += bytes([r.randrange(256)]) + r.randrange(metres + 1).to_bytes(2, 'big')
        b += r.randrange(5000).to_bytes(4, 'big')
    return bytes(b + b'\4\0\0')

def asked(r, most):
    """A start, an end and a bound; most of them pass for a survey of so many places."""
    start, end = (r.randrange(most + (r.random() < .1)) for _ in range(2))
    return start, end, r.choice([0, 35, 200, 500, 700, 1000, 1001, r.randrange(1001), r.randrange(1001)])

def a_request(r, most):
    return b''.join(n.to_bytes(2, 'big') for n in asked(r, most))

def a_request_in_words(r, data):
    """A start, an end and a bound as words, most of them for a place of the survey, if it can be read."""
    try: names = read_either(data).names
    except (Fault, Trouble): names = []
    start, end, bound = asked(r, max(1, len(names)))
    # A name that begins with a hyphen would be an option, and a word of a command line is not as long as a file.
    def is_word(name): return not name.startswith('-') and len(name) < 1000
    def word(place):
        if r.random() < .1: return r.choice(['', 'nowhere', '999', str(2 ** 64 - 1), '٣', '0 ', '007'])
        if place < len(names) and is_word(names[place]) and r.random() < .7: return names[place]
        return '0' * (r.random() < .1) + str(place)
    return [word(start), word(end), str(bound)]

def a_script(r, most):
    lines = []
    for _ in range(r.randrange(8)):
        if r.random() < .7: lines.append(r.choice(['close %d', 'reopen %d']) % r.randrange(12))
        else: lines.append('plan %d %d %d' % asked(r, most))
    lines.append('plan %d %d %d' % asked(r, most))
    return ('\n'.join(lines) + r.choice(['', '\n'])).encode()

def a_walk(r, survey, most):
    """At most so many steps through a survey, from way to way, and the request that they answer; most are lawful."""
    places, ways = survey.places, survey.ways
    out = collections.defaultdict(list)
    for n, w in enumerate(ways): out[w.start].append((n, w))
    start = at = r.randrange(max(1, len(places)))
    loss, bound, steps = 0, r.choice([1000, 1000, r.randrange(1001)]), []
    for _ in range(most):
        on = [(n, w) for n, w in out[at] if loss + w.loss <= bound]
        if not on: break
        n, way = r.choice(on)
        at = way.end
        mark = places[at] is not None and at != start and r.random() < .5
        loss = 0 if mark else loss + way.loss
        steps.append((n, mark))
    if r.random() < .9: steps = [(n, mark and ways[n].end != at) for n, mark in steps]
    return start, at, bound, steps

def a_drawing(r, file, most):
    start, end, bound, steps = a_walk(r, read_file(file), most)
    b = b''.join(n.to_bytes(2, 'big') for n in (start, end, bound, len(steps)))
    return b + b''.join(n.to_bytes(2, 'big') + bytes([m]) for n, m in steps) + file

# ---- damage to bytes

def repeated(r, b):
    i = r.randrange(len(b))
    return b[:i] + b[i:i + r.choice([3, 7, 15, 15, 30, r.randrange(1, 40)])] * r.randrange(1, 4) + b[i:]

def flipped(r, b):
    for _ in range(r.randrange(1, 4)): b[r.randrange(len(b))] ^= 1 << r.randrange(8)
    return b

def changed(r, b):
    b[r.randrange(len(b))] = r.randrange(256)
    return b

def long(r, b):
    again = b * r.randrange(1, 20)
    noise = bytes(r.randrange(256) for _ in range(20))
    return b + r.choice([again, noise * r.choice([r.randrange(1, 2000), 12000])])

DAMAGE = {
    'whole': lambda r, b: b,
    'cut': lambda r, b: b[:r.randrange(len(b))],
    'flipped': flipped,
    'changed': changed,
    'repeated': repeated,
    'random': lambda r, b: bytes(r.randrange(256) for _ in range(r.randrange(1, 200))),
    'long': long,
    'empty': lambda r, b: b'',
}

def garble(r, data):
    """One of the sorts of damage, or none."""
    sort = r.choice(['whole'] * 4 + ['cut', 'flipped', 'changed', 'repeated'] * 2 + ['random', 'long', 'empty'])
    return sort, bytes(DAMAGE[sort](r, bytearray(data)))

# ---- damage to the rows of a text, which are lists of words

NAMES = ['office', 'cupboard', 'front office', 'linen store, first floor', 'the "blue" room', 'Küche', '階段', 'Office',
         ' hall', 'place', 'way', 'name', '-', '-x', "o'clock", '12a', '1.5', '#7', 'a;b', 'R', 'riser\u00a01',
         '\u2028', '"', ',', '٣']
NUMBERS = ['', '0', '007', '0' * 40 + '9', str(2 ** 64 + 1), '9' * 400, '-1', '+1', ' 1', '1 ', '1.5', '1e3', '10 m',
           '0x10', '1_0', '٣', '€3']
# The columns of numbers, with numbers that are just low enough or just too high.
PRICES = ['1000000', '1000001', '4294967295', '4294967296', '4294967301']
METRES = ['200', '201', '65535', '65536', '65539']
GRADES = ['255', '256', '257']
EDGES = {('place', 2): PRICES, ('way', 4): METRES, ('way', 5): PRICES, ('way', 6): GRADES}

def row_of(r, rows, kind):
    """One of the rows of a kind, or a new one."""
    found = [row for row in rows if row[0] == kind]
    if not found: rows.append([kind])
    return r.choice(found) if found else rows[-1]

def place_rows(rows):
    """The rows of places behind the heading."""
    return [row for row in rows if row[0] == 'place'][1:]

def put(row, place, word):
    row += [''] * (place + 1 - len(row))
    row[place] = word

def other_name(r, rows):
    taken = [row[1] for row in place_rows(rows)] or ['']
    numbers = ['0', '1', '3', '03', '00004', '7', '256', '9' * 400]
    put(row_of(r, rows, 'place'), 1, r.choice([r.choice(taken), '', r.choice(numbers), r.choice(NAMES)]))
    return rows

def own_numbers(r, rows):
    """Some places have their own numbers as names, ways may mean places by number, and a name may be there twice."""
    before = [row[1] for row in place_rows(rows)]
    for n, row in enumerate(place_rows(rows)):
        if r.random() < .6: row[1] = r.choice(['', '', '0', '00']) + str(n)
    names = [row[1] for row in place_rows(rows)]
    for row in rows:
        for k in (1, 2):
            if row[0] == 'way':
                n = before.index(row[k])
                row[k] = r.choice([names[n], str(n), str(n), '0%d' % n])
    if len(names) > 1 and r.random() < .3: r.choice(place_rows(rows)[1:])[1] = names[0]
    return rows

def other_number(r, rows):
    kind, column = r.choice(list(EDGES))
    put(row_of(r, rows, kind), column, r.choice(r.choice([NUMBERS, EDGES[kind, column]])))
    return rows

def other_end(r, rows):
    row, places = row_of(r, rows, 'way'), len(place_rows(rows))
    put(row, 2, row[2] if len(row) > 2 else '')
    numbers = [str(places), str(places - 1), '00', '9' * 40, '-1', '0 ']
    row[r.choice([1, 2])] = r.choice(['', 'nowhere', 'OFFICE', row[1], row[2], *numbers])
    return rows

def other_cable(r, rows):
    put(row_of(r, rows, 'way'), 3, r.choice(['', 'u', 's', 'X', 'UTP', 'Ü', 'U ', 'S', 'F', '7', '"', 'US']))
    return rows

def other_kind(r, rows):
    r.choice(rows)[0] = r.choice(['', 'Place', 'WAY', 'floor', ' way', 'place ', 'way', 'place', '\ufeffplace', '#'])
    return rows

def other_width(r, rows):
    """Fields are left out of a row, or stand behind its last one; all rows may be as wide as the widest."""
    row = r.choice(rows)
    how = r.randrange(4)
    if how == 0: del row[r.randrange(1, len(row) + 1):]
    elif how == 1:
        last = 6 if row[0] == 'way' else 2
        put(row, max(len(row), last) + r.randrange(4), r.choice(['', '?', ' ', '7', 'blue, or "red"']))
    elif how == 2: del row[r.randrange(len(row))]
    else:
        for row in rows: put(row, 8, '')
    return rows or [['']]

def many_troubles(r, rows):
    """Some words of one row are odd."""
    row, names = r.choice(rows), [row[1] for row in place_rows(rows)] or ['']
    ends = ['', 'nowhere', '0', r.choice(names), r.choice(names)]
    odd = {1: ['', '7', r.choice(names), r.choice(NAMES)], 2: PRICES + ['-1'], 3: ['?']}
    if row[0] == 'way':
        odd = {1: ends, 2: ends, 3: ['', 'X', 'UTP'], 4: METRES + ['-1'], 5: PRICES + ['-1'], 6: GRADES, 7: ['?']}
        # Such a row is read, but the survey refuses it.
        refused = {2: [row[1]], 3: ['X', 'u'], 4: ['201'], 5: ['1000001'], 7: ['']}
        odd = r.choice([odd, refused])
    for column in r.sample(list(odd), r.choice([2, 2, 3])): put(row, column, r.choice(odd[column]))
    return rows

def other_order(r, rows):
    """Places stand after ways, or rows in any order."""
    if r.random() < .3: r.shuffle(rows)
    else:
        for _ in range(r.randrange(1, 4)): rows.insert(r.randrange(len(rows)), rows.pop(r.randrange(len(rows))))
    return rows

def more_places(r, rows):
    """Places are added behind the ways, and ways between those."""
    for n in range(r.randrange(1, 6)):
        rows.append(['place', 'annex %d' % n] + r.choice([[], [''], ['700']]))
        ends = r.sample(['annex %d' % r.randrange(n + 1), '0', '1', '2', 'annex %d' % n], 2)
        rows.append(['way', *ends, r.choice('USF'), str(r.randrange(40)), str(r.randrange(900)), str(r.randrange(9))])
    return rows

def among(r, rows, new):
    for _ in range(r.randrange(1, 5)): rows.insert(r.randrange(len(rows) + 1), list(r.choice(new)))
    return rows

def remarks(r, rows):
    return among(r, rows, [['#'], ['# prices in cents, metres of cable'], ['#', 'a', '', 'b'], ['#place', 'a'],
                           ['# "blue"', '?'], ['', '# no remark'], ['# a\tb'], ['# a\nplace', 'b'], [' # no remark']])

def blank_rows(r, rows):
    return among(r, rows, [[''], ['', ''], [''] * 7, [' '], ['\t'], ['', '', 'x']])

def headings(r, rows):
    heads = [['place', 'name', 'repeater'], ['place', 'name'], ['place', 'name', '', '?'], ['place', 'name', '500']]
    others = [['Place', 'Name'], ['place', ' name']]
    if r.random() < .6: rows[:1] = r.choice([[], [['#']], [['']]]) + [list(r.choice(heads + others))]
    else: del rows[:1]
    return among(r, rows, heads) if r.random() < .5 else rows or [['']]

def as_many(r, rows):
    """As many places or ways as there may be, or some more or fewer; the last one may be odd."""
    kind, full = r.choice([('place', 256), ('way', 1024)])
    row = row_of(r, rows, 'way')
    count = len(place_rows(rows) if kind == 'place' else [row for row in rows if row[0] == 'way'])
    for n in range(full + r.choice([-1, 0, 1, 1, 1, 5]) - count):
        rows.append(['place', 'room %d' % n] if kind == 'place' else list(row))
    if r.random() < .3: put(rows[-1], 2 if kind == 'place' else 5, r.choice(PRICES))
    elif r.random() < .3: put(rows[-1], 3 if kind == 'place' else 7, '?')
    return rows

def quoted(r, rows):
    """Fields stand in quotes, needed or not; the text of the rows."""
    def field(word):
        sort = r.random()
        if sort < .01: return word + r.choice(['"', '\n', ' "x"'])
        if sort < .02: return '"%s' % word
        if sort < .03: return '"%s"%s' % (word, r.choice(['x', '"', ' ', '\r']))
        if sort < .04: return '"%s\n%s"' % (word, word)
        return '"%s"' % word.replace('"', '""') if sort < .4 or set(word) & set(',"\n') else word
    return '\n'.join(','.join(map(field, row)) for row in rows) + r.choice(['\n', '\n', '', '"'])

ROW_DAMAGE = {
    'name': other_name, 'own numbers': own_numbers, 'number': other_number, 'end': other_end, 'cable': other_cable,
    'kind': other_kind, 'width': other_width, 'many troubles': many_troubles, 'order': other_order,
    'more places': more_places, 'remarks': remarks, 'blank rows': blank_rows, 'headings': headings, 'as many': as_many,
    'quoted': quoted,
}

# ---- damage to the lines of a text

def repeated_lines(r, b):
    lines = b.splitlines(True)
    i = r.randrange(len(lines))
    return b''.join(lines[:i] + lines[i:i + r.randrange(1, 4)] * 2 + lines[i:])

def swapped_lines(r, b):
    lines = b.splitlines(True)
    i, j = r.randrange(len(lines)), r.randrange(len(lines))
    lines[i], lines[j] = lines[j], lines[i]
    return b''.join(lines)

def line_ends(r, b):
    if r.random() < .5: return b.replace(b'\n', r.choice([b'\r\n', b'\r', b'\n\n', b'\n\r', b'\r\r\n']))
    return b''.join(line + r.choice([b'\n', b'\r', b'\r\n', b'\n\n']) for line in b.splitlines())

STRAY = [b'"', b',', b'\n', b'\r', b'\t', b'\0', b'\x1b', b'\x7f', b'\xff', b'\xc3', b'\xc3\xa9', b'\xed\xa0\x80',
         b'\xc0\x80', b'\xc2\x85', b';', b' ', b'#', b"'", b'""', b'0', MARK]

def stray(r, b):
    for _ in range(r.choice([1, 1, 3])):
        i = r.randrange(len(b) + 1)
        b = b[:i] + r.choice(STRAY) + b[i:]
    return b

def random_text(r, b):
    words = ['place', 'way', 'name', 'a', 'b', '0', '1', 'U', 'S', 'F', '10', '500', '\n', '\n', '\r\n', '"', '#', ' ']
    return ''.join(r.choice(words + [','] * 4) for _ in range(r.randrange(1, 120))).encode()

def long_text(r, b):
    return b + r.choice([b * r.randrange(1, 20), b'# nothing, and nothing\n' * 12000, b'\n' * 200000 + b'floor\n',
                         b',' * 200000, b'place,' + b'x' * 200000, b'"' + b'\n' * 200000,
                         b'way,0,1,U,1,1,1\n' * 3000])

LINE_DAMAGE = {
    'repeated lines': repeated_lines, 'swapped lines': swapped_lines, 'line ends': line_ends, 'stray': stray,
    'mark': lambda r, b: MARK * r.choice([1, 1, 1, 2]) + b,
    'no last end': lambda r, b: b[:-1],
    'random text': random_text, 'long text': long_text,
}
TEXT_DAMAGE = [*DAMAGE, *ROW_DAMAGE, *LINE_DAMAGE]

def some_rows(r, examples):
    """The rows of a survey with names, or those of an example; the first row of a place is the heading."""
    survey = read_file(a_survey(r, 5))
    survey.names[:] = r.sample(NAMES, len(survey.names))
    text = r.choice(examples) if r.random() < .1 else text_of(survey)
    return [[word.decode() for word in row] for _, row in rows_of(text) if row]

def garble_text(r, examples):
    """A text with one of the sorts of damage or none, and sometimes with harmless line ends or a mark."""
    rows = some_rows(r, examples)
    sort = r.choice(['whole'] * 2 + TEXT_DAMAGE)
    if sort in ROW_DAMAGE: rows = ROW_DAMAGE[sort](r, rows)
    text = rows.encode() if isinstance(rows, str) else ''.join(map(row_text, rows)).encode()
    if sort in DAMAGE: text = bytes(DAMAGE[sort](r, bytearray(text)))
    elif sort in LINE_DAMAGE: text = LINE_DAMAGE[sort](r, text)
    if r.random() < .1: text = text.replace(b'\n', b'\r\n')
    if r.random() < .1: text = MARK + text
    return sort, text
