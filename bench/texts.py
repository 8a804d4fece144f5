"""texts.py DIR [SET SIZE...]: writes the texts of a set, each filled up to SIZE bytes: NAME-SIZE.trig, or .ttl for Turtle.

tokens: a TriG file and one text for each family of tokens (the default: about 1 MB, names without the size);
shapes: whole documents of several shapes; worst: texts that a careless reader is slow on, some refused at their end;
editions: two of each document, NAME-SIZE.left.trig and .right.trig, with nine parts in ten of the one in the other, in another order."""
import functools
import itertools
import os
import random
import sys

words = 'alpha beta gamma delta stop open side line point area name label node list graph true false base prefix'.split()


def word():
    return random.choice(words)


def sentence(most=12):
    return ' '.join(word() for _ in range(random.randint(1, most)))


def number():
    return random.choice(['%d' % random.randint(0, 99999), '%.3f' % random.uniform(-99, 99), '%de%d' % (random.randint(1, 99), random.randint(-9, 9))])


def statement():
    subject = 'm:%s%d' % (word(), random.randint(1, 9999))
    lines = ['%s a m:%s ;' % (subject, word().title())]
    for _ in range(random.randint(1, 4)):
        value = random.choice([
            '"%s"' % sentence(), '"%s"@en' % sentence(), number(), 'true', '_:b%d' % random.randint(1, 99),
            '<http://example.org/%s/%s#%d>' % (word(), word(), random.randint(1, 999)), '( m:%s %s [ m:%s "слово" ] )' % (word(), number(), word()),
        ])
        lines.append('    m:%s %s ;' % (word(), value))
    return '\n'.join(lines) + ' .  # ' + word() + '\n'


def motor(i):
    """One motor of a line, as in share/motor.trig."""
    at = random.uniform(0, 45)
    return f'''<motor/{i}> a m:Motor ;
    m:plate "BX-{i}" ;
    m:label "{sentence(3)}"@de, "{sentence(3)}"@en ;
    m:built "2026-{random.randint(1, 12):02}-{random.randint(1, 28):02}"^^xsd:date .

# The two stops of motor {i}, in degrees of the rack.
<motor/{i}/stops> {{
    <motor/{i}> m:stop [ m:side m:open ; m:at {at:.2f} ; m:unit unit:degree ] ,
        [ m:side m:closed ; m:at {at + 45:.2f} ; m:unit unit:degree ] .
    <motor/{i}> m:approached ( m:open m:closed m:open ) ;
        m:torque {random.randint(10, 99) / 10}e1 ; m:locked {random.choice(['true', 'false'])}
}}
GRAPH <motor/{i}/bench> {{
    _:bench{i % 7} m:measured <motor/{i}> ; m:note """{sentence()},
{sentence()}."""
}}
'''


def nested(i, levels=64):
    """Brackets and lists in turn."""
    return 'm:s%d m:p %s1%s .\n' % (i % 9, '[ m:q ( ' * (levels // 2), ' ) ]' * (levels // 2))


def mixed_in(h, text):
    """The hash h with a text: the first hash of the index of the terms."""
    for c in text:
        h = (h * 16777619 + ord(c)) % 2**32
    return h


@functools.cache
def blocks(namespace):
    """Pairs of blocks that leave the hash alike, one behind the other: 2^14 texts of one length with one hash."""
    h, pairs, letters = mixed_in(0, namespace), [], random.Random(namespace)
    while len(pairs) < 14:
        seen = {}
        while True:
            block = ''.join(letters.choices('abcdefghijklmnopqrstuvwxyz', k=8))
            other = seen.setdefault(mixed_in(h, block), block)
            if other != block:
                break
        pairs.append((other, block))
        h = mixed_in(h, block)
    return pairs


def colliding(i):
    return ''.join(pair[i >> k & 1] for k, pair in enumerate(blocks('http://motors.example/terms#')))


def morse(i):
    """Texts of one length that no hash of this kind tells apart, whatever odd number it multiplies by."""
    block = ['ab'[n.bit_count() % 2] for n in range(128)]
    other = ['ba'[n.bit_count() % 2] for n in range(128)]
    return ''.join(''.join([block, other][i >> k & 1]) for k in range(10))


def prefixes(name):
    return ''.join('@prefix %s: <http://motors.example/%d#> .\n' % (name(i), i) for i in range(32))


def last_of_64(i):
    """A prefix as long as allowed that differs from the others in its last letters only."""
    return 'p' * 62 + '%02d' % (i % 32)


tokens = {
    'document.trig': ('@prefix m: <http://example.org/motor#> .\n', lambda i: statement(), ''),
    'iris.txt': ('', lambda i: '<http://example.org/%s/%s#%s> ' % (word(), word(), random.randint(1, 9999)), ''),
    'strings.txt': ('', lambda i: '"%s %s\\n" ' % (word(), sentence()), ''),
    'long_strings.txt': ('', lambda i: '"""%s "%s"\n""" ' % (word(), sentence()), ''),
    'numbers.txt': ('', lambda i: number() + ' ', ''),
    'names.txt': ('', lambda i: '%s:%s.%s%d ' % (word(), word(), word(), random.randint(1, 99)), ''),
    'cyrillic.txt': ('', lambda i: '%s:слово.%s_имя ' % (word(), word()), ''),
    'labels.txt': ('', lambda i: '_:%s%d ' % (word(), random.randint(1, 999)), ''),
    'keywords.txt': ('', lambda i: random.choice(['a ', 'true ', 'false ', 'PREFIX ', 'base ', 'GRAPH ']), ''),
    'marks.txt': ('', lambda i: random.choice([', ', '; ', '[ ', '] ', '( ', ') ', '{ ', '} ', '. ', '^^ ']), ''),
}

line = '''@base <http://motors.example/line4/> .
@prefix m: <http://motors.example/terms#> .
@prefix unit: <http://motors.example/units#> .
PREFIX xsd: <http://www.w3.org/2001/XMLSchema#>
'''


def escaped(every):
    """Strings of about 60 to 300 bytes with an escape every so many bytes."""
    def part(i):
        text = sentence(40)
        pieces = (text[k:k + every - 2] for k in range(0, len(text), every - 2))
        return '<part/%d> m:note "%s" .\n' % (i, ''.join(piece + random.choice(['\\n', '\\"', '\\t', '\\\\']) for piece in pieces))
    return part


def serial(i):
    """The graph of one motor, as the bench writes it: 20 to 40 statements about its serial number."""
    lines = ['<motor/%d> {' % i, '    <motor/%d> a m:Motor ; m:serial "BX-%07d" ; m:built "2026-11-%02d"^^xsd:date ;' % (i, i, i % 30 + 1)]
    lines += ['        m:%s %s ;' % (word(), random.choice([number(), '"%s"' % sentence(3), '"%s"@de' % word(), 'm:' + word(), 'true'])) for _ in range(random.randint(8, 18))]
    lines += ['        m:stop _:s%d, _:t%d .' % (i, i)]
    lines += ['    _:%s%d m:side m:%s ; m:at %.2f ; m:unit unit:degree ; m:label "%s"@en .' % (b, i, side, random.uniform(0, 90), sentence(3)) for b, side in [('s', 'open'), ('t', 'closed')]]
    return '\n'.join(lines) + '\n}\n'


def full(i):
    return '<http://motors.example/line4/part/%d> <http://motors.example/terms#%s> <http://motors.example/parts/%s/%d#%s> .\n' % (i // 4, word(), word(), i % 999, word())


shapes = {
    'mixed.trig': (line, motor, ''),
    'few_terms.ttl': (line, lambda i: 'm:%s m:%s m:%s, m:%s ; m:%s %d, true .\n' % (word(), word(), word(), word(), word(), i % 9), ''),
    'many_terms.ttl': (line, lambda i: '<http://motors.example/line4/part/%d> m:%s m:of-%d, "number %d" .\n' % (i, word(), i, i), ''),
    'long_strings.ttl': (line, lambda i: '<part/%d> m:note """%s\n%s\\t%s""" .\n' % (i, sentence(400), sentence(400), sentence(400)), ''),
    'deep.ttl': (line, nested, ''),
    'motors.trig': (line, serial, ''),
    'full_iris.ttl': (line, full, ''),
    'relative.ttl': (line, lambda i: '<part/%d> <../terms/%s> <%s#%d>, <%s/%d> .\n' % (i // 4, word(), word(), i % 999, word(), i % 99), ''),
    'flat_lists.ttl': (line, lambda i: 'm:s%d m:p ( %s ) .\n' % (i % 9, ' '.join(random.choice(['m:' + word(), number()]) for _ in range(40))), ''),
    'commented.ttl': (line, lambda i: '# %s\n# %s\nm:%s m:%s %d . # %s\n' % (sentence(), sentence(), word(), word(), i, sentence()), ''),
    'escapes_30.ttl': (line, escaped(30), ''),
    'escapes_7.ttl': (line, escaped(7), ''),
}

one = line + 'm:s m:p '
worst = {
    # One token, or one that cannot be read, as long as the document.
    'no_colon.ttl': (one, lambda i: 'a' * 64, ''),
    'dots.ttl': (one + 'm:b', lambda i: '.' * 64, ''),
    'inner_dots.ttl': (one + 'm:b', lambda i: '.' * 63 + 'c', ' .'),
    'open_string.ttl': (one + '"', lambda i: 'a' * 64, ''),
    'open_long_string.ttl': (one + '"""', lambda i: '""a""\\"' * 9, ''),
    'open_iri.ttl': (one + '<', lambda i: 'a' * 64, ''),
    'one_string.ttl': (one + '"""', lambda i: '""a""\\"' * 9, '""" .'),
    'one_number.ttl': (one, lambda i: '1' * 64, ' .'),
    'one_comment.ttl': (line + '#', lambda i: '#' * 64, ''),
    'blanks.ttl': (one + '"a"', lambda i: ' \t\r\n' * 16, '.'),
    # Tokens without a blank between, each of which could be the beginning of a longer one.
    'true.ttl': (one + '(', lambda i: 'true' * 16, ') .'),
    'true_open.ttl': (one + '(', lambda i: 'true' * 16, ''),
    'true_digit.ttl': (one + '(', lambda i: 'true1' * 13, ') .'),
    'true_minus.ttl': (one + '(', lambda i: 'true-1' * 11, ') .'),
    'true_decimal.ttl': (one + '(', lambda i: 'true.5' * 11, ') .'),
    'decimals.ttl': (one + '(', lambda i: '.5' * 32, ') .'),
    'empty_strings.ttl': (one + '(', lambda i: '"" ' * 21, ') .'),
    # Directives and names.
    'one_prefix.ttl': ('', lambda i: '@prefix m: <http://motors.example/%d#> .\n' % i, 'm:a m:b m:c .'),
    'base.ttl': (line, lambda i: '@base <../%d/./> .\n' % i, '<a> <b> <c> .'),
    'prefixes.ttl': (prefixes(lambda i: 'p%d' % i), lambda i: 'p%d:a p%d:b p%d:c .\n' % (i % 32, i * 7 % 32, i * 11 % 32), ''),
    'long_prefixes.ttl': (prefixes(last_of_64), lambda i: '%s:a %s:b %s:c .\n' % (last_of_64(i), last_of_64(i * 7), last_of_64(i * 11)), ''),
    'comments.ttl': (line, lambda i: '#\n#a\n' * 12, ''),
    'dot_segments.ttl': (line, lambda i: '<%sa> <b/../c/./../%d> <%sd> .\n' % ('../' * 9, i % 9, 'x/../' * 150), ''),
    'reserved.ttl': (line, lambda i: 'm:s m:p m:%d%s .\n' % (i, '\\.\\~%41' * 9), ''),
    'escapes.ttl': (line, lambda i: 'm:s m:p "%s%d" .\n' % ('\\u0041\\t' * 9, i), ''),
    # Terms that are alike.
    'labels.ttl': (line, lambda i: '_:%d m:p _:a%d .\n' % (i, i), ''),
    'ends.ttl': (line, lambda i: '<x:%s%06d> m:p 1 .\n' % ('a' * 990, i), ''),
    'tags.ttl': (one, lambda i: '"a"@a-%d,\n' % i, '1 .'),
    'types.ttl': (one, lambda i: '"a"^^m:%d,\n' % i, '1 .'),
    'colliding.ttl': (one, lambda i: 'm:%s,\n' % colliding(i), '1 .'),
    'morse.ttl': (one, lambda i: '"%s",\n' % morse(i), '1 .'),
    # Opened and closed, and refused at the end.
    'graphs.trig': (line, lambda i: 'm:g%d{}{}GRAPH m:h{}\n' % (i % 9), ''),
    'brackets.ttl': (one + '(', lambda i: '[][]()()' * 8, ') .'),
    'refused_mixed.trig': (line, motor, '|'),
    'refused_deep.ttl': (line, nested, 'm:s m:p ' + '(' * 65),
}

editions = {
    **{name: shapes[name] for name in ['mixed.trig', 'few_terms.ttl', 'many_terms.ttl', 'motors.trig']},
    'labels.ttl': (line, lambda i: '_:%d m:p _:a%d ; m:at %d .\n' % (i, i, i % 99), ''),
    'repeated.ttl': (line, lambda i: 'm:s m:p m:o .\n', ''),
    'ends.ttl': worst['ends.ttl'],
    'morse.ttl': worst['morse.ttl'],
}

sets = {'tokens': tokens, 'shapes': shapes, 'worst': worst, 'editions': editions}


def parts_of(head, part, tail, size):
    parts, left = [], size - len((head + tail).encode())
    for i in itertools.count():
        more = part(i)
        left -= len(more.encode())
        if left < 0:
            return parts
        parts.append(more)


def edited(parts, part):
    """One part in ten is another, and all are in another order."""
    parts = [part(len(parts) + i) if i % 10 == 0 else old for i, old in enumerate(parts)]
    random.shuffle(parts)
    return parts


def main(directory, chosen='tokens', *sizes):
    for name, (head, part, tail) in sets[chosen].items():
        for size in sizes or ['']:
            random.seed(name)
            stem, suffix = os.path.splitext(name)
            # an edited one may be longer, and must not be too long
            most = int(size or 1000000) * (0.98 if chosen == 'editions' else 1)
            parts = parts_of(head, part, tail, most)
            written = {'.left': parts, '.right': edited(parts, part)} if chosen == 'editions' else {'': parts}
            for edition, parts in written.items():
                with open(os.path.join(directory, stem + (size and '-') + size + edition + suffix), 'w', newline='') as out:
                    out.write(head + ''.join(parts) + tail)


main(*sys.argv[1:])
