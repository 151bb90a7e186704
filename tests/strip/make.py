"""make.py FOLDER: a folder for each case of the programs strip, listing and keys, with what the program is given, what it must write, and where that is from.

Files of a case: program; nodes.bin, strip.bin, line (given, where they are there); argument (strip.bin where there is none); expected (standard output);
errors (standard error); origin. What is expected is worked out here from the words of C-20 alone: a strip is written from a tree by `strip`, not by our program.
The bits of a double are Python's: a quotient of two whole numbers is rounded once there, as is each of +, * and / of two floats."""
import os
import struct
import sys

VARIABLE, LITERAL, ADD, MUL, DIV, EXP, LOG, POW, MAX = 1, 2, 3, 4, 5, 6, 7, 8, 9
GREATEST = 2**53 - 1
LONGEST_LINE = 131074


class Pool:
    """Nodes in the writing order: a node's left part, its right part, then itself, each once."""

    def __init__(self):
        self.nodes = []

    def put(self, kind, word):
        if (kind, word) not in self.nodes:
            self.nodes.append((kind, word))
        return self.nodes.index((kind, word))

    def both(self, kind, left, right):
        return self.put(kind, left + (right << 32))

    def file(self):
        return struct.pack('<I', len(self.nodes)) + bytes(k for k, _ in self.nodes) + b''.join(struct.pack('<Q', w) for _, w in self.nodes)

    def strip(self):
        """'A strip is the expression's left part, right part, then its own code, shared parts repeated.'"""
        made = []
        for kind, word in self.nodes:
            left, right = word % 2**32, word >> 32
            if kind == VARIABLE:
                made.append(push(word))
            elif kind == LITERAL:
                made.append(b'\2' + struct.pack('<Q', word))
            elif kind == POW:
                made.append(made[left] + power(right))
            else:
                made.append(made[left] + made[right] + bytes([kind]))
        return made[-1]


def push(variable):
    return b'\1' + struct.pack('<H', variable)


def literal(z):
    return b'\2' + struct.pack('<q', z)


def power(e):
    return b'\x08' + struct.pack('<I', e)


def bits(x):
    return b'7FF8000000000000 NaN\n' if x != x else ('%016X number\n' % struct.unpack('<Q', struct.pack('<d', x))).encode()


root = sys.argv[1]
count = 0


def case(name, program, origin, expected, errors=b'', **given):
    global count
    count += 1
    folder = os.path.join(root, '%03d' % count)
    os.mkdir(folder)
    given.update(name=name, program=program, origin=origin, expected=expected, errors=errors)
    for key, data in given.items():
        with open(os.path.join(folder, {'nodes': 'nodes.bin', 'strip': 'strip.bin'}.get(key, key)), 'wb') as out:
            out.write(data if isinstance(data, bytes) else data.encode())


# ---- strip

def strips(name, pool, origin):
    case(name, 'strip', origin, pool.strip(), nodes=pool.file())


def refuses(name, nodes, number, origin):
    case(name, 'strip', origin, b'', b'refused %d\n' % number, nodes=nodes.file() if isinstance(nodes, Pool) else nodes)


def leaf(kind, word):
    pool = Pool()
    pool.put(kind, word)
    return pool


def doublings(levels, kind=ADD):
    pool = Pool()
    top = pool.put(VARIABLE, 0)
    for _ in range(levels):
        top = pool.both(kind, top, top)
    return pool


def right_chain(leaves):
    """a + (b + (c + ..)), over as many variables"""
    pool = Pool()
    for v in range(leaves):
        pool.put(VARIABLE, v)
    top = leaves - 1
    for v in reversed(range(leaves - 1)):
        top = pool.both(ADD, v, top)
    return pool


def left_chain(leaves):
    pool = Pool()
    top = pool.put(VARIABLE, 0)
    for v in range(1, leaves):
        top = pool.both(ADD, top, pool.put(VARIABLE, v))
    return pool


third = Pool()
third.both(DIV, third.put(LITERAL, 1), third.put(LITERAL, 3))
several = Pool()
raised = several.put(POW, several.put(VARIABLE, 1) + ((2**32 - 1) << 32))
several.both(MAX, several.both(MUL, raised, several.put(LITERAL, 2**64 - GREATEST)), several.put(LITERAL, GREATEST))
assert leaf(VARIABLE, 0).strip() == b'\1\0\0'
assert third.strip() == bytes([2, 1, 0, 0, 0, 0, 0, 0, 0, 2, 3, 0, 0, 0, 0, 0, 0, 0, 5])
strips('a variable', leaf(VARIABLE, 0), 'code 1, 16 bits')
strips('the greatest variable', leaf(VARIABLE, 65535), 'low byte first')
strips('a third', third, 'left part, right part, code 5')
strips('power, product, Max, literals at both ends of the range', several, 'codes 8, 4, 9; 32 bits of exponent')
strips('a shared part', doublings(1), 'shared parts repeated')
strips('128 places', right_chain(128), 'a right-nested chain of 128 leaves fits')
strips('a left-nested chain of 2,048 leaves', left_chain(2048), 'it needs two places')
full = doublings(14)
assert len(full.strip()) == 65535
strips('65,535 bytes', full, '2^14 variables of 3 bytes, 2^14 - 1 codes')


def longer():
    """T13 + (T12 + (.. + (T1 + x^2))): 2^14 - 1 variables, as many codes less one, and 5 bytes of the power: 65,536 bytes. Parts come first, from the left."""
    pool = Pool()
    top = [pool.put(VARIABLE, 0)]
    for _ in range(13):
        top.append(pool.both(ADD, top[-1], top[-1]))
    rest = pool.put(POW, 0 + (2 << 32))
    for k in range(1, 14):
        rest = pool.both(ADD, top[k], rest)
    return pool


assert len(longer().strip()) == 65536
refuses('65,536 bytes', longer(), 19, '19 a strip above 65,535 bytes')
refuses('129 places', right_chain(129), 27, '129 leaves are 27')
refuses('2^127 leaves in 128 places', doublings(127), 19, 'a tower of sums is 19 at 127 levels')
refuses('2^128 leaves in 129 places', doublings(128), 27, 'and 27 at 128')
exp = Pool()
exp.put(EXP, exp.put(VARIABLE, 0))
refuses('exp', exp, 16, '16 covers a reachable Exp')
log = Pool()
log.put(LOG, log.put(VARIABLE, 0))
refuses('log', log, 16, 'or Log')
deep = doublings(127)
deep.put(EXP, 127)
deep.both(ADD, 128, 128)
refuses('exp below 2^128 leaves', deep, 16, '27 is checked after 16')
case('no file', 'strip', 'a missing file counts as 0 bytes: 7', b'', b'refused 7\n')
refuses('no node', b'\0\0\0\0', 7, 'n is 0')
refuses('a byte too many', leaf(VARIABLE, 0).file() + b'\0', 7, 'the length is not 4 + 9 * n')
refuses('kind 10', leaf(10, 0), 8, 'no node by the table')
refuses('variable 65,536', leaf(VARIABLE, 65536), 8, 'no node by the table')
refuses('literal 2^53', leaf(LITERAL, 2**53), 8, 'out of the literal range')
one = Pool()
one.put(POW, one.put(VARIABLE, 0) + (1 << 32))
refuses('exponent 1', one, 8, 'an exponent is at least 2')
unordered = Pool()
unordered.put(VARIABLE, 1)
unordered.put(VARIABLE, 0)
unordered.both(ADD, 1, 0)
refuses('the right part first', unordered, 9, 'the left part is written first')

# ---- listing

def lists(name, strip, text, origin='the words of each key'):
    case(name, 'listing', origin, text, strip=strip)


lists('every key', push(0) + push(25) + push(26) + push(65535) + literal(0) + literal(-2) + literal(GREATEST) + literal(-GREATEST) + power(2) + power(2**32 - 1) + bytes([3, 4, 5, 9, 3, 4, 5]),
      'push a\npush z\npush x_26\npush x_65535\npush 0\npush -2\npush 9007199254740991\npush -9007199254740991\npower 2\npower 4294967295\nplus\ntimes\nover\nmax\nplus\ntimes\nover\n')
listed = 'push a\n'
for _ in range(14):
    listed = listed * 2 + 'plus\n'
lists('65,535 bytes', full.strip(), listed, 'the parts of each sum, then plus')
lists('28 after good keys', push(0) + b'\3', 'refused 28\n', 'nothing is printed before the whole strip is tested')
case('no argument', 'listing', 'the argument is needed', b'', b"one argument is needed, the name of a strip's file\n", argument=b'')
case('no such file', 'listing', 'named as an input that cannot be read', b'', b'nothing.bin: No such file or directory\n', argument=b'nothing.bin')
case('a folder', 'listing', 'named as an input that cannot be read', b'', b'.: Is a directory\n', argument=b'.')
case('65,536 bytes', 'listing', 'no strip is longer than 65,535 bytes', b'', b"the strip's file has more than 65535 bytes\n", strip=b'\0' * 65536)

# ---- keys

def runs(name, strip, line, x, origin='Python'):
    case(name, 'keys', origin, bits(x), strip=strip, line=line)


def answers(name, strip, line, text, origin):
    case(name, 'keys', origin, text + '\n', strip=strip, line=line)


x = push(0)
runs('one value', x, '2\n', 2.0)
runs('no line end', x, '2', 2.0)
runs('the left is the lower', push(0) + push(1) + b'\5', '1 3', 1 / 3)
runs('sum, product, maximum', push(0) + push(1) + b'\3' + push(2) + b'\4' + push(3) + b'\x09', '0.1 0.2 3 -7', (0.1 + 0.2) * 3)
runs('power', push(0) + power(5), '3', 243.0)
runs('128 places', push(0) * 128 + b'\3' * 127, '1', 128.0, '128 places are there')
runs('a value that no key asks for', x, '1 2 3', 1.0)
runs('no values', literal(7), '\n', 7.0, 'an empty line is an empty table')
runs('no input', literal(7), '', 7.0, 'so is an empty input')
runs('the greatest literal', literal(GREATEST), '', float(GREATEST))
runs('the least literal', literal(-GREATEST), '', float(-GREATEST))
runs('NaN', literal(0) + literal(0) + b'\5', '', float('nan'), '0/0')
runs('an infinity', literal(-1) + literal(0) + b'\5', '', float('-inf'))
for text, p, k in [('0.1', 1, 1), ('12.25', 1225, 2), ('007', 7, 0), ('000.5', 5, 1), ('999999999999999', 999999999999999, 0), ('0.99999999999999', 99999999999999, 14), ('123456789.123456', 123456789123456, 6), ('0.000', 0, 3), ('3', 3, 0)]:
    runs('the decimal ' + text, x, text, p / 10**k, 'p / 10^k, rounded once')
    runs('the decimal -' + text, x, '-' + text, -p / 10**k if p else -0.0, 'p / 10^k, rounded once; -0 is minus zero')
for word in ['3FF0000000000000', '8000000000000000', '0000000000000001', '7FF0000000000000', 'fff0000000000000', '3fB999999999999a', '1234567890123456']:
    runs('the bits ' + word, x, word, struct.unpack('>d', bytes.fromhex(word))[0], '16 hexadecimal digits are bits, also where all are below 10')
for word in ['7FF8000000000000', 'FFF8000000000000', '7FF0000000000001', 'FFFFFFFFFFFFFFFF']:
    answers('the bits ' + word, x, word, '7FF8000000000000 NaN', 'NaN leaves as bits 7FF8000000000000')
for line in [' ', ' 1', '1 ', '1  2', '1\n\n', '\n1', '1\n2', '1\t2', '1\r\n', '+1', '.5', '5.', '-.5', '-5.', '-', '--1', '1-', '1e5', '0x10', '1,5', '1.2.3', '1 .', 'NaN', 'inf', 'a', '1\0', '/', ':', '1234567890123456.',
             '-1234567890123456', '123456789012345.6', '0000000000000001.', '12345678901234567', '3FF000000000000', '3FF00000000000000', '-3FF0000000000000', '3FF000000000000G', '3FF000000000000g', '3FF000000000000@', '3FF000000000000`', '3FF 000000000000']:
    answers('the line ' + repr(line), x, line, 'usage', 'no list of values')
case('usage before the strip', 'keys', 'a line that is no list prints usage before the strip is looked at', b'usage\n', argument=b'nothing.bin', line=b'x')
for name, strip in [('empty', b''), ('code 0', b'\0'), ('code 6', x + b'\6'), ('code 7', x + b'\7'), ('code 10', b'\x0a'), ('code 255', x + b'\xff'), ('exponent 0', x + power(0)), ('exponent 1', x + power(1)),
                    ('literal 2^53', literal(2**53)), ('literal -2^53', literal(-2**53)), ('literal 2^63 - 1', literal(2**63 - 1)), ('literal -2^63', literal(-2**63)), ('variable cut off', b'\1\0'), ('variable missing', b'\1'),
                    ('literal cut off', literal(1)[:-1]), ('exponent cut off', x + power(2)[:-1]), ('no value', b'\3'), ('one value', x + b'\4'), ('no base', power(2)), ('two values left', x + x), ('129 places', x * 129 + b'\3' * 128)]:
    answers('28, ' + name, strip, '1', 'refused 28', 'C-20: ' + name)
    lists('28, ' + name, strip, 'refused 28\n', 'C-20: ' + name)
answers('28 before 15', b'\1\5\0\xff', '', 'refused 28', '`01 05 00 ff` with no values is 28')
answers('15', b'\1\5\0', '', 'refused 15', 'a variable without a value')
answers('15, one too few', push(1), '1', 'refused 15', 'a variable without a value')
answers('6 before 28', b'\xff', ' '.join(['0'] * 65537) + '\n', 'refused 6', '65,537 values; 6 is asked first')
answers('6, many more', b'', '0 ' * 65536 + '0', 'refused 6', '65,537 values in 131,073 bytes')
runs('65,536 values', push(65535), '0 ' * 65535 + '5\n', 5.0, 'as many as are taken')
answers('usage after 65,537 values', x, '0 ' * 65536 + 'x\n', 'usage', 'the whole line is read')
runs('the longest line', x, ('1' + ' 00' * 43691)[:LONGEST_LINE], 1.0, '131,074 bytes')
case('a line that is too long', 'keys', '131,075 bytes', b'', b'standard input: the line is too long\n', strip=x, line=('1' + ' 00' * 43692)[:LONGEST_LINE + 1])
case('no such file', 'keys', 'named as an input that cannot be read', b'', b'nothing.bin: No such file or directory\n', argument=b'nothing.bin', line=b'1')
case('no argument', 'keys', 'the argument is needed', b'', b"one argument is needed, the name of a strip's file\n", argument=b'', line=b'1')
case('65,536 bytes', 'keys', 'no strip is longer than 65,535 bytes', b'', b"the strip's file has more than 65535 bytes\n", strip=x * 16384 + b'\3' * 16384, line=b'1')
print(count)
