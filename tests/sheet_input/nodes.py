"""nodes.py WHAT: a node file, or the text that goes with it.

`chain`: 4,095 nested exp over variable 0, the longest file; `chain-text`: its expression. `long`: variable 0 times a sum of 4,096 variables;
`long-text`: its sheet by variable 0 to order 1, which is longer than a pipe."""
import struct
import sys

VARIABLE, ADD, MUL, EXP = 1, 3, 4, 6


def file(nodes):
    return struct.pack('<I', len(nodes)) + bytes(kind for kind, _ in nodes) + b''.join(struct.pack('<Q', word) for _, word in nodes)


def both(left, right):
    return left + (right << 32)


def sums(text):
    for _ in range(12):
        text = text + ' + ' + text
    return text


chain = [(VARIABLE, 0)] + [(EXP, i) for i in range(4095)]
long = [(VARIABLE, 0), (VARIABLE, 65535)] + [(ADD, both(i, i)) for i in range(1, 13)] + [(MUL, both(0, 13))]
total = sums('x_65535')
made = {
    'chain': file(chain),
    'chain-text': ('exp(' * 4095 + 'a' + ')' * 4095 + '\n').encode(),
    'long': file(long),
    'long-text': ('0 1 none\n0: a*(' + total + ')\n1: ' + total + '\n').encode(),
}
sys.stdout.buffer.write(made[sys.argv[1]])
