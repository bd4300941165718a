#!/usr/bin/env python3
"""The epoch program, written a second time: cases for it and what it must print for each.

Follows document 01 (sections "Numbers", "Codes" and "Pacemaker"), where that is open the choices that docs/DECISIONS.md
lists under "Epoch program", "Node" and "Pacemaker", and nothing else: it was written without a look at crates/.

  python3 reference/epochs.py DIR      writes DIR/stdin and DIR/stdout

DIR/stdin is a list of cases, one directly after the other. A case is two bytes, the length of an input as a big-endian
number, and then the input: the bytes the epoch program would read. DIR/stdout holds, for each case in turn, what the
program prints for that input and then a line "--".
"""
import os
import random
import struct
import sys

MOST_MEMBERS = 31
MOST_MEMBER_NUMBER = 255
LAST_EPOCH = 2**32 - 1

DONE, IGNORED, SENDER, RANGE, END, CONFIG = 0, 1, 7, 9, 11, 12


# ---- the node, as far as the epoch program shows it ----

class Node:
    """The pacemaker of a fresh node. Each event returns its code; only DONE changes anything.

    The program makes each frame itself and lends buffers of full size, so the codes between these (2 to 6, 8, 10)
    can't come. The report round is left out: no message of a round comes, so none raises changeleader or progress.
    The own number is left out too: the node's own NEWEPOCH counts only when an N line brings it.
    """

    def __init__(self, n, f):
        self.n = n
        self.f = f
        self.epoch = 0
        self.highest_sent = 0
        self.heard = [0] * n             # member j's at j - 1
        self.started = False
        self.progress_armed = False      # T_progress

    def leader(self):
        return 0 if self.epoch == 0 else self.epoch % self.n + 1

    def start(self):
        if self.started:
            return IGNORED
        self.started = True
        self.highest_sent = max(1, self.highest_sent)
        self.progress_armed = True
        return DONE

    def progress_timeout(self):
        if not self.started or not self.progress_armed:
            return IGNORED
        if self.epoch == LAST_EPOCH:
            return END                   # and T_progress stays armed
        self.progress_armed = False
        self.highest_sent = max(self.epoch + 1, self.highest_sent)
        return DONE

    def new_epoch(self, member, epoch):
        if not 1 <= member <= self.n:
            return SENDER
        if not 1 <= epoch <= LAST_EPOCH:
            return RANGE
        if not self.started:
            return IGNORED
        self.heard[member - 1] = max(epoch, self.heard[member - 1])
        if self.how_many_exceed(self.highest_sent) > self.f:
            self.highest_sent = self.largest_reached_by_more_than(self.f)
        if self.how_many_exceed(self.epoch) > 2 * self.f:
            self.epoch = self.largest_reached_by_more_than(2 * self.f)
            self.highest_sent = max(self.epoch, self.highest_sent)
            self.progress_armed = True
        return DONE

    def how_many_exceed(self, number):
        return sum(1 for heard in self.heard if heard > number)

    def largest_reached_by_more_than(self, count):
        # such a number is itself an entry: from any other one could go up to the next entry
        return max(x for x in self.heard if sum(1 for heard in self.heard if heard >= x) > count)


# ---- the program ----

def number(text, most):
    """The number that the bytes say, decimal and without leading zeros, from 0 to most; None if they don't."""
    if not text.isdigit():               # of bytes: at least one, and each of b'0' to b'9'
        return None
    if text.startswith(b'0') and text != b'0':
        return None
    if len(text) > len(str(most)):       # int() is not asked to read thousands of digits
        return None
    value = int(text)
    return value if value <= most else None


def configured(line):
    """A fresh node of the configuration that the first line says, or None."""
    words = line.split(b' ')
    if len(words) != 3:
        return None
    n, f, own = (number(word, MOST_MEMBER_NUMBER) for word in words)
    if n is None or f is None or own is None:
        return None
    if not (1 <= n <= MOST_MEMBERS and 3 * f < n and 1 <= own <= n):
        return None
    return Node(n, f)


def step(node, line):
    """The code of the event that a later line says, or None if the line has another shape."""
    if line == b'S':
        return node.start()
    if line == b'P':
        return node.progress_timeout()
    words = line.split(b' ')
    if len(words) != 3 or words[0] != b'N':
        return None
    member = number(words[1], MOST_MEMBER_NUMBER)
    epoch = number(words[2], LAST_EPOCH)
    if member is None or epoch is None:
        return None
    return node.new_epoch(member, epoch)


def lines_of(input):
    """Lines end with a newline; what follows the last newline is a line only if it isn't empty."""
    lines = input.split(b'\n')
    if lines[-1] == b'':
        lines.pop()
    return lines


def run(input):
    """What the epoch program prints (bytes) for an input (any bytes)."""
    lines = lines_of(input)
    node = configured(lines[0]) if lines else None
    if node is None:
        return b'%d 0 0 0\n' % CONFIG
    output = []
    for line in lines[1:]:
        code = step(node, line)
        if code is None:
            break
        output.append(b'%d %d %d %d\n' % (code, node.epoch, node.leader(), node.highest_sent))
    return b''.join(output)


# ---- the cases ----

WORKED = b'4 1 3\nS\nN 2 7\nN 4 6\nN 3 5\nP\n'
WORKED_OUTPUT = b'0 0 0 1\n0 0 0 1\n0 0 0 6\n0 5 2 6\n0 5 2 6\n'

BEFORE = b'4 1 3\nS\nN 2 7\nN 4 6\n'     # good lines before a line of another shape,
AFTER = b'\nN 3 5\nP\n'                  # and after it: they'd show if the run went on


def text(*lines):
    """An input of these lines, each with its newline."""
    return b''.join(line.encode() + b'\n' for line in lines)


def all_say(n, epoch):
    return ['N %d %d' % (member, epoch) for member in range(1, n + 1)]


def worked():
    yield WORKED
    # cut after each of its bytes: no input, parts of lines, no last newline
    for length in range(len(WORKED)):
        yield WORKED[:length]


def codes():
    # 1: S twice, at once and later; N and P before S, which leave nothing behind; P twice, P again after a move
    yield text('4 1 3', 'S', 'S', 'N 2 7', 'N 4 6', 'S', 'N 3 5', 'S', 'P', 'S')
    yield text('4 1 3', 'N 1 9', 'N 2 9', 'N 3 9', 'P', 'S', 'N 1 9', 'N 2 8', 'N 3 7', 'P')
    yield text('4 1 3', 'P', 'P', 'S', 'P', 'P', 'P')
    yield text('4 1 3', 'S', 'P', 'P', 'N 1 2', 'P', 'N 2 2', 'P', 'N 3 2', 'P', 'P', 'N 4 2', 'P')
    # a line that only raises highest sent doesn't arm T_progress, nor does one that changes nothing
    yield text('4 1 1', 'S', *all_say(4, 5), 'P', 'P', 'N 1 9', 'N 2 9', 'P', 'N 3 5', 'P', 'N 3 6', 'P', 'P')
    # no growth on T_progress without a move: epoch+1 is at most highest sent
    yield text('7 2 5', 'S', 'N 1 20', 'N 2 20', 'N 3 20', 'P', 'N 4 10', 'N 5 10', 'P', 'N 4 11', 'N 5 15', 'P')
    # 7: member 0, n+1 and 255, before S too, and with epoch 0 too; member n is fine
    for member in ('0', '5', '6', '31', '32', '255'):
        yield text('4 1 3', 'N %s 5' % member, 'N %s 0' % member, 'S', 'N %s 5' % member, 'N %s 0' % member,
                   'N %s 4294967295' % member, 'N 4 5', 'N %s 6' % member, 'N 1 5', 'N %s 7' % member, 'N 2 5')
    yield text('1 0 1', 'S', 'N 0 3', 'N 2 3', 'N 255 3', 'N 1 3')
    yield text('31 10 31', 'S', 'N 0 3', 'N 32 3', 'N 255 3', 'N 31 3')
    yield text('31 0 31', 'S', 'N 0 3', 'N 32 3', 'N 255 3', 'N 31 3')
    # 9: epoch 0, before S too
    yield text('4 1 3', 'N 1 0', 'N 3 0', 'S', 'N 1 0', 'N 4 0', *all_say(4, 3), *all_say(4, 0), 'P')
    yield text('1 0 1', 'N 1 0', 'S', 'N 1 0', 'N 1 1', 'N 1 0')
    # 11: P in the last epoch, which stays armed; the last epoch is still left by nothing else
    yield text('4 1 3', 'S', *all_say(4, LAST_EPOCH), 'P', 'P', 'S', 'N 1 0', 'N 5 1', 'N 1 4', 'P',
               'N 1 4294967295', 'P')
    yield text('1 0 1', 'S', 'N 1 4294967295', 'P', 'P', 'N 1 4294967295', 'P')
    # the epoch before it: P sends the last one, and stops
    yield text('4 1 3', 'S', *all_say(4, LAST_EPOCH - 1), 'P', 'P', *all_say(4, LAST_EPOCH), 'P', 'P')
    # highest sent is the last epoch, the epoch isn't: no end
    yield text('4 1 3', 'S', 'N 1 4294967295', 'N 2 4294967295', 'P', 'P', 'N 3 8', 'P', 'P',
               'N 3 4294967295', 'P', 'P')
    yield text('4 1 3', 'S', 'N 1 4294967295', 'N 2 4294967295', 'N 3 4294967294', 'P', 'P',
               'N 4 4294967295', 'P', 'P')
    # in steps: around 2^8, 2^16, 2^31 and the last one
    edges = [1, 2, 255, 256, 257, 65535, 65536, 65537, 2**31 - 1, 2**31, 2**31 + 1, LAST_EPOCH - 1, LAST_EPOCH]
    for n, f in ((1, 0), (2, 0), (4, 1), (7, 2)):
        yield text('%d %d 1' % (n, f), 'S', *(line for epoch in edges for line in all_say(n, epoch) + ['P']))


def moves():
    # jumps: the largest number that more than f (2f) reach, not the next epoch, not the largest heard
    yield text('4 1 2', 'S', 'N 1 1000000', 'N 2 500', 'N 3 40', 'N 4 3', 'P', 'N 4 60', 'N 3 800', 'N 4 700')
    yield text('4 1 2', 'S', 'N 4 3', 'N 3 40', 'N 2 500', 'N 1 1000000', 'P', 'P')
    # amplification and move in one line, to one number and to two
    yield text('4 1 3', 'S', 'N 1 9', 'N 2 5', 'N 3 7')
    yield text('7 2 1', 'S', 'N 1 90', 'N 2 80', 'N 3 20', 'N 4 20', 'N 5 70', 'P')
    yield text('4 1 3', 'S', 'N 1 1', 'N 2 1', 'N 3 1', 'N 4 2', 'N 1 2', 'N 2 2')
    yield text('4 1 3', 'S', *all_say(4, 6), 'N 1 9', 'N 2 6', 'N 3 9', 'N 4 8')
    # epoch 1 is what Start sent: it moves, and amplifies nothing
    yield text('4 1 1', 'S', 'N 1 1', 'N 1 1', 'N 2 1', 'N 3 1', 'N 4 1', 'P', 'N 1 2')
    # one member counts once, however often it speaks; an older number takes nothing back
    yield text('4 1 1', 'S', 'N 2 5', 'N 2 5', 'N 2 6', 'N 2 7', 'N 3 4', 'N 3 2', 'N 2 1', 'N 3 4', 'N 3 9',
               'N 4 8', 'N 4 1')
    # the node's own number counts only when it's heard
    yield text('4 1 1', 'S', 'N 2 5', 'N 3 5', 'P', 'N 1 5')
    yield text('4 1 1', 'S', 'N 2 1', 'N 3 1', 'P', 'N 3 1', 'N 1 1')
    # exactly f and exactly 2f aren't enough; f less than the most that n allows
    for n, f in ((4, 0), (4, 1), (5, 1), (6, 1), (7, 1), (7, 2), (10, 2), (10, 3), (31, 0), (31, 1), (31, 5), (31, 9)):
        yield text('%d %d %d' % (n, f, n), 'S', *all_say(n, 6), 'P', *all_say(n, 8))
    # every n with its most f: the same number from all, then numbers that rise and numbers that fall from line to line
    for n in range(1, MOST_MEMBERS + 1):
        f = (n - 1) // 3
        own = n // 2 + 1
        yield text('%d %d %d' % (n, f, own), 'S', *all_say(n, 2), 'P', 'P')
        yield text('%d %d %d' % (n, f, own), 'S', *('N %d %d' % (j, 100 + 3 * j) for j in range(1, n + 1)), 'P')
        yield text('%d %d %d' % (n, f, own), 'S', *('N %d %d' % (j, 400 - 5 * j) for j in range(1, n + 1)), 'P')


def leaders():
    # f = 0: each line moves. Below, at and above the multiples of n, each member's number as own number once
    for n in (1, 2, 3, 4, 5, 30, 31):
        epochs = [e for k in (1, 2, 3) for e in (k * n - 1, k * n, k * n + 1)] + \
                 [2**16 // n * n + d for d in (-1, 0, 1)] + [2**31 // n * n + d for d in (-1, 0, 1)] + \
                 [LAST_EPOCH // n * n + d for d in (-1, 0, 1)]
        good = sorted({e for e in epochs if 1 <= e <= LAST_EPOCH})
        for own in sorted({1, 2, n - 1, n} & set(range(1, n + 1))):
            yield text('%d 0 %d' % (n, own), 'S', *('N %d %d' % (own, e) for e in good), 'P')
    # each epoch in turn, through all leaders twice
    for n, f in ((4, 1), (5, 1), (31, 0)):
        said = 2 * f + 1
        yield text('%d %d 1' % (n, f), 'S',
                   *(line for e in range(1, 2 * n + 2) for line in all_say(said, e) + ['P']))


def first_lines():
    good = ['1 0 1', '2 0 2', '3 0 3', '4 1 1', '4 1 4', '4 0 4', '7 2 7', '28 9 28', '30 9 30', '31 10 31', '31 0 1']
    for line in good:
        yield text(line, 'S', 'N 1 2')
        yield text(line)
        yield line.encode()
    bounds = ['0 0 0', '0 0 1', '32 10 1', '32 0 1', '33 1 3', '64 1 3', '128 1 3', '255 1 3', '255 84 255',
              '4 2 3', '4 3 3', '4 4 3', '3 1 1', '6 2 1', '30 10 1', '31 11 1', '1 1 1', '2 1 1',
              '4 85 3', '4 86 3', '4 171 3', '4 255 3',                         # 3f wraps in a byte
              '4 1 0', '4 1 5', '4 1 255', '1 0 0', '1 0 2', '31 10 0', '31 10 32']
    too_large = ['256 1 3', '257 0 1', '260 1 3', '4 256 3', '4 257 3', '4 1 256', '4 1 259',
                 '65540 1 3', '4 65537 3', '4 1 65539', '4 1431655766 3', '4294967295 1 3', '4 1 4294967295',
                 '4294967300 1 3', '4 4294967297 3', '4 1 4294967299',
                 '18446744073709551620 1 3', '4 18446744073709551617 3', '4 1 18446744073709551619',
                 '4 1 ' + '3' * 40, '4 ' + '1' * 40 + ' 3', '4' * 40 + ' 1 3', '4 1 ' + '0' * 40 + '3']
    shapes = ['', ' ', '4', '4 ', '4 1', '4 1 ', '4 1 3 ', ' 4 1 3', '4  1 3', '4 1  3', '4 1 3 1', '4 1 3 S', '413',
              '04 1 3', '4 01 3', '4 1 03', '4 00 3', '4 1 3\r', '4\t1\t3', '4\t1 3', '4 1\t3', '4 1 3\t', '4,1,3',
              '+4 1 3', '4 +1 3', '4 1 +3', '-4 1 3', '4 -1 3', '4 1 -3', '4 -0 3', '4.0 1 3', '0x4 1 3', '4 1_0 3',
              'S', 'P', 'N 2 7', 'N 4 1 3', 'n f own', 'a b c', '"4 1 3"', '\u0664 1 3', '4 1 \uff13', '\ufeff4 1 3',
              '4\u00a01 3', '4 1 3\x00', '\x004 1 3', '4\x001 3', '\x00']
    for line in bounds + too_large + shapes:
        yield text(line, 'S', 'N 2 7', 'N 4 6')
    yield b'\n' + WORKED
    yield b'\r\n' + WORKED
    yield WORKED.replace(b'\n', b'\r\n')
    yield WORKED.replace(b'\n', b'\r')
    yield WORKED.replace(b'\n', b' ')
    yield b'\n\n\n'
    yield b' \n'
    yield b'4\n1\n3\nS\n'
    yield b'4 1 3\n' + WORKED
    yield b'4 1 3\n\n'
    yield b'4 1 3\n\nS\n'
    yield b'4 1 3\n4 1 3\n'
    # of 5,000 bytes, with newline and without
    yield b'4' * 5000 + b'\nS\n'
    yield b'4 1 3' + b' ' * 4995 + b'\nS\n'
    yield b'4 1 ' + b'0' * 4995 + b'3'


def shapes():
    """Lines of another shape after good lines, and lines that look like it and are fine."""
    other = [
        # spaces, leading zeros, returns, tabs, lower case, signs
        '', ' ', '  ', '\t', '\r',
        'N 03 5', 'N 3 05', 'N 00 5', 'N 3 00', 'N 003 5', 'N 3 0000000005', 'N 3 00000000005', 'N 03 05',
        'N  3 5', 'N 3  5', 'N  3  5', ' N 3 5', 'N 3 5 ', 'N 3 5  ', ' S', 'S ', ' P', 'P ', ' S ',
        'N 3 5\r', 'S\r', 'P\r', '\rS', '\rN 3 5', 'N\r3 5', 'N 3\r5', 'N 3 5\rP', 'n 3 5', 's', 'p',
        'N\t3 5', 'N 3\t5', 'N 3 5\t', '\tN 3 5', 'S\t', '\tP', 'S\v', 'S\f', 'N\v3 5',
        'N -3 5', 'N 3 -5', 'N +3 5', 'N 3 +5', 'N -0 5', 'N 3 -0', 'N - 5', 'N 3 +', 'N 3 5-', 'N 3 5+',
        # a member above 255, and those that wrap to 3
        'N 256 5', 'N 257 5', 'N 259 5', 'N 300 5', 'N 999 5', 'N 1000 5', 'N 65539 5', 'N 4294967299 5',
        'N 18446744073709551619 5', 'N ' + '3' * 40 + ' 5', 'N ' + '0' * 39 + '3 5', 'N 1' + '0' * 39 + ' 5',
        'N 256 0', 'N 256 4294967296',
        # an epoch above 32 bits, and those that wrap to 5
        'N 3 4294967296', 'N 3 4294967297', 'N 3 4294967301', 'N 3 5000000000', 'N 3 9999999999', 'N 3 10000000000',
        'N 3 42949672950', 'N 3 18446744073709551615', 'N 3 18446744073709551616', 'N 3 18446744073709551621',
        'N 3 340282366920938463463374607431768211461', 'N 3 ' + '5' * 40, 'N 3 ' + '0' * 39 + '5',
        'N 3 1' + '0' * 39, 'N 0 4294967296',
        # words missing, too many or run together
        'N', 'N ', 'N  ', 'N 3', 'N 3 ', 'N  5', 'N 3 5 7', 'N 3 5 7 9', 'N3 5', 'N 35', 'N35', 'NN 3 5', 'N N 5',
        'N 3 N', 'SS', 'S S', 'S 3', 'S3', 'S 3 5', 'PP', 'P P', 'P 3', 'P 3 5', 'SP', 'PS', 'NS', 'Start',
        # other letters and signs, the neighbours of the digits among them
        'M 3 5', 'O 3 5', 'N 3,5', 'N,3,5', 'N 3 5;', 'N 3 5.0', 'N 3 0x5', 'N 3 5_0', 'N 3 1e1', 'N 3 5L', 'N a 5',
        'N 3 a', 'N 3 5 # five', 'N 3 /', 'N 3 :', 'N / 5', 'N : 5', 'N 3 5:', 'N 3 5/', 'N 3 :5', 'N 3 ?5', 'N 3 5?',
        'R', 'T', 'X', 'Q', 'C', '#', '//', '3', '3 5', '4 1 3', '0', '12 0 0 0', '--', 'T_progress', '"S"', "'P'",
        # byte 0, digits and spaces of other scripts
        '\x00', 'S\x00', '\x00S', 'P\x00', 'N 3 5\x00', 'N 3\x005', 'N\x003 5', '\x00N 3 5', 'N 3 \x005', 'N \x00 5',
        '\u0660', 'N \u0663 5', 'N 3 \uff15', 'N 3 \u00b2', '\ufeffS', 'N\u00a03 5', 'N\u20033 5', '\uff33',
        'N 3 5\u2028P']
    for line in other:
        yield BEFORE + line.encode() + AFTER
    # bytes that are no text: 255, and digits, spaces and letters with the high bit set
    for line in (b'\xff', b'S\xff', b'\xffS', b'N 3 5\xff', b'N\xff3 5', b'N 3\xa05', b'N \xb3 5', b'N 3 \xb55',
                 b'\xd3', b'\xd0', b'S\x85'):
        yield BEFORE + line + AFTER
    # the same without newline, and as the very first line after the configuration
    for line in ('N 3', 'N 3 ', 'N 03 5', 'N 3 5 ', 'N 3 5\r', 'N 3 4294967296', 'N 256 5', 's', ' ', 'SS', '\x00',
                 'N 3 5\x00'):
        yield BEFORE + line.encode()
        yield b'4 1 3\n' + line.encode() + b'\nS\n'
    fine = ['N 3 5', 'N 3 4294967295', 'N 3 4294967294', 'N 255 5', 'N 254 5', 'N 0 5', 'N 0 0', 'N 3 0', 'N 255 0',
            'N 255 4294967295', 'N 3 10', 'N 3 1000000000', 'N 3 2147483648', 'N 5 5', 'N 10 5', 'N 100 5', 'N 200 5',
            'S', 'P']
    for line in fine:
        yield BEFORE + line.encode() + AFTER
        yield BEFORE + line.encode()
    # lines of 5,000 bytes, with newline and good lines after it, and without
    for line in (b'S' * 5000, b'N 3 ' + b'5' * 4996):
        yield BEFORE + line + AFTER
        yield BEFORE + line
    yield BEFORE + b'N 3 5' + b' ' * 4995 + AFTER
    yield BEFORE + b'N ' + b'0' * 4995 + b'3 5' + AFTER
    yield BEFORE + b'\x00' * 5000


def every_byte():
    """Each byte as a line, as the space of a line, as a digit, and after a good line."""
    for value in range(256):
        byte = bytes([value])
        yield b'4 1 3\nS\n' + byte + b'\nP\n'
        yield b'4 1 3\nS\nN 2' + byte + b'7\nP\n'
        yield b'4 1 3\nS\nN 2 1' + byte + b'7\nN 4 99\n'
        yield b'4 1 3\nS\nS' + byte + b'\nP\n'
        yield b'4' + byte + b'1 3\nS\n'


def clipped(epoch):
    return min(max(epoch, 0), LAST_EPOCH)


def random_run(draw, n, f, count, base, stride):
    """Members speak of numbers near a base that rises as they speak, so that they agree again and again."""
    lines = ['%d %d %d' % (n, f, draw.randrange(1, n + 1))]
    if draw.randrange(8) > 0:
        lines.append('S')
    for _ in range(count):
        if draw.randrange(n) == 0:
            base = base + draw.randrange(stride + 1)
        kind = draw.randrange(40)
        if kind < 4:
            lines.append('P')
        elif kind == 4:
            lines.append('S')
        elif kind == 5:
            lines.append('N %d %d' % (draw.choice([0, n + 1, 255, draw.randrange(256)]), clipped(base)))
        elif kind == 6:
            lines.append('N %d %d' % (draw.randrange(1, n + 1), draw.choice([0, 1, draw.randrange(2**32)])))
        else:
            lines.append('N %d %d' % (draw.randrange(1, n + 1), clipped(base + draw.randrange(-1, 4))))
    return text(*lines)


def random_runs():
    draw = random.Random(1)
    for _ in range(50):
        n = draw.randrange(1, 11)
        f = draw.choice([(n - 1) // 3, draw.randrange((n - 1) // 3 + 1)])
        base = draw.choice([1, 1, 1, 250, 65530, draw.randrange(2**32)])
        yield random_run(draw, n, f, 12 + 4 * n, base, draw.choice([1, 2, 5, 1000]))
    for _ in range(12):
        n = draw.randrange(11, MOST_MEMBERS + 1)
        yield random_run(draw, n, (n - 1) // 3, 5 * n, draw.choice([1, 31, 2**24 - 2]), draw.choice([2, 4]))
    # up to the last epoch
    for _ in range(12):
        n = draw.randrange(1, 8)
        yield random_run(draw, n, (n - 1) // 3, 12 + 5 * n, LAST_EPOCH - 6, 3)
    # any number from anyone: the largest that more than f and 2f reach
    for _ in range(12):
        n = draw.choice([1, 4, 5, 7, 10, 13, 31])
        f = (n - 1) // 3
        most = draw.choice([6, 50, 2**32 - 1])
        said = ['N %d %d' % (draw.randrange(1, n + 1), draw.randrange(1, most + 1)) for _ in range(3 * n + 4)]
        yield text('%d %d %d' % (n, f, n), 'S', *said, 'P')
    # long: past any buffer of 4,096, 8,192 or 16,384 bytes
    yield random_run(draw, 4, 1, 1000, 1, 2)
    yield random_run(draw, 31, 10, 800, 1, 3)
    yield random_run(draw, 7, 2, 1400, 4000000000, 1000)


def random_garbage():
    draw = random.Random(2)
    for _ in range(40):
        yield bytes(draw.randrange(256) for _ in range(draw.randrange(1, 60)))
    for _ in range(40):
        yield b'4 1 3\nS\n' + bytes(draw.randrange(256) for _ in range(draw.randrange(1, 40)))
    for _ in range(40):
        yield b'4 1 3\n' + bytes(draw.choice(b'SSPPN 0123\n\n\n') for _ in range(draw.randrange(1, 40)))
    # whole words in any order: many lines are good
    words = [b'S\n', b'P\n', b'N ', b'N 2 ', b'1 ', b'2 ', b'5\n', b'6\n', b'\n',
             b'N 1 7\n', b'N 2 7\n', b'N 3 8\n', b'N 4 9\n', b'N 1 12\n', b'N 2 11\n', b'N 3 10\n', b'N 4 0\n']
    for _ in range(40):
        yield b'4 1 2\nS\n' + b''.join(draw.choice(words) for _ in range(20))
    # a good run with one byte changed, taken out or put in
    for _ in range(120):
        whole = random_run(draw, 4, draw.randrange(2), 8, 3, 2)
        at = draw.randrange(len(whole))
        byte = bytes([draw.choice([draw.randrange(256), *b'0123456789 \nSNP'])])
        yield whole[:at] + draw.choice([byte + whole[at + 1:], whole[at + 1:], byte + whole[at:]])


def cases():
    for group in (worked, codes, moves, leaders, first_lines, shapes, every_byte, random_runs, random_garbage):
        yield from group()


def main():
    if len(sys.argv) != 2:
        sys.exit('usage: python3 reference/epochs.py DIR')
    assert run(WORKED) == WORKED_OUTPUT, 'the worked run of document 01'
    directory = sys.argv[1]
    os.makedirs(directory, exist_ok=True)
    with open(os.path.join(directory, 'stdin'), 'wb') as stdin, open(os.path.join(directory, 'stdout'), 'wb') as stdout:
        for case in cases():
            stdin.write(struct.pack('>H', len(case)) + case)
            stdout.write(run(case) + b'--\n')


if __name__ == '__main__':
    main()
