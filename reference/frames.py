#!/usr/bin/env python3
"""Writes the cases of crates/frames and what document 01 says of each, from its sections "Numbers", "Frames" and
"Codes" alone. A case is a length (2 bytes) and so many bytes; its first byte says what is asked:

  'R'  n, link, configuration number, a frame: the code of checks 4 to 9 and, where it is 0, what the frame says
  'W'  kind, n, own number, configuration number, position, what to say: the outbox up to 4 bytes behind the frame

Encoder and checker share nothing but the names of kinds and codes. Every frame written is read back and must say what
was meant, and every refusal, random damage aside, is built together with the code that it must get: a disagreement
ends the run.

  python3 reference/frames.py      from the repository's root
"""
import itertools
import os
import random
import struct
from typing import NamedTuple

NEWEPOCH, OBSERVE_REQ, OBSERVE, REPORT_REQ, REPORT, FINAL, FINAL_ECHO = KINDS = range(1, 8)
DONE, SHORT, VERSION, KIND, SENDER, LENGTH, RANGE = CODES = (0, 4, 5, 6, 7, 8, 9)
LISTS, FINALS = (REPORT_REQ, REPORT, FINAL, FINAL_ECHO), (FINAL, FINAL_ECHO)
VALUES = (-2**63, -1, 0, 1, 2**63 - 1)
EPOCH, ROUND, NUMBER = 0x81020304, 7, 0x8102030405060708    # bytes in another order are another number


# ---- the encoder

class Message(NamedTuple):
    epoch: int = EPOCH
    round: int = ROUND
    value: int = 0
    signature: bytes = bytes(64)
    observed: tuple = ()    # of (member, value, signature)
    signers: tuple = ()     # of (member, signature)


def pairs_of(message):
    return b''.join(struct.pack('>Bq', member, value) for member, value, _ in message.observed)


def body_of(kind, message):
    if kind == NEWEPOCH:
        return struct.pack('>I', message.epoch)
    start = struct.pack('>IB', message.epoch, message.round)
    if kind == OBSERVE_REQ:
        return start
    if kind == OBSERVE:
        return start + struct.pack('>q', message.value) + message.signature
    start += bytes([len(message.observed)])
    if kind == REPORT_REQ:
        return start + b''.join(struct.pack('>Bq64s', *entry) for entry in message.observed)
    if kind == REPORT:
        return start + pairs_of(message) + message.signature
    signers = b''.join(struct.pack('>B64s', *signer) for signer in message.signers)
    return start + pairs_of(message) + bytes([len(message.signers)]) + signers


class Frame(NamedTuple):
    kind: int
    sender: int
    body: bytes
    number: int = NUMBER
    version: int = 1
    length: int = None      # what the trailer says, where it is not the body's length

    def pack(self):
        length = len(self.body) if self.length is None else self.length
        return self.body + struct.pack('>BBHIQ', self.kind, self.sender, self.version, length, self.number)


def outbox_after(position, frame):
    outbox = bytearray(b'\xee' * 3000)
    outbox[position:position + len(frame)] = frame
    assert len(outbox) == 3000
    return outbox[:position + len(frame) + 4].hex()


# ---- the checker

def number_at(body, start, size):
    return int.from_bytes(body[start:start + size], 'big')


def length_of(kind, body):
    """The length that a body of this kind must have; none, if it ends before its m or its s."""
    if kind in (NEWEPOCH, OBSERVE_REQ, OBSERVE):
        return {NEWEPOCH: 4, OBSERVE_REQ: 5, OBSERVE: 77}[kind]
    if len(body) < 6:
        return None
    m = body[5]
    if kind in (REPORT_REQ, REPORT):
        return 6 + 73 * m if kind == REPORT_REQ else 70 + 9 * m
    if len(body) < 7 + 9 * m:
        return None
    return 7 + 9 * m + 65 * body[6 + 9 * m]


def observed_in(kind, body):
    size = 73 if kind == REPORT_REQ else 9
    starts = range(6, 6 + size * body[5], size)
    return [(body[start], number_at(body, start + 1, 8)) for start in starts]


def signers_in(body):
    start = 6 + 9 * body[5]
    return [body[start + 1 + 65 * i] for i in range(body[start])]


def in_range(n, kind, body):
    if number_at(body, 0, 4) == 0 or kind >= OBSERVE_REQ and body[4] == 0:
        return False
    members = []
    if kind in LISTS:
        members.append([member for member, _ in observed_in(kind, body)])
    if kind in FINALS:
        members.append(signers_in(body))
    return all(1 <= len(part) <= n and all(1 <= member <= n for member in part) for part in members)


def check(n, link, number, frame):
    if len(frame) < 16:
        return SHORT
    kind, sender, version, length, its_number = struct.unpack('>BBHIQ', frame[-16:])
    if length + 16 > len(frame):
        return SHORT
    if version != 1 or its_number != number:
        return VERSION
    if kind not in KINDS:
        return KIND
    if sender == 0 or sender > n or sender != link:
        return SENDER
    body = frame[:-16]
    if length != len(body) or length_of(kind, body) != length:
        return LENGTH
    return DONE if in_range(n, kind, body) else RANGE


def said(kind, body):
    """The numbers that a good frame says, as they are printed."""
    numbers = [kind, number_at(body, 0, 4)]
    if kind >= OBSERVE_REQ:
        numbers.append(body[4])
    if kind == OBSERVE:
        numbers.append(number_at(body, 5, 8))
    if kind in LISTS:
        numbers += [body[5], *itertools.chain(*observed_in(kind, body))]
    if kind in FINALS:
        numbers += [len(signers_in(body)), *signers_in(body)]
    return numbers


def meant(kind, message):
    """The same numbers, from what was to be said."""
    numbers = [kind, message.epoch] + [message.round] * (kind >= OBSERVE_REQ)
    if kind == OBSERVE:
        numbers.append(message.value % 2**64)
    if kind in LISTS:
        numbers.append(len(message.observed))
        for member, value, _ in message.observed:
            numbers += [member, value % 2**64]
    if kind in FINALS:
        numbers += [len(message.signers)] + [member for member, _ in message.signers]
    return numbers


# ---- cases: each is (bytes, line)

def read_case(n, link, number, frame, code=None):
    found = check(n, link, number, frame)
    assert code in (None, found), (code, found, n, link, frame.hex())
    numbers = said(frame[-16], frame[:-16]) if found == DONE else []
    return b'R' + struct.pack('>BBQ', n, link, number) + frame, ' '.join(map(str, [found, *numbers]))


def gets(code, frame, n=4, link=3):
    """The frame, given on this link in the usual configuration, gets this code."""
    return read_case(n, link, NUMBER, frame.pack() if isinstance(frame, Frame) else frame, code)


class Setting(NamedTuple):
    """Where and how a message is written: one end of every range, the other end, or something between."""
    epoch: int
    round: int
    number: int
    position: int
    own: int
    observers: list     # the members in the order of a list, which takes the first m of them
    signers: list


def settings(n, draw):
    ahead, back = list(range(1, n + 1)), list(range(n, 0, -1))
    yield Setting(1, 1, 0, 0, 1, ahead, back)
    yield Setting(2**32 - 1, 255, 2**64 - 1, 500, n, back, ahead)
    yield Setting(EPOCH, ROUND, NUMBER, 1, n // 2 + 1, draw.sample(ahead, n), draw.sample(ahead, n))


def sizes(kind, n):
    """m and s, 0 where the kind has none."""
    if kind in FINALS:
        return sorted({(1, 1), (1, n), (n, 1), (n, n)})
    return sorted({(1, 0), (n, 0)}) if kind in LISTS else [(0, 0)]


def arguments(kind, setting, message, values, signatures):
    """What a 'W' case says behind the position."""
    if kind == REPORT:
        return body_of(REPORT_REQ, message)
    if kind not in (REPORT_REQ, FINAL):
        return body_of(kind, message)[:13] if kind == OBSERVE else body_of(kind, message)
    lists = [message.observed] + [message.signers] * (kind == FINAL)
    start = struct.pack('>IB', setting.epoch, setting.round)
    members = b''.join(bytes([len(part)] + [entry[0] for entry in part]) for part in lists)
    return start + members + struct.pack(f'>{len(values)}q', *values) + b''.join(signatures)


def write_cases_of(kind, n, setting, size, values, signatures):
    """A frame written, and the same frame read on its sender's link."""
    observed = tuple((j, values[j - 1], signatures[j - 1]) for j in setting.observers[:size[0]])
    signers = tuple((j, signatures[j - 1]) for j in setting.signers[:size[1]])
    message = Message(setting.epoch, setting.round, values[0], bytes(64), observed, signers)
    frame = Frame(kind, setting.own, body_of(kind, message), setting.number).pack()
    case = b'W' + struct.pack('>BBBQH', kind, n, setting.own, setting.number, setting.position)
    yield case + arguments(kind, setting, message, values, signatures), outbox_after(setting.position, frame)
    back = read_case(n, setting.own, setting.number, frame, DONE)
    assert back[1] == ' '.join(map(str, [DONE, *meant(kind, message)])), back[1]
    yield back


def write_cases():
    draw = random.Random(1)
    for n, kind in itertools.product((1, 4, 31), KINDS):
        shifts = range(5) if kind == OBSERVE else range(3)
        for shift, setting in zip(shifts, itertools.cycle(settings(n, draw))):
            values = [VALUES[(shift + j) % 5] for j in range(n)]
            signatures = [draw.randbytes(64) for _ in range(n)]
            for size in sizes(kind, n):
                if size in ((1, n), (n, 1)) and n > 1 and setting.number != NUMBER:
                    continue
                yield from write_cases_of(kind, n, setting, size, values, signatures)


def good(kind, sender=3, observers=(2, 4, 1), signers=(3, 1), **more):
    """A frame in range, if the lists are, with values and signatures that no two members share."""
    observed = tuple((j, -1000 * j - i, bytes([j]) * 64) for i, j in enumerate(observers))
    signed = tuple((j, bytes([128 + j % 128]) * 64) for j in signers)
    return Frame(kind, sender, body_of(kind, Message(value=-5, observed=observed, signers=signed, **more)))


def accepted_cases():
    """Checks 4 to 9 ask neither for distinct members nor for an order, and look into no signature."""
    for kind in KINDS:
        yield gets(DONE, good(kind))
        yield gets(DONE, good(kind, observers=(4, 4, 4, 4), signers=(2, 2, 2)))
        yield gets(DONE, good(kind, signature=b'\xff' * 64))


def short_cases():
    whole = good(REPORT_REQ).pack()
    for size in range(16):
        yield gets(SHORT, whole[len(whole) - size:])
        yield gets(SHORT, bytes(size))
    for kind in KINDS:
        frame = good(kind)
        yield gets(SHORT, frame._replace(length=len(frame.body) + 1))
        yield gets(SHORT, frame.pack()[1:])
    for frame in (good(NEWEPOCH), good(FINAL), Frame(NEWEPOCH, 3, b'')):
        for length in (2**32 - 1, 2**32 - 16, 2**31, len(frame.body) + 2**16):
            yield gets(SHORT, frame._replace(length=length))
    yield gets(SHORT, Frame(NEWEPOCH, 3, b'', length=4))


def version_cases():
    for kind in (NEWEPOCH, FINAL, 0, 8, 255):
        frame = good(kind) if kind in KINDS else good(OBSERVE)._replace(kind=kind)
        for version in (0, 2, 256, 257, 65535):
            yield gets(VERSION, frame._replace(version=version))
        for number in (0, NUMBER ^ 1, NUMBER ^ 2**31, NUMBER ^ 2**32, NUMBER ^ 2**63):
            yield gets(VERSION, frame._replace(number=number))
        yield gets(VERSION, frame._replace(version=2, number=NUMBER + 1))


def kind_cases():
    for kind, body in itertools.product((0, 8, 255), KINDS):
        yield gets(KIND, good(body)._replace(kind=kind))
    for kind in (0, 8, 255):
        yield gets(KIND, Frame(kind, 3, b''))


def sender_cases():
    for n, kind in itertools.product((1, 4, 31), (NEWEPOCH, FINAL)):
        frame = good(kind, observers=(1,), signers=(1,))
        for sender in (0, n + 1, 255):
            yield gets(SENDER, frame._replace(sender=sender), n, link=1)
            yield gets(SENDER, frame._replace(sender=sender), n, link=sender)
            yield gets(SENDER, frame._replace(sender=n), n, link=sender)
        if n > 1:
            yield gets(SENDER, frame._replace(sender=n), n, link=n - 1)
            yield gets(SENDER, frame._replace(sender=1), n, link=2)


def one_more(frame):
    return frame._replace(body=frame.body + b'\1')


def one_less(frame):
    return frame._replace(body=frame.body[:-1])


def one_before(frame):
    return frame._replace(body=b'\1' + frame.body, length=len(frame.body))


def epoch_none(frame):
    return frame._replace(body=bytes(4) + frame.body[4:])


def at(frame, place, byte):
    return frame._replace(body=frame.body[:place] + bytes([byte]) + frame.body[place + 1:])


def length_cases():
    for kind in KINDS:
        frame = good(kind)
        for change in (one_more, one_less, one_before):
            yield gets(LENGTH, change(frame))
            yield gets(LENGTH, change(epoch_none(frame)))
            yield gets(SENDER, change(frame), link=2)
        yield gets(LENGTH, frame._replace(length=len(frame.body) - 1))
        yield gets(LENGTH, frame._replace(length=0))
        for before in (b'\1' * 16, frame.pack()):
            yield gets(LENGTH, frame._replace(body=before + frame.body, length=len(frame.body)))
        for size in range(8):       # an empty body, and those too short to hold m, or s
            right = {NEWEPOCH: 4, OBSERVE_REQ: 5}.get(kind)
            if size < len(frame.body) and size != right:
                yield gets(LENGTH, frame._replace(body=frame.body[:size]))


def count_cases():
    """m or s and a length that does not go with it."""
    for kind in LISTS:
        for m in (0, 1, 2, 4, 5, 255):
            yield gets(LENGTH, at(good(kind), 5, m))
            yield gets(SENDER, at(good(kind), 5, m), link=1)
    for kind in FINALS:
        for s in (0, 1, 3, 4, 5, 255):
            yield gets(LENGTH, at(good(kind), 6 + 9 * 3, s))
        for size in (6 + 9 * 3, 7 + 9 * 3, 8 + 9 * 3, 7 + 9 * 3 + 65):      # s missing, or cut off behind it
            yield gets(LENGTH, good(kind)._replace(body=good(kind).body[:size]))
        yield gets(LENGTH, good(kind)._replace(body=good(kind, observers=()).body[:6]))


def range_cases():
    for kind in KINDS:
        yield gets(RANGE, epoch_none(good(kind)))
        yield gets(SENDER, epoch_none(good(kind)), link=2)
        if kind >= OBSERVE_REQ:
            yield gets(RANGE, good(kind, round=0))
            yield gets(RANGE, good(kind, epoch=0, round=0))
            yield gets(LENGTH, one_more(good(kind, round=0)))
    for kind, n in itertools.product(LISTS, (1, 4, 31)):
        for m in (0, n + 1):
            yield gets(RANGE, good(kind, observers=[1] * m, signers=(1,), sender=1), n, link=1)
            if kind in FINALS:
                yield gets(RANGE, good(kind, observers=(1,), signers=[1] * m, sender=1), n, link=1)


def large_count_cases():
    """255 of them, with the length that goes with it; and 66 with 1, which is as long as 1 with 10."""
    for kind in LISTS:
        yield gets(RANGE, good(kind, observers=[1] * 255))
    for kind in FINALS:
        yield gets(RANGE, good(kind, signers=[1] * 255))
        yield gets(RANGE, good(kind, observers=[1] * 66, signers=(1,)), n=31)
        yield gets(DONE, good(kind, observers=(1,), signers=[1] * 10), n=31)
        yield gets(RANGE, good(kind, observers=(), signers=()))
    yield gets(RANGE, good(FINAL, observers=[1] * 255, signers=[1] * 255), n=31)


def member_cases():
    """A member that is none, in first, middle and last place."""
    for n, wrong in ((1, (0, 2, 255)), (4, (0, 5, 255)), (31, (32, 33, 64))):
        full = [1] if n == 1 else [2, n, 1]
        for place, member in itertools.product(range(len(full)), wrong):
            bad = full[:place] + [member] + full[place + 1:]
            for kind in LISTS:
                yield gets(RANGE, good(kind, observers=bad, signers=full, sender=1), n, link=1)
            for kind in FINALS:
                yield gets(RANGE, good(kind, observers=full, signers=bad, sender=1), n, link=1)
    full = list(range(31, 0, -1))
    for place, kind in itertools.product((0, 15, 30), (REPORT_REQ, FINAL)):
        bad = full[:place] + [32] + full[place + 1:]
        yield gets(RANGE, good(kind, observers=bad, signers=(1,)), n=31)
        if kind == FINAL:
            yield gets(RANGE, good(kind, observers=(1,), signers=bad), n=31)


# what is wrong, and how a frame gets so; later ones are put on first, so that none undoes another
FAULTS = (
    (SHORT, lambda frame: frame._replace(length=len(frame.body) + 1)),
    (VERSION, lambda frame: frame._replace(version=256)),
    (VERSION, lambda frame: frame._replace(number=NUMBER ^ 1)),
    (KIND, lambda frame: frame._replace(kind=8)),
    (SENDER, lambda frame: frame._replace(sender=2)),
    (SENDER, lambda frame: frame._replace(sender=5)),
    (LENGTH, one_before),
    (LENGTH, one_more),
    (RANGE, epoch_none),
)


def pair_cases():
    """Two faults, and all of them from some code on: the first code wins."""
    for kind in (OBSERVE, FINAL):
        several = [*itertools.combinations(FAULTS, 2), *(FAULTS[first:] for first in range(len(FAULTS)))]
        for faults in several:
            frame = good(kind)
            for _, put in reversed(faults):
                frame = put(frame)
            yield gets(min(code for code, _ in faults), frame)


def damaged_cases(frames):
    """One byte of a good frame changed; no code is known beforehand."""
    draw = random.Random(2)
    for _ in range(100):
        case = bytearray(draw.choice(frames))
        case[draw.randrange(11, len(case))] ^= draw.randrange(1, 256)
        n, link, number = struct.unpack('>BBQ', case[1:11])
        yield read_case(n, link, number, bytes(case[11:]))


def cases():
    written = list(write_cases())
    parts = (accepted_cases, short_cases, version_cases, kind_cases, sender_cases, length_cases, count_cases,
             range_cases, large_count_cases, member_cases, pair_cases)
    built = itertools.chain(*(part() for part in parts))
    yield from dict.fromkeys([*written, *built])    # each once
    yield from damaged_cases([case for case, _ in written if case[:1] == b'R' and len(case) < 400])


def main():
    every = list(cases())
    assert {int(line.split()[0]) for case, line in every if case[:1] == b'R'} == set(CODES)
    os.makedirs('crates/frames', exist_ok=True)
    with open('crates/frames/stdin', 'wb') as stdin, open('crates/frames/stdout', 'w') as stdout:
        for case, line in every:
            stdin.write(struct.pack('>H', len(case)) + case)
            stdout.write(line + '\n')


main()
