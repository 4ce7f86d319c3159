#!/usr/bin/env python3
"""A second reading of document 01, in plain Python: the page, the bitmap, the state, and every answer.

  second_reading.py < stream     reads records and prints the program's lines
  second_reading.py --test       checks the table, the whole case, damage, and random runs

It was written from the paper alone and shares nothing with the proved sources, so that the two can be compared.
Names and order are the paper's. An answer is a pair (number, value).
"""
import random
import sys

MOST_BLOCKS, MOST_WORDS, MOST_WORKERS = 4095, 64, 8

# Requests
INSERT, POP, APPEND, EXTEND, RELEASE, PUSH_S, TAKE_S, PUSH_T, TAKE_T, SET_TAG, ASK, WAIT, IS_EMPTY = range(1, 14)

# Stages, and which of them each staged operation has. The first is where it starts.
LOAD, WRITE, EXCHANGE, SWAP, MASK = "load", "write", "exchange", "swap", "mask"
STAGES = {
    PUSH_S: (LOAD, WRITE, EXCHANGE),
    TAKE_S: (LOAD, SWAP),
    PUSH_T: (LOAD, WRITE, EXCHANGE),
    TAKE_T: (MASK,),
    SET_TAG: (LOAD, EXCHANGE),
    ASK: (LOAD, EXCHANGE),
    WAIT: (LOAD,),
}
ON_T = (PUSH_T, TAKE_T, SET_TAG, ASK, WAIT)
PUSHES = (PUSH_S, PUSH_T)
TAKES = (TAKE_S, TAKE_T)


# ---- tagged words

def tag_of(v):
    return v % 4


def address_of(v):
    return v - v % 4


def with_tag(v, tag):
    """The word with another tag."""
    return (4, 0) if tag > 3 else (0, address_of(v) + tag)


def with_address(v, address):
    """The word with another address."""
    return (4, 0) if address % 4 != 0 else (0, address + tag_of(v))


class Worker:
    """One of the eight records."""
    __slots__ = ("own", "got", "operation", "stage", "tag", "hand", "seen", "sightings")

    def __init__(self):
        self.own = self.got = 0
        self.rest()

    def rest(self):
        """All fields but own and got become 0."""
        self.operation = 0
        self.stage = 0
        self.tag = self.hand = self.seen = self.sightings = 0

    def begin(self, operation, tag, hand):
        self.rest()
        self.operation = operation
        self.stage = STAGES[operation][0]
        self.tag = tag
        self.hand = hand

    def fields(self):
        return tuple(getattr(self, name) for name in self.__slots__)


def page_rules(n, bw, w, page, bits):
    """Whether n, bw, W and the two lengths keep the page rules."""
    return (0 <= n <= MOST_BLOCKS and 1 <= bw <= MOST_WORDS and 1 <= w <= MOST_WORKERS
            and len(page) == (n + 1) * bw and len(bits) == (n + 64) // 64)


def fresh(n, bw, w, page, bits):
    """A fresh start on a lent page and bitmap: (number, value) and the machine."""
    machine = Machine(page, bits)
    if not page_rules(n, bw, w, page, bits):
        return (2, 0), machine
    machine.n, machine.bw, machine.w = n, bw, w
    for k in range(len(bits)):
        bits[k] = 0
    return (0, 0), machine


class Machine:
    """The state by value, beside the page and the bitmap that it is lent. Its numbers are all 0 until a fresh start."""

    def __init__(self, page, bits):
        self.page, self.bits = page, bits
        self.n = self.bw = self.w = 0
        self.shared = self.tagged = 0
        self.on_now = False
        self.workers = [Worker() for _ in range(8)]

    def everything(self):
        """All that a call could change, for comparing."""
        return (self.n, self.bw, self.w, self.shared, self.tagged, self.on_now,
                [k.fields() for k in self.workers], list(self.page), list(self.bits))

    # ---- the page

    def rules_broken(self):
        return not page_rules(self.n, self.bw, self.w, self.page, self.bits)

    def address(self, block):
        return 8 * self.bw * block

    def block(self, address):
        """The block at a good address; 0 for none."""
        return address // (8 * self.bw)

    def is_block(self, a):
        return 1 <= a <= self.n

    def bit(self, block):
        return self.bits[block // 64] >> (block % 64) & 1

    def set_bit(self, block):
        self.bits[block // 64] |= 1 << (block % 64)

    def clear_bit(self, block):
        self.bits[block // 64] &= ~(1 << (block % 64))

    def link(self, block):
        return self.page[block * self.bw]

    def good(self, head):
        size = 8 * self.bw
        return head % size == 0 and size <= head <= size * self.n

    def sound(self, head):
        return head == 0 or (self.good(head) and self.bit(self.block(head)) == 1)

    def walk(self, head):
        """The blocks of a list, or None where an unsound head or link or more than n blocks are met."""
        blocks = []
        while head != 0:
            if not self.sound(head) or len(blocks) == self.n:
                return None
            blocks.append(self.block(head))
            head = self.link(blocks[-1])
        return blocks

    # ---- requests

    def request(self, worker, code, a=0, b=0):
        number = self.request_refusal(worker, code, a, b)
        if number != 0:
            return number, 0
        k = self.workers[worker]
        if code in STAGES:
            k.begin(code, a if code == SET_TAG else 0, a if code in PUSHES else 0)
            if code in PUSHES:
                self.set_bit(a)
            return 1, 0
        return 0, self.act_at_once(k, code, a, b)

    def request_refusal(self, worker, code, a, b):
        """The smallest number of the table that applies; 0 if none does."""
        if self.rules_broken():
            return 2
        if worker >= self.w:
            return 3
        if not 1 <= code <= 13:
            return 4
        if code in (INSERT, PUSH_S, PUSH_T) and not self.is_block(a):
            return 4
        if code == EXTEND and (not self.is_block(a) or b == 0 or a + b - 1 > self.n):
            return 4
        if code == SET_TAG and a > 3:
            return 4
        k = self.workers[worker]
        if k.operation != 0:
            return 5
        if code in ON_T and not self.on_now:
            return 7
        if code in TAKES and k.got != 0:
            return 8
        if code in (INSERT, PUSH_S, PUSH_T) and self.bit(a):
            return 9
        if code == EXTEND and any(self.bit(block) for block in range(a, a + b)):
            return 9
        if code == POP and k.own == 0:
            return 10
        if self.damaged_at_request(k, code):
            return 11
        return 0

    def damaged_at_request(self, k, code):
        if code in (INSERT, POP, EXTEND, RELEASE) or (code == APPEND and k.got != 0):
            if not self.sound(k.own):
                return True
        if code == POP and not self.sound(self.link(self.block(k.own))):
            return True
        if code == APPEND and k.got != 0 and self.walk(k.got) is None:
            return True
        return code == RELEASE and self.walk(k.own) is None

    def act_at_once(self, k, code, a, b):
        """Requests 1 to 5 and 13; the value."""
        if code == INSERT:
            self.page[a * self.bw] = k.own
            self.set_bit(a)
            k.own = self.address(a)
            return 0
        if code == POP:
            front = self.block(k.own)
            k.own = self.link(front)
            self.clear_bit(front)
            return front
        if code == APPEND:
            if k.got == 0:
                return 0
            taken = self.walk(k.got)
            self.page[taken[-1] * self.bw] = k.own
            k.own, k.got = k.got, 0
            return len(taken)
        if code == EXTEND:
            for block in range(a, a + b):
                self.page[block * self.bw] = self.address(block + 1) if block + 1 < a + b else k.own
                self.set_bit(block)
            k.own = self.address(a)
            return b
        if code == RELEASE:
            blocks = self.walk(k.own)
            for block in blocks:
                self.clear_bit(block)
            k.own = 0
            return len(blocks)
        return 1 if k.own == 0 else 0

    # ---- moves

    def move(self, worker, flag=False):
        if self.rules_broken():
            return 2, 0
        if worker >= self.w:
            return 3, 0
        k = self.workers[worker]
        if k.operation == 0:
            return 6, 0
        if self.damaged_at_move(k):
            return 11, 0
        value = {LOAD: self.load, WRITE: self.write, EXCHANGE: self.exchange, SWAP: self.swap, MASK: self.mask}[k.stage](k, flag)
        if value is None:
            return 1, 0
        k.rest()
        return 0, value

    def damaged_at_move(self, k):
        operation, stage = k.operation, k.stage
        if stage not in STAGES.get(operation, ()):
            return True
        if operation in PUSHES and (not self.is_block(k.hand) or not self.bit(k.hand)):
            return True
        on_s = operation in (PUSH_S, TAKE_S)
        if stage in (WRITE, EXCHANGE):
            part = address_of(k.seen)
            if part != 0 and not self.good(part):
                return True
            if on_s and tag_of(k.seen) != 0:
                return True
        else:
            head = self.shared if on_s else self.tagged
            if not self.sound(address_of(head)):
                return True
            if on_s and tag_of(head) != 0:
                return True
        if operation in ON_T and not self.on_now:
            return True
        if operation == ASK and k.sightings > 4:
            return True
        if operation == SET_TAG and k.tag > 3:
            return True
        return operation in TAKES and k.got != 0

    # Each stage gives the value if it ends the operation, else None.

    def load(self, k, flag):
        if k.operation in (PUSH_S, TAKE_S):
            if k.operation == TAKE_S and self.shared == 0:
                return 0
            k.seen = self.shared
            k.stage = WRITE if k.operation == PUSH_S else SWAP
            return None
        tag = tag_of(self.tagged)
        if k.operation == PUSH_T:
            k.stage = WRITE
        elif k.operation == SET_TAG:
            k.stage = EXCHANGE
        elif k.operation == ASK:
            if tag == 1:
                if k.sightings + 1 == 5:
                    return 0
                k.sightings += 1
            elif tag == 2:
                k.stage = EXCHANGE
            else:
                return 1
        elif tag != 1:
            return tag
        k.seen = self.tagged
        return None

    def write(self, k, flag):
        self.page[k.hand * self.bw] = address_of(k.seen)
        k.stage = EXCHANGE
        return None

    def exchange(self, k, flag):
        head = self.shared if k.operation == PUSH_S else self.tagged
        if flag or head != k.seen:
            k.stage = LOAD
            return None
        before = tag_of(k.seen)
        if k.operation == PUSH_S:
            self.shared = self.address(k.hand)
            return 0
        if k.operation == PUSH_T:
            self.tagged = self.address(k.hand) + before
            return before
        if k.operation == SET_TAG:
            self.tagged = address_of(k.seen) + k.tag
            return before
        self.tagged = address_of(k.seen)
        return 1

    def swap(self, k, flag):
        k.got, self.shared = self.shared, 0
        return self.block(k.got)

    def mask(self, k, flag):
        k.got, self.tagged = address_of(self.tagged), tag_of(self.tagged)
        return self.block(k.got)

    # ---- on and off

    def on(self):
        if self.rules_broken():
            return 2, 0
        if self.on_now:
            return 7, 0
        self.on_now, self.tagged = True, 0
        return 0, 0

    def off(self):
        if self.rules_broken():
            return 2, 0
        if any(k.operation != 0 for k in self.workers[:self.w]):
            return 5, 0
        if not self.on_now:
            return 7, 0
        if address_of(self.tagged) != 0:
            return 8, 0
        value = tag_of(self.tagged)
        self.on_now, self.tagged = False, 0
        return 0, value

    # ---- readers

    def listed_count(self):
        if self.rules_broken():
            return 2, 0
        return 0, sum(self.bit(block) for block in range(1, self.n + 1))

    def first_unlisted(self):
        if self.rules_broken():
            return 2, 0
        for block in range(1, self.n + 1):
            if not self.bit(block):
                return 0, block
        return 10, 0

    def entry_number(self, *blocks):
        if self.rules_broken():
            return 2
        if not all(self.is_block(a) for a in blocks):
            return 4
        return 9 if any(self.bit(a) for a in blocks) else 0

    def words(self, a):
        """The words of block a after its link."""
        return self.page[a * self.bw + 1:(a + 1) * self.bw]

    def entry(self, a):
        """The view: the number that the second reader tells, and the part."""
        number = self.entry_number(a)
        return number, self.words(a) if number == 0 else []

    def entry_answer(self, a):
        return self.entry_number(a), 0

    def compare(self, a, b):
        number = self.entry_number(a, b)
        if number != 0:
            return number, 0
        count = 0
        for x, y in zip(self.words(a), self.words(b)):
            if x != y:
                break
            count += 1
        return 0, count


# ---- the program

MARKS = {b"\x53\x55": "request", b"\x4d\x56": "move", b"\x45\x4e": "on", b"\x44\x49": "off"}


def run_stream(stream):
    """The program's lines for a stream of records: n = 63, bw = 4, W = 8, a page of zeros, a fresh start."""
    _, machine = fresh(63, 4, 8, [0] * 256, [0])
    lines = []
    for at in range(0, len(stream), 8):
        record = stream[at:at + 8]
        kind = MARKS.get(record[:2]) if len(record) == 8 else None
        if kind is None:
            lines.append("bad")
            break
        worker, code, a, b = record[2], record[3], record[4] + 256 * record[5], record[6] + 256 * record[7]
        if kind == "request":
            answer = machine.request(worker, code, a, b)
        elif kind == "move":
            answer = machine.move(worker, code != 0)
        else:
            answer = machine.on() if kind == "on" else machine.off()
        lines.append("%d %d" % answer)
    return lines


def output(stream):
    """What the program writes, byte by byte."""
    return "".join(line + "\n" for line in run_stream(stream)).encode()


def record(kind, worker=0, code=0, a=0, b=0):
    """The 8 bytes of an event."""
    mark = {name: mark for mark, name in MARKS.items()}[kind]
    return mark + bytes([worker, code, a % 256, a // 256, b % 256, b // 256])


def whole_case():
    """The whole case, as events (kind, worker, code, a, b) and as lines."""
    events = [("request", 0, 1, 5, 0), ("request", 0, 1, 6, 0), ("request", 1, 6, 9, 0), ("request", 2, 6, 9, 0)]
    events += [("move", 1, flag, 0, 0) for flag in (0, 0, 1, 0, 0, 0)]
    events += [("request", 0, 7, 0, 0), ("move", 0, 0, 0, 0), ("move", 0, 0, 0, 0), ("request", 0, 3, 0, 0), ("request", 0, 2, 0, 0)]
    lines = ["0 0", "0 0", "1 0", "9 0", "1 0", "1 0", "1 0", "1 0", "1 0", "0 0", "1 0", "1 0", "0 9", "0 1", "0 9"]
    return events, lines


# ---- checks of this reading

class Simple:
    """The simple machine: sequences, hands, a tag, T's flag, and a note of each operation under way."""

    def __init__(self, n, w):
        self.n, self.w = n, w
        self.shared, self.tagged, self.tag, self.on_now = [], [], 0, False
        self.own = [[] for _ in range(w)]
        self.got = [[] for _ in range(w)]
        self.hand = [0] * w
        self.note = [None] * w

    def placed(self):
        """Every block on a list or in a hand."""
        lists = [self.shared, self.tagged] + self.own + self.got
        return [block for blocks in lists for block in blocks] + [block for block in self.hand if block]

    def request(self, worker, code, a, b):
        if worker >= self.w:
            return 3, 0
        named = []
        if code in (INSERT, PUSH_S, PUSH_T):
            named = [a]
        elif code == EXTEND:
            named = list(range(a, a + b))
        if not 1 <= code <= 13 or (code == EXTEND and b == 0) or (code == SET_TAG and a > 3) or any(not 1 <= block <= self.n for block in named):
            return 4, 0
        if self.note[worker]:
            return 5, 0
        if code in ON_T and not self.on_now:
            return 7, 0
        if code in TAKES and self.got[worker]:
            return 8, 0
        if named and set(named) & set(self.placed()):
            return 9, 0
        own = self.own[worker]
        if code == POP and not own:
            return 10, 0
        if code in STAGES:
            self.note[worker] = (code, a)
            if code in PUSHES:
                self.hand[worker] = a
            return 1, 0
        if code in (INSERT, EXTEND):
            self.own[worker] = named + own
            return 0, b if code == EXTEND else 0
        if code == POP:
            return 0, own.pop(0)
        if code == APPEND:
            taken = self.got[worker]
            self.own[worker], self.got[worker] = taken + own, []
            return 0, len(taken)
        if code == RELEASE:
            self.own[worker] = []
            return 0, len(own)
        return 0, 0 if own else 1

    def act(self, worker):
        """The moment of the operation under way."""
        (code, a), self.note[worker] = self.note[worker], None
        hand, self.hand[worker] = self.hand[worker], 0
        tag = self.tag
        if code == PUSH_S:
            self.shared.insert(0, hand)
            return 0, 0
        if code == PUSH_T:
            self.tagged.insert(0, hand)
            return 0, tag
        if code == TAKE_S:
            self.got[worker], self.shared = self.shared, []
        if code == TAKE_T:
            self.got[worker], self.tagged = self.tagged, []
        if code in TAKES:
            return 0, (self.got[worker] + [0])[0]
        if code == SET_TAG:
            self.tag = a
            return 0, tag
        if code == ASK:
            self.tag = 0 if tag == 2 else tag
            return 0, 0 if tag == 1 else 1
        return 0, tag

    def switch(self, to):
        if to:
            if self.on_now:
                return 7, 0
            self.on_now, self.tag = True, 0
            return 0, 0
        if any(self.note):
            return 5, 0
        if not self.on_now:
            return 7, 0
        if self.tagged:
            return 8, 0
        tag, self.on_now, self.tag = self.tag, False, 0
        return 0, tag


def is_moment(machine, k, flag):
    """Whether a busy worker's move is the moment of its operation, read from the machine before the move."""
    if k.stage in (SWAP, MASK):
        return True
    head = machine.shared if k.operation in (PUSH_S, TAKE_S) else machine.tagged
    if k.stage == EXCHANGE:
        return not flag and head == k.seen
    if k.stage != LOAD:
        return False
    if k.operation == TAKE_S:
        return head == 0
    if k.operation == ASK:
        return tag_of(head) in (0, 3) or (tag_of(head) == 1 and k.sightings == 4)
    return k.operation == WAIT and tag_of(head) != 1


def pick_event(draw, machine):
    """A random event that often makes progress: (kind, worker, code, a, b)."""
    n, w = machine.n, machine.w
    busy = [x for x in range(w) if machine.workers[x].operation]
    if busy and draw.random() < 0.5:
        return "move", draw.choice(busy), int(draw.random() < 0.2), 0, 0
    roll = draw.random()
    if roll < 0.04:
        return "on", 0, 0, 0, 0
    if roll < 0.06:
        return "off", 0, 0, 0, 0
    if roll < 0.12:
        return "move", draw.randrange(w + 1), draw.randrange(3), 0, 0
    worker = draw.randrange(w) if draw.random() < 0.97 else draw.randrange(256)
    code = draw.randrange(1, 14) if draw.random() < 0.97 else draw.choice((0, 14, 15, 17, 255))
    roll = draw.random()
    if code == SET_TAG:
        a = draw.randrange(4) if roll < 0.95 else draw.randrange(65536)
    elif roll < 0.7 and n > 0:
        clear = [block for block in range(1, n + 1) if not machine.bit(block)]
        a = draw.choice(clear) if clear else draw.randrange(1, n + 1)
    elif roll < 0.95:
        a = draw.randrange(n + 2)
    else:
        a = draw.randrange(65536)
    b = 0
    if code == EXTEND:
        b = draw.randrange(1, 5) if draw.random() < 0.85 else draw.randrange(65536 if draw.random() < 0.3 else n + 3)
    elif draw.random() < 0.1:
        b = draw.randrange(65536)
    return "request", worker, code, a, b


def happen(machine, event):
    kind, worker, code, a, b = event
    if kind == "request":
        return machine.request(worker, code, a, b)
    if kind == "move":
        return machine.move(worker, code != 0)
    return machine.on() if kind == "on" else machine.off()


def random_run(draw, n, bw, w, steps):
    """A run from a fresh page beside the simple machine. Callers write words that are no links in use in between."""
    page = [draw.randrange(1 << 64) for _ in range((n + 1) * bw)]
    front = page[:bw]
    answer, machine = fresh(n, bw, w, page, [draw.randrange(1 << 64) for _ in range((n + 64) // 64)])
    assert answer == (0, 0)
    simple = Simple(n, w)
    answers = 0
    for _ in range(steps):
        event = kind, worker, code, a, b = pick_event(draw, machine)
        before = machine.everything()
        act = kind == "move" and worker < w and machine.workers[worker].operation and is_moment(machine, machine.workers[worker], code != 0)
        number, value = happen(machine, event)
        if kind == "request":
            expected = simple.request(worker, code, a, b)
        elif kind != "move":
            expected = simple.switch(kind == "on")
        elif worker >= w:
            expected = 3, 0
        elif simple.note[worker] is None:
            expected = 6, 0
        else:
            expected = simple.act(worker) if act else (1, 0)
        assert (number, value) == expected, (event, (number, value), expected)
        assert number != 11
        if number >= 2:
            assert value == 0 and machine.everything() == before, event
        answers += number == 0
        placed = simple.placed()
        assert sorted(placed) == [block for block in range(1, n + 1) if machine.bit(block)]
        assert machine.listed_count() == (0, len(placed))
        free = sorted(set(range(1, n + 1)) - set(placed))
        assert machine.first_unlisted() == ((0, free[0]) if free else (10, 0))
        assert machine.walk(machine.shared) == simple.shared and machine.walk(address_of(machine.tagged)) == simple.tagged
        assert tag_of(machine.tagged) == simple.tag and machine.on_now == simple.on_now
        for x in range(w):
            k = machine.workers[x]
            assert machine.walk(k.own) == simple.own[x] and machine.walk(k.got) == simple.got[x]
            assert k.hand == simple.hand[x] and k.operation == (simple.note[x] or (0,))[0]
        assert page[:bw] == front
        assert sum(bin(word).count("1") for word in machine.bits) == len(placed)
        if n > 0 and draw.random() < 0.3:
            block, word = draw.randrange(1, n + 1), draw.randrange(bw)
            if word > 0 or block not in placed:
                page[block * bw + word] = draw.randrange(1 << 64)
    return answers


def ready(own=(), got=(), tagged=(), tag=0):
    """A page of 63 blocks of 4 words with eight workers; worker 0 has the given lists, and T is on."""
    _, machine = fresh(63, 4, 8, [0] * 256, [0])
    machine.on()
    k = machine.workers[0]

    def laid(blocks):
        head = 0
        for block in reversed(blocks):
            machine.page[block * 4] = head
            machine.set_bit(block)
            head = machine.address(block)
        return head

    k.own, k.got = laid(own), laid(got)
    machine.tagged = laid(tagged) + tag
    return machine, k


def check_table():
    """P1 to P12."""
    machine, k = ready()
    assert machine.address(3) == 96
    assert (address_of(99), tag_of(99)) == (96, 3)
    assert with_tag(98, 1) == (0, 97)
    assert with_tag(98, 4) == (4, 0) and with_address(99, 64) == (0, 67) and with_address(99, 66) == (4, 0)
    machine, k = ready(own=(6, 5), got=(9, 8))
    assert machine.request(0, APPEND) == (0, 2) and machine.walk(k.own) == [9, 8, 6, 5] and k.got == 0
    machine, k = ready(own=(6, 5))
    before = machine.everything()
    assert machine.request(0, APPEND) == (0, 0) and machine.everything() == before
    machine, k = ready(own=(7,))
    assert machine.request(0, EXTEND, 3, 3) == (0, 3) and machine.walk(k.own) == [3, 4, 5, 7]
    assert [machine.link(block) for block in (3, 4, 5)] == [128, 160, 224]
    assert machine.request(0, EXTEND, 3, 0) == (4, 0)
    assert machine.request(0, EXTEND, 62, 3) == (4, 0) and machine.request(0, EXTEND, 62, 2) == (0, 2)
    machine, k = ready(tagged=(3,), tag=3)
    assert machine.tagged == 99
    assert machine.request(0, TAKE_T) == (1, 0) and machine.move(0) == (0, 3)
    assert machine.tagged == 3 and machine.walk(k.got) == [3]
    machine, k = ready(tag=2)
    assert machine.request(0, ASK) == (1, 0) and machine.move(0) == (1, 0) and machine.move(0) == (0, 1) and machine.tagged == 0
    machine, k = ready(tag=1)
    assert machine.request(0, ASK) == (1, 0)
    assert [machine.move(0) for _ in range(5)] == [(1, 0)] * 4 + [(0, 0)]
    machine, k = ready()
    assert machine.request(1, PUSH_S, 9) == (1, 0) and machine.request(0, INSERT, 9) == (9, 0)


def check_whole_case():
    events, lines = whole_case()
    assert len(events) == len(lines) == 15
    stream = b"".join(record(*event) for event in events)
    assert run_stream(stream) == lines
    assert run_stream(b"") == [] and run_stream(stream[:7]) == ["bad"] and run_stream(stream[:9]) == ["0 0", "bad"]
    assert run_stream(stream[1:]) == ["bad"]


def check_damage():
    """Each rule of damage, at a request and at a move; a refusal changes nothing."""
    def refused(machine, call, number=11):
        before = machine.everything()
        assert call() == (number, 0), call()
        assert machine.everything() == before

    for head in (32 * 9, 1, 32 * 64, 33):
        for code, got in ((INSERT, 0), (POP, 0), (EXTEND, 0), (RELEASE, 0), (APPEND, 1)):
            machine, k = ready(got=(2,) if got else ())
            k.own = head
            refused(machine, lambda: machine.request(0, code, 20, 1))
        machine, k = ready()
        k.own = head
        assert machine.request(0, APPEND) == (0, 0) and machine.request(0, IS_EMPTY) == (0, 0)
    machine, k = ready(own=(6, 5))
    machine.page[6 * 4] = 33
    refused(machine, lambda: machine.request(0, POP))
    refused(machine, lambda: machine.request(0, RELEASE))
    machine, k = ready(got=(6, 5))
    machine.page[5 * 4] = machine.address(6)
    refused(machine, lambda: machine.request(0, APPEND))
    machine, k = ready(own=tuple(range(1, 64)))
    assert machine.request(0, RELEASE) == (0, 63)

    def under_way(operation, **fields):
        machine, k = ready()
        k.begin(operation, 0, 9 if operation in PUSHES else 0)
        if operation in PUSHES:
            machine.set_bit(9)
        for name, field in fields.items():
            setattr(k, name, field)
        return machine, k

    for operation in (5, 13, 14):
        machine, k = ready()
        k.operation, k.stage = operation, LOAD
        refused(machine, lambda: machine.move(0))
        refused(machine, lambda: machine.request(0, POP), 5)
    for operation, stages in STAGES.items():
        for stage in (0, LOAD, WRITE, EXCHANGE, SWAP, MASK):
            machine, k = under_way(operation, stage=stage)
            if stage not in stages:
                refused(machine, lambda: machine.move(0))
            else:
                assert machine.move(0)[0] < 2, (operation, stage)
    for operation in PUSHES:
        for hand in (0, 64, 8):
            for stage in STAGES[operation]:
                machine, k = under_way(operation, hand=hand, stage=stage)
                refused(machine, lambda: machine.move(0))
        for stage in (WRITE, EXCHANGE):
            machine, k = under_way(operation, seen=36, stage=stage)
            refused(machine, lambda: machine.move(0))
            machine, k = under_way(operation, seen=32 * 20, stage=stage)
            assert machine.move(0) == (1, 0)
            machine, k = under_way(operation, seen=32 * 20 + 2, stage=stage)
            if operation == PUSH_S:
                refused(machine, lambda: machine.move(0))
            else:
                assert machine.move(0) == (1, 0)
    for operation, stages in STAGES.items():
        for stage in stages:
            for head in (32 * 20, 4, 1):
                machine, k = under_way(operation, stage=stage)
                if operation in (PUSH_S, TAKE_S):
                    machine.shared = head
                else:
                    machine.tagged = head
                if stage == EXCHANGE or stage == WRITE or (head == 1 and operation not in (PUSH_S, TAKE_S)):
                    assert machine.move(0)[0] < 2
                else:
                    refused(machine, lambda: machine.move(0))
            if operation in ON_T:
                machine, k = under_way(operation, stage=stage)
                machine.on_now = False
                refused(machine, lambda: machine.move(0))
            if operation in TAKES:
                machine, k = under_way(operation, stage=stage, got=32)
                refused(machine, lambda: machine.move(0))
            if operation == ASK:
                machine, k = under_way(operation, stage=stage, sightings=5)
                refused(machine, lambda: machine.move(0))
            if operation == SET_TAG:
                machine, k = under_way(operation, stage=stage, tag=4)
                refused(machine, lambda: machine.move(0))


def check_orders():
    """The smallest number where several apply; the page rules; on and off; the readers."""
    for n, bw, w, pages, maps in ((4096, 1, 1, 4097, 65), (1, 0, 1, 0, 1), (1, 65, 1, 130, 1), (1, 1, 0, 2, 1), (1, 1, 9, 2, 1), (1, 1, 1, 3, 1), (63, 1, 1, 64, 2), (64, 1, 1, 65, 1)):
        page, bits = [7] * pages, [7] * maps
        answer, machine = fresh(n, bw, w, page, bits)
        assert answer == (2, 0) and page == [7] * pages and bits == [7] * maps
        assert (machine.n, machine.bw, machine.w) == (0, 0, 0)
        for call in (lambda: machine.request(0, 1, 1), lambda: machine.move(0), machine.on, machine.off, machine.listed_count, machine.first_unlisted,
                     lambda: machine.entry_answer(1), lambda: machine.compare(1, 1)):
            assert call() == (2, 0)
        assert machine.entry(1) == (2, [])
    for n, words in ((0, 1), (63, 1), (64, 2), (127, 2), (128, 3), (4095, 64)):
        assert fresh(n, 1, 1, [0] * (n + 1), [0] * words)[0] == (0, 0)
    assert fresh(0, 1, 1, [0], [0])[1].first_unlisted() == (10, 0)
    machine, k = ready(own=(6,), got=(7,))
    assert machine.request(8, 99) == (3, 0) and machine.request(0, 99) == (4, 0) and machine.request(0, 0) == (4, 0)
    assert machine.request(0, TAKE_S) == (8, 0) and machine.request(0, TAKE_T) == (8, 0)
    assert machine.request(0, INSERT, 6) == (9, 0) and machine.request(0, EXTEND, 5, 2) == (9, 0) and machine.request(1, POP) == (10, 0)
    assert machine.move(0) == (6, 0) and machine.move(8) == (3, 0)
    assert machine.off() == (0, 0) and machine.off() == (7, 0) and machine.request(0, TAKE_T) == (7, 0) and machine.request(1, WAIT) == (7, 0)
    assert machine.request(1, PUSH_S, 9) == (1, 0) and machine.off() == (5, 0) and machine.on() == (0, 0) and machine.on() == (7, 0)
    assert machine.request(1, 99) == (4, 0) and machine.request(1, POP) == (5, 0)
    machine, k = ready(tagged=(3,), tag=2)
    assert machine.off() == (8, 0)
    machine, k = ready(tag=2)
    assert machine.off() == (0, 2) and machine.tagged == 0
    machine, k = ready(own=(6,))
    machine.page[9 * 4 + 1:9 * 4 + 4] = [1, 2, 3]
    machine.page[10 * 4 + 1:10 * 4 + 4] = [1, 2, 4]
    assert machine.entry(9) == (0, [1, 2, 3]) and machine.entry(6) == (9, []) and machine.entry(0) == (4, []) and machine.entry_answer(64) == (4, 0)
    assert machine.compare(9, 10) == (0, 2) and machine.compare(9, 9) == (0, 3) and machine.compare(9, 6) == (9, 0) and machine.compare(64, 6) == (4, 0)
    assert fresh(2, 1, 1, [0] * 3, [0])[1].compare(1, 2) == (0, 0)


def check_pushes():
    """Interleaved pushes and takes: a failed exchange loads again, an address may come back, the tag stays."""
    machine, k = ready()
    assert machine.request(0, SET_TAG, 3) == (1, 0) and machine.move(0) == (1, 0) and machine.move(0, True) == (1, 0)
    assert machine.move(0) == (1, 0) and machine.move(0) == (0, 0) and machine.tagged == 3
    assert machine.request(0, PUSH_T, 5) == (1, 0) and machine.request(1, PUSH_T, 6) == (1, 0)
    assert [machine.move(0) for _ in range(2)] + [machine.move(1) for _ in range(3)] == [(1, 0)] * 4 + [(0, 3)]
    assert machine.move(0) == (1, 0) and [machine.move(0) for _ in range(3)] == [(1, 0), (1, 0), (0, 3)]
    assert machine.walk(address_of(machine.tagged)) == [5, 6] and tag_of(machine.tagged) == 3 and machine.link(5) == machine.address(6)
    assert machine.request(2, TAKE_T) == (1, 0) and machine.move(2, True) == (0, 5) and machine.tagged == 3 and machine.listed_count() == (0, 2)
    assert machine.request(0, TAKE_S) == (1, 0) and machine.move(0) == (0, 0)
    machine.request(0, PUSH_S, 1), machine.request(1, PUSH_S, 2)
    assert [machine.move(0) for _ in range(3)][-1] == (0, 0) and machine.request(0, TAKE_S) == (1, 0) and machine.request(3, TAKE_S) == (1, 0)
    assert machine.move(0) == (1, 0) and machine.move(3) == (1, 0) and machine.move(1) == (1, 0)
    assert machine.move(3) == (0, 1) and machine.move(0) == (0, 0)
    machine, k = ready(tag=1)
    machine.request(0, WAIT)
    assert machine.move(0) == (1, 0) and k.seen == 1 and k.stage == LOAD
    machine.tagged = 2
    assert machine.move(0) == (0, 2)
    machine.tagged = 1
    machine.request(0, ASK)
    assert [machine.move(0) for _ in range(3)] == [(1, 0)] * 3 and k.sightings == 3
    machine.tagged = 2
    assert machine.move(0) == (1, 0) and machine.move(0, True) == (1, 0) and k.sightings == 3
    machine.tagged = 1
    assert machine.move(0) == (1, 0) and machine.move(0) == (0, 0) and machine.tagged == 1
    machine.tagged = 3
    assert machine.request(0, ASK) == (1, 0) and machine.move(0) == (0, 1) and machine.tagged == 3


def test():
    for check in (check_table, check_whole_case, check_damage, check_orders, check_pushes):
        check()
        print("ok", check.__name__)
    draw = random.Random(1)
    runs = done = 0
    for n, bw, w in ((63, 4, 8), (5, 1, 2), (1, 64, 1), (0, 3, 4), (64, 2, 3), (130, 1, 8), (12, 3, 3)):
        for _ in range(40):
            done += random_run(draw, n, bw, w, 150)
            runs += 1
    print("ok random_run: %d runs beside the simple machine, %d answers with number 0" % (runs, done))


if __name__ == "__main__":
    if sys.argv[1:] == ["--test"]:
        test()
    elif sys.argv[1:]:
        sys.exit(__doc__)
    else:
        sys.stdout.buffer.write(output(sys.stdin.buffer.read()))
