#!/usr/bin/env python3
"""Compares a program with the second reading of document 01, on streams of records, byte by byte.

  streams.py PROGRAM [--count N] [--seed S] [--records R] [--jobs J] [--keep FILE]

PROGRAM reads records from standard input and writes a line for each. It is given
- streams of 0, 1, 7, 8 and 9 bytes;
- the whole case, cut at every byte, and fed in pieces of 1 to 9 bytes;
- the whole case with an unknown mark at its first, a middle and its last record;
- streams of R records (300,000), whole, fed in pieces of odd sizes, and cut at the end;
- N random streams (10,000) of 0 to 60 records.
The last line is 'streams: N compared, 0 differ'. At the first difference the stream goes to FILE (difference.bin), and the status is 1.
"""
import argparse
import concurrent.futures
import os
import random
import subprocess
import sys
import threading
import time

sys.dont_write_bytecode = True
sys.path.insert(0, os.path.dirname(os.path.abspath(__file__)))
import second_reading as reading

PATIENCE = 300
# Starts a program for x86-64, and says so where the machine is another.
START = os.path.join(os.path.dirname(os.path.abspath(__file__)), "start")


# ---- running the program

def run(program, stream, pieces=None, pause=0.0):
    """What the program writes. With pieces, its input comes in parts of these lengths, a pause after each."""
    if pieces is None:
        ended = subprocess.run([START, program], input=stream, stdout=subprocess.PIPE, timeout=PATIENCE)
        return ended.stdout, ended.returncode
    process = subprocess.Popen([START, program], stdin=subprocess.PIPE, stdout=subprocess.PIPE, bufsize=0)

    def feed():
        at = 0
        try:
            for length in pieces:
                if at >= len(stream):
                    break
                process.stdin.write(stream[at:at + length])
                at += length
                if pause:
                    time.sleep(pause)
        except BrokenPipeError:
            pass
        try:
            process.stdin.close()
        except BrokenPipeError:
            pass

    feeder = threading.Thread(target=feed)
    feeder.start()
    written = process.stdout.read()
    feeder.join()
    return written, process.wait(timeout=PATIENCE)


def difference(expected, written):
    """The first line at which two outputs part."""
    here, there = expected.split(b"\n"), written.split(b"\n")
    for k in range(max(len(here), len(there))):
        x = here[k] if k < len(here) else None
        y = there[k] if k < len(there) else None
        if x != y:
            return "line %d: %r expected, %r written" % (k + 1, x, y)
    return "none"


def compare(program, case):
    """None, or what differs."""
    label, stream, pieces, pause = case
    try:
        written, status = run(program, stream, pieces, pause)
    except subprocess.TimeoutExpired:
        return label, stream, "no end after %d s" % PATIENCE
    expected = reading.output(stream)
    if written != expected:
        return label, stream, difference(expected, written)
    if status != 0:
        return label, stream, "status %d" % status
    return None


# ---- the streams

BAD_MARKS = (b"\x00\x00", b"\xff\xff", b"\x55\x53", b"\x53\x56", b"\x4d\x55", b"\x54\x55", b"\x45\x49", b"\x44\x4e", b"\x53\x4e", b"\x56\x4d")


def whole():
    return b"".join(reading.record(*event) for event in reading.whole_case()[0])


def endless(size):
    while True:
        yield size


def odd_sizes(seed):
    draw = random.Random(seed)
    while True:
        yield draw.choice((1, 3, 7, 9, 63, 1021, 4099, draw.randrange(1, 20000)))


def fixed_cases():
    stream = whole()
    for size in (0, 1, 7, 8, 9):
        for name, text in (("the whole case", stream), ("on", reading.record("on") * 2), ("zeros", bytes(9)), ("ones", b"\xff" * 9)):
            yield "%d bytes of %s" % (size, name), text[:size], None, 0
    for size in range(len(stream) + 1):
        yield "the whole case cut at %d" % size, stream[:size], None, 0
    for size in range(1, 10):
        yield "the whole case in pieces of %d" % size, stream, endless(size), 0.0005
        yield "the whole case cut at 117, in pieces of %d" % size, stream[:117], endless(size), 0.0005
    last = len(stream) // 8 - 1
    for place in (0, last // 2, last):
        for mark in BAD_MARKS:
            at = 8 * place
            yield "mark %s at record %d" % (mark.hex(), place), stream[:at] + mark + stream[at + 2:], None, 0


def random_record(draw):
    """A record with a known mark and otherwise whatever comes."""
    kind = draw.choice(("request", "request", "request", "move", "move", "on", "off"))
    worker = draw.randrange(10) if draw.random() < 0.9 else draw.randrange(256)
    code = draw.randrange(16) if draw.random() < 0.9 else draw.randrange(256)
    a = draw.randrange(66) if draw.random() < 0.8 else draw.randrange(65536)
    b = draw.randrange(6) if draw.random() < 0.8 else draw.randrange(65536)
    return reading.record(kind, worker, code, a, b)


HABITS = (None, None, (6, 7, 3, 2), (8, 9, 10, 3), (10, 11, 12, 8), (1, 2, 4, 5, 13), (6, 7, 8, 9, 10, 11, 12))


def good_records(draw, count):
    """Records of which most make progress: a few workers, blocks that are free, moves of those that are busy."""
    _, machine = reading.fresh(63, 4, 8, [0] * 256, [0])
    out = []
    while len(out) < count:
        if len(out) % 200 == 0:
            crew = draw.sample(range(8), draw.choice((1, 2, 2, 3, 3, 5, 8)))
            favoured, few = draw.choice(HABITS), draw.random() < 0.3
        kind, worker, code, a, b = reading.pick_event(draw, machine)
        if len(out) == 0 and draw.random() < 0.6:
            kind, worker, code, a, b = "on", 0, 0, 0, 0
        if kind == "request":
            if worker < 8 and worker not in crew:
                worker = draw.choice(crew)
            if favoured and draw.random() < 0.7:
                code = draw.choice(favoured)
                if code == reading.SET_TAG:
                    a = draw.randrange(4)
            if few and code != reading.SET_TAG and draw.random() < 0.6:
                a = draw.randrange(1, 7)
            # If all waited at tag 1, nobody would be left to change it.
            if code == reading.WAIT and sum(k.operation == reading.WAIT for k in machine.workers) >= min(3, len(crew) - 1):
                code = reading.IS_EMPTY
        if kind == "move" and code:
            code = draw.choice((1, 2, 128, 255))
        reading.happen(machine, (kind, worker, code, a, b))
        if kind == "move" and draw.random() < 0.3:
            a, b = draw.randrange(65536), draw.randrange(65536)
        if kind in ("on", "off") and draw.random() < 0.5:
            worker, code, a, b = draw.randrange(256), draw.randrange(256), draw.randrange(65536), draw.randrange(65536)
        out.append(reading.record(kind, worker, code, a, b))
    return b"".join(out)


def asking(draw, count):
    """One worker asks for tag 0 while another sets the tag to and fro: sightings, exchanges that fail, the fifth sighting."""
    asks, sets = draw.sample(range(8), 2)
    out = [reading.record("on")]

    def set_tag(tag):
        out.append(reading.record("request", sets, reading.SET_TAG, tag))
        out.extend(reading.record("move", sets) for _ in range(2))

    while len(out) < count:
        set_tag(draw.choice((1, 1, 1, 2, 2, 2, 0, 3)))
        if draw.random() < 0.5:
            out.append(reading.record("request", asks, reading.ASK))
        out.extend(reading.record("move", asks, int(draw.random() < 0.4)) for _ in range(draw.randrange(1, 5)))
    return b"".join(out[:count])


def handing(draw, count):
    """Two workers finish what they begin: pushes, takes, appends, extends, and pops that show the order."""
    crew = draw.sample(range(8), 2)
    blocks = draw.sample(range(1, 64), 63)
    tagged = draw.random() < 0.5
    push, take = (reading.PUSH_T, reading.TAKE_T) if tagged else (reading.PUSH_S, reading.TAKE_S)
    out = []

    def finished(moves, worker, code, a=0):
        out.append(reading.record("request", worker, code, a))
        out.extend(reading.record("move", worker) for _ in range(moves))

    if tagged:
        out.append(reading.record("on"))
        finished(2, crew[0], reading.SET_TAG, draw.randrange(4))
    while len(out) < count:
        worker, roll = draw.choice(crew), draw.random()
        if roll < 0.3:
            finished(3, worker, push, blocks.pop())
        elif roll < 0.42:
            finished(1 if tagged else 2, worker, take)
        elif roll < 0.52:
            out.append(reading.record("request", worker, reading.INSERT, blocks.pop()))
        elif roll < 0.58:
            out.append(reading.record("request", worker, reading.EXTEND, draw.choice(blocks), draw.randrange(1, 4)))
        elif roll < 0.74:
            out.append(reading.record("request", worker, reading.APPEND))
        elif roll < 0.97:
            out.append(reading.record("request", worker, reading.POP))
        else:
            out.append(reading.record("request", worker, reading.RELEASE))
    return b"".join(out[:count])


def random_stream(seed):
    draw = random.Random(seed)
    count = draw.randrange(61)
    style = draw.random()
    if style < 0.1:
        stream = asking(draw, count)
    elif style < 0.3:
        stream = handing(draw, count)
    elif style < 0.75:
        stream = good_records(draw, count)
    elif style < 0.92:
        stream = b"".join(random_record(draw) for _ in range(count))
    elif style < 0.97:
        half = draw.randrange(count + 1)
        stream = good_records(draw, half) + b"".join(random_record(draw) for _ in range(count - half))
    else:
        return draw.randbytes(draw.randrange(8 * count + 1))
    ending = draw.random()
    if ending < 0.12:
        at = 8 * draw.randrange(count + 1)
        mark = draw.choice(BAD_MARKS) if draw.random() < 0.6 else draw.randbytes(2)
        stream = stream[:at] + mark + draw.randbytes(6) + stream[at:]
    elif ending < 0.24:
        stream = stream[:draw.randrange(len(stream) + 1)]
    return stream


def big_cases(records, seed):
    stream = good_records(random.Random(seed), records)
    yield "%d bytes" % len(stream), stream, None, 0
    yield "%d bytes in odd pieces" % len(stream), stream, odd_sizes(seed), 0
    yield "%d bytes in odd pieces, cut" % (len(stream) - 3), stream[:-3], odd_sizes(seed + 1), 0
    middle = len(stream) // 16 * 8
    yield "%d bytes, an unknown mark in the middle" % len(stream), stream[:middle] + b"\x53\x53" + stream[middle + 2:], None, 0


def cases(count, seed, records):
    yield from fixed_cases()
    yield from big_cases(records, seed)
    for k in range(count):
        yield "random stream %d of seed %d" % (k, seed), random_stream(seed * 1000003 + k), None, 0


def main():
    parser = argparse.ArgumentParser(description=__doc__, formatter_class=argparse.RawDescriptionHelpFormatter)
    parser.add_argument("program")
    parser.add_argument("--count", type=int, default=10000)
    parser.add_argument("--seed", type=int, default=1)
    parser.add_argument("--records", type=int, default=300000)
    parser.add_argument("--jobs", type=int, default=2)
    parser.add_argument("--keep", default="difference.bin")
    chosen = parser.parse_args()
    program = os.path.abspath(chosen.program)
    if not os.access(program, os.X_OK):
        sys.exit("streams: no program %s; 'tools/build program' makes crates/editor/out/editor" % program)
    compared, waiting, found = 0, set(), None
    source = cases(chosen.count, chosen.seed, chosen.records)
    with concurrent.futures.ThreadPoolExecutor(chosen.jobs) as pool:
        while True:
            while len(waiting) < 4 * chosen.jobs and found is None:
                case = next(source, None)
                if case is None:
                    break
                waiting.add(pool.submit(compare, program, case))
            if not waiting:
                break
            ended, waiting = concurrent.futures.wait(waiting, return_when=concurrent.futures.FIRST_COMPLETED)
            for one in ended:
                compared += 1
                found = found or one.result()
                if compared % 1000 == 0:
                    print("streams: %d compared so far" % compared, flush=True)
    if found:
        label, stream, what = found
        with open(chosen.keep, "wb") as kept:
            kept.write(stream)
        print("%s: %s; the stream is in %s" % (label, what, chosen.keep))
        print("streams: %d compared, 1 differs" % compared)
        sys.exit(1)
    print("streams: %d compared, 0 differ" % compared)


if __name__ == "__main__":
    main()
