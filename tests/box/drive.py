#!/usr/bin/env python3
"""drive.py BOX_PROGRAM WORK_FOLDER [POWER_PROGRAM]: starts boxes, which keep their record files in a folder that is not there yet, and
drives them as stations do, through sockets. Frames, boxes and stations are written here a second time, from documents 01 and 02 alone; each
answer, and the record file after it, is compared with them. POWER_PROGRAM is the box built with power.c; without it no power goes in the
middle of a request. Prints the number of checks made, or the first that fails, with exit status 1."""
import os
import pathlib
import random
import re
import select
import signal
import socket
import struct
import subprocess
import sys
import time

READ, WRITE, READ_ANSWER, OUTRANKED, TAKEN, NOT_TAKEN = range(1, 7)  # wish 3, "Kinds"
FIELDS = {READ: 1, WRITE: 2, READ_ANSWER: 2, OUTRANKED: 0, TAKEN: 0, NOT_TAKEN: 0}
WAIT = 5  # seconds that a box may take for anything
LIFE = 50  # seconds after which a box ends by itself, whatever happens here
SEED = 20240607
PROGRAM, FOLDER = sys.argv[1], pathlib.Path(sys.argv[2])
POWER = sys.argv[3] if len(sys.argv) > 3 else None
checks = 0
started = []  # every box process
power_gone = []  # the kind of each request at which power went, and whether the record had it then
asked = []  # requests, and bytes that are none, for the message of a failure


class Failure(Exception):
    pass


class Lost(Failure):
    """The connection ended before a whole answer."""


def check(holds, what):
    global checks
    if not holds:
        raise Failure(what)
    checks += 1


def frame(kind, *fields, version=1):
    """Wish 3: a 2-byte length of the rest, a version byte, a kind byte and 4-byte fields, all big-endian."""
    return struct.pack(f">HBB{len(fields)}I", 2 + 4 * len(fields), version, kind, *fields)


class Register:
    """A box's record and Figure 3's routine on it, with the early answer of wish 2."""

    def __init__(self, record):
        self.read, self.write, self.value = struct.unpack(">III", record)

    def record(self):
        return struct.pack(">III", self.read, self.write, self.value)

    def serve(self, kind, rank, revision=0):
        if kind == READ:
            if max(self.read, self.write) > rank:
                return (OUTRANKED,)
            self.read = rank
            return READ_ANSWER, self.write, self.value
        if self.read > rank or self.write >= rank:
            return (NOT_TAKEN,)
        self.write, self.value = rank, revision
        return (TAKEN,)


class Box:
    """A box process, and in `register` what its record has to be."""

    def __init__(self, name, *numbers, power=None):
        self.name, self.file, self.log = name, FOLDER / name, FOLDER / (name + ".log")
        if numbers:
            self.file.write_bytes(struct.pack(">III", *numbers))
        self.register = Register(self.kept())
        self.start(power=power)

    def kept(self):
        return self.file.read_bytes() if self.file.exists() else bytes(12)

    def start(self, seconds=LIFE, power=None):
        """`power` is a BOX_POWER of power.c, for a box whose power goes."""
        command, env = [POWER if power else PROGRAM, self.file, str(seconds)], {**os.environ, "BOX_POWER": power} if power else None
        with open(self.log, "ab") as log:
            self.process = subprocess.Popen(command, env=env, stdin=subprocess.DEVNULL, stdout=subprocess.PIPE, stderr=log)
        started.append(self.process)
        with open(FOLDER / "processes", "a") as processes:
            print(self.process.pid, file=processes)
        said = b""
        while not said.endswith(b"\n") and select.select([self.process.stdout], [], [], WAIT)[0]:
            more = os.read(self.process.stdout.fileno(), 100)
            said += more
            if not more:
                break
        check(said.startswith(b"port ") and said[5:-1].isdigit() and said.endswith(b"\n"), f"{self.name} prints {said!r} for its port")
        self.port = int(said[5:])

    def end(self, by=signal.SIGTERM, status=0):
        self.process.send_signal(by)
        self.is_ended(status)

    def is_ended(self, status, message=""):
        ends = self.process.wait(WAIT)
        check(ends == status, f"{self.name} ends with status {ends}, not {status}: {self.log.read_text()}")
        said = self.log.read_text()
        check(message in said if message else said == "", f"{self.name} says on stderr: {said}")
        self.process.stdout.close()

    def returns(self, by=signal.SIGKILL, power=None):
        """Wish 8: is put away, and comes back with its record."""
        self.end(by, -9 if by == signal.SIGKILL else 0)
        self.is_kept()
        self.start(power=power)

    def forgets(self, *numbers, believed=False):
        """What wish 8 excludes: it comes back without its record, in an empty folder, or where numbers are given with these for its record.
        Its answers have to be those of its own record still, unless the other is believed."""
        self.end(signal.SIGKILL, -9)
        self.file = FOLDER / f"folder-{len(started)}" / self.name
        self.file.parent.mkdir()
        if numbers:
            self.file.write_bytes(struct.pack(">III", *numbers))
        if believed:
            self.register = Register(self.kept())
        self.start()

    def loses_power(self, *request):
        """A box that was started with `power` serves a request and comes back. Gives the answer, or None where the power went before it: the
        record is then that from before the request or that from behind it."""
        before, after = Register(self.register.record()), Register(self.register.record())
        after.serve(*request)
        c = Connection(self)
        c.send(request)
        try:
            answer = c.answered(request)
            self.end(signal.SIGKILL, -9)
        except Lost:
            answer = None
            self.is_ended(-9)
            kept = self.kept()
            check(kept in (before.record(), after.record()), f"{self.name} keeps {kept.hex(' ')}, asked {request} as the power went")
            self.register = after if kept == after.record() else before
            power_gone.append((request[0], kept == after.record()))
        c.close()
        self.start()
        return answer

    def is_kept(self):
        there, wanted = self.kept(), self.register.record()
        check(there == wanted, f"{self.name} keeps {there.hex(' ')}, not {wanted.hex(' ')}")

    def goes_on(self):
        """Serves the next connection, with the record that it had. A read with the read rank itself, not below the write rank, changes
        nothing, so nothing is saved and the file is the same one; were the record in the box another, it would be saved or answered
        otherwise."""
        before = os.stat(self.file)
        new_connection_asks(self, (READ, self.register.read))
        after = os.stat(self.file)
        check((after.st_ino, after.st_mtime_ns) == (before.st_ino, before.st_mtime_ns), f"{self.name} saved a record that was not to change")

    def numbers_are(self, *numbers):
        """In numbers written out, so that this does not rest on Register."""
        check(self.kept() == struct.pack(">III", *numbers), f"{self.name} keeps {self.kept().hex(' ')}, not {numbers}")


class Connection:
    def __init__(self, box):
        self.box, self.process = box, box.process
        self.socket = socket.create_connection(("127.0.0.1", box.port), WAIT)
        self.socket.setsockopt(socket.IPPROTO_TCP, socket.TCP_NODELAY, 1)

    def send(self, *requests):
        asked.extend(requests)
        self.send_bytes(b"".join(frame(*r) for r in requests))

    def send_bytes(self, data):
        self.socket.sendall(data)

    def fetch(self, count):
        data = b""
        while len(data) < count:
            try:
                more = self.socket.recv(count - len(data))
            except ConnectionResetError:
                more = b""
            if not more:
                raise Lost(f"{self.box.name} closes the connection, with {len(data)} of {count} bytes sent")
            data += more
        return data

    def answer(self):
        """One answer, taken apart."""
        length, version, kind = struct.unpack(">HBB", self.fetch(4))
        check(version == 1 and kind in (READ_ANSWER, OUTRANKED, TAKEN, NOT_TAKEN), f"{self.box.name} answers version {version} kind {kind}")
        check(length == 2 + 4 * FIELDS[kind], f"{self.box.name} answers kind {kind} with length {length}")
        return (kind, *struct.unpack(f">{FIELDS[kind]}I", self.fetch(4 * FIELDS[kind])))

    def answered(self, *requests):
        """Fetches the answers to these requests, in their order. The record is that behind the last of them."""
        for request in requests:
            there, wanted = self.answer(), self.box.register.serve(*request)
            check(there == wanted, f"{self.box.name} answers {there} to {request}, not {wanted}")
        self.box.is_kept()
        return there

    def ask(self, *request):
        self.send(request)
        return self.answered(request)

    def is_silent(self):
        check(not select.select([self.socket], [], [], 0)[0], f"{self.box.name} answers what is not yet a whole request")

    def is_closed(self):
        """By the box, without a byte. Bytes that it did not fetch make it a reset."""
        try:
            there = self.socket.recv(100)
        except ConnectionResetError:
            there = b""
        check(there == b"", f"{self.box.name} answers {there.hex(' ')} where it should close the connection")
        self.close()

    def is_lost(self, request):
        """A request to a box that is away."""
        try:
            self.send(request)
        except ConnectionError:
            pass  # the box's end was seen before
        self.is_closed()

    def close(self, reset=False):
        if reset:
            self.socket.setsockopt(socket.SOL_SOCKET, socket.SO_LINGER, struct.pack("ii", 1, 0))
        self.socket.close()


class Station:
    """Document 01, "Steps", with wishes 2 and 7. A request waits until `read` or `write` has it served; its answer is then delivered at
    once, or is lost where the box's power goes. `decided` is None until the station decides: revision 0 is a decision."""

    def __init__(self, boxes):
        self.boxes, self.connections = boxes, [Connection(box) for box in boxes]
        self.quorum = len(boxes) // 2 + 1
        self.state, self.decided = "idle", None
        self.power = None  # until when the box has power that is asked next

    def begin(self, rank, offer):
        self.rank, self.offer, self.state = rank, offer, "reading"
        self.reads, self.writes, self.untold = {}, {}, set()

    def ask(self, box, *request):
        """Wish 8: "Requests waiting there wait on". A station connects again to a box that came back."""
        power, self.power = self.power, None
        if power:
            self.boxes[box].returns(power=power)
            return self.boxes[box].loses_power(*request)
        if self.connections[box].process is not self.boxes[box].process:
            self.connections[box].close()
            self.connections[box] = Connection(self.boxes[box])
        return self.connections[box].ask(*request)

    def read(self, box):
        answer = self.ask(box, READ, self.rank)
        if answer is None:
            return "lost"
        if self.state != "reading":
            return "received"
        self.reads[box] = answer
        if (OUTRANKED,) in self.reads.values():
            self.state = "idle"
            return "aborted"
        if len(self.reads) != self.quorum:
            return "received"
        _, rank, value = min(self.reads.items(), key=lambda read: (-read[1][1], read[0]))[1]  # the highest write rank, then the lowest box
        self.state, self.revision = "writing", self.offer if rank == 0 else value  # wish 7: by the write rank, whatever the value
        return "write issued", self.revision

    def write(self, box):
        answer = self.ask(box, WRITE, self.rank, self.revision)
        if answer is None:
            self.untold.add(box)
            return "lost"
        if answer == (NOT_TAKEN,) and box in self.untold:
            # Asked again, and the box may have taken it the first time: then it holds this rank. Otherwise a higher one outranks both.
            answer = (TAKEN,) if self.ask(box, READ, self.rank)[:2] == (READ_ANSWER, self.rank) else answer
        if self.state != "writing":
            return "received"
        self.writes[box] = answer
        if len(self.writes) != self.quorum:
            return "received"
        if any(a != (TAKEN,) for a in self.writes.values()):
            self.state = "idle"
            return "aborted"
        self.state, self.decided = "decided", self.revision
        return "decided", self.revision

    def does(self, *steps):
        """Each step is what is done, at which box, and what has to come of it."""
        for what, box, wanted in steps:
            said = getattr(self, what)(box)
            check(said == wanted, f"rank {self.rank}, {what} at box {box}: {said}, not {wanted}")


def kill(processes):
    for process in processes:
        if process.poll() is None:
            process.kill()
        process.wait()


def over(boxes, *stations):
    for connection in [c for station in stations for c in station.connections]:
        connection.close()
    for box in boxes:
        box.end()


def new_connection_asks(box, *requests):
    connection = Connection(box)
    for request in requests:
        connection.ask(*request)
    connection.close()


def whole_attempts():
    boxes = [Box(f"whole-{b}") for b in range(3)]
    first, second = Station(boxes), Station(boxes)
    first.begin(16, 7)
    first.does(("read", 0, "received"), ("read", 1, ("write issued", 7)), ("write", 0, "received"), ("write", 1, ("decided", 7)))
    for box, numbers in zip(boxes, [(16, 16, 7), (16, 16, 7), (0, 0, 0)]):
        box.numbers_are(*numbers)
    second.begin(33, 9)
    second.does(("read", 2, "received"), ("read", 1, ("write issued", 7)), ("write", 2, "received"), ("write", 1, ("decided", 7)))
    second.does(("read", 0, "received"), ("write", 0, "received"))
    for box in boxes:
        box.numbers_are(33, 33, 7)
    over(boxes, first, second)


def example_i():
    """Document 01, "Floors worked through", I. Both stations are connected to every box all the time."""
    boxes = [Box(f"example-{b}") for b in range(3)]
    zero, one = Station(boxes), Station(boxes)
    zero.begin(16, 7)
    zero.does(("read", 0, "received"), ("read", 1, ("write issued", 7)))
    one.begin(17, 9)
    one.does(("read", 1, "received"), ("read", 2, ("write issued", 9)), ("write", 1, "received"), ("write", 2, ("decided", 9)))
    zero.does(("write", 0, "received"), ("write", 1, "aborted"))
    check((zero.state, one.state, one.decided) == ("idle", "decided", 9), f"the stations are {zero.state} and {one.state} on {one.decided}")
    zero.does(("write", 2, "received"))
    for box, record in zip(boxes, ["00000010 00000010 00000007", "00000011 00000011 00000009", "00000011 00000011 00000009"]):
        check(box.kept() == bytes.fromhex(record), f"{box.name} keeps {box.kept().hex(' ', 4)}, not {record}")
    # and with a round above all that it was told, station 0 finds 9
    zero.begin(32, 7)
    zero.does(("read", 0, "received"), ("read", 1, ("write issued", 9)), ("write", 1, "received"), ("write", 0, ("decided", 9)))
    over(boxes, zero, one)


def withdrawal():
    """Wish 7: revision 0, "do not cut", is decided, and a station that offers another revision finds it. All bytes are written out."""
    boxes = [Box(f"withdrawal-{b}") for b in range(3)]

    def does(box, *exchanges):
        connection = Connection(boxes[box])
        for request, answer, record in exchanges:
            asked.append(request)
            connection.send_bytes(bytes.fromhex(request))
            there = connection.fetch(len(bytes.fromhex(answer)))
            check(there == bytes.fromhex(answer), f"{boxes[box].name} answers {there.hex(' ')}, not {answer}")
            check(boxes[box].kept() == bytes.fromhex(record), f"{boxes[box].name} keeps {boxes[box].kept().hex(' ', 4)}, not {record}")
        connection.close()

    for box in (0, 1):  # rank 16 withdraws: two boxes that hold nothing, and take revision 0
        does(box, ("0006 0101 00000010", "000A 0103 00000000 00000000", "00000010 00000000 00000000"),
             ("000A 0102 00000010 00000000", "0002 0105", "00000010 00000010 00000000"),
             ("000A 0102 00000010 00000007", "0002 0106", "00000010 00000010 00000000"))  # a second write of this rank
    # rank 33 offers 9; box 2 holds nothing and box 1 holds revision 0, so it writes that, and it is decided again
    does(2, ("0006 0101 00000021", "000A 0103 00000000 00000000", "00000021 00000000 00000000"))
    does(1, ("0006 0101 00000021", "000A 0103 00000010 00000000", "00000021 00000010 00000000"),
         ("000A 0102 00000021 00000000", "0002 0105", "00000021 00000021 00000000"))
    does(2, ("000A 0102 00000021 00000000", "0002 0105", "00000021 00000021 00000000"))
    over(boxes)


def withdrawals():
    """Wish 7, by stations: a withdrawal is found as any other revision is, and finds what was decided before it."""
    boxes = [Box(f"withdrawals-{b}") for b in range(3)]
    first, second = Station(boxes), Station(boxes)
    first.begin(16, 0)
    check(first.decided is None, f"a station that has not decided shows {first.decided}")
    first.does(("read", 0, "received"), ("read", 1, ("write issued", 0)), ("write", 0, "received"), ("write", 1, ("decided", 0)))
    check((first.state, first.decided) == ("decided", 0), f"the station is {first.state} on {first.decided}")
    for box, numbers in zip(boxes, [(16, 16, 0), (16, 16, 0), (0, 0, 0)]):
        box.numbers_are(*numbers)
    boxes[1].returns()  # and holds revision 0 still
    second.begin(33, 9)
    second.does(("read", 2, "received"), ("read", 1, ("write issued", 0)), ("write", 2, "received"), ("write", 1, ("decided", 0)))
    second.does(("read", 0, "received"), ("write", 0, "received"))
    for box in boxes:
        box.numbers_are(33, 33, 0)
    for revision in (0, 9):  # rank 0 ends the connection, and the record is as it was
        refused = Connection(boxes[0])
        refused.send((WRITE, 0, revision))
        refused.is_closed()
        boxes[0].numbers_are(33, 33, 0)
        boxes[0].goes_on()
    over(boxes, first, second)

    boxes = [Box(f"example-0-{b}") for b in range(3)]  # example I, in which station 0 withdraws
    zero, one = Station(boxes), Station(boxes)
    zero.begin(16, 0)
    zero.does(("read", 0, "received"), ("read", 1, ("write issued", 0)))
    one.begin(17, 9)
    one.does(("read", 1, "received"), ("read", 2, ("write issued", 9)), ("write", 1, "received"), ("write", 2, ("decided", 9)))
    zero.does(("write", 0, "received"), ("write", 1, "aborted"), ("write", 2, "received"))
    for box, numbers in zip(boxes, [(16, 16, 0), (17, 17, 9), (17, 17, 9)]):
        box.numbers_are(*numbers)
    check((zero.state, zero.decided) == ("idle", None), f"the station is {zero.state} on {zero.decided}")
    zero.begin(32, 0)
    zero.does(("read", 0, "received"), ("read", 2, ("write issued", 9)), ("write", 2, "received"), ("write", 0, ("decided", 9)))
    over(boxes, zero, one)

    # which answer a station takes: (write rank, value) at boxes 0 and 1, and what it writes where it offers 5
    for i, (first_held, second_held, written) in enumerate((
            ((16, 7), (17, 0), 0), ((17, 7), (16, 0), 7),  # the highest write rank
            ((0, 7), (16, 0), 0), ((16, 0), (0, 0), 0),  # nothing, and revision 0
            ((0, 7), (0, 0), 5), ((0, 7), (0, 9), 5),  # nothing, whatever the value
            ((16, 0), (16, 7), 0), ((16, 7), (16, 0), 7))):  # of equals the lowest box
        boxes = [Box(f"held-{i}-{b}", 17, *held) for b, held in enumerate((first_held, second_held))]
        station = Station(boxes)
        station.begin(33, 5)
        station.does(("read", 1, "received"), ("read", 0, ("write issued", written)))
        station.does(("write", 0, "received"), ("write", 1, ("decided", written)))
        for box in boxes:
            box.numbers_are(33, 33, written)
        over(boxes, station)


def compete(made, name, offers, before_each=lambda boxes, station: None):
    """Three stations begin with rising rounds until all have decided; their requests are served in any order. Compared with demand 3:
    agreement, validity, and a higher rank served before each abort. Gives what came of each request, and of a decision the offer too."""
    boxes = [Box(f"{name}-{b}") for b in range(3)]
    stations = [Station(boxes) for _ in range(3)]
    rounds, waiting, offered, came, step = [0] * len(stations), [[] for _ in stations], set(), [], 0
    while any(station.state != "decided" for station in stations) and step < 400:
        step += 1
        asked.append(f"{name}, step {step}")
        number = made.randrange(len(stations))
        station = stations[number]
        if station.state == "idle":
            rounds[number] = max(rounds[number] + 1, made.choice(rounds))
            station.begin(16 * rounds[number] + number, made.choice(offers))
            offered.add(station.offer)
            waiting[number] = [("read", box) for box in range(len(boxes))]
        elif waiting[number]:
            what, box = waiting[number].pop(made.randrange(len(waiting[number])))
            before_each(boxes, station)
            said = getattr(station, what)(box)
            came.append(said)
            if said == "lost":
                waiting[number].append((what, box))
            if said == "aborted":
                served = max(rank for box in boxes for rank in (box.register.read, box.register.write))
                check(served > station.rank, f"rank {station.rank} aborts, and the highest that was served is {served}")
            if said[0] == "write issued":
                waiting[number] += [("write", box) for box in range(len(boxes))]
            if said[0] == "decided":
                check(said[1] in offered, f"stations offer {offered}, and {said[1]} is decided")
                came[-1] += (station.offer,)
    decided = {station.decided for station in stations}
    check(len(decided) == 1 and None not in decided, f"stations decide {decided}")
    over(boxes, *stations)
    return came


def random_attempts():
    """Wish 7: "Agreement covers withdrawals". Stations that offer 0 or 7 compete with rising rounds; all that decide, decide the same."""
    made = random.Random(SEED)
    came = [said for i in range(6) for said in compete(made, f"seed-{SEED}-{i}", (0, 7))]
    check(("decided", 0, 7) in came and ("decided", 7, 0) in came, f"no station found the other revision decided: {came}")


def outranked_reads():
    boxes = [Box("outranked-0", 33, 16, 7), Box("outranked-1", 5, 33, 7), Box("outranked-2")]
    for box in boxes[:2]:  # by the read rank as in example F, by the write rank
        connection, before = Connection(box), box.kept()
        for rank in (1, 6, 16, 18, 32):
            connection.send((READ, rank))
            answer = connection.fetch(4).hex(" ")
            check(answer == "00 02 01 04", f"{box.name} answers {answer} to a read with rank {rank}, which is outranked")
            check(box.kept() == before, f"{box.name} keeps {box.kept().hex(' ')}, which an outranked read changed")
        connection.ask(READ, 33)  # equal is not outranked
        connection.close()
    station = Station(boxes)
    station.begin(32, 9)
    station.does(("read", 2, "received"), ("read", 0, "aborted"), ("read", 1, "received"))
    over(boxes, station)


def split_frames():
    box = Box("split")
    one, other = Connection(box), Connection(box)
    rank = 16
    for kind, size, by in ((READ, 8, 0), (WRITE, 12, 0x01010101), (WRITE, 12, 0)):  # a write of a revision of four bytes, and of 0
        for cuts in [range(1, size)] + [[cut] for cut in range(1, size)]:  # byte by byte, then at each position
            rank += 2
            request = (READ, rank) if kind == READ else (WRITE, rank, rank * by)
            data, places = frame(*request), [0, *cuts, size]
            asked.append(request)
            for start, end in zip(places, places[1:]):
                one.is_silent()
                box.is_kept()
                one.send_bytes(data[start:end])
                time.sleep(0.002)
            one.answered(request)
    for cut in range(1, 12):  # while half a frame is there, others are served
        rank += 10
        request = WRITE, rank, 7
        one.send_bytes(frame(*request)[:cut])
        other.ask(READ, rank - 1)
        new_connection_asks(box, (WRITE, rank - 1, 9))
        one.is_silent()
        asked.append(request)
        one.send_bytes(frame(*request)[cut:])
        one.answered(request)
    one.close()
    other.close()
    box.end()


def joined_frames():
    box = Box("joined")
    c = Connection(box)
    for requests in ([(READ, 16), (WRITE, 16, 7), (READ, 15), (WRITE, 16, 9), (READ, 33), (WRITE, 20, 9), (WRITE, 40, 7)],
                     [(kind, rank, 7)[:1 + FIELDS[kind]] for rank in range(41, 47) for kind in (WRITE, READ)],
                     [(WRITE, 50, 0), (READ, 50), (WRITE, 50, 9), (WRITE, 51, 9), (READ, 51), (WRITE, 52, 0), (READ, 53), (WRITE, 52, 0)]):
        c.send(*requests)
        c.answered(*requests)
    for cut in range(1, 12):  # one frame and a part of the next, then the other part
        first, second = (READ, 100 + cut), (WRITE, 100 + cut, cut)
        c.send_bytes(frame(*first) + frame(*second)[:cut])
        asked.extend((first, second))
        c.answered(first)
        c.is_silent()
        c.send_bytes(frame(*second)[cut:])
        c.answered(second)
    c.close()
    for frames, served in ((frame(READ, 200) + frame(READ, 201, version=2), [(READ, 200)]), (frame(READ, 0) + frame(READ, 202), []),
                           (frame(WRITE, 200, 0) + frame(WRITE, 0, 0) + frame(WRITE, 203, 9), [(WRITE, 200, 0)])):
        c = Connection(box)  # a refused frame ends the connection: those before it were answered, those behind it are not served
        c.send_bytes(frames)
        if served:
            c.answered(*served)
        c.is_closed()
        box.is_kept()
    new_connection_asks(box, (WRITE, 201, 5), (READ, 201))
    box.end()


def refused_frames():
    box = Box("refused", 33, 16, 7)
    high = 0x7FFFFFFF  # a rank which, were it served, the record would show
    body = struct.pack(">III", high, 9, 9)

    def of_length(length, kind):
        return struct.pack(">HBB", length, 1, kind) + body[:length - 2]

    frames = [b"\0\0", b"\0\0" + frame(READ, high), b"\0\1\1", b"\0\1\1" + frame(WRITE, high, 9)]  # too short for a kind
    for length in (b"\0\x0b", b"\1\6", b"\xff\xff"):  # too long for any kind, which shows at the length alone
        frames += [length, length + b"\1\1" + body[:9], length + b"\1\2" + body[:9]]
    frames += [of_length(length, kind) for kind in (READ, WRITE) for length in range(2, 11) if length != 2 + 4 * FIELDS[kind]]
    frames += [of_length(length, kind) for kind in (READ_ANSWER, OUTRANKED, TAKEN, NOT_TAKEN) for length in (2, 6, 10)]  # no requests
    frames += [frame(*request, version=version) for version in (0, 2, 255) for request in ((READ, high), (WRITE, high, 9), (WRITE, high, 0))]
    frames += [of_length(length, kind) for kind in (0, 7, 255) for length in (2, 6, 10)]
    frames += [frame(READ, 0), frame(WRITE, 0, 9), frame(WRITE, 0, 0xFFFFFFFF), frame(WRITE, 0, 0)]  # rank 0, with any revision
    for data in frames:
        c = Connection(box)
        asked.append(data.hex(" "))
        c.send_bytes(data)
        c.is_closed()
        box.numbers_are(33, 16, 7)
        box.goes_on()
    new_connection_asks(box, (WRITE, 33, 9), (READ, 34), (WRITE, 34, 0), (READ, 35))
    box.numbers_are(35, 34, 0)
    box.end()


def cut_connections():
    box, rank = Box("cut", 33, 16, 7), 33
    for data in (frame(READ, 0x7FFFFFFF), frame(WRITE, 0x7FFFFFFF, 9)):
        for count in range(len(data)):  # in the middle of a frame
            for reset in (False, True):
                c = Connection(box)
                asked.append(f"{count} bytes of {data.hex(' ')}")
                c.send_bytes(data[:count])
                c.close(reset)
                box.numbers_are(33, 16, 7)
                box.goes_on()
    for count in (1, 2, 5):  # behind whole requests, no answer fetched: each may be served or not, but in their order
        for reset, held in ((False, False), (False, True), (True, False), (True, True)):
            requests = [(WRITE, rank + 1 + i, rank) for i in range(count)]
            may_be = [box.register.record()]
            for request in requests:
                box.register.serve(*request)
                may_be.append(box.register.record())
            if held:  # until the connection is cut, so that the box finds requests and cut at once
                box.process.send_signal(signal.SIGSTOP)
            c = Connection(box)
            c.send(*requests)
            c.close(reset)
            box.process.send_signal(signal.SIGCONT)
            if count == 1 and not reset:  # a request that came whole is served, also where its station has gone
                until = time.monotonic() + WAIT
                while box.kept() == may_be[0] and time.monotonic() < until:
                    time.sleep(0.001)
                may_be = may_be[1:]
            rank += count + 1
            c = Connection(box)
            c.send((READ, rank))  # what comes behind this one of the requests above changes nothing
            answer, after = c.answer(), box.kept()
            matching = [r for r in map(Register, may_be) if r.serve(READ, rank) == answer and r.record() == after]
            check(len(matching) == 1, f"{box.name} answers {answer} and keeps {after.hex(' ')} behind {requests}")
            box.register = matching[0]
            c.ask(WRITE, rank, 7)
            c.close()
    box.end()


def connected_again(box):
    """A connection in the place of one that was closed, once the box has seen that."""
    until = time.monotonic() + WAIT
    while True:
        c = Connection(box)
        try:
            c.ask(READ, box.register.read)
            return c
        except (Failure, ConnectionError):
            c.close()
            if time.monotonic() > until:
                raise
            time.sleep(0.005)


def sixteen_connections():
    box = Box("sixteen")
    connections = [Connection(box) for _ in range(16)]
    for c in connections:
        c.ask(READ, 16)
    Connection(box).is_closed()
    for revision, c in enumerate(connections, 7):
        c.ask(WRITE, 16, revision)
    connections.pop(3).close()
    connections.append(connected_again(box))
    for rank, c in enumerate(connections, 10):
        c.ask(READ, rank)
        c.close()
    box.end()


def started_again():
    """Wish 8: "Our boxes lose power and return with their records". A box comes back after its read was answered and before its write."""
    boxes = [Box(f"again-{b}") for b in range(3)]
    station = Station(boxes)
    station.begin(16, 7)
    station.does(("read", 0, "received"), ("read", 1, ("write issued", 7)))
    for box, by in ((boxes[0], signal.SIGTERM), (boxes[1], signal.SIGKILL)):
        (FOLDER / (box.name + ".new")).write_bytes(b"of a save that was cut short")
        box.returns(by)
        box.numbers_are(16, 0, 0)
    new_connection_asks(boxes[0], (READ, 15), (WRITE, 15, 9))  # what it was told it still knows
    station.does(("write", 0, "received"), ("write", 1, ("decided", 7)))
    boxes[1].returns(signal.SIGTERM)
    later = Station(boxes)
    later.begin(33, 9)
    later.does(("read", 1, "received"), ("read", 2, ("write issued", 7)), ("write", 2, "received"), ("write", 1, ("decided", 7)))
    over(boxes, station, later)


def asked_while_away():
    """Wish 8: "Requests waiting there wait on". A request to a box that is away, or that goes before it fetched it, changes nothing. It is
    asked again when the box is back, and answered from the record that was kept."""
    boxes = [Box("away-0"), Box("away-1", 17, 16, 7), Box("away-2")]
    station, box = Station(boxes), boxes[1]
    station.begin(33, 9)
    station.does(("read", 0, "received"))
    for what, request, before, after, said in (("read", (READ, 33), (17, 16, 7), (33, 16, 7), ("write issued", 7)),
                                               ("write", (WRITE, 33, 7), (33, 16, 7), (33, 33, 7), "received")):
        c = Connection(box)
        box.process.send_signal(signal.SIGSTOP)  # so that it does not fetch the request
        c.send(request)
        box.end(signal.SIGKILL, -9)
        c.is_closed()
        station.connections[1].is_lost(request)
        try:
            Connection(box)
        except ConnectionRefusedError:
            box.numbers_are(*before)
        else:
            raise Failure(f"{box.name} is away and can be connected to")
        box.start()
        box.numbers_are(*before)
        station.does((what, 1, said))
        box.numbers_are(*after)
    station.does(("write", 0, ("decided", 7)))
    over(boxes, station)


def majority_returns():
    """Three boxes of five come back. Their read ranks outrank a lower rank, and a higher one finds what they had taken."""
    boxes = [Box(f"majority-{b}") for b in range(5)]
    first, reader, lower, higher = [Station(boxes) for _ in range(4)]
    first.begin(16, 7)
    first.does(("read", 0, "received"), ("read", 1, "received"), ("read", 2, ("write issued", 7)))
    first.does(("write", 0, "received"), ("write", 1, "received"), ("write", 2, ("decided", 7)))
    reader.begin(50, 8)
    reader.does(("read", 1, "received"), ("read", 2, "received"), ("read", 3, ("write issued", 7)))
    for box, numbers in zip(boxes[1:4], ((50, 16, 7), (50, 16, 7), (50, 0, 0))):
        box.returns()
        box.numbers_are(*numbers)
    new_connection_asks(boxes[3], (READ, 49), (WRITE, 49, 9))
    lower.begin(33, 9)
    lower.does(("read", 0, "received"), ("read", 4, "received"), ("read", 3, "aborted"), ("read", 1, "received"))
    higher.begin(66, 9)
    higher.does(("read", 3, "received"), ("read", 4, "received"), ("read", 2, ("write issued", 7)))
    for box in boxes:
        box.returns()
    higher.does(("write", 4, "received"), ("write", 3, "received"), ("write", 1, ("decided", 7)))
    over(boxes, first, reader, lower, higher)


def ended_at_any_moment():
    """A box is ended while it serves joined requests, however many it has served: its record is that behind one of them, or behind none, and
    has all that were answered."""
    made, box, rank = random.Random(SEED), Box("any-moment"), 16
    for _ in range(20):
        requests = [(kind, rank + i, rank)[:1 + FIELDS[kind]] for i in range(1, 7) for kind in (READ, WRITE)]
        may_be = [box.register.record()]
        for request in requests:
            box.register.serve(*request)
            may_be.append(box.register.record())
        c, answers = Connection(box), 0
        c.send(*requests)
        time.sleep(made.random() * 0.004)
        box.end(signal.SIGKILL, -9)
        try:
            while answers < len(requests):
                c.fetch(struct.unpack(">H", c.fetch(2))[0])
                answers += 1
        except Lost:
            pass
        c.close()
        check(box.kept() in may_be[answers:], f"{box.name} keeps {box.kept().hex(' ')}, with {answers} answers to {requests}")
        box.register = Register(box.kept())
        box.start()
        rank += 7
        new_connection_asks(box, (READ, rank))
    box.end()


def power_goes():
    """At each moment of a save and an answer (power.c): the record does not have the request; then it has, and the station was not told; then
    the station was told. Nothing is told that is not kept."""
    if not POWER:
        return
    for disk in ("early", "late"):
        for before, request, after, again in (
                ((), (READ, 16), (16, 0, 0), (READ_ANSWER, 0, 0)),
                ((17, 16, 7), (READ, 33), (33, 16, 7), (READ_ANSWER, 16, 7)),
                ((16, 0, 0), (WRITE, 16, 7), (16, 16, 7), (NOT_TAKEN,)),
                ((17, 16, 7), (WRITE, 0x01020304, 0), (17, 0x01020304, 0), (NOT_TAKEN,))):  # half of this is neither record
            came = []
            while (True, True) not in came:
                moment = len(came) + 1
                box = Box("-".join(map(str, ("power", disk, *request, moment))), *before, power=f"{moment} {disk}")
                told = box.loses_power(*request) is not None
                came.append((box.kept() == struct.pack(">III", *after), told))
                if came[-1] == (True, False):  # asked again with the same rank, a read is answered again and a write is not taken again
                    c = Connection(box)
                    for asks, wanted in ((request, again), ((READ, request[1]), (READ_ANSWER, *after[1:]))):
                        answer = c.ask(*asks)
                        check(answer == wanted, f"{box.name} answers {answer} to {asks}, not {wanted}")
                    c.close()
                box.end()
            check(came == sorted(came) and {(False, False), (True, False)} < set(came), f"{request}, kept and told at each moment: {came}")
        until_told = f"{moment - 1} {disk}"

        for i, steps in enumerate(((("write", 1, "received"), ("write", 2, ("decided", 7))),  # the station goes on with the other boxes,
                                   (("write", 0, "received"), ("write", 1, ("decided", 7))),  # or asks again and learns that 7 was taken,
                                   ())):  # or asks nothing more: a higher rank finds what was taken, though no station was told
            boxes = [Box(f"untold-{disk}-{i}-{b}") for b in range(3)]
            station, later = Station(boxes), Station(boxes)
            station.begin(16, 7)
            station.power = until_told
            station.does(("read", 0, "lost"), ("read", 0, "received"), ("read", 1, ("write issued", 7)))
            station.power = until_told
            station.does(("write", 0, "lost"))
            boxes[0].numbers_are(16, 16, 7)
            station.does(*steps)
            later.begin(33, 9)
            later.does(("read", 2, "received"), ("read", 0, ("write issued", 7)), ("write", 2, "received"), ("write", 0, ("decided", 7)))
            over(boxes, station, later)


def forgotten_write(comes_back):
    """Rank 16 writes 7 at a majority, boxes 0 and 1. If box 1 then forgets its write, rank 33 finds nothing at boxes 1 and 2."""
    boxes = [Box(f"forgotten-{len(started)}-{b}") for b in range(3)]
    first, second = Station(boxes), Station(boxes)
    first.begin(16, 7)
    first.does(("read", 0, "received"), ("read", 1, ("write issued", 7)), ("write", 0, "received"), ("write", 1, ("decided", 7)))
    comes_back(boxes[1])
    second.begin(33, 9)
    for what, box in (("read", 1), ("read", 2), ("write", 1), ("write", 2)):
        getattr(second, what)(box)
    check(second.decided == 7, f"stations decide {first.decided} and {second.decided}")
    over(boxes, first, second)


def forgotten_read(comes_back):
    """Ranks 16 and 17 read, and find nothing. If box 1 then forgets the read of rank 17, it takes the write of rank 16."""
    boxes = [Box(f"forgotten-{len(started)}-{b}") for b in range(3)]
    zero, one = Station(boxes), Station(boxes)
    zero.begin(16, 7)
    zero.does(("read", 0, "received"), ("read", 1, ("write issued", 7)))
    one.begin(17, 9)
    one.does(("read", 1, "received"), ("read", 2, ("write issued", 9)))
    comes_back(boxes[1])
    for station, box in ((zero, 0), (zero, 1), (one, 1), (one, 2)):
        station.write(box)
    check((zero.decided, one.decided) == (None, 9), f"stations decide {zero.decided} and {one.decided}")
    over(boxes, zero, one)


def is_noticed(words, scenario, *arguments):
    """The scenario has to fail, and with these words: its checks can fail."""
    before = len(started)
    try:
        scenario(*arguments)
    except Failure as failure:
        check(re.search(words, str(failure)), f"{scenario.__name__} fails for another cause: {failure}")
    else:
        raise Failure(f"{scenario.__name__} does not notice that a box forgot its record")
    kill(started[before:])


def without_their_records():
    """Wish 8's boxes return "with their records". One that comes back empty, or with an older record, is noticed by its answers; were these
    believed, two revisions would be decided."""
    for scenario in (forgotten_write, forgotten_read):
        scenario(Box.returns)
        for numbers in ((), (16, 0, 0)):
            is_noticed(r"-1 answers \(", scenario, lambda box: box.forgets(*numbers))
            is_noticed("stations decide 7 and 9", scenario, lambda box: box.forgets(*numbers, believed=True))
    made = random.Random(SEED)
    is_noticed(r"empty-\d (answers|keeps) ", compete, made, "empty", (0, 7), lambda boxes, station: made.choice(boxes).forgets())


def random_returns():
    """Every box is put away and comes back between any two messages."""
    came = []
    for seed in range(SEED, SEED + 4):
        made = random.Random(seed)

        def all_return(boxes, station):
            for box in boxes:
                box.returns(made.choice((signal.SIGKILL, signal.SIGTERM)))

        came += compete(made, f"returns-seed-{seed}", (0, 7, 8, 9), all_return)
    others = [said for said in came if said[0] == "decided" and said[1] != said[2]]
    check(len(came) >= 100 and came.count("aborted") >= 5 and len(others) >= 5, f"little came of the attempts: {came}")


def random_power():
    """Power goes in the middle of requests, at any moment. What is not answered is asked again, after other stations' requests."""
    if not POWER:
        return
    first = len(power_gone)
    for seed in range(SEED, SEED + 4):
        made = random.Random(seed)

        def power(boxes, station):
            if made.randrange(2):
                station.power = f"{made.randint(1, 6)} {made.choice(('early', 'late'))}"

        compete(made, f"power-seed-{seed}", (0, 7, 8, 9), power)
    for kind, kept in ((READ, False), (READ, True), (WRITE, False), (WRITE, True)):
        count = power_gone[first:].count((kind, kept))
        check(count >= 5, f"power goes at a request of kind {kind}, in the record: {kept}, {count} times only")


def without_a_record():
    """A box that cannot keep its record does not answer, and one that has lost it does not start."""
    box = Box("unsaved", 16, 0, 0)
    (FOLDER / "unsaved.new").mkdir()  # so that the file of this name cannot be written
    c = Connection(box)
    c.ask(READ, 16)  # changes nothing, so nothing is saved
    asked.append((WRITE, 16, 7))
    c.send_bytes(frame(WRITE, 16, 7))
    c.is_closed()
    box.is_ended(1, "not saved")
    box.numbers_are(16, 0, 0)
    for size in (0, 1, 11, 13, 24):
        file = FOLDER / f"size-{size}"
        file.write_bytes(bytes(range(size)))
        done = subprocess.run([PROGRAM, file, "5"], stdin=subprocess.DEVNULL, capture_output=True, timeout=WAIT)
        check(done.returncode == 1 and done.stdout == b"" and bytes(file) in done.stderr, f"a record file of {size} bytes gives {done}")
        check(file.read_bytes() == bytes(range(size)) and not file.with_suffix(".new").exists(), f"a file of {size} bytes is changed")


def random_requests():
    made = random.Random(SEED)
    seen = []

    def number():
        return made.choice((0, 1, 16, 255, 256, 0x7FFFFFFF, 0xFFFFFFFF, made.getrandbits(32)))

    for i in range(8):  # any 12 bytes are a record
        box = Box(f"random-{i}", number(), number(), number())
        connections = [Connection(box) for _ in range(5)]
        for step in range(80):
            near = made.choice((box.register.read, box.register.write, number()) if step < 3 else (box.register.read, box.register.write))
            rank = min(max(near + made.randint(-2, 3), 1), 0xFFFFFFFF)
            request = made.choice(((READ, rank), (WRITE, rank, made.choice((0, number())))))
            asked.append(f"seed {SEED}, request {step} to {box.name}")
            answer = made.choice(connections).ask(*request)
            seen.append(answer[0])
            if request[0] == WRITE and request[2] == 0:
                seen.append(("revision 0", *answer))
            elif answer[0] == READ_ANSWER and answer[1] != 0 and answer[2] == 0:
                seen.append("revision 0 answered")
        for c in connections:
            c.close()
        box.end()
    for kind in (READ_ANSWER, OUTRANKED, TAKEN, NOT_TAKEN):
        check(seen.count(kind) >= 30, f"answers of kind {kind}: {seen.count(kind)} only")
    for kind in (("revision 0", TAKEN), ("revision 0", NOT_TAKEN), "revision 0 answered"):
        check(seen.count(kind) >= 10, f"answers {kind}: {seen.count(kind)} only")


def interrupted(number, _):
    raise Failure(f"ended by signal {number}, after {checks} checks")


def main():
    for number in (signal.SIGALRM, signal.SIGTERM, signal.SIGINT):
        signal.signal(number, interrupted)
    signal.alarm(100)
    scenario = main
    try:
        FOLDER.mkdir(parents=True)
        short = Box("short")
        new_connection_asks(short, (WRITE, 1, 7))  # the lowest rank is taken by a new box, and leaves the read rank 0
        short.numbers_are(0, 1, 7)
        short.end()
        short.start(seconds=1)
        for scenario in (whole_attempts, example_i, withdrawal, withdrawals, outranked_reads, split_frames, joined_frames, refused_frames,
                         cut_connections, sixteen_connections, started_again, asked_while_away, majority_returns, ended_at_any_moment,
                         power_goes, without_their_records, without_a_record, random_requests, random_attempts, random_returns,
                         random_power):
            scenario()
        short.is_ended(0)  # by itself
    except (Failure, OSError, subprocess.SubprocessError) as e:
        sys.exit(f"drive.py: {scenario.__name__}: {e} (asked last: {'; '.join(map(str, asked[-3:]))})")
    finally:
        signal.alarm(0)
        kill(started)
    print(checks)


main()
