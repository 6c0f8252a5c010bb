#!/usr/bin/env python3
"""Holds a run of a cabinet against document 01's plain cabinet, without this repository's proofs and without its code.

    python3 docs/witness.py CABINET PAGE          a table and a schedule (hex text or bytes; `ks hex` makes it of words) and the page of
                                                  their run, as `./run` or `ks run` prints it, or what `ks run --json` prints
    python3 docs/witness.py CABINET PAGE MOVES    the same, and a plain run, as `ks plain --moves` prints it
    python3 docs/witness.py RUN.json              what `ks plain --json` printed: one run a line, with answers, origins and a plain run

Demand 3 says: of every accepted run there is a plain run with the same feeds and the same bus order, and where the run ends quiet, the
plain run ends in the same places and registers with the same unread words, and could not go on. This page finds such a plain run, from
the run alone, and checks it from the start; a plain run that is given is checked likewise. It needs Python 3.9 and nothing else.

A page has no origins: then a word on the bus is compared by channel, word and sender, and not by the place of its SEND. Of the unread
words a page tells only how many there are; `ks plain --json` has the words themselves. Exit codes: 0 all is as demand 3 says, 1 something is not, 2 the input can't be read.
"""
import json
import sys

OUTSIDE = 255
SET, ADD, TAKE, FIRST, SEND, JUMP = 1, 2, 3, 4, 5, 6
FEED, BACK = 4, 8                       # two of a schedule's moves
ON_THE_BUS, TAKEN_BACK = 4, 7           # two of the answers


class Fault(Exception):
    """Something is not as demand 3 says."""


def number(data):
    return int.from_bytes(data, "big")


class Table:
    """Channels as (sender, reader), and of each process its program, a list of (code, a, operand)."""

    def __init__(self, data):
        version, processes, channels = data[2], data[4], data[5]
        at = 6 + 2 * channels
        self.channels = [(data[i], data[i + 1]) for i in range(6, at, 2)]
        self.programs = []
        for _ in range(processes):
            at += 2 if version == 1 else 3              # the two boards, in version 2 a limit: the plain cabinet knows neither
            n, at = data[at], at + 1
            self.programs.append([(data[i], data[i + 1], number(data[i + 2:i + 6])) for i in range(at, at + 6 * n, 6)])
            at += 6 * n


class Plain:
    """"It holds for each process four registers and a place, all 0 at first, and an inbox, a list of channels with words, of any length.
    Beside them is its bus order."""

    def __init__(self, table):
        self.table = table
        self.places = [0 for _ in table.programs]
        self.registers = [[0, 0, 0, 0] for _ in table.programs]
        self.inboxes = [[] for _ in table.programs]
        self.bus = []                                   # (channel, word, sender, place of the SEND)

    def put(self, channel, word, sender, place):
        self.bus.append((channel, word, sender, place))
        reader = self.table.channels[channel][1]
        if reader != OUTSIDE:
            self.inboxes[reader].append((channel, word))

    def feed(self, channel, word):
        """False where it is refused: the channel's sender is not the outside."""
        if channel >= len(self.table.channels) or self.table.channels[channel][0] != OUTSIDE:
            return False
        self.put(channel, word, OUTSIDE, 0)
        return True

    def take(self, process, mask):
        """"TAKE and FIRST remove the first word in the inbox on a channel they name"; bit k of the mask stands for channel k."""
        for at, (channel, _) in enumerate(self.inboxes[process]):
            if mask >> channel & 1:
                return self.inboxes[process].pop(at)
        return None

    def step(self, process):
        """False where it is refused: "exactly where the place is n, or TAKE or FIRST finds no such word"."""
        place, registers = self.places[process], self.registers[process]
        if place == len(self.table.programs[process]):
            return False
        code, a, operand = self.table.programs[process][place]
        following = place + 1
        if code == SET:
            registers[a] = operand
        elif code == ADD:
            registers[a] = (registers[a] + registers[operand]) % 2**32
        elif code in (TAKE, FIRST):
            taken = self.take(process, 1 << operand if code == TAKE else operand)
            if taken is None:
                return False
            registers[a] = taken[1]
            if code == FIRST:
                registers[a + 1] = taken[0]
        elif code == SEND:
            self.put(operand, registers[a], process, place)
        elif code == JUMP and registers[a] != 0:
            following = operand
        self.places[process] = following
        return True


class Run:
    """What a run was given and told. Answers are (code, a, word, sender, place); sender and place are None where they are not told."""

    def __init__(self, table, schedule, answers, report, quiet, inboxes=None):
        self.table = Table(table)
        records = [(schedule[i], schedule[i + 1], number(schedule[i + 2:i + 6])) for i in range(3, len(schedule), 6)]
        self.quiet, self.ends, self.inboxes = quiet, [tuple(line) for line in report], inboxes
        if len(records) != len(answers) or len(self.ends) != len(self.table.programs):
            raise ValueError("the answers or the report are of another run")
        stand = []                                      # W-214: a back takes back the last record that stands, and stands nowhere itself
        for (move, a, word), answer in zip(records, answers):
            if move != BACK:
                stand.append((move, a, word, answer))
            elif answer[0] == TAKEN_BACK:
                stand.pop()
        carried = [entry for entry in stand if entry[3][0] == ON_THE_BUS]
        self.fed = [(a, word) for move, a, word, _ in carried if move == FEED]
        self.bus = [answer[1:] for _, _, _, answer in carried]      # "The bus order is the answers 4"
        self.is_feed = [move == FEED for move, _, _, _ in carried]
        self.most = len(records)                        # no process of ours did more instructions


def find(run):
    """A plain run that lags behind: feeds as they come, a process stepped when a word of it is on the bus, and at a quiet end."""
    plain, moves, feeds = Plain(run.table), [], iter(run.fed)
    for (channel, *_), is_feed in zip(run.bus, run.is_feed):
        if is_feed:
            moves.append(("feed", *next(feeds)))
            plain.feed(*moves[-1][1:])
            continue
        sender, before = run.table.channels[channel][0], len(plain.bus)
        while len(plain.bus) == before:
            if sender == OUTSIDE or len(moves) > len(run.bus) + run.most * len(run.ends) or not plain.step(sender):
                raise Fault(f"word {before + 1} of the bus order: the plain cabinet sends none on channel {channel}")
            moves.append(("step", sender))
    for process in range(len(run.ends) if run.quiet else 0):
        for _ in range(run.most + 1):
            if not plain.step(process):
                break
            moves.append(("step", process))
    return moves


def check(run, moves):
    """Makes the moves from nothing and compares feeds, bus order and a quiet end."""
    plain = Plain(run.table)
    for at, (kind, *what) in enumerate(moves, 1):
        sound = kind == "step" and len(what) == 1 and what[0] < len(run.ends) or kind == "feed" and len(what) == 2
        if not sound or not (plain.feed(*what) if kind == "feed" else plain.step(*what)):
            raise Fault(f"move {at} of the plain run, {kind} {what}, is refused")
    if [tuple(what) for kind, *what in moves if kind == "feed"] != run.fed:
        raise Fault("the plain run's feeds are not those of the run, in order")
    if len(plain.bus) != len(run.bus):
        raise Fault(f"{len(plain.bus)} words are on the plain cabinet's bus, {len(run.bus)} on the run's")
    for at, (ours, theirs) in enumerate(zip(run.bus, plain.bus), 1):
        if any(mine is not None and mine != its for mine, its in zip(ours, theirs)):
            raise Fault(f"word {at} of the bus order: {ours} in the run, {theirs} in the plain run (channel, word, sender, place)")
    for process, (_, place, unread, _, *registers) in enumerate(run.ends if run.quiet else []):
        ours, theirs = (place, registers, unread), (plain.places[process], plain.registers[process], len(plain.inboxes[process]))
        if ours != theirs:
            raise Fault(f"process {process} ends at {ours} in the run, at {theirs} in the plain run (place, registers, unread)")
        if run.inboxes is not None and [tuple(word) for word in run.inboxes[process]] != plain.inboxes[process]:
            raise Fault(f"process {process} has the unread words {run.inboxes[process]} in the run, {plain.inboxes[process]} in the plain run")
        if plain.step(process):
            raise Fault(f"process {process} could go on where the run is quiet")
    return sum(kind == "step" for kind, *_ in moves)


def from_json(text):
    """One run as `ks plain --json` prints it, and its plain run."""
    told = json.loads(text)
    data = bytes.fromhex(told["table"]), bytes.fromhex(told["schedule"])
    answers = [tuple(answer) for answer in told["answers"]]
    return Run(*data, answers, told["report"], told["quiet"], told["inboxes"]), told.get("plain")


def page_told(text, senders):
    """Answers, report and quiet of a page. It has no places of SENDs; a channel's sender is the table's."""
    lines = [line.split() for line in text.splitlines()]
    if not lines or lines[0][0] == "refused":
        raise ValueError("the run was refused, so there is nothing to hold against the plain cabinet")
    answers = [tuple(map(int, line[1:])) for line in lines if line[0].isdigit()]
    answers = [(code, a, word, senders[a] if code == ON_THE_BUS else None, None) for code, a, word in answers]
    return answers, [tuple(map(int, line[2:])) for line in lines if line[0] == "process"], lines[-1] == ["quiet", "1"]


def json_told(text):
    """The same of what `ks run --json` prints, with the places of SENDs."""
    told = json.loads(text)
    answers = [(record["code"], record["a"], record["word"], record["sender"], record["place"]) for record in told["records"]]
    ends = [(end["board"], end["place"], end["unread"], end["holdback"], *end["registers"]) for end in told["report"]]
    return answers, ends, told["quiet"]


def from_page(cabinet, page):
    """A table with a schedule behind it, and what their run told."""
    with open(cabinet, "rb") as file:
        data = file.read()
    if all(byte >= 32 or byte in b"\t\n\r" for byte in data):
        data = bytes.fromhex("".join(line.split("#")[0] for line in data.decode().splitlines()))
    table = data[:2 + number(data[:2])]                 # the rest is the schedule
    with open(page, encoding="utf-8") as file:
        text = file.read()
    told = json_told(text) if text.startswith("{") else page_told(text, [pair[0] for pair in Table(table).channels])
    return Run(table, data[len(table):], *told)


def from_moves(file):
    return [(line.split()[0], *map(int, line.split()[1:])) for line in open(file, encoding="utf-8") if line.strip()]


def hold(run, given):
    """What was found to be so, in words."""
    steps = check(run, find(run))
    said = f"{len(run.bus)} words on the bus, {len(run.fed)} feeds and {steps} steps"
    if given is not None:
        check(run, given)
        said += ", the plain run that was given too"
    return said + (", and the quiet end" if run.quiet else "; the end was not quiet")


def main(files):
    if not files or files[0] in ("-h", "--help"):
        print(__doc__.strip())
        return 0 if files else 2
    faults = count = 0
    try:
        if files[0].endswith(".json"):
            runs = ((f"{file}:{at}", *from_json(line)) for file in files for at, line in enumerate(open(file, encoding="utf-8"), 1))
        else:
            runs = [(files[0], from_page(*files[:2]), from_moves(files[2]) if len(files) == 3 else None)]
        for name, run, given in runs:
            count += 1
            try:
                print(f"{name}: as demand 3 says: {hold(run, given)}")
            except Fault as fault:
                faults += 1
                print(f"{name}: NOT as demand 3 says: {fault}")
    except (OSError, ValueError, KeyError, IndexError, TypeError) as error:
        print(f"witness.py: {files[0]}: can't be read: {error}", file=sys.stderr)
        return 2
    if count > 1:
        print(f"{count - faults} of {count} runs are as demand 3 says")
    return 1 if faults else 0


if __name__ == "__main__":
    sys.exit(main(sys.argv[1:]))
