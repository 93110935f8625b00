#!/usr/bin/env python3
"""Rows of random runs of events on one hub, with the replies of a plain twin.

Prints 500 rows for crates/rows_hub/stdin for each seed: `hub_run.py 7 45` printed those that stand there, and others are
tried with `(echo "== hub"; scripts/hub_run.py SEED..) | bin/rows_hub`. The twin is two: a node as its timelines, the ends of its records and its slots,
and those who wait as sessions, a list of standbys and tickets, after PostgreSQL's manual (sections "Synchronous Replication",
"Replication Slots" and "Timelines"). A record has 24 bytes before its body and ends at a multiple of 8; a page has 8192 bytes,
with a header of 24, and of 40 in front of a segment. Numbers are drawn by a generator of its own, so each run is the same.
"""
import struct
import sys

START = 0x1000000
PAGE = 8192
NAMES = ["n1", "n2", "n3", "other"]
LISTS = ["", "n1", "1 (n1, n2)", "2 (n2, n1)", "ANY 1 (n2, n3)", "ANY 2 (n1, n2, n3)", "ANY 2 (*)", "2 (n3, *)"]
SLOTS = ["a", "b", "c"]
EVENTS = 500


class Draw:
    """Numbers by chance."""

    def __init__(self, seed):
        self.state = seed

    def below(self, bound):
        self.state = (self.state * 6364136223846793005 + 1442695040888963407) % 2**64
        return (self.state >> 33) % bound

    def of(self, choices):
        return choices[self.below(len(choices))]


def place(at):
    return f"{at >> 32:X}/{at & 0xFFFFFFFF:X}"


def checksum(data):
    """CRC-32C, bit by bit."""
    crc = 0xFFFFFFFF
    for byte in data:
        crc ^= byte
        for _ in range(8):
            crc = crc >> 1 ^ (0x82F63B78 if crc & 1 else 0)
    return crc ^ 0xFFFFFFFF


def header(at):
    """How long the page's header is that stands at a position, if one does."""
    return 0 if at % PAGE else 40 if at % START == 0 else 24


def record_end(start, length):
    """Where the record ends that begins at a position, with so many bytes of body."""
    at = start
    left = 24 + length
    while left:
        at += header(at)
        taken = min(left, PAGE - at % PAGE)
        at += taken
        left -= taken
    return (at + 7) // 8 * 8


def image(tli, start, prev, length):
    """The record's bytes, with the log's first header where it begins there; it ends on its page."""
    body = bytes(range(length))
    head = struct.pack("<IIQBBH", 24 + length, 0, prev, 0, 0, 0)
    record = head + struct.pack("<I", checksum(body + head)) + body
    record += bytes(-len(record) % 8)
    if start == START:
        page = struct.pack("<HHIQII", 0xD116, 2, tli, start, 0, 0)
        return page + struct.pack("<QII", 7, START, PAGE) + record
    return record


class Node:
    def __init__(self):
        self.role = "Standby"
        self.own = 1
        self.parents = []  # (timeline, where it was left, why)
        self.heard = 1
        self.ends = [(START, 0)]  # where records end, and where the last one starts
        self.whole = START
        self.flushed = START
        self.written = START
        self.coming = b""  # the rest of a record that has begun to come
        self.coming_start = 0
        self.coming_end = 0
        self.slots = []

    def last_start(self):
        return self.ends[-1][1]

    def cut(self, at):
        self.ends = [pair for pair in self.ends if pair[0] <= at]
        self.whole = self.flushed = self.written = at
        self.coming = b""

    def flush(self):
        self.flushed = self.written
        self.whole = self.ends[-1][0]

    def timeline_at(self, at):
        for tli, switch, _ in self.parents:
            if at < switch:
                return tli
        return self.own

    def history(self, parents):
        return "".join(f"{tli}\\t{place(switch)}\\t{why}\\n" for tli, switch, why in parents)


class Waiters:
    def __init__(self):
        self.sessions = []
        self.tickets = {}
        self.last_ticket = 0
        self.last_session = 0
        self.text = ""
        self.stopped = False

    def listing(self):
        """Method, number and names of the list in force."""
        if not self.text:
            return None
        words = self.text
        method = "FIRST"
        if words.startswith("ANY "):
            method, words = "ANY", words[4:]
        number = 1
        if "(" in words:
            head, _, words = words.partition("(")
            number = int(head)
            words = words.rstrip(")")
        return method, number, [name.strip() for name in words.split(",")]

    def spelled(self):
        if not self.text:
            return ""
        method, number, names = self.listing()
        inner = ", ".join("*" if name == "*" else f'"{name}"' for name in names)
        return f"{method} {number} ({inner})"

    def candidates(self):
        """The sessions that can count, in order of priority and connection."""
        names = self.listing()[2]
        found = []
        for s in self.sessions:
            ranks = [k for k, name in enumerate(names) if name in ("*", s["name"])]
            if s["streams"] and ranks and s["flush"] > 0:
                found.append((ranks[0], s["number"], s))
        return [s for _, _, s in sorted(found, key=lambda c: c[:2])]

    def met(self, end, mode):
        """Those by whom the list is met, or None."""
        if not self.text:
            return []
        method, number, _ = self.listing()
        candidates = self.candidates()
        if method == "ANY":
            candidates = [s for s in candidates if s[mode] >= end]
        first = candidates[:number]
        if len(first) < number or any(s[mode] < end for s in first):
            return None
        return first

    def release(self):
        for ticket in self.tickets.values():
            if ticket[0] == "waits":
                by = self.met(ticket[1], ticket[2])
                if by is not None:
                    counted = "".join(f"{s['number']} {s['name']} {place(s[ticket[2]])};" for s in by)
                    words = [f"{ticket[2].capitalize()} {place(ticket[1])}", self.spelled(), counted]
                    ticket[:] = ["released", " ".join(words)]

    def session(self, number):
        return next((s for s in self.sessions if s["number"] == number), None)

    def cancel_all(self):
        for ticket in self.tickets.values():
            if ticket[0] == "waits":
                ticket[:] = ["cancelled"]

    def forget(self):
        for s in self.sessions:
            s.update(streams=False, write=0, flush=0, apply=0)


class Run:
    def __init__(self, seed):
        self.draw = Draw(seed)
        self.node = Node()
        self.waiters = Waiters()

    # ---- what is drawn

    def some_session(self):
        numbers = [s["number"] for s in self.waiters.sessions]
        return self.draw.of(numbers + [self.waiters.last_session + 1]) if self.draw.below(12) == 0 or not numbers else self.draw.of(numbers)

    def some_ticket(self):
        numbers = list(self.waiters.tickets)
        return self.draw.of(numbers) if numbers and self.draw.below(10) else self.draw.below(self.waiters.last_ticket + 2)

    def some_place(self):
        n = self.node
        return self.draw.of([end for end, _ in n.ends[-3:]] + [n.flushed, n.flushed, n.written, n.flushed + 8])

    # ---- events of the log: each answers the event's words and the reply

    def append(self):
        n = self.node
        length = self.draw.of([0, 6, 9, 40, 255, 900])
        if n.role == "Standby":
            return f"append {length}", "NotPrimary"
        end = record_end(n.written, length)
        n.ends.append((end, n.written + header(n.written)))
        n.written = end
        return f"append {length}", place(end)

    def flush(self):
        self.node.flush()
        return "flush", place(self.node.flushed)

    def receive(self):
        n = self.node
        length = self.draw.of([0, 6, 40])
        if not n.coming:
            end = record_end(n.written, length)
            if (end - 1) // PAGE != n.written // PAGE or (n.written % PAGE == 0 and n.written != START):
                return self.flush()
            coming, start, stop = image(n.own, n.written, n.last_start(), length), n.written, end
        else:
            coming, start, stop = n.coming, n.coming_start, n.coming_end
        taken = self.draw.of([len(coming), len(coming), 1 + self.draw.below(len(coming))])
        at = n.written + self.draw.of([0, 0, 0, 0, 0, 8])
        tli = n.own + self.draw.of([0, 0, 0, 0, 0, 0, 0, 1])
        words = f"receive {tli} {at:#x} x:{coming[:taken].hex()}"
        if n.role == "Primary":
            return words, "NotStandby"
        if tli != n.own:
            return words, f"WrongTimeline {{ own: Tli({n.own}) }}"
        if at != n.written:
            return words, f"NotAtEnd {{ own_end: Lsn({n.written}) }}"
        n.written += taken
        n.coming, n.coming_start, n.coming_end = coming[taken:], start, stop
        if not n.coming:
            n.ends.append((stop, start + header(start)))
        return words, place(n.written)

    def follow(self):
        n = self.node
        least = n.parents[-1][1] if n.parents else START
        switch = max(least, self.draw.of([n.whole, n.whole, n.whole - 8, n.whole + 8]))
        own = n.heard + 1 + self.draw.below(2)
        parents = n.parents + [(n.own, switch, "x")]
        words = f"follow {own} `{n.history(parents)}`"
        if n.role == "Primary":
            return words, "NotStandby"
        if switch < n.whole:
            return words, f"ForkedBefore {{ whole: Lsn({n.whole}), switch: Lsn({switch}) }}"
        if switch > n.whole:
            return words, f"NotThereYet {{ flushed: Lsn({n.flushed}), switch: Lsn({switch}) }}"
        n.cut(n.whole)
        n.parents, n.own, n.heard = parents, own, max(n.heard, own)
        self.waiters.forget()
        return words, "done"

    def promote(self):
        n = self.node
        least = self.draw.of([0, 0, n.heard + 3])
        if n.role == "Primary":
            return f"promote {least}", "NotStandby"
        n.flush()
        n.cut(n.whole)
        n.parents = n.parents + [(n.own, n.whole, "promoted")]
        n.own = n.heard = max(least, n.heard + 1)
        n.role = "Primary"
        self.waiters.forget()
        return f"promote {least}", f"{n.own} {place(n.whole)}"

    def demote(self):
        n = self.node
        if n.role == "Standby":
            return "demote", "NotPrimary"
        n.flush()
        n.role = "Standby"
        self.waiters.cancel_all()
        return "demote", "done"

    def read(self):
        n = self.node
        tli = self.draw.of([n.own, n.own] + [tli for tli, _, _ in n.parents[-2:]] + [n.heard + 1])
        at = self.draw.of([START, START - 8, self.some_place(), self.some_place()])
        most = self.draw.of([0, 10, 100, 9000, 200000])
        words = f"read {tli} {at:#x} {most}"
        path = [(t, switch) for t, switch, _ in n.parents]
        if tli == n.own:
            end = n.flushed
            if at > end:
                return words, f"Ahead {{ flushed: Lsn({end}) }}"
            last = "AtEnd"
        elif tli in dict(path):
            end = dict(path)[tli]
            following = ([t for t, _ in path] + [n.own])[[t for t, _ in path].index(tli) + 1]
            if at > end:
                return words, f"AfterSwitch {{ next: Tli({following}), switch: Lsn({end}) }}"
            last = f"Ended {following} {place(end)}"
        else:
            return words, f"NotInHistory(Tli({tli}))"
        if at < START:
            return words, f"Removed {{ floor: Lsn({START}) }}"
        if at == end:
            return words, last
        room = min(max(most, 1), 131072)
        page = (at + room) // PAGE * PAGE
        count = end - at if end <= at + room else page - at if at < page else room
        return words, f"Bytes({count})"

    def history(self):
        n = self.node
        tli = self.draw.of([n.own, 1, n.heard + 1] + [t for t, _, _ in n.parents])
        numbers = [t for t, _, _ in n.parents] + [n.own]
        if tli == 1 or tli not in numbers:
            return f"history {tli}", f"NoHistory(Tli({tli}))"
        return f"history {tli}", f"`{n.history(n.parents[:numbers.index(tli)])}`"

    def identity(self):
        n = self.node
        ends = " ".join(place(at) for at in (START, n.whole, n.flushed, n.written))
        return f"7 {n.role} {n.own} {ends}"

    def identify(self):
        return "identify", self.identity()

    def status(self):
        streaming = sum(s["streams"] for s in self.waiters.sessions)
        return "status", f"{self.identity()} {streaming} {str(self.waiters.stopped).lower()}"

    # ---- events of slots

    def slot(self, name):
        return next((s for s in self.node.slots if s["name"] == name), None)

    def usable(self, session, name):
        slot = self.slot(name)
        if slot is None:
            return "NoSlot"
        holder = slot["owner"] or (slot["maker"] if slot["maker"] not in (None, session) else None)
        return f"InUse {{ session: {holder} }}" if holder else "done"

    def slot_create(self):
        session, name = self.some_session(), self.draw.of(SLOTS)
        temporary, reserved = self.draw.below(2) == 0, self.draw.below(2) == 0
        words = f"slot_create {session} {name} {'temporary' if temporary else 'lasting'} {'reserved' if reserved else 'nowhere'}"
        if self.slot(name):
            return words, "Duplicate"
        self.node.slots.append({
            "name": name,
            "maker": session if temporary else None,
            "owner": None,
            "restart": self.node.flushed if reserved else None,
        })
        return words, "done"

    def slot_drop(self):
        session, name = self.some_session(), self.draw.of(SLOTS)
        reply = self.usable(session, name)
        if reply == "done":
            self.node.slots.remove(self.slot(name))
        return f"slot_drop {session} {name}", reply

    def slot_acquire(self):
        session, name = self.some_session(), self.draw.of(SLOTS)
        reply = self.usable(session, name)
        if reply == "done":
            self.slot(name)["owner"] = session
        return f"slot_acquire {session} {name}", reply

    def slot_read(self):
        name = self.draw.of(SLOTS)
        slot = self.slot(name)
        if slot is None:
            return f"slot_read {name}", "NoSlot"
        if slot["restart"] is None:
            return f"slot_read {name}", "NoPosition"
        return f"slot_read {name}", f"{place(slot['restart'])} {self.node.timeline_at(slot['restart'])}"

    def release_slots(self, session):
        for slot in self.node.slots:
            if slot["owner"] == session:
                slot["owner"] = None

    def slot_release(self):
        session = self.some_session()
        self.release_slots(session)
        return f"slot_release {session}", "done"

    def slot_confirm(self):
        session, at = self.some_session(), self.some_place()
        for slot in self.node.slots:
            if slot["owner"] == session:
                slot["restart"] = max(slot["restart"] or 0, min(at, self.node.flushed))
        return f"slot_confirm {session} {at:#x}", "done"

    # ---- events of sessions

    def connect(self):
        w = self.waiters
        name, kind = self.draw.of(NAMES), self.draw.of(["replication", "replication", "replication", "ordinary"])
        there = sum(s["kind"] == kind for s in w.sessions)
        words = f"connect {name} {kind}"
        if w.stopped:
            return words, "Stopped"
        if there >= (10 if kind == "replication" else 100):
            return words, f"TooMany {{ there: {there} }}"
        w.last_session += 1
        w.sessions.append({"number": w.last_session, "name": name, "kind": kind, "streams": False, "write": 0, "flush": 0, "apply": 0})
        return words, str(w.last_session)

    def streaming(self):
        session = self.some_session()
        tli = self.draw.of([self.node.own, self.node.own, self.node.own, 1])
        found = self.waiters.session(session)
        if found and tli == self.node.own:
            found["streams"] = True
        return f"streaming {session} {tli}", "done" if found else "Unknown"

    def stop_streaming(self):
        session = self.some_session()
        found = self.waiters.session(session)
        if found:
            found.update(streams=False, write=0, flush=0, apply=0)
        return f"stop_streaming {session}", "done" if found else "Unknown"

    def report(self):
        session = self.some_session()
        ends = {mode: self.some_place() for mode in ("write", "flush", "apply")}
        found = self.waiters.session(session)
        if found and found["streams"]:
            for mode, at in ends.items():
                found[mode] = max(found[mode], min(at, self.node.flushed))
        return "report {} {write:#x} {flush:#x} {apply:#x}".format(session, **ends), "done" if found else "Unknown"

    def feedback(self):
        session = self.some_session()
        return f"feedback {session} 700", "done" if self.waiters.session(session) else "Unknown"

    def disconnect(self):
        session = self.some_session()
        found = self.waiters.session(session)
        if found is None:
            return f"disconnect {session}", "Unknown"
        self.waiters.sessions.remove(found)
        self.node.slots = [slot for slot in self.node.slots if slot["maker"] != session]
        self.release_slots(session)
        return f"disconnect {session}", "done"

    # ---- events of commits

    def set_names(self):
        self.waiters.text = self.draw.of(LISTS)
        return f"set_names `{self.waiters.text}`", "done"

    def names(self):
        return "names", f"`{self.waiters.spelled()}`"

    def prepare(self):
        w = self.waiters
        w.last_ticket += 1
        w.tickets[w.last_ticket] = ["prepared"]
        return "prepare", str(w.last_ticket)

    def wait(self):
        w, n = self.waiters, self.node
        prepared = [ticket for ticket, fate in w.tickets.items() if fate == ["prepared"]]
        ticket = self.draw.of(prepared) if prepared and self.draw.below(4) else self.some_ticket()
        end, mode = self.some_place(), self.draw.of(["write", "flush", "apply"])
        words = f"wait {ticket} {end:#x} {mode}"
        if w.tickets.get(ticket) != ["prepared"]:
            return words, "Unknown"
        if n.role == "Standby" or w.stopped:
            w.tickets[ticket] = ["cancelled"]
            return words, "done"
        if end > n.flushed:
            return words, f"NotFlushed {{ flushed: Lsn({n.flushed}) }}"
        w.tickets[ticket] = ["waits", end, mode]
        return words, "done"

    def look(self):
        ticket = self.some_ticket()
        fate = self.waiters.tickets.get(ticket, ["prepared"])
        if fate[0] in ("prepared", "waits"):
            return f"look {ticket}", "Unknown" if fate[0] == "prepared" else "NotYet"
        del self.waiters.tickets[ticket]
        return f"look {ticket}", f"`{fate[1]}`" if fate[0] == "released" else "Cancelled"

    def cancel(self):
        ticket = self.some_ticket()
        fate = self.waiters.tickets.get(ticket)
        if fate == ["prepared"]:
            del self.waiters.tickets[ticket]
        elif fate and fate[0] == "waits":
            fate[:] = ["cancelled"]
        return f"cancel {ticket}", "done" if fate else "Unknown"

    def stop(self):
        self.waiters.stopped = True
        self.waiters.cancel_all()
        return "stop", "done"

    # ---- the run

    def event(self, number):
        if number == EVENTS - 40:
            return self.stop()
        if number % 10 == 9:
            return self.status()
        often = [self.append, self.flush, self.receive, self.report, self.report, self.report, self.prepare, self.wait, self.look,
                 self.look, self.streaming, self.streaming, self.connect]
        once = [self.demote, self.promote, self.follow, self.read, self.history, self.identify, self.slot_create, self.slot_drop,
                self.slot_acquire, self.slot_read, self.slot_release, self.slot_confirm, self.stop_streaming, self.feedback,
                self.disconnect, self.set_names, self.names, self.cancel]
        drawn = self.draw.of(3 * often + once)
        if drawn in (self.demote, self.disconnect, self.stop_streaming, self.cancel) and self.draw.below(4):
            drawn = self.report
        return drawn()

    def rows(self):
        print("# 500 events by chance, with the replies of a plain twin (scripts/hub_run.py).")
        print("init standby 7 = done")
        for number in range(EVENTS):
            words, reply = self.event(number)
            self.waiters.release()
            print(f"{words} = {reply}")


if __name__ == "__main__":
    for seed in sys.argv[1:]:
        Run(int(seed)).rows()
