#!/usr/bin/env python3
"""Rows of calls on nodes, with the answers of plain twins, for crates/rows_node/stdin.

`node_run.py 37 83` prints 400 rows by chance for each seed, and `node_run.py stops` those rows in which a call is stopped at each
call of the disk that it makes; what both printed stands at that file's end. Others are tried with
`(echo "== node"; scripts/node_run.py SEED..) | bin/rows_node`, which prints each row that differs and how many hold. What kinds
of calls a run has, how many were refused, and how often it crashed, copied and stopped, is told in the comment before it.

A twin is a disk, which counts its calls, and the node that is mounted on it: one list of bytes from the log's origin on, with the
places of its records, and a list of slots. Images of records and their checksum are made here, after PostgreSQL's manual (section
"WAL Internals") and docs/FILES.md; what calls answer and leave follows docs/DEFINITIONS.md, and in which order they call the disk
docs/FILES.md. Each row is answered from its words alone (`Nodes.answer`), and no answer of the program is used. Numbers are drawn
by a generator of its own, so each run is the same.
"""
import copy
import re
import struct
import sys
import zlib
from dataclasses import dataclass, replace

ORIGIN = 0x1000000
SEGMENT = 0x1000000
PAGE = 8192
SYSID = 7
MAGIC = 0xD116
BODY_LIMIT = 1048576
GREATEST_TIMELINE = 2**32 - 1
SLOT_LIMIT = 10
ALL_PASS = 2**64 - 1

# So many bytes are read at once at most here, of the log that a mount walks, and of one that is copied.
ROOM = 16384
WALKED = 65536
COPIED = 131072

ROWS = 400


# ---- numbers and words


class Draw:
    """Numbers by chance: a linear congruence over 64 bits, of which the high bits are taken."""

    def __init__(self, seed):
        self.state = seed

    def below(self, bound):
        self.state = (self.state * 6364136223846793005 + 1442695040888963407) % 2**64
        return (self.state >> 33) % max(bound, 1)

    def one_in(self, count):
        return self.below(count) == 0

    def of(self, choices):
        return choices[self.below(len(choices))]


def place(at):
    return "-" if at is None else f"{at >> 32:X}/{at & 0xFFFFFFFF:X}"


def or_none(number):
    return "-" if number is None else str(number)


def quoted(text):
    """A text as one word of a row."""
    return "`" + text.replace("\t", "\\t").replace("\n", "\\n") + "`"


def unquoted(word):
    return word.strip("`").replace("\\t", "\t").replace("\\n", "\n")


def words_of(row):
    """The words between blanks that stand in no quotes."""
    return re.findall(r"(?:`[^`]*`|[^ `])+", row)


def name_of(word):
    """The name that a word says, which may repeat a letter: `a*63`."""
    letter, _, count = word.partition("*")
    return letter * int(count) if count else unquoted(word)


class Refused(Exception):
    """A call is refused, and nothing changes."""


class DiskFailed(Exception):
    """A call of the disk failed."""


# ---- records as bytes


def crc_table():
    table = []
    for byte in range(256):
        for _ in range(8):
            byte = byte >> 1 ^ (0x82F63B78 if byte & 1 else 0)
        table.append(byte)
    return table


CRC_TABLE = crc_table()
KNOWN_SUMS = {}


def crc_from(crc, data):
    """The register of CRC-32C after these bytes."""
    for byte in data:
        crc = crc >> 8 ^ CRC_TABLE[(crc ^ byte) & 255]
    return crc


def checksum(body, front):
    """CRC-32C of a record's body and then of its first 20 bytes. Of long bodies what came is kept, since they come often."""
    if len(body) < 1000:
        return crc_from(crc_from(0xFFFFFFFF, body), front) ^ 0xFFFFFFFF
    key = bytes(body)
    if key not in KNOWN_SUMS:
        KNOWN_SUMS[key] = crc_from(0xFFFFFFFF, body)
    return crc_from(KNOWN_SUMS[key], front) ^ 0xFFFFFFFF


def body_of(length, first):
    """So many bytes, each one more than the one before."""
    cycle = bytes((first + k) % 256 for k in range(256))
    return (cycle * (length // 256 + 1))[:length]


def content_of(prev, body, xid, info, rmid):
    """A record without headers of pages."""
    front = struct.pack("<IIQBBH", 24 + len(body), xid, prev, info, rmid, 0)
    return front + struct.pack("<I", checksum(body, front)) + body


def header_size(page):
    return 40 if page % SEGMENT == 0 else 24


def header_fields(page, timeline, remaining):
    """What the header of a page has to say, with the names of the fields; so many bytes of a record go on past it."""
    flags = (2 if page % SEGMENT == 0 else 0) + (1 if remaining else 0)
    fields = [("Magic", MAGIC), ("Info", flags), ("Timeline", timeline), ("Address", page), ("RemLen", remaining)]
    if page % SEGMENT == 0:
        fields += [("SysId", SYSID), ("SegSize", SEGMENT), ("BlockSize", PAGE)]
    return fields


def header(page, timeline, remaining):
    values = [value for _, value in header_fields(page, timeline, remaining)]
    return struct.pack("<HHIQII", *values[:5], 0) + (struct.pack("<QII", *values[5:]) if values[5:] else b"")


def header_fault(data, page, timeline, remaining):
    """The first field that differs from what is due, of the flags only the lowest two. The four padding bytes are not judged."""
    found = struct.unpack("<HHIQI", data[:20]) + (struct.unpack("<QII", data[24:40]) if len(data) == 40 else ())
    for there, (field, due) in zip(found, header_fields(page, timeline, remaining)):
        if (there % 4 if field == "Info" else there) != due:
            return f"Page({field} {{ found: {there}, expected: {due} }})"
    return None


def image(log, content):
    """The record past the written end: with a header where a page starts, and zeros up to the next multiple of 8."""
    out, done = bytearray(), 0
    while done < len(content):
        at = log.written + len(out)
        if at % PAGE == 0:
            out += header(at, log.timeline_at(at), len(content) - done if done else 0)
            at += header_size(at)
        part = content[done : done + PAGE - at % PAGE]
        out += part
        done += len(part)
    return out + bytes(-len(out) % 8)


class Reading:
    """Reads what stands past the last record, piece by piece, up to where something is judged."""

    def __init__(self, log, more):
        self.log = log
        self.prev, self.at = log.records[-1]
        self.rest = memoryview(log.part(self.at, len(log.bytes)) + more)
        self.content = bytearray()
        self.start = self.at
        self.found = []

    def records(self):
        """The whole records that are found, or `Refused`, with the first place that is none."""
        while self.rest:
            if self.at % PAGE == 0:
                if len(self.rest) < header_size(self.at):
                    break
                self.take_header()
            else:
                self.take_content()
        return self.found

    def take(self, count):
        part = bytes(self.rest[:count])
        self.rest = self.rest[count:]
        self.at += len(part)
        return part

    def take_header(self):
        page = self.at
        remaining = self.total() - len(self.content) if self.content else 0
        fault = header_fault(self.take(header_size(page)), page, self.log.timeline_at(page), remaining)
        if fault:
            raise Refused(f"BadRecord {{ at: Lsn({page}), why: {fault} }}")

    def total(self):
        return struct.unpack_from("<I", self.content)[0]

    def goal(self):
        """How many bytes of the record there are when the next thing is judged."""
        count = len(self.content)
        for goal in (4, 16, 20):
            if count < goal:
                return goal
        return self.total() if count < self.total() else count + 1

    def take_content(self):
        if not self.content:
            self.start = self.at
        goal = self.goal()
        self.content += self.take(min(goal - len(self.content), PAGE - self.at % PAGE))
        if len(self.content) == goal:
            fault = self.fault(goal)
            if fault:
                raise Refused(f"BadRecord {{ at: Lsn({self.start}), why: {fault} }}")
            if goal >= 24 and goal >= self.total() and self.at % 8 == 0:
                self.end_record()

    def fault(self, count):
        """What is wrong with the bytes so far, of which the last was judged now."""
        total = self.total()
        if count == 4:
            return None if 24 <= total <= 24 + BODY_LIMIT else f"Length {{ found: {total} }}"
        if count == 16:
            found = struct.unpack_from("<Q", self.content, 8)[0]
            return None if found == self.prev else f"Prev {{ found: Lsn({found}), expected: Lsn({self.prev}) }}"
        if count == 20:
            return "Reserved" if any(self.content[18:20]) else None
        if count == total:
            found = struct.unpack_from("<I", self.content, 20)[0]
            computed = checksum(self.content[24:], self.content[:20])
            return None if found == computed else f"Checksum {{ found: {found}, computed: {computed} }}"
        return "Padding" if self.content[-1] else None

    def end_record(self):
        self.found.append((self.start, self.at))
        self.prev = self.start
        self.content = bytearray()


# ---- the disk


@dataclass(frozen=True)
class Control:
    """What the control and the history of its timeline say."""

    role: str
    own: int = 1
    parents: tuple = ()  # (timeline, where it was left, why)
    flushed: int = ORIGIN
    floor: int = ORIGIN


class Disk:
    """A disk, with what stands on it for a node. It fails once so many calls of it have passed; what fails does nothing."""

    def __init__(self):
        self.passing = ALL_PASS
        self.calls = 0
        self.control = None
        self.heard = 0  # the greatest timeline of a history
        self.slots = None
        self.files = set()  # the timelines and numbers of segments that have a file
        self.made = set()  # those that were made since they were synced last
        self.bytes = bytearray()
        self.records = [(0, ORIGIN)]

    def call(self, count=1):
        for _ in range(count):
            self.calls += 1
            if self.passing == 0:
                raise DiskFailed
            self.passing -= 1

    def replace_file(self):
        """To replace a file is to remove the temporary one, to write that, to sync it, and to rename it."""
        self.call(4)

    def write(self, name):
        self.call()
        if name not in self.files:
            self.files.add(name)
            self.made.add(name)

    def sync(self, name):
        self.call()
        self.made.discard(name)

    def remove(self, name):
        self.call()
        self.files.discard(name)
        self.made.discard(name)

    def crash(self, keep):
        if not keep:
            self.files -= self.made
        self.made.clear()
        self.passing = ALL_PASS

    def ask_for_control(self):
        self.call()
        if self.control:
            raise Refused("Exists")

    def remove_slots(self):
        self.call()
        self.slots = None


def init(disk, role):
    """A new node: asks for a control, removes the slots, asks once more, and replaces the control."""
    disk.ask_for_control()
    disk.remove_slots()
    disk.ask_for_control()
    disk.replace_file()
    disk.bytes, disk.records = bytearray(), [(0, ORIGIN)]
    disk.control = Control(role)
    return Node(disk)


def mount(disk):
    """Reads the slots, the control, the history, how long each segment is, and what is flushed past the whole end."""
    disk.call()
    disk.call()
    if disk.control is None:
        raise Refused("Missing(Text { bytes: [99, 111, 110, 116, 114, 111, 108] })")
    return open_log(disk)


def open_log(disk):
    """The same without the slots, and without the first call by which the control is looked for."""
    node = Node(disk)
    disk.call(1 if node.own == 1 else 3)
    disk.call(len(node.segments()))
    left = node.flushed - node.whole
    disk.call(-(-left // WALKED))
    return node


def clone(disk, other):
    """Copies the history and each segment, and at last the control; then the log is mounted."""
    disk.ask_for_control()
    disk.remove_slots()
    if other.before:
        raise Refused("SourceFault")
    disk.ask_for_control()
    if other.own != 1:
        disk.replace_file()
        disk.heard = max(disk.heard, other.own)
    for number in other.segments():
        copy_segment(disk, other, number)
    disk.replace_file()
    disk.control = replace(other.control, role="Standby")
    disk.bytes, disk.records = bytearray(other.bytes), list(other.records)
    disk.call()
    return open_log(disk)


def copy_segment(disk, other, number):
    start = number * SEGMENT
    name = other.file_of(number)
    for _ in range(start, min(start + SEGMENT, other.flushed), COPIED):
        try:
            other.disk.call()
        except DiskFailed:
            other.before = other.control
            raise Refused("SourceFault") from None
        disk.write(name)
    disk.sync(name)


# ---- the node


@dataclass
class Slot:
    name: str
    temporary: int | None  # the session that made it for itself
    owner: int | None
    restart: int | None
    saved: int | None

    def held(self):
        return self.saved if self.temporary is None else self.restart

    def told(self):
        return f"{self.name} {or_none(self.temporary)} {or_none(self.owner)} {place(self.restart)} {place(self.saved)};"


class Node:
    """A node that was just mounted on a disk, of which the bytes past the flushed end mean nothing."""

    def __init__(self, disk):
        self.disk = disk
        self.before = None  # what stood before the call in which the disk failed
        self.slots = [Slot(name, None, None, at, at) for name, at in disk.slots or []]
        self.bytes, self.records = disk.bytes, disk.records
        self.cut(disk.control.flushed)

    # -- what it is

    @property
    def control(self):
        return self.before or self.disk.control

    @property
    def role(self):
        return self.control.role

    @property
    def own(self):
        return self.control.own

    @property
    def parents(self):
        return self.control.parents

    @property
    def flushed(self):
        return self.control.flushed

    @property
    def floor(self):
        return self.control.floor

    @property
    def written(self):
        return ORIGIN + len(self.bytes)

    @property
    def whole(self):
        """Where the last whole record ends that is flushed."""
        return max(end for _, end in self.records if end <= self.flushed)

    def known(self):
        return max(self.own, self.disk.heard)

    def timeline_at(self, at):
        return next((tli for tli, switch, _ in self.parents if at < switch), self.own)

    def part(self, at, count):
        return bytes(self.bytes[at - ORIGIN : at - ORIGIN + count])

    def cut(self, at):
        del self.bytes[at - ORIGIN :]
        self.records[:] = [record for record in self.records if record[1] <= at]

    def segments(self):
        return range(self.floor // SEGMENT, -(-self.flushed // SEGMENT))

    def file_of(self, number):
        """The newest timeline that begins before the segment's end, and the number."""
        begins = [(self.own, self.parents[-1][1] if self.parents else ORIGIN)]
        for k, (tli, _, _) in enumerate(self.parents):
            begins.append((tli, self.parents[k - 1][1] if k else ORIGIN))
        return max(tli for tli, begin in begins if begin < (number + 1) * SEGMENT), number

    # -- how calls end

    def make(self, call, *words):
        """What a call answers that concerns the log or the file of slots."""
        if self.before:
            return "Broken"
        before = self.control
        try:
            return call(*words)
        except DiskFailed:
            self.before = before
            return "DiskFault"

    def change(self, **changes):
        """Replaces the control."""
        self.disk.replace_file()
        self.disk.control = replace(self.disk.control, **changes)

    def must_be(self, role):
        if self.role != role:
            raise Refused(f"Not{role}")

    # -- the log

    def write(self, data, records):
        """Adds bytes past the written end, segment by segment; a segment is synced before the next one is begun."""
        at, end = self.written, self.written + len(data)
        while at < end:
            if at % SEGMENT == 0 and at > self.flushed:
                self.disk.sync(self.file_of(at // SEGMENT - 1))
            self.disk.write(self.file_of(at // SEGMENT))
            at = min(end, at - at % SEGMENT + SEGMENT)
        self.bytes += data
        self.records += records
        return place(end)

    def append(self, length, first=0, xid=0, info=0, rmid=0):
        self.must_be("Primary")
        if length > BODY_LIMIT:
            raise Refused(f"TooLong {{ len: {length} }}")
        data = image(self, content_of(self.records[-1][0], body_of(length, first), xid, info, rmid))
        start = self.written + (0 if self.written % PAGE else header_size(self.written))
        return self.write(data, [(start, self.written + len(data))])

    def appends(self, count, length):
        for _ in range(count):
            self.append(length)
        self.flush()
        return "done"

    def receive(self, tli, at, data):
        self.must_be("Standby")
        if tli != self.own:
            raise Refused(f"WrongTimeline {{ own: Tli({self.own}) }}")
        if at != self.written:
            raise Refused(f"NotAtEnd {{ own_end: Lsn({self.written}) }}")
        return self.write(data, Reading(self, data).records())

    def sync_tail(self):
        if self.written > self.flushed:
            self.disk.sync(self.file_of((self.written - 1) // SEGMENT))

    def flush(self):
        if self.written > self.flushed:
            self.sync_tail()
            self.change(flushed=self.written)
        return place(self.flushed)

    def demote(self):
        self.must_be("Primary")
        self.sync_tail()
        self.change(role="Standby", flushed=self.written)
        return "done"

    def trim(self, keep):
        """The floor rises to the start of the segment of the least position that is needed; the segments below it go."""
        held = [slot.held() for slot in self.slots if slot.held() is not None]
        least = min([max(self.flushed - keep, 0), self.whole] + held)
        floor = max(self.floor, ORIGIN, least - least % SEGMENT)
        self.change(floor=floor)
        self.disk.call()
        for name in sorted(self.disk.files):
            if name[1] < floor // SEGMENT:
                self.disk.remove(name)
        return place(floor)

    # -- its path

    def switch(self, own, parents, role):
        """Replaces the history, begins the first segment with what the log has of it, and replaces the control."""
        at = parents[-1][1]
        self.disk.replace_file()
        self.disk.heard = max(self.disk.heard, own)
        if at % SEGMENT:
            self.disk.call()
            name = (own, at // SEGMENT)
            self.disk.write(name)
            self.disk.sync(name)
        self.change(role=role, own=own, parents=parents, flushed=at)
        self.cut(at)

    def promote(self, at_least):
        self.must_be("Standby")
        self.disk.call()
        if self.known() == GREATEST_TIMELINE:
            raise Refused("NoNumberLeft")
        own = max(at_least, self.known() + 1)
        at = self.records[-1][1]
        self.flush()
        self.switch(own, self.parents + ((self.own, at, "promoted"),), "Primary")
        return f"{own} {place(at)}"

    def follow(self, own, parents):
        self.must_be("Standby")
        if len(parents) != len(self.parents) + 1 or parents[-1][0] != self.own:
            raise Refused(f"NotChild {{ own: Tli({self.own}) }}")
        for k, (mine, its) in enumerate(zip(self.parents, parents)):
            if mine[:2] != its[:2]:
                raise Refused(f"ParentDiffers {{ at: {k}, own: {part_told(mine)}, theirs: {part_told(its)} }}")
        at = parents[-1][1]
        if at < self.whole:
            raise Refused(f"ForkedBefore {{ whole: Lsn({self.whole}), switch: Lsn({at}) }}")
        if at > self.whole:
            raise Refused(f"NotThereYet {{ flushed: Lsn({self.flushed}), switch: Lsn({at}) }}")
        self.switch(own, parents, "Standby")
        return "done"

    def next_of(self, tli):
        """Where a timeline was left, and for which one."""
        numbers = [parent[0] for parent in self.parents] + [self.own]
        for k, (number, switch, _) in enumerate(self.parents):
            if number == tli:
                return switch, numbers[k + 1]
        raise Refused(f"NotInHistory(Tli({tli}))")

    def read(self, tli, at, room):
        """The bytes that are read, or in words that none are left to read."""
        end, following = (self.flushed, None) if tli == self.own else self.next_of(tli)
        if at > end:
            raise Refused(f"AfterSwitch {{ next: Tli({following}), switch: Lsn({end}) }}" if following else f"Ahead {{ flushed: Lsn({end}) }}")
        if at < self.floor:
            raise Refused(f"Removed {{ floor: Lsn({self.floor}) }}")
        if at == end:
            return f"Ended {{ next: Tli({following}), switch: Lsn({end}) }}" if following else "AtEnd"
        count = read_count(at, end, room)
        self.disk.call((at + count - 1) // SEGMENT - at // SEGMENT + 1 if count else 0)
        return self.part(at, count)

    def history(self, tli):
        numbers = [parent[0] for parent in self.parents] + [self.own]
        if tli == 1 or tli not in numbers:
            raise Refused(f"NoHistory(Tli({tli}))")
        return history_text(self.parents[: numbers.index(tli)])

    # -- its slots

    def slot_named(self, name):
        return next((slot for slot in self.slots if slot.name == name), None)

    def slot_create(self, name, temporary, session, restart):
        if not 1 <= len(name) <= 63 or not all(c in "abcdefghijklmnopqrstuvwxyz0123456789_" for c in name):
            raise Refused("BadName")
        if self.slot_named(name):
            raise Refused("Duplicate")
        if len(self.slots) == SLOT_LIMIT:
            raise Refused(f"Full {{ limit: {SLOT_LIMIT} }}")
        self.slots.append(Slot(name, session if temporary else None, None, restart, None))

    def usable(self, name, session):
        slot = self.slot_named(name)
        if slot is None:
            raise Refused("NoSlot")
        if slot.owner is not None:
            raise Refused(f"InUse {{ session: {slot.owner} }}")
        if slot.temporary not in (None, session):
            raise Refused(f"InUse {{ session: {slot.temporary} }}")
        return slot

    def slot_drop(self, name, session):
        self.slots.remove(self.usable(name, session))

    def slot_acquire(self, name, session):
        self.usable(name, session).owner = session

    def slot_release(self, session):
        for slot in self.slots:
            if slot.owner == session:
                slot.owner = None

    def slot_end_session(self, session):
        self.slots = [slot for slot in self.slots if slot.temporary != session]
        self.slot_release(session)

    def slot_confirm(self, session, at):
        for slot in self.slots:
            if slot.owner == session:
                slot.restart = max(slot.restart or 0, at)

    def slot_save(self):
        lasting = [slot for slot in self.slots if slot.temporary is None]
        self.disk.replace_file()
        self.disk.slots = [(slot.name, slot.restart) for slot in lasting]
        for slot in lasting:
            slot.saved = slot.restart
        return "done"

    # -- what it tells

    def status(self):
        ends = " ".join(place(at) for at in (self.floor, self.whole, self.flushed, self.written))
        return f"{SYSID} {self.role} {self.own} {ends}"

    def slots_told(self):
        return "[" + "".join(slot.told() for slot in self.slots) + "]"

    def log_told(self):
        """How many bytes stand between the floor and the flushed end, their checksum, and what is read there."""
        if self.before:
            return f"0 {zlib.adler32(b''):08x} Broken"
        data = self.part(self.floor, self.flushed - self.floor)
        return f"{len(data)} {zlib.adler32(data):08x} AtEnd"

    def state(self):
        path = "".join(f"{tli}@{place(switch)};" for tli, switch, _ in self.parents)
        return f"{self.status()} [{path}] {self.log_told()} {self.slots_told()}"


def read_count(at, end, room):
    """All up to the end, or up to the last page's start in the room, or as many as there is room for."""
    if end <= at + room:
        return end - at
    page = (at + room) // PAGE * PAGE
    return page - at if at < page else room


def history_text(parents):
    return "".join(f"{tli}\t{place(switch)}\t{why}\n" for tli, switch, why in parents)


def parents_of(text):
    """The timelines that a canonical text says."""
    parents = []
    for line in text.splitlines():
        tli, switch, why = line.split("\t")
        high, _, low = switch.partition("/")
        parents.append((int(tli), int(high, 16) << 32 | int(low, 16), why))
    return tuple(parents)


def part_told(part):
    tli, switch, why = part
    return f"Part {{ tli: Tli({tli}), switch: Lsn({switch}), reason: Line {{ bytes: {list(why.encode())} }} }}"


# ---- rows


class Nodes:
    """Three disks with the nodes on them, and which of them rows speak of. A row has the words of a call and gets its answer."""

    def __init__(self):
        self.places = {number: (Disk(), None) for number in (1, 2, 3)}
        self.now = 1

    @property
    def disk(self):
        return self.places[self.now][0]

    @property
    def node(self):
        return self.places[self.now][1]

    def put(self, disk, making, *others):
        """Makes a node on a disk, or leaves that without one."""
        try:
            self.places[self.now] = disk, making(disk, *others)
            return "done"
        except Refused as why:
            self.places[self.now] = disk, None
            return str(why)
        except DiskFailed:
            self.places[self.now] = disk, None
            return "DiskFault"

    def answer(self, row):
        name, *words = words_of(row)
        try:
            answer = getattr(self, "row_" + name)(*words)
        except Refused as why:
            return str(why)
        return "done" if answer is None else answer

    def row_node(self, number):
        self.now = int(number)

    def row_fuse(self, passing):
        self.disk.passing = int(passing)

    def row_stop(self, passing, *call):
        self.disk.passing = int(passing)
        answer = self.answer(" ".join(call))
        self.disk.passing = ALL_PASS
        return answer

    # -- nodes that are made

    def row_disk(self):
        self.places[self.now] = Disk(), None

    def row_file(self, name, _bytes):
        """A file that is not judged before it goes."""
        self.places[self.now] = self.disk, None

    def row_init(self, role):
        return self.put(Disk(), init, role.capitalize())

    def row_init_here(self, role):
        return self.put(self.disk, init, role.capitalize())

    def row_clone(self, other):
        return self.put(Disk(), clone, self.places[int(other)][1])

    def row_clone_here(self, other):
        return self.put(self.disk, clone, self.places[int(other)][1])

    def row_mount(self):
        return self.put(self.disk, mount)

    def row_crash(self, way):
        self.disk.crash(way == "keep")
        return self.row_mount()

    # -- calls on the log

    def row_append(self, *numbers):
        return self.node.make(self.node.append, *map(int, numbers))

    def row_appends(self, count, length):
        return self.node.make(self.node.appends, int(count), int(length))

    def row_receive(self, tli, at, data):
        return self.node.make(self.node.receive, int(tli), int(at, 0), bytes.fromhex(data[2:]))

    def row_pull(self, other, count, tli=None):
        other, at = self.places[int(other)][1], self.node.written
        tli = other.own if tli is None else int(tli)
        came = other.make(other.read, tli, at, int(count))
        return came if isinstance(came, str) else self.node.make(self.node.receive, tli, at, came)

    def row_flush(self):
        return self.node.make(self.node.flush)

    def row_demote(self):
        return self.node.make(self.node.demote)

    def row_promote(self, at_least):
        return self.node.make(self.node.promote, int(at_least))

    def row_follow(self, own, text):
        return self.node.make(self.node.follow, int(own), parents_of(unquoted(text)))

    def row_follow_of(self, other):
        other = self.places[int(other)][1]
        text = other.make(other.history, other.own)
        return text if text == "Broken" else self.node.make(self.node.follow, other.own, parents_of(text))

    def row_sum(self, tli, at, room):
        came = self.node.make(self.node.read, int(tli), int(at, 0), int(room))
        return came if isinstance(came, str) else f"{len(came)} {zlib.adler32(came + bytes(int(room) - len(came))):08x}"

    def row_trim(self, keep):
        return self.node.make(self.node.trim, int(keep))

    def row_history(self, tli):
        text = self.node.make(self.node.history, int(tli))
        return text if text == "Broken" else quoted(text)

    # -- calls on slots

    def row_slot_create(self, name, kind, session, restart):
        at = None if restart == "none" else int(restart, 0)
        return self.node.slot_create(name_of(name), kind == "temporary", int(session), at)

    def row_slot_drop(self, name, session):
        return self.node.slot_drop(name_of(name), int(session))

    def row_slot_acquire(self, name, session):
        return self.node.slot_acquire(name_of(name), int(session))

    def row_slot_release(self, session):
        return self.node.slot_release(int(session))

    def row_slot_end_session(self, session):
        return self.node.slot_end_session(int(session))

    def row_slot_confirm(self, session, at):
        return self.node.slot_confirm(int(session), int(at, 0))

    def row_slot_save(self):
        return self.node.make(self.node.slot_save)

    def row_status(self):
        return self.node.status()

    def row_state(self):
        return self.node.state()


# ---- a run by chance

SOME_NAMES = ["a", "b", "standby_1", "7"]
MANY_NAMES = SOME_NAMES + ["_", "c", "d", "e", "f", "g", "h", "i", "a*63"]
ALL_NAMES = MANY_NAMES + ["a*64", "A", "a-b", "``"]

# Which deeds come how often.
OF_PRIMARY = {
    "append": 34, "flush": 12, "read": 13, "trim": 6, "demote": 4, "pull": 2, "promote": 1, "follow": 1, "history": 3, "slot": 13,
    "save": 5, "crash": 5, "copy": 1,
}  # fmt: skip
OF_STANDBY = {
    "pull": 35, "flush": 10, "read": 9, "trim": 4, "demote": 1, "append": 1, "promote": 5, "follow": 6, "go_over": 7, "history": 3,
    "slot": 9, "save": 4, "crash": 4, "copy": 2,
}  # fmt: skip

# Rows that are no calls.
TELLING = ("node", "fuse", "disk", "status", "state")


class Run:
    """Rows by chance on two or three nodes."""

    def __init__(self, seed):
        self.draw = Draw(seed)
        self.seed = seed
        self.of_slots = seed % 10 == 3
        self.is_long = seed % 25 == 0
        self.nodes = Nodes()
        self.numbers = []
        self.lines = []
        self.counts = dict.fromkeys(("calls", "refused", "crashes", "copies", "stops"), 0)
        self.refusals = {}

    @property
    def node(self):
        return self.nodes.node

    # -- what is printed

    def row(self, words):
        answer = self.nodes.answer(words)
        self.lines.append(f"{words} = {answer}")
        if words.split()[0] not in TELLING:
            self.count(words, answer)
        return answer

    def count(self, words, answer):
        self.counts["calls"] += 1
        kind = answer.split(" ")[0].split("(")[0]
        done = kind in ("done", "AtEnd", "Ended") or not kind.isalpha()
        if not done:
            self.counts["refused"] += 1
            self.refusals[kind] = self.refusals.get(kind, 0) + 1
        self.counts["crashes"] += words.startswith("crash")
        self.counts["copies"] += "clone" in words and answer == "done"
        self.counts["stops"] += kind == "DiskFault"

    def go_to(self, number):
        if self.nodes.now != number:
            self.row(f"node {number}")

    def rows(self):
        self.begin()
        while len(self.lines) < ROWS:
            self.step()
        told = ", ".join(f"{count} {what}" for what, count in self.counts.items())
        return [f"# Rows by chance, with the answers of plain twins (scripts/node_run.py {self.seed}): {told}."] + self.lines

    # -- the beginning: a primary with some records, and one or two standbys, new ones or copies of it

    def begin(self):
        self.row("node 3")
        self.row("init primary")
        if self.is_long:
            self.row("appends 16 1045400")
        for _ in range(self.draw.below(6)):
            self.row(self.append())
        self.row("flush")
        self.numbers = [3]
        for number in range(1, 2 + self.draw.below(2)):
            self.numbers.append(number)
            self.go_to(number)
            self.row("clone 3" if self.is_long or self.draw.one_in(2) else "init standby")

    # -- deeds

    def step(self):
        self.go_to(self.draw.of(self.numbers))
        other = self.draw.of([number for number in self.numbers if number != self.nodes.now])
        getattr(self, "deed_" + self.next_deed())(other)
        if self.draw.one_in(4):
            self.tell()

    def tell(self):
        """All that the node tells; where it has a long log, mostly without that."""
        self.row("state" if len(self.node.bytes) < 2**20 or self.draw.one_in(16) else "status")

    def next_deed(self):
        if self.node.before and self.draw.one_in(3):
            return "crash"
        if self.of_slots and not self.draw.one_in(4):
            return "slot"
        deeds = OF_PRIMARY if self.node.role == "Primary" else OF_STANDBY
        chosen = [deed for deed, often in deeds.items() for _ in range(often)]
        return self.draw.of(chosen + 15 * ["trim", "slot"] if self.is_long else chosen)

    def call(self, words):
        """A call that may call the disk; now and then with a disk that fails from one of its calls on."""
        if self.draw.one_in(8):
            words = f"stop {self.draw.below(13)} {words}"
        return self.row(words)

    def deed_append(self, _other):
        self.call(self.append())

    def append(self):
        draw = self.draw
        kind = draw.below(40)
        if kind < 3:
            length = draw.below(40000)
        elif kind == 4 and draw.one_in(4):
            length = BODY_LIMIT + 1
        else:
            length = draw.below(9000 if kind == 3 else 201)
        return f"append {length} {draw.below(256)} {draw.below(2**31)} {draw.below(256)} {draw.below(256)}"

    def deed_flush(self, _other):
        self.call("flush")

    def deed_demote(self, _other):
        self.call("demote")

    def deed_promote(self, _other):
        kind = self.draw.below(40)
        least = GREATEST_TIMELINE if kind == 0 else self.node.known() + self.draw.below(256) if kind < 10 else 0
        self.call(f"promote {min(least, GREATEST_TIMELINE)}")

    def deed_trim(self, _other):
        kind = self.draw.below(4)
        self.call(f"trim {self.draw.below(2**22 if kind == 0 else 2**25) if kind < 2 else 0}")

    def deed_history(self, _other):
        self.row(f"history {self.timeline()}")

    def deed_save(self, _other):
        self.call("slot_save")

    def deed_read(self, _other):
        room = [self.draw.below(64), PAGE, self.draw.below(20000), ROOM][self.draw.below(4)]
        self.call(f"sum {self.timeline()} {self.position():#x} {room}")

    def timeline(self):
        """Mostly the own one, or one of the path, and now and then any."""
        kind = self.draw.below(8)
        if kind == 0:
            return 1 + self.draw.below(9)
        return self.draw.of([tli for tli, _, _ in self.node.parents] + [self.node.own]) if kind < 4 else self.node.own

    def position(self):
        """At or beside a position that tells, or anywhere."""
        node = self.node
        telling = [node.floor, node.flushed, node.written, node.whole] + [switch for _, switch, _ in node.parents]
        at = self.draw.of(telling) if self.draw.one_in(2) else ORIGIN + self.draw.below(len(node.bytes))
        return max(at + self.draw.of([0, 0, 0, 0, 0, 0, 8, -1]), 0)

    # -- what a standby is given of another node

    def deed_pull(self, other):
        if self.draw.one_in(2):
            count = [self.draw.below(64), self.draw.below(6000), ROOM][self.draw.below(3)]
            self.call(f"pull {other} {count} {self.node.own if self.draw.below(8) else self.timeline()}")
        else:
            self.call(self.receive(self.nodes.places[other][1]))

    def receive(self, other):
        """Some bytes of the other one, or those at a wrong place, of a wrong timeline, not the next ones, or with a wrong byte."""
        node, draw = self.node, self.draw
        tli, at, begin = node.own, node.written, node.written
        twist = draw.below(8)
        if twist == 0:
            at = self.position()
        elif twist == 1:
            tli = self.timeline()
        elif twist == 2:
            begin += draw.below(64)
        ends = [end for _, end in other.records if begin < end <= begin + 250]
        count = ends[0] - begin if ends and draw.one_in(2) else 1 + draw.below(160)
        data = bytearray(other.part(begin, count))
        if twist in (3, 4) and data:
            wrong = draw.of([draw.below(64), draw.below(24), 18, 19, len(data) - 1]) % len(data)
            data[wrong] = (data[wrong] + draw.below(256)) % 256
        return f"receive {tli} {at:#x} x:{data.hex()}"

    def deed_follow(self, other):
        """The history of the other one, or one that differs from it, or from that of a timeline which goes on from the own one."""
        its = self.nodes.places[other][1]
        own, parents = its.own, its.parents
        kind = self.draw.below(12)
        if kind == 0:
            parents = parents[:-1]
        elif kind == 1:
            own += 1
        elif kind == 2:
            parents += ((its.own, its.whole, "x"),)
        elif kind == 3:
            parents = self.changed(parents)
        elif kind == 4:
            own = self.node.own + 1
            parents = self.changed(self.node.parents) + ((self.node.own, self.node.whole, "by chance"),)
        elif kind == 5 and own != 1:
            self.call(f"follow_of {other}")
            return
        elif kind < 10:
            own, parents = self.next_on(its)
        if not is_path(own, parents):
            own, parents = its.own, its.parents
        self.follow(own, parents)

    def next_on(self, its):
        """The timeline past as many as the own one has before it, on the other one's path."""
        count = len(self.node.parents) + 1
        return ([tli for tli, _, _ in its.parents[count:]] + [its.own])[0], its.parents[:count]

    def follow(self, own, parents):
        self.call(f"follow {own} {quoted(history_text(parents))}")

    def changed(self, parents):
        """One of the steps with another number or switch point."""
        if not parents:
            return parents
        k = self.draw.below(len(parents))
        tli, switch, why = parents[k]
        step = self.draw.of([(tli + 1, switch, why), (tli, switch + 8, why), (tli, switch - 8, why)])
        return parents[:k] + (step,) + parents[k + 1 :]

    def deed_go_over(self, other):
        """Receives all that the other one has of the own timeline, flushes it, and goes over to the next on the other one's path."""
        its = self.nodes.places[other][1]
        for _ in range(4):
            answer = self.call(f"pull {other} {ROOM} {self.node.own}")
            if not answer[0].isdigit():
                break
        self.call("flush")
        if self.node.own in [tli for tli, _, _ in its.parents] or self.draw.one_in(4):
            self.follow(*self.next_on(its))

    # -- slots

    def deed_slot(self, _other):
        draw = self.draw
        name, session = self.slot_name(), 1 + draw.below(3)
        kind = 0 if self.of_slots and draw.one_in(2) else draw.below(16)
        if kind < 6:
            restart = "none" if draw.one_in(3) else f"{self.position():#x}"
            words = f"slot_create {name} {'temporary' if draw.one_in(3) else 'lasting'} {session} {restart}"
        elif kind < 11:
            words = f"{'slot_drop' if kind < 8 else 'slot_acquire'} {name} {session}"
        elif kind < 15 and kind > 11:
            words = f"slot_confirm {session} {self.position():#x}"
        else:
            words = f"{'slot_release' if kind == 11 else 'slot_end_session'} {session}"
        self.row(words)

    def slot_name(self):
        if self.draw.one_in(16):
            return self.draw.of(ALL_NAMES)
        return self.draw.of(MANY_NAMES if self.of_slots else SOME_NAMES[:2] if self.is_long else SOME_NAMES)

    # -- crashes and copies

    def way(self):
        return self.draw.of(["keep", "lose"])

    def look(self):
        """All that a node tells, and its history."""
        self.tell()
        if self.node.own != 1 or self.draw.one_in(8):
            self.row(f"history {self.node.own}")

    def deed_crash(self, other):
        """Crashes, and now and then mounts with a disk that fails, or asks for another node on the disk."""
        self.row(f"crash {self.way()}")
        self.look()
        if self.draw.one_in(4):
            if self.row(f"stop {self.draw.below(7)} mount") != "done":
                self.row(f"crash {self.way()}")
            self.tell()
        elif self.draw.one_in(6):
            self.row(self.draw.of(["init_here primary", f"clone_here {other}"]))
            self.row("mount")
            self.tell()

    def deed_copy(self, other):
        """Begins anew with a copy of the other one, unless that is broken. Now and then the copy stops on its way, or its source."""
        kind = self.draw.below(6)
        if self.nodes.places[other][1].before and self.draw.below(4):
            self.row("flush")
        elif kind == 0:
            self.stop_source(other)
        elif kind < 3:
            self.stop_copy(other)
        else:
            self.row(f"clone {other}")
        if self.node is None:
            self.row("init_here standby")
        self.look()

    def stop_source(self, other):
        here = self.nodes.now
        self.row(f"node {other}")
        self.row(f"fuse {self.draw.below(2)}")
        self.row(f"node {here}")
        self.row(f"clone {other}")
        self.row(f"node {other}")
        self.row(f"fuse {ALL_PASS}")
        self.tell()
        self.row(f"node {here}")

    def stop_copy(self, other):
        self.row("disk")
        if self.row(f"stop {self.draw.below(20)} clone_here {other}") == "DiskFault":
            if self.row(f"crash {self.way()}") != "done":
                self.row(f"clone_here {other}")


def is_path(own, parents):
    """Numbers rise up to the timeline's own, and no switch point falls."""
    numbers = [tli for tli, _, _ in parents] + [own]
    switches = [switch for _, switch, _ in parents]
    return numbers == sorted(set(numbers)) and switches == sorted(switches) and own <= GREATEST_TIMELINE


# ---- stops

SLOTS = [
    "slot_create a lasting 2 0x1000000", "slot_create b temporary 2 0x1000000", "slot_create standby_1 lasting 2 none", "slot_save",
    "slot_acquire a 3", "slot_confirm 3 0x1000064", "slot_drop standby_1 3", "slot_create a*63 lasting 2 0x1000000",
]  # fmt: skip

# A primary with records that are flushed and some that are not, and slots that are saved and changed since.
PRIMARY = ["init primary", "append 100 3 700 16 1", "append 3000", *SLOTS, "flush", "append 300", "append 41"]

# What standbys receive of: four records.
MODEL = ["node 3", "init primary", "append 100 3 700 16 1", "append 3000", "append 300", "append 9000", "flush", "node 1", "init standby"]

# A standby with such slots, which has flushed a part of what it received, and ends within a record.
STANDBY = [*MODEL, "pull 3 2000", "flush", *SLOTS, "pull 3 8192"]

# A standby that has flushed all whole records, and a part of the next one.
AT_SWITCH = [*MODEL, *SLOTS, "pull 3 8192", "flush", "pull 3 3000"]

# A standby on a second timeline, which has flushed a part of a record.
SECOND = [
    *AT_SWITCH, "node 2", "init standby", "pull 3 8192", "flush", "promote 0", "append 3000", "append 500", "append 2000", "flush",
    "node 1", "follow_of 2", "pull 2 4000", "flush",
]  # fmt: skip

# Files that belong to no node.
LEFT = ["disk", "file slots `left by a crash`", "file control.tmp `left by a crash`"]

CASES = [
    ("append", PRIMARY, "append 50"),
    ("append over pages", PRIMARY, "append 9000"),
    ("flush of a primary", PRIMARY, "flush"),
    ("flush of a standby", STANDBY, "flush"),
    ("demote", PRIMARY, "demote"),
    ("trim of nothing", PRIMARY, "trim 0"),
    ("slot_save", PRIMARY, "slot_save"),
    ("promote", STANDBY, "promote 0"),
    ("promote to 9", AT_SWITCH, "promote 9"),
    ("promote again", SECOND, "promote 0"),
    ("receive", STANDBY, "pull 3 16384"),
    ("follow", AT_SWITCH, "follow 2 {child}"),
    ("follow again", SECOND, "follow 5 {child}"),
    ("init", ["disk"], "init_here primary"),
    ("init beside files", LEFT, "init_here primary"),
    ("clone", [*SECOND, "node 3", "disk"], "clone_here 1"),
]


def prepared(calls):
    """Nodes on which these calls were made."""
    nodes = Nodes()
    for call in calls:
        nodes.answer(call)
    return nodes


def child_of(node):
    """The history of a timeline that goes on from the own one where whole records end."""
    return quoted(history_text(node.parents + ((node.own, node.whole, "x"),)))


def stopped(nodes, call, passing, way):
    """What comes of a call where so many calls of the disk pass, of a crash, and of the call once more."""
    ended = nodes.answer(f"stop {passing} {call}")
    opened = nodes.answer(f"crash {way}")
    left = nodes.node.state() if nodes.node else opened
    return f"{ended} {left} again {nodes.answer(call)}"


def run_lengths(answers):
    """Of equal answers in a row, how many they are."""
    runs = []
    for answer in answers:
        if runs and runs[-1][1] == answer:
            runs[-1][0] += 1
        else:
            runs.append([1, answer])
    return ", ".join(f"{count} of {answer}" for count, answer in runs)


def stop_rows(name, calls, call):
    """A call that is stopped at each call of the disk that it makes, with both kinds of crash."""
    begun = prepared(calls)
    if "{child}" in call:
        call = call.format(child=child_of(begun.node))
    whole = copy.deepcopy(begun)
    before = whole.disk.calls
    whole.answer(call)
    count = whole.disk.calls - before
    print(f"# {name}: {count} call{'s' if count > 1 else ''} of the disk.")
    for way in ("lose", "keep"):
        answers = [stopped(copy.deepcopy(begun), call, passing, way) for passing in range(count + 1)]
        print(f"stops {way} {' : '.join([*calls, call])} = {run_lengths(answers)}")


class Long:
    """Rows with logs that are longer than a segment, which are not made anew for each stop."""

    def __init__(self):
        self.nodes = Nodes()

    def row(self, words):
        answer = self.nodes.answer(words)
        print(f"{words} = {answer}")
        return answer

    def rows(self, *all_words):
        for words in all_words:
            self.row(words)

    def made(self, call):
        """How many calls of the disk a call makes."""
        nodes = copy.deepcopy(self.nodes)
        before = nodes.disk.calls
        nodes.answer(call)
        return nodes.disk.calls - before

    def stops(self, call, passing):
        """Stops of a call, with a crash of each kind; they leave the node as it was, or make the same of it."""
        for count in passing:
            for way in ("lose", "keep"):
                self.rows(f"stop {count} {call}", f"crash {way}", "status")

    def writing(self):
        """A log that ends shortly before a segment does, and bytes past that."""
        self.rows("node 1", "init primary", "appends 15 1048576", "append 983040", "flush", "node 2", "clone 1", "node 1")
        print("# append over segments: 3 calls of the disk.")
        self.stops("append 70000", range(self.made("append 70000")))
        self.rows("append 70000", "append 70", "flush", "append 60", "status", "sum 1 0x1ffc000 16384", "sum 1 0x2000000 16384")
        print("# receive over segments: 3 calls of the disk.")
        self.row("node 2")
        self.stops("pull 1 131072", range(self.made("pull 1 131072")))
        self.rows("pull 1 131072", "flush", "status", "sum 1 0x1ffc000 16384", "sum 1 0x2000000 16384")

    def trimming(self):
        """The floor rises with the control's renaming, and files that are left past it go with the next trim."""
        print("# trim: 6 calls of the disk.")
        self.stops("trim 0", range(4))
        self.stops("trim 0", (4, 5))
        self.rows("trim 0", "stop 5 trim 0", "state")

    def copying(self):
        print("# clone of a trimmed node, beside files: 12 calls of the disk.")
        self.row("node 3")
        for count in range(12):
            for way in ("lose", "keep"):
                self.rows(*LEFT, f"stop {count} clone_here 2")
                if self.row(f"crash {way}") != "done":
                    self.row("clone_here 2")
                self.row("state")


def print_stops():
    print("# Calls that are stopped at each call of the disk that they make, with what a plain twin says of it (scripts/node_run.py stops):")
    print("# how the call ends, the state after a crash, and how the call ends then, and how many stops in a row are the same.")
    for case in CASES:
        stop_rows(*case)
    print("# The same with logs that are longer than a segment, stop by stop.")
    long = Long()
    long.writing()
    long.trimming()
    long.copying()


def main(words):
    if words == ["stops"]:
        print_stops()
        return
    for seed in words:
        print("\n".join(Run(int(seed)).rows()))


if __name__ == "__main__":
    main(sys.argv[1:])
