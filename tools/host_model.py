#!/usr/bin/env python3
"""A model of the host, to compare the program `scanhost` with.

It was written apart from the program, straight from the rules of the host,
and shares no code with it.  Everything is done in the plainest way: memory is
one bytearray, tables are lists, and every rule stands where it is applied.

It reads a script on standard input, one call to a line, and prints each line
with its answer:

    take 1 3 -> 0 none 0 0

An answer has four parts: answer, layer, detail, place.  They are 0, none, 0, 0
where nothing else is said.  A refusal has its number in answer and in detail,
the layer that refused in layer, and it alters nothing at all.

`next` may answer any pending port; this model answers the lowest.

Usage: python3 host_model.py < calls.script
"""

import re
import sys

FRAME = 4096          # bytes in a frame
SECTOR = 512          # bytes in a sector
DOMAINS = 8           # domain 0 holds the back ends, 1 to 7 are guests
ENTRIES = 32          # grant entries of each domain
HANDLES = 64          # handles of each domain
CONNECTIONS = 6       # connections of the host
JOBS = 2              # jobs that one connection may have at once
WORD = 1 << 32        # ring indices count modulo this

# Bits of an entry's flags.
TYPE_MASK = 3         # the two low bits are the type
PERMIT = 1            # the type that permits access
READ_ONLY = 4
READING = 8
WRITING = 16

# Numbers of refusals.
GENERAL = -1
BAD_DOMAIN = -2
BAD_REFERENCE = -3
BAD_HANDLE = -4       # also: a ticket that is not the right one
BAD_SIZE = -5
BAD_ORDER = -6
NO_HANDLE = -7
DENIED = -8
BAD_FRAME = -9
INVALID = -22
NO_ROOM = -28
BUSY = -41
BAD_INDEX = -42


class Refusal(Exception):
    """A call, or a device, says no: the layer that says it and its number.

    It travels upwards as it is, so that a fault met below keeps its layer and
    its number."""

    def __init__(self, layer, number):
        super().__init__(layer, number)
        self.layer = layer
        self.number = number


def number_at(data, at, size):
    """An unsigned number of `size` bytes, lowest byte first."""
    total = 0
    for i in range(size):
        total += data[at + i] << (8 * i)
    return total


def put_number(data, at, size, value):
    """Write a number in `size` bytes, lowest byte first.  A negative number
    is written as its two's complement."""
    value %= 1 << (8 * size)
    for i in range(size):
        data[at + i] = (value >> (8 * i)) & 255


# ---------------------------------------------------------------------------
# Devices
# ---------------------------------------------------------------------------

INWARD = "inward"     # from the device into memory
OUTWARD = "outward"   # from memory to the device


class Order:
    """What a device has in hand: ticket, direction, place, length in bytes."""

    def __init__(self, ticket, direction, place, length):
        self.ticket = ticket
        self.direction = direction
        self.place = place
        self.length = length


class Device:
    """What disk and wire have in common.  `orders` is in order of acceptance."""

    def __init__(self, capacity):
        self.capacity = capacity
        self.orders = []

    def full(self):
        return len(self.orders) == self.capacity

    def accept(self, ticket, direction, place, length):
        # An order that does not fit, then a ticket already in hand, then a
        # full device.
        if not self.fits(direction, place, length):
            raise Refusal("device", BAD_ORDER)
        if any(order.ticket == ticket for order in self.orders):
            raise Refusal("device", BAD_HANDLE)
        if self.full():
            raise Refusal("device", BUSY)
        self.orders.append(Order(ticket, direction, place, length))

    def ready_order(self):
        """The first order in hand, in order of acceptance, that is ready."""
        for order in self.orders:
            if self.is_ready(order):
                return order
        return None

    def ready(self):
        order = self.ready_order()
        return None if order is None else order.ticket

    def order_at_hand(self, ticket):
        """Fill, drain and done are only for the ticket that ready answers."""
        order = self.ready_order()
        if order is None or order.ticket != ticket:
            raise Refusal("device", BAD_HANDLE)
        return order

    def check_part(self, ticket, direction, at, length):
        order = self.order_at_hand(ticket)
        if order.direction != direction or at + length > order.length:
            raise Refusal("device", BAD_ORDER)
        return order

    def fill(self, ticket, at, length):
        """The bytes at `at` of an inward order; nothing is altered."""
        order = self.check_part(ticket, INWARD, at, length)
        return self.bytes_of(order, at, length)

    def drain(self, ticket, at, part):
        """Take the bytes at `at` of an outward order."""
        order = self.check_part(ticket, OUTWARD, at, len(part))
        self.take_bytes(order, at, part)

    def done(self, ticket):
        """The order leaves; its status is the answer."""
        order = self.order_at_hand(ticket)
        self.orders.remove(order)
        return self.finish(order)


class Disk(Device):
    """1 to 128 sectors.  Four orders in hand at most, each of them ready as
    soon as it is accepted; the status is always 0."""

    def __init__(self, sectors):
        super().__init__(4)
        self.contents = bytearray(SECTOR * sectors)

    def fits(self, direction, place, length):
        # The length is one sector or more, whole sectors, and all of them are
        # on the disk.
        if length <= 0 or length % SECTOR != 0:
            return False
        return place * SECTOR + length <= len(self.contents)

    def is_ready(self, order):
        return True

    def bytes_of(self, order, at, length):
        start = order.place * SECTOR + at
        return bytes(self.contents[start:start + length])

    def take_bytes(self, order, at, part):
        start = order.place * SECTOR + at
        self.contents[start:start + len(part)] = part

    def finish(self, order):
        return 0


class Wire(Device):
    """A wire that joins all that is sent to all that is received.  Sixteen
    orders in hand at most, and at most eight packets waiting."""

    PACKETS = 8
    LONGEST = 1514

    def __init__(self):
        super().__init__(16)
        self.packets = []                       # the oldest first
        self.holding = bytearray(self.LONGEST)  # bytes drained so far

    def fits(self, direction, place, length):
        if place != 0:
            return False
        if direction == OUTWARD:
            return 1 <= length <= self.LONGEST
        return length == FRAME

    def is_ready(self, order):
        # Sending needs room for a packet, receiving needs a packet.
        if order.direction == OUTWARD:
            return len(self.packets) < self.PACKETS
        return len(self.packets) >= 1

    def bytes_of(self, order, at, length):
        # The oldest packet, and zeros after its end.
        whole = self.packets[0] + bytes(FRAME - len(self.packets[0]))
        return whole[at:at + length]

    def take_bytes(self, order, at, part):
        self.holding[at:at + len(part)] = part

    def finish(self, order):
        if order.direction == OUTWARD:
            # The order's length of the holding area becomes a packet, and the
            # holding area is zero again.
            self.packets.append(bytes(self.holding[:order.length]))
            self.holding = bytearray(self.LONGEST)
            return 0
        # The packet that was received leaves; the status is its length.
        return len(self.packets.pop(0))


# ---------------------------------------------------------------------------
# The host's tables
# ---------------------------------------------------------------------------

class Entry:
    """What a guest writes: flags and domid of 16 bits, frame of 32."""

    def __init__(self):
        self.flags = 0
        self.domid = 0
        self.frame = 0


class Record:
    """What the host keeps beside each entry, and no guest can write."""

    def __init__(self):
        self.readers = 0
        self.writers = 0
        self.frame = 0
        self.mapper = 0

    def pins(self):
        return self.readers + self.writers


class Mapping:
    """What a handle in use keeps.  Mode 0 reads, 1 writes."""

    def __init__(self, owner, reference, frame, mode):
        self.owner = owner
        self.reference = reference
        self.frame = frame
        self.mode = mode


class Kind:
    """One kind of ring: its bay, its slots and how long each slot is."""

    def __init__(self, name, bay, slots, slot_size):
        self.name = name
        self.bay = bay
        self.slots = slots
        self.slot_size = slot_size


KINDS = [
    Kind("block", 0, 32, 112),
    Kind("send", 1, 256, 12),
    Kind("receive", 1, 256, 8),
]

# A ring page begins with four numbers of 32 bits, at these bytes.
REQ_PROD, REQ_EVENT, RSP_PROD, RSP_EVENT = 0, 4, 8, 12
SLOTS_START = 64


class Connection:
    """A live connection.  `req_cons` and `rsp_prod` are the host's own."""

    def __init__(self, guest, kind, handle):
        self.guest = guest
        self.kind = kind
        self.handle = handle          # domain 0's mapping of the ring page
        self.req_cons = 0
        self.rsp_prod = 0
        self.jobs = []
        self.guest_pending = False    # the guest's port is marked
        self.back_pending = False     # domain 0's port is marked


class Segment:
    """A part of one frame that a request asks to be moved."""

    def __init__(self, reference, start, length):
        self.reference = reference
        self.start = start            # first byte within the frame
        self.length = length
        self.handle = None            # domain 0's, once it is mapped


class Job:
    """A request handed to a device and not answered yet."""

    def __init__(self, ticket, ident, operation, direction, segments):
        self.ticket = ticket
        self.ident = ident
        self.operation = operation
        self.direction = direction
        self.segments = segments


class Answered(Exception):
    """A request gets its status at once instead of becoming a job: the status
    for the guest, and layer, detail and place for the one who called serve."""

    def __init__(self, status, layer, detail, place):
        super().__init__(status)
        self.status = status
        self.layer = layer
        self.detail = detail
        self.place = place


class Host:
    """The host with its memory, a disk in bay 0 and the wire in bay 1.

    A method answers (answer, layer, detail, place) or raises Refusal; load
    answers the bytes too."""

    def __init__(self, frames, disk):
        # From 1 to 256 frames.
        if not 1 <= frames <= 256:
            raise Refusal("host", BAD_SIZE)
        self.frames = frames
        self.memory = bytearray(FRAME * frames)
        self.owners = [None] * frames
        self.entries = [[Entry() for _ in range(ENTRIES)] for _ in range(DOMAINS)]
        self.records = [[Record() for _ in range(ENTRIES)] for _ in range(DOMAINS)]
        self.handles = [[None] * HANDLES for _ in range(DOMAINS)]
        self.connections = [None] * CONNECTIONS
        self.bays = [disk, Wire()]

    # -- small helpers ------------------------------------------------------

    @staticmethod
    def fine(answer):
        return (answer, "none", 0, 0)

    @staticmethod
    def guest_only(caller):
        """A guest's call is for domains 1 to 7."""
        if not 1 <= caller <= 7:
            raise Refusal("host", BAD_DOMAIN)

    def owner_of(self, frame):
        """The owner of a frame, or None if it is free or there is none such."""
        return self.owners[frame] if frame < self.frames else None

    def pins_on(self, frame):
        """The readers and writers of all records pinned on this frame."""
        return sum(record.pins()
                   for table in self.records
                   for record in table
                   if record.pins() > 0 and record.frame == frame)

    def modes_of(self, caller, frame):
        """The modes of all mappings that the caller has of this frame."""
        return [m.mode for m in self.handles[caller]
                if m is not None and m.frame == frame]

    # -- frames -------------------------------------------------------------

    def take(self, caller, frame):
        self.guest_only(caller)
        if frame >= self.frames:
            raise Refusal("frame", BAD_FRAME)
        if self.owners[frame] is not None:
            raise Refusal("frame", BUSY)
        self.owners[frame] = caller
        self.memory[FRAME * frame:FRAME * (frame + 1)] = bytes(FRAME)
        return self.fine(0)

    def give(self, caller, frame):
        self.guest_only(caller)
        if self.owner_of(frame) != caller:
            raise Refusal("frame", BAD_FRAME)
        # The pins decide, never the bits of an entry's flags: those a guest
        # can write itself.
        if self.pins_on(frame) > 0:
            raise Refusal("frame", BUSY)
        self.owners[frame] = None
        return self.fine(0)

    def reach(self, caller, frame, offset, length, writing):
        """What load and store check before they touch a byte."""
        self.guest_only(caller)
        if frame >= self.frames:
            raise Refusal("frame", BAD_FRAME)
        if offset + length > FRAME:
            raise Refusal("frame", BAD_SIZE)
        if self.owners[frame] != caller:
            modes = self.modes_of(caller, frame)
            if not modes:
                raise Refusal("frame", DENIED)
            if writing and 1 not in modes:
                raise Refusal("frame", DENIED)
        return FRAME * frame + offset

    def load(self, caller, frame, offset, length):
        start = self.reach(caller, frame, offset, length, False)
        return self.fine(length), bytes(self.memory[start:start + length])

    def store(self, caller, frame, offset, data):
        start = self.reach(caller, frame, offset, len(data), True)
        self.memory[start:start + len(data)] = data
        return self.fine(len(data))

    # -- entries and mappings -----------------------------------------------

    def entry(self, caller, reference, flags, domid, frame):
        self.guest_only(caller)
        if reference >= ENTRIES:
            raise Refusal("grant", BAD_REFERENCE)
        # Written whether the record beside it is pinned or not.
        entry = self.entries[caller][reference]
        entry.flags = flags
        entry.domid = domid
        entry.frame = frame
        return self.fine(0)

    def end(self, caller, reference):
        self.guest_only(caller)
        if reference >= ENTRIES:
            raise Refusal("grant", BAD_REFERENCE)
        entry = self.entries[caller][reference]
        if entry.flags & (READING | WRITING):
            raise Refusal("grant", BUSY)
        entry.flags = 0
        return self.fine(0)

    def map_for(self, caller, owner, reference, mode):
        """Map for any domain, domain 0 too.  Gives the handle."""
        if mode > 1:
            raise Refusal("grant", INVALID)
        if owner > 7 or owner == caller:
            raise Refusal("grant", BAD_DOMAIN)
        free = [h for h in range(HANDLES) if self.handles[caller][h] is None]
        if not free:
            raise Refusal("grant", NO_HANDLE)
        if reference >= ENTRIES:
            raise Refusal("grant", BAD_REFERENCE)
        entry = self.entries[owner][reference]
        record = self.records[owner][reference]
        if entry.flags & TYPE_MASK != PERMIT or entry.domid != caller:
            raise Refusal("grant", GENERAL)
        if self.owner_of(entry.frame) != owner:
            raise Refusal("grant", BAD_FRAME)
        if mode == 1 and entry.flags & READ_ONLY:
            raise Refusal("grant", DENIED)
        # While it is pinned, the record is for one mapper and one frame.
        if record.pins() > 0 and (record.mapper != caller
                                  or record.frame != entry.frame):
            raise Refusal("grant", GENERAL)
        record.frame = entry.frame
        record.mapper = caller
        if mode == 1:
            record.writers += 1
            entry.flags |= READING | WRITING
        else:
            record.readers += 1
            entry.flags |= READING
        self.handles[caller][free[0]] = Mapping(owner, reference, entry.frame, mode)
        return free[0]

    def unmap_for(self, caller, handle):
        """Unmap for any domain, domain 0 too."""
        if handle >= HANDLES or self.handles[caller][handle] is None:
            raise Refusal("grant", BAD_HANDLE)
        mapping = self.handles[caller][handle]
        entry = self.entries[mapping.owner][mapping.reference]
        record = self.records[mapping.owner][mapping.reference]
        if mapping.mode == 1:
            record.writers -= 1
        else:
            record.readers -= 1
        if record.writers == 0:
            entry.flags &= ~WRITING
        if record.pins() == 0:
            entry.flags &= ~READING
        self.handles[caller][handle] = None

    def map(self, caller, owner, reference, mode):
        self.guest_only(caller)
        return self.fine(self.map_for(caller, owner, reference, mode))

    def unmap(self, caller, handle):
        self.guest_only(caller)
        self.unmap_for(caller, handle)
        return self.fine(0)

    # -- ports --------------------------------------------------------------

    def send(self, caller, port):
        self.guest_only(caller)
        # Connection c has port c + 1 at either end.
        connection = self.live(port - 1)
        if connection is None or connection.guest != caller:
            raise Refusal("event", INVALID)
        connection.back_pending = True
        return self.fine(0)

    def next(self, caller):
        # Domain 0 may ask too.
        if caller > 7:
            raise Refusal("host", BAD_DOMAIN)
        for c in range(CONNECTIONS):
            connection = self.connections[c]
            if connection is None:
                continue
            if caller == 0 and connection.back_pending:
                connection.back_pending = False
                return self.fine(c + 1)
            if caller == connection.guest and connection.guest_pending:
                connection.guest_pending = False
                return self.fine(c + 1)
        return self.fine(0)

    # -- rings and connections ----------------------------------------------

    def live(self, c):
        """The connection of this number if it is live, else None."""
        if 0 <= c < CONNECTIONS:
            return self.connections[c]
        return None

    def page_of(self, connection):
        """The byte of memory where the connection's ring page starts."""
        return FRAME * self.handles[0][connection.handle].frame

    def slot_of(self, connection, index):
        """The byte of memory where the slot of a ring index starts."""
        kind = connection.kind
        return (self.page_of(connection) + SLOTS_START
                + kind.slot_size * (index % kind.slots))

    def connect(self, caller, kind, reference):
        self.guest_only(caller)
        if kind > 2:
            raise Refusal("ring", INVALID)
        free = [c for c in range(CONNECTIONS) if self.connections[c] is None]
        if not free:
            raise Refusal("ring", NO_ROOM)
        # Domain 0 maps the page for writing; a refusal of that is passed up.
        handle = self.map_for(0, caller, reference, 1)
        connection = Connection(caller, KINDS[kind], handle)
        self.connections[free[0]] = connection
        page = self.page_of(connection)
        self.memory[page:page + SLOTS_START] = bytes(SLOTS_START)
        put_number(self.memory, page + REQ_PROD, 4, 0)
        put_number(self.memory, page + REQ_EVENT, 4, 1)
        put_number(self.memory, page + RSP_PROD, 4, 0)
        put_number(self.memory, page + RSP_EVENT, 4, 1)
        return self.fine(free[0])

    def respond(self, connection, ident, operation, status):
        """Write one response, let the page know, and mark the guest's port if
        the guest waits for just this response."""
        at = self.slot_of(connection, connection.rsp_prod)
        page = self.page_of(connection)
        # Bytes of a response that no field covers are written as 0; bytes of
        # the slot behind the response stay as they are.
        if connection.kind.name == "block":
            response = bytearray(16)
            put_number(response, 0, 8, ident)
            put_number(response, 8, 1, operation)
            put_number(response, 10, 2, status)
        elif connection.kind.name == "send":
            response = bytearray(4)
            put_number(response, 0, 2, ident)
            put_number(response, 2, 2, status)
        else:
            response = bytearray(8)
            put_number(response, 0, 2, ident)
            put_number(response, 2, 2, 0)       # offset
            put_number(response, 4, 2, 0)       # flags
            put_number(response, 6, 2, status)
        self.memory[at:at + len(response)] = response
        connection.rsp_prod = (connection.rsp_prod + 1) % WORD
        put_number(self.memory, page + RSP_PROD, 4, connection.rsp_prod)
        if connection.rsp_prod == number_at(self.memory, page + RSP_EVENT, 4):
            connection.guest_pending = True

    def serve(self, c):
        connection = self.live(c)
        if connection is None:
            raise Refusal("ring", INVALID)
        kind = connection.kind
        device = self.bays[kind.bay]
        page = self.page_of(connection)

        # The guest may be ahead by as many requests as there are slots that
        # hold no unanswered one.
        ahead = (number_at(self.memory, page + REQ_PROD, 4)
                 - connection.req_cons) % WORD
        unanswered = (connection.req_cons - connection.rsp_prod) % WORD
        if ahead > kind.slots - unanswered:
            raise Refusal("ring", BAD_INDEX)
        if ahead == 0:
            # Nothing to do: ask to be told of the next request.
            put_number(self.memory, page + REQ_EVENT, 4, connection.req_cons + 1)
            return self.fine(0)
        if device.full() or len(connection.jobs) == JOBS:
            raise Refusal("ring", BUSY)

        # The slot is copied once; all that follows looks at the copy.
        at = self.slot_of(connection, connection.req_cons)
        slot = bytes(self.memory[at:at + kind.slot_size])
        connection.req_cons = (connection.req_cons + 1) % WORD

        operation = 0
        if kind.name == "block":
            operation = number_at(slot, 0, 1)
            ident = number_at(slot, 8, 8)
        elif kind.name == "send":
            ident = number_at(slot, 8, 2)
        else:
            ident = number_at(slot, 0, 2)

        try:
            direction, place, segments = self.check_request(kind, slot)
            length = sum(segment.length for segment in segments)
            if not device.fits(direction, place, length):
                raise Answered(-1, "ring", -1, 0)
            ticket = 2 * c
            if any(job.ticket == ticket for job in connection.jobs):
                ticket += 1
            self.hand_over(connection, device, ticket,
                           direction, place, length, segments)
        except Answered as now:
            self.respond(connection, ident, operation, now.status)
            return (2, now.layer, now.detail, now.place)

        connection.jobs.append(Job(ticket, ident, operation, direction, segments))
        return self.fine(1)

    @staticmethod
    def check_request(kind, slot):
        """The checks of one kind of request.  Gives direction, place and
        segments."""
        if kind.name == "block":
            operation = number_at(slot, 0, 1)
            count = number_at(slot, 1, 1)
            sector = number_at(slot, 16, 8)
            if operation > 1:
                raise Answered(-2, "ring", -2, 0)
            if not 1 <= count <= 11:
                raise Answered(-1, "ring", -1, 0)
            segments = []
            for i in range(count):
                at = 24 + 8 * i
                reference = number_at(slot, at, 4)
                first = number_at(slot, at + 4, 1)
                last = number_at(slot, at + 5, 1)
                if first > last or last > 7:
                    raise Answered(-1, "ring", -1, i)
                segments.append(Segment(reference, SECTOR * first,
                                        SECTOR * (last - first + 1)))
            # Operation 0 reads the disk, so its bytes come inward.
            direction = INWARD if operation == 0 else OUTWARD
            return direction, sector, segments
        if kind.name == "send":
            reference = number_at(slot, 0, 4)
            offset = number_at(slot, 4, 2)
            flags = number_at(slot, 6, 2)
            size = number_at(slot, 10, 2)
            if flags != 0 or offset + size > FRAME:
                raise Answered(-1, "ring", -1, 0)
            return OUTWARD, 0, [Segment(reference, offset, size)]
        # A packet is received into a whole frame.
        return INWARD, 0, [Segment(number_at(slot, 4, 4), 0, FRAME)]

    def hand_over(self, connection, device, ticket,
                  direction, place, length, segments):
        """Map the segments in turn and let the device accept the order.  If
        one of these is refused, what was mapped is unmapped, last first."""
        mode = 1 if direction == INWARD else 0
        mapped = []
        try:
            where = 0
            for where, segment in enumerate(segments):
                segment.handle = self.map_for(0, connection.guest,
                                              segment.reference, mode)
                mapped.append(segment)
            where = 0
            device.accept(ticket, direction, place, length)
        except Refusal as refusal:
            for segment in reversed(mapped):
                self.unmap_for(0, segment.handle)
            # The guest learns -1; the caller learns who refused and why.
            raise Answered(-1, refusal.layer, refusal.number, where)

    def complete(self, bay):
        if bay > 1:
            raise Refusal("ring", INVALID)
        device = self.bays[bay]
        ticket = device.ready()
        if ticket is None:
            return self.fine(0)
        found = None
        for connection in self.connections:
            if connection is None or connection.kind.bay != bay:
                continue
            for job in connection.jobs:
                if job.ticket == ticket:
                    found = (connection, job)
        if found is None:
            raise Refusal("ring", BAD_HANDLE)
        connection, job = found

        # Move the bytes, segment after segment.  The frame is the one that
        # was mapped, whatever the guest has written into its entry since.
        at = 0
        for segment in job.segments:
            frame = self.handles[0][segment.handle].frame
            start = FRAME * frame + segment.start
            if job.direction == INWARD:
                part = device.fill(ticket, at, segment.length)
                self.memory[start:start + segment.length] = part
            else:
                device.drain(ticket, at,
                             bytes(self.memory[start:start + segment.length]))
            at += segment.length
        status = device.done(ticket)
        for segment in reversed(job.segments):
            self.unmap_for(0, segment.handle)
        connection.jobs.remove(job)
        self.respond(connection, job.ident, job.operation, status)
        return self.fine(1)

    def disconnect(self, c):
        connection = self.live(c)
        if connection is None:
            raise Refusal("ring", INVALID)
        if connection.jobs:
            raise Refusal("ring", BUSY)
        self.unmap_for(0, connection.handle)
        # Both pending marks go with the connection.
        self.connections[c] = None
        return self.fine(0)


# ---------------------------------------------------------------------------
# The script
# ---------------------------------------------------------------------------

class BadLine(Exception):
    """A line that is no call; it ends the run."""


# The arguments of each call: the bits of each number, or "bytes", which may
# be absent when there are none.
CALLS = {
    "take": (32, 32),
    "give": (32, 32),
    "load": (32, 32, 32, 32),
    "store": (32, 32, 32, "bytes"),
    "entry": (32, 32, 16, 16, 32),
    "end": (32, 32),
    "map": (32, 32, 32, 32),
    "unmap": (32, 32),
    "send": (32, 32),
    "next": (32,),
    "connect": (32, 32, 32),
    "serve": (32,),
    "complete": (32,),
    "disconnect": (32,),
}
SETUP = {"disk": (32,), "start": (32,)}


def read_argument(word, form):
    if form == "bytes":
        if len(word) % 2 != 0 or not re.fullmatch("[0-9a-fA-F]*", word):
            raise BadLine("these are no bytes: " + word)
        return bytes.fromhex(word)
    if not re.fullmatch("[0-9]+", word):
        raise BadLine("this is no number: " + word)
    digits = word.lstrip("0") or "0"
    if len(digits) > 10 or int(digits) >= 1 << form:
        raise BadLine("this number is too large: " + word)
    return int(digits)


def read_line(words):
    """The name and the arguments of one line."""
    name = words[0]
    forms = CALLS.get(name) or SETUP.get(name)
    if forms is None:
        raise BadLine("there is no call of this name: " + name)
    given = words[1:]
    if forms[-1] == "bytes" and len(given) == len(forms) - 1:
        given = given + [""]
    if len(given) != len(forms):
        raise BadLine("wrong number of words for " + name)
    return name, [read_argument(w, f) for w, f in zip(given, forms)]


class Script:
    """The host of one script, which its lines set up and then call."""

    def __init__(self):
        self.sectors = 128       # where no line says otherwise
        self.host = None

    def make(self, name, arguments):
        """One call.  Gives the four parts of its answer and a load's bytes."""
        try:
            if name == "disk":
                if self.host is not None:
                    raise BadLine("disk comes before start")
                if not 1 <= arguments[0] <= 128:
                    raise Refusal("device", BAD_SIZE)
                self.sectors = arguments[0]
                return Host.fine(0), None
            if name == "start":
                if self.host is not None:
                    raise BadLine("the host was started before")
                self.host = Host(arguments[0], Disk(self.sectors))
                return Host.fine(0), None
            if self.host is None:
                raise BadLine("no host was started")
            result = getattr(self.host, name)(*arguments)
            if name == "load":
                return result
            return result, None
        except Refusal as refusal:
            return (refusal.number, refusal.layer, refusal.number, 0), None


def main():
    if len(sys.argv) > 1:
        print(__doc__)
        return 0 if sys.argv[1] == "--help" else 1
    sys.stdin.reconfigure(errors="replace")
    script = Script()
    for count, line in enumerate(sys.stdin, 1):
        # A comment begins anywhere in a line; words are parted by blanks.
        words = line.split("#", 1)[0].split()
        if not words:
            continue
        try:
            name, arguments = read_line(words)
            answer, data = script.make(name, arguments)
        except BadLine as bad:
            print("line %d: %s" % (count, bad), file=sys.stderr)
            return 1
        text = " ".join(words) + " -> %d %s %d %d" % answer
        if data:
            text += " " + data.hex()
        print(text, flush=True)
    return 0


if __name__ == "__main__":
    sys.exit(main())
