"""A line adapter, a 2703, that keeps to what commadpt.c of Hercules 3.13 does: each rule below has the place where it stands there, and `RULES` has a
row for it, which is tried by this 2703 (test_line_adapter) and by the living one (test_hercules)."""
import socket
import typing

from tests.lib.ports import PATIENCE

ENQ, ACK0, ACK1, WACK, RVI, NAK, EOT, TTD, OTHER_EOT = (
    bytes.fromhex(form) for form in ("2D", "1070", "1061", "106B", "107C", "3D", "37", "022D", "1037")
)
SOH, STX, ETX, DLE, ITB, ETB, SYN = 0x01, 0x02, 0x03, 0x10, 0x1F, 0x26, 0x32
RING = 4096


def as_read(form):
    """What a READ gives of this adapter's form: of transparent text each DLE of the data once."""
    return form[:2] + form[2:-2].replace(b"\x10\x10", b"\x10") + form[-2:] if form.startswith(b"\x10\x02") else form


class End(typing.NamedTuple):
    """How a command ended: a READ with bytes (`read`, or `eot` with Unit Exception), with none (`cleared`) or by the time-out (`quiet`); a WRITE
    (`wrote`), or one that wrote nothing (`waited`, with Unit Exception); one that isn't taken now (`rejected`); or one that met a line without
    connection (`lost`)."""

    what: str
    data: bytes = b""


class Ring:
    """The ring of bytes that came (commadpt_ring_push, commadpt_ring_pop): more than 4,096 overwrite the first ones, and then just those are left
    that stand up to where the next would go."""

    def __init__(self):
        self.bytes, self.high, self.low, self.has_data = bytearray(RING), 0, 0, False

    def push(self, data):
        for byte in data:
            self.bytes[self.high] = byte
            self.high, self.has_data = (self.high + 1) % RING, True

    def pop(self):
        byte = self.bytes[self.low]
        self.low = (self.low + 1) % RING
        self.has_data = self.low != self.high
        return byte

    def flush(self):
        self.high, self.low, self.has_data = 0, 0, False


class Adapter:
    """A line of a 2703 over a connection."""

    def __init__(self, connection, timeout=3.0):
        self.connection, self.timeout, self.ring, self.work = connection, timeout, Ring(), bytearray()
        self.is_behind_dle = self.is_text = self.is_transparent = self.is_complete = False
        self.has_lost_data = self.is_writing_transparent = False
        # What came and went, as it stood on the connection.
        self.came, self.went = bytearray(), bytearray()
        connection.setsockopt(socket.IPPROTO_TCP, socket.TCP_NODELAY, 1)

    def read(self):
        """A READ (case 0x02 of commadpt_execute_ccw)."""
        # In the middle of transparent text that is written nothing but a WRITE is taken.
        if self.is_writing_transparent:
            return End("rejected")
        # After data that waited a READ takes the condition back, drops what waits, and ends with nothing.
        if self.has_lost_data:
            self.has_lost_data = False
            self.ring.flush()
            return End("cleared")
        self.is_complete, is_eot = False, False
        # It goes on with what an earlier READ left, which the time-out ended: that is still there, and so is its mode.
        while not self.is_complete:
            if not self.ring.has_data and (end := self.wait()):
                return end
            while self.ring.has_data and not self.is_complete:
                is_eot |= self.take(self.ring.pop())
        data, self.work = bytes(self.work), bytearray()
        return End("eot" if is_eot else "read", data)

    def wait(self):
        """Takes what comes within the time-out, which begins anew with each piece (commadpt_thread, commadpt_read); the end of a READ that
        nothing comes to, or whose connection is over."""
        self.connection.settimeout(self.timeout)
        try:
            piece = self.connection.recv(65536)
        except socket.timeout:
            return End("quiet")
        except OSError:
            piece = b""
        self.came += piece
        self.ring.push(piece)
        return None if piece else End("lost")

    def take(self, byte):
        """What a READ makes of a byte; whether it is an EOT."""
        if not self.is_behind_dle and byte == DLE:
            self.is_behind_dle = True
            return False
        is_behind_dle, self.is_behind_dle = self.is_behind_dle, False
        if self.is_text and self.is_transparent:
            self.take_transparent(byte, is_behind_dle)
        # A SYN is dropped outside transparent text, and a DLE in front of it too.
        elif byte == SYN:
            pass
        elif self.is_text:
            self.take_text(byte, is_behind_dle)
        else:
            return self.take_control(byte, is_behind_dle)
        return False

    def take_transparent(self, byte, is_behind_dle):
        if not is_behind_dle:
            self.work.append(byte)
        # Of two DLE one is data, and DLE SYN is dropped.
        elif byte == DLE:
            self.work.append(byte)
        elif byte != SYN:
            self.work += bytes([DLE, byte])
            # DLE ETB and DLE ETX end the READ, but the text goes on as normal text: an EOT that follows is data. DLE ENQ ends both.
            self.is_transparent &= byte not in (ITB, ETB, ETX, ENQ[0])
            self.is_text &= byte != ENQ[0]
            self.is_complete = byte in (ETB, ETX, ENQ[0])

    def take_text(self, byte, is_behind_dle):
        if is_behind_dle:
            self.work += bytes([DLE, byte])
            self.is_transparent = byte == STX
            self.is_complete = byte == ENQ[0] or is_acknowledgement(byte)
        else:
            # ENQ, ETB and ETX end the READ and the text; NAK the READ alone. No check is expected.
            self.work.append(byte)
            self.is_complete = byte in (ENQ[0], NAK[0], ETB, ETX)
            self.is_text = byte not in (ENQ[0], ETB, ETX)

    def take_control(self, byte, is_behind_dle):
        if is_behind_dle:
            # An acknowledgement ends the READ, DLE STX begins transparent text; DLE EOT and all other pairs are dropped.
            if is_acknowledgement(byte) or byte == STX:
                self.work += bytes([DLE, byte])
            self.is_complete = is_acknowledgement(byte)
            self.is_text = self.is_transparent = byte == STX
            return False
        # EOT, ENQ and NAK end the READ, STX and SOH begin text; a pad is data as anything else is.
        self.work.append(byte)
        self.is_complete = byte in (EOT[0], ENQ[0], NAK[0])
        self.is_text = byte in (SOH, STX)
        return byte == EOT[0]

    def write(self, data):
        """A WRITE (case 0x01): its bytes go out as they are, one at a time."""
        if self.has_waiting():
            # Where bytes wait, nothing is written.
            self.has_lost_data = True
            return End("waited", data)
        is_transparent = is_behind_dle = False
        sent = bytearray()
        for byte in data:
            # Behind DLE STX a DLE is doubled, up to the end of this WRITE: so the closing DLE needs one of its own.
            if is_transparent and byte == DLE:
                sent.append(DLE)
            elif not is_transparent:
                is_transparent = is_behind_dle and byte == STX
                is_behind_dle |= byte == DLE
            sent.append(byte)
        self.is_writing_transparent = is_transparent
        try:
            for byte in sent:
                self.connection.sendall(bytes([byte]))
        except OSError:
            return End("lost")
        self.went += sent
        return End("wrote", data)

    def has_waiting(self):
        """Looks for one byte that has come, and keeps it in the ring."""
        self.connection.settimeout(0)
        try:
            byte = self.connection.recv(1)
        except OSError:
            byte = b""
        finally:
            self.connection.settimeout(PATIENCE)
        self.came += byte
        self.ring.push(byte)
        return self.ring.has_data


def is_acknowledgement(byte):
    return byte & 0xF0 in (0x60, 0x70)


def row(*steps):
    return [(what, bytes.fromhex(data)) for what, data in zip(steps[::2], steps[1::2])]


# Each rule: what comes; how the READs and WRITEs end that the host does then, and with which bytes; and what goes out of a WRITE.
RULES = [
    ("fill is dropped in front of a bid", row("comes", "32 32 2D", "read", "2D")),
    ("pads in front of a bid are data", row("comes", "FF 55 2D", "read", "FF 55 2D")),
    ("EOT ends a READ with Unit Exception", row("comes", "37", "eot", "37")),
    ("acknowledgements and NAK end a READ", row(
        "comes", "10 70", "read", "10 70", "comes", "10 61", "read", "10 61", "comes", "10 6B", "read", "10 6B", "comes", "10 7C", "read", "10 7C",
        "comes", "3D", "read", "3D",
    )),
    ("DLE EOT and other pairs are dropped", row("comes", "10 37 10 C1", "quiet", "", "comes", "2D", "read", "2D")),
    ("what follows an ending byte waits for the next READ", row("comes", "2D 02 C1 03", "read", "2D", "read", "02 C1 03")),
    ("fill is dropped in text", row("comes", "32 02 C1 32 C2 32 03", "read", "02 C1 C2 03")),
    ("ETB ends a READ", row("comes", "02 C1 26", "read", "02 C1 26")),
    ("ENQ ends a text", row("comes", "02 2D", "read", "02 2D", "comes", "02 C1 2D", "read", "02 C1 2D", "comes", "37", "eot", "37")),
    ("EOT in text is data", row("comes", "02 C1 37 C2 03", "read", "02 C1 37 C2 03")),
    ("NAK in text ends the READ, and the text goes on", row("comes", "02 C1 3D", "read", "02 C1 3D", "comes", "37 03", "read", "37 03")),
    ("a text that the time-out cut goes on", row("comes", "02 C1", "quiet", "", "comes", "C2 03", "read", "02 C1 C2 03")),
    ("no check is expected", row("comes", "02 C1 03 37", "read", "02 C1 03", "eot", "37")),
    ("of transparent text DLE SYN is dropped, of two DLE one stays, and SYN is data", row(
        "comes", "10 02 10 32 C1 10 10 32 10 C2 10 03", "read", "10 02 C1 10 32 10 C2 10 03",
    )),
    ("EOT behind transparent text isn't heard", row("comes", "10 02 C1 10 03", "read", "10 02 C1 10 03", "comes", "37", "quiet", "", "comes", "2D",
        "read", "37 2D", "comes", "37", "eot", "37")),
    ("a normal block behind transparent text cures that", row(
        "comes", "10 02 C1 10 26", "read", "10 02 C1 10 26", "comes", "02 C2 03", "read", "02 C2 03", "comes", "37", "eot", "37",
    )),
    ("an acknowledgement behind transparent text ends a READ", row("comes", "10 02 C1 10 03", "read", "10 02 C1 10 03", "comes", "10 61", "read",
        "10 61")),
    ("DLE ENQ ends transparent text", row("comes", "10 02 C1 10 2D", "read", "10 02 C1 10 2D", "comes", "37", "eot", "37")),
    ("where a pad waits, nothing is written", row(
        "comes", "2D FF", "read", "2D", "waited", "10 70", "cleared", "", "wrote", "10 70", "goes", "10 70",
    )),
    ("where a check waits, nothing is written", row(
        "comes", "02 C1 03 18 5D", "read", "02 C1 03", "waited", "10 61", "cleared", "", "wrote", "10 61", "goes", "10 61",
    )),
    ("a WRITE goes out as it is", row("wrote", "FF 32 32 02 C1 03 18 5D FF", "goes", "FF 32 32 02 C1 03 18 5D FF")),
    ("a WRITE doubles each DLE behind DLE STX, and no READ is taken until the next", row(
        "wrote", "10 02 10 C1 10", "goes", "10 02 10 10 C1 10 10", "rejected", "", "wrote", "10 03", "goes", "10 03", "comes", "10 61",
        "read", "10 61",
    )),
    ("more than the ring holds overwrites what came first", row("comes", "02" + "C1" * 4100 + "03", "quiet", "", "comes", "2D", "read",
        "C1" * 5 + "03 2D")),
]


def heard_of(connection, count):
    """So many bytes, or fewer where no more come."""
    heard = b""
    while len(heard) < count and (piece := connection.recv(count - len(heard))):
        heard += piece
    return heard


def writes_of(form):
    """The WRITEs of a form: of transparent text two, since behind a DLE STX a WRITE doubles each DLE."""
    data = as_read(form)
    return [data[:-2], data[-2:]] if data.startswith(b"\x10\x02") else [data]
