"""A capture of a TCP connection, as programs that read captures have it: Ethernet, IPv4 and TCP, of what each end said."""
import struct

# (of the two ends: their addresses, and the port of the one that calls)
ADDRESSES, CALLER = (bytes([192, 0, 2, 7]), bytes([192, 0, 2, 1])), 40001


def segment(number, is_called, port, said, heard, message):
    """One packet: that end's segment, behind as many bytes that it said and heard before, at this number of milliseconds."""
    ports = (port, CALLER) if is_called else (CALLER, port)
    tcp = struct.pack("!HHIIBBHHH", *ports, 1 + said, 1 + heard, 5 << 4, 0x18, 8192, 0, 0) + message
    own, other = ADDRESSES[::-1] if is_called else ADDRESSES
    ip = struct.pack("!BBHHHBBH", 0x45, 0, 20 + len(tcp), number, 0, 64, 6, 0) + own + other + tcp
    frame = bytes(12) + b"\x08\x00" + ip
    return struct.pack("<IIII", number // 1000, number % 1000 * 1000, len(frame), len(frame)) + frame


def capture(path, messages, port=3780):
    """Writes the capture of a connection to this port: of each message whether the end said it that is called, and its bytes."""
    said = [0, 0]
    with open(path, "wb") as file:
        file.write(struct.pack("<IHHiIII", 0xA1B2C3D4, 2, 4, 0, 0, 65535, 1))
        for number, (is_called, message) in enumerate(messages):
            file.write(segment(number, is_called, port, said[is_called], said[not is_called], message))
            said[is_called] += len(message)
