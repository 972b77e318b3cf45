"""console.py LIBRARY ADAPTER: a console of a few requests, sent one at a time through the two calls of include/ascheknopf.h; prints
the replies in words, and last what they came to. It opens the adapter at Restricted, then again at Full, and asks the same of both.
console.c does the same in C. LIBRARY is the archive as a shared object, which `build` makes."""

import ctypes
import struct
import sys

STATE_SIZE, STAGE_SIZE, TOTALS_SIZE = 6190, 16384, 40
NO_CODE = 0xFFFFFFFF
LEVEL, PHY_COUNT, ROW_COUNT = 0, 1, 2
HEADER, CODE, SECTOR, DISK = 28, 20, 512, 8192

NUMBERS = {
    0: "accepted",
    100: "a buffer under 28 bytes",
    101: "a wrong level text",
    102: "a wrong file length",
    103: "a wrong block check",
    104: "a wrong count or field",
    105: "two rows that share an address",
    106: "a wrong medium or stage length",
    107: "no sound state",
}
CODES = {
    0: "success",
    2: "bad control code",
    3: "invalid parameter",
    4: "denied at this level",
    2002: "phy does not exist",
    2008: "connection failed",
}
RATES = {1: "disabled", 2: "failed", 3: "spin-up hold", 8: "1.5 Gb/s", 9: "3.0 Gb/s"}
STATUSES = {1: "good", 2: "failed", 3: "offline", 4: "powered off"}
LOCATIONS = {2: "internal", 4: "external", 8: "switchable", 0x10: "auto"}


def word(data, at):
    return int.from_bytes(data[at : at + 4], "little")


def half(data, at):
    return int.from_bytes(data[at : at + 2], "little")


def text_at(data, at, most):
    """The bytes up to the first zero."""
    return bytes(data[at : at + most]).split(b"\0")[0].decode("ascii")


def phy_at(n):
    """Where phy n stands in the state; its PHY_ENTITY is first."""
    return 177 + 105 * n


def device(attached):
    """In words, by the Attached bytes of a PHY_ENTITY."""
    if attached[0] != 0x10:
        return "expander"
    return "SATA disk" if attached[3] & 1 else "SAS device"


def revision(data, at):
    """Four numbers of 16 bits."""
    return ".".join(str(half(data, at + 2 * i)) for i in range(4))


def pinout(bits):
    """A bit for a connector of one lane, and one for each lane of the others."""
    found = ", SFF-8482" if bits & 2 else ""
    for lane in range(1, 5):
        if bits & 0x80 << lane:
            found += f", SFF-8470 lane {lane}"
        if bits & 0x8000 << lane:
            found += f", SFF-8484 lane {lane}"
    return found


def lent(data):
    """A bytearray as the two arguments of a buffer; its bytes are lent, not copied."""
    return (ctypes.c_uint8 * len(data)).from_buffer(data), ctypes.c_size_t(len(data))


class Adapter:
    """An adapter as its caller holds it: everything that the simulator works on is ours; the record too, a line for each request since
    the opening."""

    def __init__(self, library, file, medium):
        self.library, self.file, self.medium = library, file, medium
        self.stage, self.state, self.record = bytearray(STAGE_SIZE), bytearray(STATE_SIZE), bytearray()

    def open(self, text):
        """The number of the opening."""
        self.record = bytearray()
        return self.library.ascheknopf_open(
            *lent(bytearray(text)), *lent(self.file), *lent(self.medium), *lent(self.state)
        )

    def send(self, what, buffer):
        """Sends a request, in place; whether it was granted."""
        number = self.library.ascheknopf_request(
            *lent(self.state), *lent(self.medium), *lent(self.stage), *lent(buffer)
        )
        code = word(buffer, CODE)
        self.keep(number, code)
        if number != 0:
            print(f"{what}: refused with {number}, {NUMBERS[number]}")
            return False
        print(f"{what}: {code}, {CODES.get(code, 'see section 10 of CSMI')}")
        return code == 0

    def keep(self, number, code):
        """Keeps a line of the record: the call's number and the return code, which stands only in the reply of a call that gave 0."""
        self.record += number.to_bytes(4, "little") + (code if number == 0 else NO_CODE).to_bytes(4, "little")

    def tally(self):
        """What the requests since the opening came to, counted by the library on the record."""
        totals = bytearray(TOTALS_SIZE)
        number = self.library.ascheknopf_tally(*lent(self.record), *lent(totals))
        if number != 0:
            print(f"no tally: refused with {number}")
            return
        requests, *kinds = struct.unpack("<5Q", totals)
        words = "granted", "denied", "otherwise refused", "refused with 100"
        print(f"{requests} requests: {', '.join(f'{count} {kind}' for count, kind in zip(kinds, words))}")


def request(code, body):
    """A sound request of a code: its header and the body."""
    header = bytearray(HEADER)
    header[0] = HEADER
    header[4:11] = b"CSMIALL" if code <= 4 else b"CSMISAS"
    header[16] = code
    header[24:28] = len(body).to_bytes(4, "little")
    return header + body


def front_page(adapter):
    """What a console shows before anything else: the controller, how it is, and where its phys are plugged in."""
    buffer = request(2, bytes(176))
    if adapter.send("controller configuration", buffer):
        body = buffer[HEADER:]
        serial, board = text_at(body, 52, 81), word(body, 12)
        revisions = f"firmware {revision(body, 133)}, BIOS {revision(body, 141)}"
        print(f"    serial number {serial}, board {board:08X}h; {revisions}")
    buffer = request(3, bytes(36))
    if adapter.send("controller status", buffer):
        print(f"    {STATUSES.get(word(buffer, HEADER), 'unknown')}")
    buffer = request(30, bytes(1152))
    if not adapter.send("connectors", buffer):
        return
    for n in range(adapter.state[PHY_COUNT]):
        connector = buffer[HEADER + 36 * n : HEADER + 36 * n + 36]
        place = LOCATIONS.get(connector[20], "place unknown")
        print(f"    phy {n}: {text_at(connector, 4, 16)}, {place}{pinout(word(connector, 0))}")


def driver_info(adapter):
    buffer = request(1, bytes(174))
    if adapter.send("driver info", buffer):
        body = buffer[HEADER:]
        print(f"    {text_at(body, 0, 81)}: {text_at(body, 81, 81)}; CSMI {half(body, 170)}.{half(body, 172)}")


def phy_info(adapter):
    buffer = request(20, bytes(2052))
    if not adapter.send("phy info", buffer):
        return
    body = buffer[HEADER:]
    for n in range(body[0]):
        entity = body[4 + 64 * n : 68 + 64 * n]
        line = f"    phy {n}, port {entity[28]}: {RATES.get(entity[29], 'no link')}"
        if entity[36] != 0:
            line += f", {device(entity[36:])} {entity[48:56].hex().upper()}"
        print(line)


def link_errors(adapter):
    buffer = request(22, bytes(20))
    if adapter.send("link errors of phy 0", buffer):
        counts = [word(buffer, HEADER + at) for at in (4, 8, 12, 16)]
        print("    {} invalid dwords, {} disparity errors, {} losses of sync, {} reset problems".format(*counts))


def set_phy_info(adapter):
    """Holds phy 0 to 1.5 Gb/s. The state is ours to look at: what the adapter now holds of the phy is there."""
    adapter.send("set phy info, phy 0 at 1.5 Gb/s", request(21, bytes([0, 0, 0, 8, 0, 0, 0, 0])))
    print(f"    its link: {RATES.get(adapter.state[phy_at(0) + 29], 'no link')}")


def sector(adapter, what, command, data):
    """An ATA command for sector 3 of phy 0's disk; the data goes in and comes out behind the 136 bytes of its structure."""
    body = bytearray(136 + SECTOR)
    body[1] = 0xFF  # whatever the port
    body[4:12] = adapter.state[phy_at(0) + 48 : phy_at(0) + 56]
    body[16], body[18], body[20], body[23], body[28] = 0x27, command, 3, 0x40, 1
    body[40:44] = SECTOR.to_bytes(4, "little")
    body[136 : 136 + len(data)] = data
    buffer = request(25, body)
    if adapter.send(what, buffer):
        body = buffer[HEADER:]
        print(f"    status {body[50]:02X}h, {word(body, 132)} bytes, which begin: {text_at(body, 136, 16)}")


def console(adapter, text):
    number = adapter.open(text)
    print(f"open with {text.decode('ascii')} {number}, {NUMBERS[number]}")
    state = adapter.state
    print(f"    level {state[LEVEL]}, {state[PHY_COUNT]} phys, {state[ROW_COUNT]} rows")
    front_page(adapter)
    driver_info(adapter)
    phy_info(adapter)
    link_errors(adapter)
    set_phy_info(adapter)
    sector(adapter, "write sector 3", 0x30, b"written")
    sector(adapter, "read sector 3", 0x20, b"")
    adapter.send("driver info in 5 bytes", request(1, bytes(174))[:5])
    adapter.tally()


def main(arguments):
    if len(arguments) != 3:
        sys.exit("use: console.py LIBRARY ADAPTER")
    library = ctypes.CDLL(arguments[1])
    for function in library.ascheknopf_open, library.ascheknopf_request, library.ascheknopf_tally:
        function.restype = ctypes.c_uint32
    with open(arguments[2], "rb") as opened:
        file = bytearray(opened.read())
    medium = bytearray(file[0] * DISK)
    medium[3 * SECTOR : 3 * SECTOR + 16] = b"from the factory"
    adapter = Adapter(library, file, medium)
    console(adapter, b"CSMI=Restricted;")
    print()
    console(adapter, b"CSMI=Full;")


main(sys.argv)
