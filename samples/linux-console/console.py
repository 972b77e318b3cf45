"""console.py LIBRARY ADAPTER: a console of a few requests, each sent under the first header of CSMI with ascheknopf_request and then
under the Linux header with ascheknopf_request_linux; prints the replies in words, and last what they came to. The adapter is opened at
Restricted, which binds the first header alone. console.c does the same in C. LIBRARY is the archive as a shared object, which
samples/two-calls/build makes."""

import ctypes
import struct
import sys

STATE_SIZE, STAGE_SIZE, TOTALS_SIZE = 6190, 16384, 40
NO_CODE = 0xFFFFFFFF
LEVEL, PHY_COUNT = 0, 1
FIRST, FIRST_CODE = 28, 20  # sizes of the two headers, and where the return code is in each
LINUX, LINUX_CODE = 20, 8
DATA_READ, DATA_WRITE = 0, 1
SECTOR, BLOCK, DISK = 512, 512, 8192
STAGED, STAGED_REVISIONS = 6181, 6182  # what is staged, in the state
VALIDATE = 1

NUMBERS = {
    0: "accepted",
    100: "a buffer shorter than its header",
    106: "a wrong medium or stage length",
    107: "no sound state",
}
CODES = {
    0: "success",
    1: "failed",
    2: "bad control code",
    3: "invalid parameter",
    4: "denied at this level",
}
RATES = {1: "disabled", 2: "failed", 3: "spin-up hold", 8: "1.5 Gb/s", 9: "3.0 Gb/s"}
STATUSES = {1: "good", 2: "failed", 3: "offline", 4: "powered off"}
LOCATIONS = {2: "internal", 4: "external", 8: "switchable", 0x10: "auto"}


def word(data, at):
    return int.from_bytes(data[at : at + 4], "little")


def half(data, at):
    return int.from_bytes(data[at : at + 2], "little")


def number_in_words(number):
    return NUMBERS.get(number, "see ascheknopf_open")


def text_at(data, at, most):
    """The bytes up to the first zero."""
    return bytes(data[at : at + most]).split(b"\0")[0].decode("ascii")


def phy_at(n):
    """Where phy n stands in the state; its PHY_ENTITY is first."""
    return 177 + 105 * n


def device(attached):
    """In words, by the Attached bytes of a PHY_ENTITY."""
    if attached[0] != 0x10:
        return "expander"
    return "SATA disk" if attached[3] & 1 else "SAS device"


def lent(data):
    """A bytearray as the two arguments of a buffer; its bytes are lent, not copied."""
    return (ctypes.c_uint8 * len(data)).from_buffer(data), ctypes.c_size_t(len(data))


class Request:
    """A request without its header: the control code by document 01, the Direction of the Linux header, and the body."""

    def __init__(self, what, control, direction, body):
        self.what, self.control, self.direction, self.body = what, control, direction, body

    def first(self):
        """HeaderLength, the signature, the control code, and a Length that does not count the header."""
        header = bytearray(FIRST)
        header[0] = FIRST
        header[4:11] = b"CSMIALL" if self.control <= 4 else b"CSMISAS"
        header[16:20] = self.control.to_bytes(4, "little")
        header[24:28] = len(self.body).to_bytes(4, "little")
        return header + self.body

    def linux(self):
        """A Length that counts the header, and the Direction; the control code goes beside the buffer."""
        header = bytearray(LINUX)
        header[4:8] = (LINUX + len(self.body)).to_bytes(4, "little")
        header[16:18] = self.direction.to_bytes(2, "little")
        return header + self.body


def reply_body(header, number, buffer, code_at, body_at):
    """The body of a granted reply, or None."""
    if number != 0:
        print(f"    {header}: refused with {number}, {number_in_words(number)}")
        return None
    code = word(buffer, code_at)
    print(f"    {header}: {code}, {CODES.get(code, 'see section 10 of CSMI')}")
    return buffer[body_at:] if code == 0 else None


class Adapter:
    """An adapter as its caller holds it: everything that the simulator works on is ours; the record too, a line for each request of
    either header."""

    def __init__(self, library, file, medium):
        self.library, self.file, self.medium = library, file, medium
        self.stage, self.state, self.record = bytearray(STAGE_SIZE), bytearray(STATE_SIZE), bytearray()

    def open(self, text):
        """The number of the opening."""
        return self.library.ascheknopf_open(
            *lent(bytearray(text)), *lent(self.file), *lent(self.medium), *lent(self.state)
        )

    def send_first(self, request):
        buffer = request.first()
        number = self.library.ascheknopf_request(
            *lent(self.state), *lent(self.medium), *lent(self.stage), *lent(buffer)
        )
        self.keep(number, word(buffer, FIRST_CODE))
        return reply_body("first header", number, buffer, FIRST_CODE, FIRST)

    def send_linux(self, request):
        """No signature, and no level is asked for."""
        buffer = request.linux()
        number = self.library.ascheknopf_request_linux(
            *lent(self.state), *lent(self.medium), *lent(self.stage), ctypes.c_uint32(request.control), *lent(buffer)
        )
        self.keep(number, word(buffer, LINUX_CODE))
        return reply_body("Linux header", number, buffer, LINUX_CODE, LINUX)

    def send_both(self, request, show):
        """Sends a request under both headers; what came of it is shown after each."""
        print(request.what)
        show(self, self.send_first(request))
        show(self, self.send_linux(request))

    def keep(self, number, code):
        """Keeps a line of the record: the call's number and the return code, which stands only in the reply of a call that gave 0."""
        self.record += number.to_bytes(4, "little") + (code if number == 0 else NO_CODE).to_bytes(4, "little")

    def tally(self):
        """What the requests since the opening came to, counted by the library on the record."""
        totals = bytearray(TOTALS_SIZE)
        number = self.library.ascheknopf_tally(*lent(self.record), *lent(totals))
        if number != 0:
            print(f"no tally: refused with {number}")
            return
        requests, *kinds = struct.unpack("<5Q", totals)
        words = "granted", "denied", "otherwise refused", "refused with 100"
        print(f"{requests} requests: {', '.join(f'{count} {kind}' for count, kind in zip(kinds, words))}")


def revisions(data, at):
    """Four numbers of 16 bits."""
    return ".".join(str(half(data, at + 2 * i)) for i in range(4))


def show_controller(adapter, reply):
    if reply:
        print(f"        serial number {text_at(reply, 52, 81)}, firmware {revisions(reply, 133)}")


def show_status(adapter, reply):
    if reply:
        print(f"        {STATUSES.get(word(reply, 0), 'unknown')}")


def show_connectors(adapter, reply):
    """References from the number of phys on are zero."""
    for n in range(adapter.state[PHY_COUNT] if reply else 0):
        connector = reply[36 * n : 36 * n + 36]
        print(f"        phy {n}: {text_at(connector, 4, 16)}, {LOCATIONS.get(connector[20], 'place unknown')}")


def show_phys(adapter, reply):
    for n in range(reply[0] if reply else 0):
        entity = reply[4 + 64 * n : 68 + 64 * n]
        line = f"        phy {n}, port {entity[28]}: {RATES.get(entity[29], 'no link')}"
        if entity[36] != 0:
            line += f", {device(entity[36:])} {entity[48:56].hex().upper()}"
        print(line)


def show_link(adapter, reply):
    """The state is ours to look at: what the adapter now holds of phy 0 is there."""
    print(f"        its link: {RATES.get(adapter.state[phy_at(0) + 29], 'no link')}")


def show_disk(adapter, reply):
    """And so is the medium."""
    print(f"        on the disk: {text_at(adapter.medium, 3 * SECTOR, 16)}")


def show_staged(adapter, reply):
    """And so is what is staged."""
    staged = f"staged: {revisions(adapter.state, STAGED_REVISIONS)}" if adapter.state[STAGED] else "nothing staged"
    print(f"        {staged}")


def show_data(adapter, reply):
    if reply:
        print(f"        status {reply[50]:02X}h, {word(reply, 132)} bytes, which begin: {text_at(reply, 136, 16)}")


def sector(adapter, what, direction, command, data):
    """An ATA command for sector 3 of phy 0's disk; the data goes in and comes out behind the 136 bytes of its structure."""
    body = bytearray(136 + SECTOR)
    body[1] = 0xFF  # whatever the port
    body[4:12] = adapter.state[phy_at(0) + 48 : phy_at(0) + 56]
    body[16], body[18], body[20], body[23], body[28] = 0x27, command, 3, 0x40, 1
    body[40:44] = SECTOR.to_bytes(4, "little")
    body[136 : 136 + len(data)] = data
    return Request(what, 25, direction, body)


def make_image():
    """Firmware of one block: revisions 2.0.7.1, a text, and the check, which is the sum of the words before it, the block's number, 0,
    and 1."""
    block = struct.pack("<4H12s", 2, 0, 7, 1, b"lab firmware").ljust(BLOCK - 4, b"\0")
    check = (sum(struct.unpack("<127I", block)) + 0 + 1) % 2**32
    return block + check.to_bytes(4, "little")


def download(what, image):
    """Firmware download: an image is validated and staged; without one, what is staged is made current."""
    body = bytearray(44)
    body[0:4] = len(image).to_bytes(4, "little")
    body[4:8] = (VALIDATE if image else 0).to_bytes(4, "little")
    return Request(what, 4, DATA_WRITE, body + image)


def update(adapter):
    adapter.send_both(download("validate firmware 2.0.7.1", make_image()), show_staged)
    adapter.send_both(download("commit firmware", b""), show_staged)
    after = Request("controller configuration, after the update", 2, DATA_READ, bytes(176))
    adapter.send_both(after, show_controller)


def console(adapter, text):
    number = adapter.open(text)
    print(f"open with {text.decode('ascii')} {number}, {number_in_words(number)}")
    set_phy_info = Request("set phy info, phy 0 at 1.5 Gb/s", 21, DATA_WRITE, bytes([0, 0, 0, 8, 0, 0, 0, 0]))
    # the number of an ioctl is not the control code that goes beside the buffer
    ioctl = Request("phy info by Linux's own number, CC770014h", 0xCC770014, DATA_READ, bytes(2052))
    adapter.send_both(Request("controller configuration", 2, DATA_READ, bytes(176)), show_controller)
    adapter.send_both(Request("controller status", 3, DATA_READ, bytes(36)), show_status)
    adapter.send_both(Request("connectors", 30, DATA_READ, bytes(1152)), show_connectors)
    adapter.send_both(Request("phy info", 20, DATA_READ, bytes(2052)), show_phys)
    adapter.send_both(set_phy_info, show_link)
    adapter.send_both(sector(adapter, "write sector 3", DATA_WRITE, 0x30, b"written"), show_disk)
    adapter.send_both(sector(adapter, "read sector 3", DATA_READ, 0x20, b""), show_data)
    update(adapter)
    adapter.send_both(ioctl, show_phys)
    print(f"the level is still {adapter.state[LEVEL]}")
    adapter.tally()


def main(arguments):
    if len(arguments) != 3:
        sys.exit("use: console.py LIBRARY ADAPTER")
    library = ctypes.CDLL(arguments[1])
    calls = "ascheknopf_open", "ascheknopf_request", "ascheknopf_request_linux", "ascheknopf_tally"
    for name in calls:
        getattr(library, name).restype = ctypes.c_uint32
    with open(arguments[2], "rb") as opened:
        file = bytearray(opened.read())
    medium = bytearray(file[0] * DISK)
    medium[3 * SECTOR : 3 * SECTOR + 16] = b"from the factory"
    adapter = Adapter(library, file, medium)
    console(adapter, b"CSMI=Restricted;")


main(sys.argv)
