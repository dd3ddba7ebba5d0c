#!/usr/bin/env python3
"""Writes the vectors of crates/test_frames: `stdin`, and in `stdout` what a reader of frames answers to them.

The reader here is written from the rules (01 "What to build and its rules", and Q-9 for the places of refusals) and
shares nothing with the library. To add a vector, add a call of `vector` to the list below and run this file, which
needs Python 3 and nothing else.

A line of `stdin` is a vector: name, frame limit, bytes in hexadecimal (`-` for none). The lines of `stdout` for it:

    NAME short NEEDED
    NAME refused NUMBER at PLACE
    NAME frame LENGTH KEY VERSION SLOTS...
    NAME cuts A B        how many cuts below 4 bytes need 4, and how many longer ones need LENGTH: all, if A + B = LENGTH
    NAME longer frame ...      the same with a byte ff behind the vector, if that is a frame

KEY, VERSION and SLOTS are those of the frame that is handed over, as the C header lays them out; the zeros behind the last
slot that is not 0 are left out.
"""
import os

# ---- The reader -----------------------------------------------------------------------------------------------------

# Key, version and content of each layout, as 01 "Frame and keys" lists them. `spec0` is the offset specification that
# admits type 0, `flag` is Active.
TABLE = """
0001 1 declare-publisher c u8 R? T
0002 1 publish u8 [u64 B]
0002 2 publish-v2 u8 [u64 T? B]
0003 1 publish-confirm u8 [u64]
0004 1 publish-error u8 [u64 u16]
0005 1 query-publisher c R T
0006 1 delete-publisher c u8
0007 1 subscribe c u8 T spec u16 [T T]
0008 1 deliver u8 chunk
0008 2 deliver-v2 u8 u64 chunk
0009 1 credit u8 u16
000a 1 store-offset R T u64
000b 1 query-offset c R T
000c 1 unsubscribe c u8
000d 1 create c T [T T]
000e 1 delete c T
000f 1 metadata c [T]
0010 1 metadata-update u16 T
0011 1 peer-properties c [T T]
0012 1 sasl-handshake c
0013 1 sasl-authenticate c T B?
0014 1 tune u32 u32
0015 1 open c T
0016 1 close c u16 T
0017 1 heartbeat
0018 1 route c T T
0019 1 partitions c T
001a 1 consumer-update c u8 flag
001b 1 exchange-command-versions c [u16 u16 u16]
001c 1 stream-stats c T
001d 1 create-super-stream c T [T] [T] [T T]
001e 1 delete-super-stream c T
8001 1 declare-publisher-response c rc
8005 1 query-publisher-response c rc u64
8006 1 delete-publisher-response c rc
8007 1 subscribe-response c rc
8009 1 credit-response rc u8
800b 1 query-offset-response c rc u64
800c 1 unsubscribe-response c rc
800d 1 create-response c rc
800e 1 delete-response c rc
800f 1 metadata-response c [u16 T u32] [T u16 u16 [u16]]
8011 1 peer-properties-response c rc [T T]
8012 1 sasl-handshake-response c rc [T]
8013 1 sasl-authenticate-response c rc B?
8014 1 tune-response u32 u32
8015 1 open-response c rc [T T]
8016 1 close-response c rc
8018 1 route-response c rc [T]
8019 1 partitions-response c rc [T]
801a 1 consumer-update-response c rc spec0
801b 1 exchange-command-versions-response c rc [u16 u16 u16]
801c 1 stream-stats-response c rc [T i64]
801d 1 create-super-stream-response c rc
801e 1 delete-super-stream-response c rc
"""

WIDTHS = {"c": 4, "rc": 2, "u8": 1, "u16": 2, "u32": 4, "u64": 8, "i64": 8}

# The numbers of a chunk's header: width, and whether it is signed.
HEADER = [(1, True), (1, True), (2, False), (4, False), (8, True), (8, False), (8, False), (4, True), (4, False), (4, False), (1, False), (3, False)]

# The length of a null.
NULL_LENGTH = 2**64 - 1


def parsed(words):
    """The kinds up to the closing bracket or the end; a list is a Python list."""
    kinds = []
    while words:
        word = words.pop(0)
        if word == "]":
            break
        kinds.append(parsed(words) if word == "[" else word)
    return kinds


def tabled():
    layouts = {}
    for line in TABLE.split("\n"):
        words = line.replace("[", " [ ").replace("]", " ] ").split()
        if words:
            layouts[int(words[0], 16), int(words[1])] = (words[2], parsed(words[3:]))
    return layouts


LAYOUTS = tabled()
KEYS = {key for key, _ in LAYOUTS}
assert len(LAYOUTS) == 55 and len(KEYS) == 53


class Refused(Exception):
    """A refusal from 2 to 11, with the place where the field at fault begins."""


class Reader:
    """Reads the fields of one whole frame. Each answers its slots."""

    def __init__(self, frame):
        self.frame = frame
        self.at = 8

    def left(self):
        return len(self.frame) - self.at

    def number(self, width, signed=False):
        if self.left() < width:
            raise Refused(6, self.at)
        self.at += width
        return int.from_bytes(self.frame[self.at - width : self.at], "big", signed=signed)

    def string(self, form, nullable):
        begin = self.at
        length = self.number(4 if form == "B" else 2, signed=True)
        if length < -1 or (length == -1 and not nullable):
            raise Refused(7, begin)
        if length == -1:
            return [0, NULL_LENGTH]
        if form == "R" and length > 256:
            raise Refused(9, begin)
        if self.left() < length:
            raise Refused(6, begin)
        start = self.at
        self.at += length
        if form != "B":
            try:
                self.frame[start : self.at].decode("utf-8")
            except UnicodeDecodeError:
                raise Refused(8, begin)
        return [start, length]

    def elements(self, kinds):
        begin = self.at
        count = self.number(4, signed=True)
        if count < 0:
            raise Refused(7, begin)
        start = self.at
        for _ in range(count):
            for kind in kinds:
                self.field(kind)
        return [count, start, self.at - start]

    def spec(self, least):
        begin = self.at
        kind = self.number(2)
        if kind < least or 5 < kind:
            raise Refused(10, begin)
        return [kind, self.number(8) if kind in (4, 5) else 0]

    def flag(self):
        begin = self.at
        value = self.number(1)
        if value > 1:
            raise Refused(10, begin)
        return [value]

    def chunk(self):
        begin = self.at
        if self.left() < 48:
            raise Refused(6, begin)
        header = [self.number(width, signed) for width, signed in HEADER]
        kind, entries, records, length = header[1], header[2], header[3], header[8]
        if kind not in (0, 1, 2):
            raise Refused(10, begin + 1)
        start = self.at
        if self.left() < length:
            raise Refused(6, start)
        if self.left() > length:
            raise Refused(11, start + length)
        if kind == 0:
            if records != entries:
                raise Refused(10, begin + 4)
            for _ in range(entries):
                self.entry()
            if self.left() > 0:
                raise Refused(11, self.at)
        self.at = len(self.frame)
        return header + [start, length]

    def entry(self):
        begin = self.at
        word = self.number(4)
        if word >= 1 << 31:
            raise Refused(10, begin)
        if self.left() < word:
            raise Refused(6, begin)
        self.at += word

    def field(self, kind):
        if isinstance(kind, list):
            return self.elements(kind)
        if kind[0] in "TRB":
            return self.string(kind[0], kind.endswith("?"))
        if kind in WIDTHS:
            return [self.number(WIDTHS[kind])]
        return {"spec": lambda: self.spec(1), "spec0": lambda: self.spec(0), "flag": self.flag, "chunk": self.chunk}[kind]()


def read(data, limit):
    """What is printed of the frame at the start of the data."""
    try:
        return read_frame(data, limit)
    except Refused as refusal:
        return "refused %d at %d" % refusal.args


def read_frame(data, limit):
    if len(data) < 4:
        return "short 4"
    size = int.from_bytes(data[:4], "big")
    if limit != 0 and size > limit:
        raise Refused(2, 0)
    if size < 4:
        raise Refused(3, 0)
    if len(data) < size + 4:
        return "short %d" % (size + 4)
    key, version = int.from_bytes(data[4:6], "big"), int.from_bytes(data[6:8], "big")
    if key not in KEYS:
        raise Refused(4, 4)
    if (key, version) not in LAYOUTS:
        raise Refused(5, 6)
    _, kinds = LAYOUTS[key, version]
    reader = Reader(data[: size + 4])
    slots = [slot % 2**64 for kind in kinds for slot in reader.field(kind)]
    if reader.left() > 0:
        raise Refused(11, reader.at)
    while slots and slots[-1] == 0:
        slots.pop()
    return " ".join(["frame %d %04x %d" % (size + 4, key, version)] + list(map(str, slots)))


# ---- Vectors --------------------------------------------------------------------------------------------------------

# The program's space for its whole input, and for one vector's bytes with one byte more.
MOST_TEXT = 131072
MOST_BYTES = 4095

STDIN = []
STDOUT = []
NAMES = set()


def vector(name, data, limit=0):
    assert name not in NAMES and " " not in name and len(data) <= MOST_BYTES
    NAMES.add(name)
    STDIN.append("%s %d %s\n" % (name, limit, data.hex() or "-"))
    answer = read(data, limit)
    STDOUT.append("%s %s\n" % (name, answer))
    if answer.startswith("frame"):
        whole = int.from_bytes(data[:4], "big") + 4
        cuts = [read(data[:n], limit) for n in range(whole)]
        assert cuts == ["short 4"] * 4 + ["short %d" % whole] * (whole - 4)
        STDOUT.append("%s cuts 4 %d\n" % (name, whole - 4))
        assert read(data + b"\xff", limit) == answer
    longer = read(data + b"\xff", limit)
    if longer.startswith("frame"):
        STDOUT.append("%s longer %s\n" % (name, longer))


def number(width, n):
    return (n % 256**width).to_bytes(width, "big")


def frame(key, content=b"", version=1, size=None):
    """With a Size other than the content's own if one is given."""
    return number(4, len(content) + 4 if size is None else size) + number(2, key) + number(2, version) + content


def text(s, length=None):
    """With a length other than the text's own if one is given."""
    body = s if isinstance(s, bytes) else s.encode("utf-8")
    return number(2, len(body) if length is None else length) + body


def blob(body, length=None):
    return number(4, len(body) if length is None else length) + body


def listed(*elements, count=None):
    return number(4, len(elements) if count is None else count) + b"".join(elements)


def entry(message, size=None):
    return number(4, len(message) if size is None else size) + message


def chunk(*entries, kind=0, count=None, records=None, length=None, reserved=0):
    """The header's numbers follow from the entries unless they are given."""
    data = b"".join(entries)
    count = len(entries) if count is None else count
    records = count if records is None else records
    length = len(data) if length is None else length
    head = number(1, 0x50) + number(1, kind) + number(2, count) + number(4, records) + number(8, 1700000000000)
    head += number(8, 3) + number(8, 1000) + number(4, -2) + number(4, length) + number(4, 7) + number(1, 16)
    return head + number(3, reserved) + data


NULL = -1
C = number(4, 77)
OK = number(2, 1)


def filled(kind, n):
    """A field with something in it; n makes it differ from its neighbours."""
    if isinstance(kind, list):
        return listed(*[b"".join(filled(k, n + 10 * i + j) for j, k in enumerate(kind)) for i in (1, 2)])
    if kind[0] in "TR":
        return text("né%d" % n)
    if kind[0] == "B":
        return blob(b"\x00\xff" + number(1, n))
    if kind in WIDTHS:
        return number(WIDTHS[kind], -1 - n)
    if kind == "chunk":
        return chunk(entry(b"one"), entry(b""), entry(b"three"), reserved=0xABCDEF)
    return {"spec": number(2, 4) + number(8, n), "spec0": number(2, 5) + number(8, -n), "flag": b"\x01"}[kind]


def least(kind):
    """Null where it is admitted, else empty or the smallest value."""
    if isinstance(kind, list):
        return listed()
    if kind[0] in "TRB":
        width = 4 if kind[0] == "B" else 2
        return number(width, NULL if kind.endswith("?") else 0)
    if kind in WIDTHS:
        return number(WIDTHS[kind], 0)
    return {"spec": number(2, 1), "spec0": number(2, 0), "flag": b"\x00", "chunk": chunk()}[kind]


def with_size(data):
    """The same with the Size that fits."""
    return number(4, len(data) - 4) + data[4:]


# Every layout: filled, as small as it can be, with a byte too many, with a byte too few.
for (key, version), (name, kinds) in LAYOUTS.items():
    whole = frame(key, b"".join(filled(kind, n) for n, kind in enumerate(kinds)), version)
    vector(name, whole)
    vector(name + "-least", frame(key, b"".join(map(least, kinds)), version))
    vector(name + "-byte-too-many", with_size(whole + b"\x00"))
    vector(name + "-byte-too-few", with_size(whole[:-1]))
    vector(name + "-unknown-version", frame(key, b"", 3 if version == 2 else 2 if (key, 2) not in LAYOUTS else 0))

# The marked cases A to L of 01.
vector("case-a-heartbeat", bytes.fromhex("0000000400170001"))
vector("case-b-credit", bytes.fromhex("000000070009000105000a"))
vector("case-c-byte-left", bytes.fromhex("000000050017000100"))
vector("case-d-size-3", bytes.fromhex("00000003"))
vector("case-e-key-0", bytes.fromhex("0000000400000001"))
vector("case-f-heartbeat-version-2", bytes.fromhex("0000000400170002"))
vector("case-g-credit-cut", bytes.fromhex("00000006000900010500"))
vector("case-h-credit-response", bytes.fromhex("0000000780090001000405"))
vector("case-i-empty-name", bytes.fromhex("0000000a000e0001000000010000"))
vector("case-j-null-name", bytes.fromhex("0000000a000e000100000001ffff"))
vector("case-k-not-utf8", bytes.fromhex("0000000b000e0001000000010001c0"))
vector("case-l-three-bytes", bytes.fromhex("000000"))

# Size, limit and the bytes present.
vector("no-bytes", b"")
vector("no-bytes-limit-1", b"", 1)
vector("one-byte", b"\xff")
vector("three-bytes-of-a-size-above-the-limit", b"\xff\xff\xff", 1)
vector("size-alone", number(4, 4))
vector("size-of-seven-bytes", frame(0x17)[:7])
for size in (0, 1, 2, 3):
    vector("size-%d" % size, number(4, size) + b"\x00\x17\x00\x01")
    vector("size-%d-limit-4" % size, number(4, size) + b"\x00\x17\x00\x01", 4)
vector("size-3-above-limit-2", number(4, 3), 2)
vector("size-2-at-limit-2", number(4, 2), 2)
vector("size-4-above-limit-3", frame(0x17), 3)
vector("size-4-at-limit-4", frame(0x17), 4)
vector("size-4-below-limit-5", frame(0x17), 5)
vector("size-5-above-limit-4-and-byte-left", frame(0x17, b"\x00"), 4)
vector("size-5-at-limit-5-and-byte-left", frame(0x17, b"\x00"), 5)
vector("limit-is-compared-with-size-not-length", frame(0x12, C), 8)
vector("size-above-limit-and-cut", frame(0x12, C)[:9], 7)
vector("size-above-limit-and-key-0", frame(0, C), 7)
vector("cut-and-key-0", frame(0, C)[:11])
vector("size-largest", number(4, 0xFFFFFFFF))
vector("size-largest-limit-largest", number(4, 0xFFFFFFFF) + b"\x00\x17", 0xFFFFFFFF)
vector("size-largest-above-limit", number(4, 0xFFFFFFFF), 0xFFFFFFFE)
vector("size-80000000", number(4, 0x80000000) + b"\x00\x17\x00\x01")
vector("size-65532-at-the-listing-limit", number(4, 65532), 65532)
vector("size-65533-above-the-listing-limit", number(4, 65533), 65532)
vector("two-frames", frame(0x17) + frame(9, b"\x05\x00\x0a"))
vector("heartbeat-and-a-cut-credit", frame(0x17) + frame(9, b"\x05\x00\x0a")[:9])

# Keys and versions.
for key in (0x0000, 0x001F, 0x0020, 0x0100, 0x0117, 0x1700, 0x7FFF, 0x8000, 0x8002, 0x8003, 0x8004, 0x8008, 0x800A, 0x8010, 0x8017,
            0x801F, 0x8100, 0xFFFF):
    vector("key-%04x-is-not-listed" % key, frame(key))
for version in (0, 2, 3, 256, 257, 0x8001, 0xFFFF):
    vector("heartbeat-version-%d" % version, frame(0x17, version=version))
for version in (0, 3, 0x0102, 0x0201):
    vector("publish-version-%d" % version, frame(2, b"\x05" + listed(), version))
    vector("deliver-version-%d" % version, frame(8, b"\x05" + chunk(), version))
vector("key-0-and-version-9", frame(0, version=9))
vector("version-9-and-content-cut", frame(9, b"", 9))
vector("response-8006-is-not-8007", frame(0x8006, C + OK))
vector("response-8007-is-subscribe", frame(0x8007, C + OK))
vector("request-0006-with-the-content-of-subscribe", frame(6, C + b"\x05" + text("s") + number(2, 3) + number(2, 9) + listed()))
vector("publish-v1-content-under-version-2", frame(2, b"\x05" + listed(number(8, 1) + blob(b"m")), 2))
vector("publish-v2-content-under-version-1", frame(2, b"\x05" + listed(number(8, 1) + text("f") + blob(b"m")), 1))
vector("deliver-v1-content-under-version-2", frame(8, b"\x05" + chunk(), 2))
vector("deliver-v2-content-under-version-1", frame(8, b"\x05" + number(8, 9) + chunk(), 1))

# Response codes: any number.
for code in (0, 1, 19, 20, 65535):
    vector("response-code-%d" % code, frame(0x8001, C + number(2, code)))
vector("credit-response-has-no-correlation-id", frame(0x8009, C + OK))
vector("close-code-0", frame(0x16, C + number(2, 0) + text("")))
vector("metadata-update-code-65535", frame(0x10, number(2, 65535) + text("s")))

# Text, references and bytes: null against empty, lengths, the order of checks.
vector("null-stream-name", frame(0x0E, C + text("", NULL)))
vector("empty-stream-name", frame(0x0E, C + text("")))
vector("null-stream-name-and-bytes-left", frame(0x0E, C + text("s", NULL)))
vector("null-reference-of-declare-publisher", frame(1, C + b"\x05" + text("", NULL) + text("s")))
vector("empty-reference-of-declare-publisher", frame(1, C + b"\x05" + text("") + text("s")))
vector("null-stream-of-declare-publisher", frame(1, C + b"\x05" + text("r") + text("", NULL)))
vector("null-reference-of-query-publisher", frame(5, C + text("", NULL) + text("s")))
vector("null-reference-of-store-offset", frame(0x0A, text("", NULL) + text("s") + number(8, 1)))
vector("null-reference-of-query-offset", frame(0x0B, C + text("", NULL) + text("s")))
vector("null-filter-of-publish-v2", frame(2, b"\x05" + listed(number(8, 1) + text("", NULL) + blob(b"m")), 2))
vector("empty-filter-of-publish-v2", frame(2, b"\x05" + listed(number(8, 1) + text("") + blob(b"m")), 2))
vector("null-message-of-publish", frame(2, b"\x05" + listed(number(8, 1) + blob(b"", NULL))))
vector("empty-message-of-publish", frame(2, b"\x05" + listed(number(8, 1) + blob(b""))))
vector("null-message-of-publish-v2", frame(2, b"\x05" + listed(number(8, 1) + text("") + blob(b"", NULL)), 2))
vector("null-opaque-data", frame(0x13, C + text("PLAIN") + blob(b"", NULL)))
vector("empty-opaque-data", frame(0x13, C + text("PLAIN") + blob(b"")))
vector("null-opaque-data-of-the-response", frame(0x8013, C + OK + blob(b"", NULL)))
vector("empty-opaque-data-of-the-response", frame(0x8013, C + OK + blob(b"")))
vector("null-mechanism", frame(0x13, C + text("", NULL) + blob(b"")))
vector("null-key-of-a-property", frame(0x11, C + listed(text("", NULL) + text("v"))))
vector("null-value-of-a-property", frame(0x11, C + listed(text("k") + text("", NULL))))
vector("null-host-in-metadata-response", frame(0x800F, C + listed(number(2, 1) + text("", NULL) + number(4, 5552)) + listed()))
vector("opaque-data-of-length-minus-2", frame(0x13, C + text("PLAIN") + blob(b"", -2)))
vector("opaque-data-of-the-least-length", frame(0x13, C + text("PLAIN") + blob(b"", -(2**31))))
vector("opaque-data-of-the-greatest-length", frame(0x13, C + text("PLAIN") + blob(b"xyz", 2**31 - 1)))
vector("opaque-data-is-not-text", frame(0x13, C + text("PLAIN") + blob(b"\xc0\xff")))
vector("text-of-length-minus-2", frame(0x0E, C + text("s", -2)))
vector("text-of-length-8000", frame(0x0E, C + text("s", 0x8000)))
vector("text-of-length-7fff-cut", frame(0x0E, C + text("s", 0x7FFF)))
vector("text-length-cut", frame(0x0E, C + b"\x00"))
vector("text-body-cut", frame(0x0E, C + text("s", 2)))
vector("text-body-cut-before-not-utf8", frame(0x0E, C + text(b"\xc0", 2)))
vector("text-one-byte-short-of-the-frame", frame(0x0E, C + text("st", 1)))
vector("text-of-257-bytes-is-no-reference", frame(0x0E, C + text("x" * 257)))
vector("reference-of-256-bytes", frame(5, C + text("r" * 256) + text("s")))
vector("reference-of-257-bytes", frame(5, C + text("r" * 257) + text("s")))
vector("reference-of-256-bytes-declared", frame(1, C + b"\x05" + text("r" * 256) + text("s")))
vector("reference-of-257-bytes-declared", frame(1, C + b"\x05" + text("r" * 257) + text("s")))
vector("reference-of-256-bytes-stored", frame(0x0A, text("r" * 256) + text("s") + number(8, 1)))
vector("reference-of-257-bytes-stored", frame(0x0A, text("r" * 257) + text("s") + number(8, 1)))
vector("reference-of-256-bytes-queried", frame(0x0B, C + text("r" * 256) + text("s")))
vector("reference-of-257-bytes-queried", frame(0x0B, C + text("r" * 257) + text("s")))
vector("reference-of-128-characters-in-256-bytes", frame(5, C + text("é" * 128) + text("s")))
vector("reference-of-129-characters-in-258-bytes", frame(5, C + text("é" * 129) + text("s")))
vector("reference-of-257-bytes-cut", frame(5, C + text("r" * 10, 257)))
vector("reference-of-256-bytes-cut", frame(5, C + text("r" * 10, 256)))
vector("reference-of-257-bytes-not-utf8", frame(5, C + text(b"\xff" * 257) + text("s")))
vector("reference-of-256-bytes-not-utf8", frame(5, C + text(b"\xff" * 256) + text("s")))
vector("reference-of-length-minus-2", frame(5, C + text("r", -2) + text("s")))
vector("stream-beside-a-reference-has-257-bytes", frame(5, C + text("r") + text("s" * 257)))
vector("two-faults-the-first-decides", frame(0x18, C + text(b"\xff") + text("", NULL)))
vector("two-faults-the-other-way-round", frame(0x18, C + text("", NULL) + text(b"\xff")))

# UTF-8 at the edges of RFC 3629.
for name, body in {
    "nul": "00", "last-of-one-byte": "7f", "continuation-alone": "80", "overlong-c0": "c080", "overlong-c1": "c1bf",
    "first-of-two-bytes": "c280", "last-of-two-bytes": "dfbf", "overlong-of-three": "e09fbf", "first-of-three-bytes": "e0a080",
    "before-the-surrogates": "ed9fbf", "first-surrogate": "eda080", "last-surrogate": "edbfbf", "behind-the-surrogates": "ee8080",
    "last-of-three-bytes": "efbfbf", "overlong-of-four": "f08fbfbf", "first-of-four-bytes": "f0908080", "10ffff": "f48fbfbf",
    "110000": "f4908080", "lead-f5": "f5808080", "lead-ff": "ff", "lead-without-continuation": "c341",
    "continuation-too-many": "c3a9a9", "three-cut-to-two": "e282", "four-cut-to-three": "f09f98", "byte-order-mark": "efbbbf",
}.items():
    vector("utf8-" + name, frame(0x0E, C + text(bytes.fromhex(body))))
    vector("utf8-%s-inside" % name, frame(0x0E, C + text(b"a" + bytes.fromhex(body) + b"z")))
vector("character-ends-behind-the-frame", frame(0x0E, C + text(b"s\xc3")) + b"\xa9")
vector("character-ends-in-the-next-field", frame(0x18, C + text(b"s\xc3", 2) + text(b"\xa9")))

# Lists: counts, the element at fault, nesting.
for count in (-1, -2, -(2**31), 2**31 - 1, 1, 2):
    vector("list-of-count-%d-with-no-elements" % count, frame(0x0F, C + listed(count=count)))
    vector("list-of-count-%d-with-one-element" % count, frame(0x0F, C + listed(text("s"), count=count)))
vector("list-count-cut", frame(0x0F, C + b"\x00\x00\x00"))
vector("list-of-count-0-with-one-element", frame(0x0F, C + listed(text("s"), count=0)))
vector("list-of-numbers-of-the-greatest-count", frame(3, b"\x05" + listed(number(8, 1), count=2**31 - 1)))
vector("list-third-element-not-utf8", frame(0x0F, C + listed(text("a"), text("b"), text(b"\xff"))))
vector("list-second-element-null", frame(0x0F, C + listed(text("a"), text("", NULL), text(b"\xff"))))
vector("list-element-cut-at-its-first-byte", frame(0x0D, C + text("s") + listed(text("k") + text("v"), count=2)))
vector("list-element-cut-between-key-and-value", frame(0x0D, C + text("s") + listed(text("k"))))
vector("list-element-value-not-utf8", frame(0x0D, C + text("s") + listed(text("k") + text(b"\xfe"))))
vector("list-element-number-cut", frame(4, b"\x05" + listed(number(8, 1) + b"\x00")))
vector("list-same-key-twice", frame(0x0D, C + text("s") + listed(text("k") + text("v"), text("k") + text("w"))))
vector("publish-message-cut", frame(2, b"\x05" + listed(number(8, 1) + blob(b"one"), number(8, 2) + blob(b"tw", 3))))
vector("publish-id-cut", frame(2, b"\x05" + listed(number(8, 1) + blob(b"one"), number(7, 2))))
vector("publish-v2-filter-not-utf8", frame(2, b"\x05" + listed(number(8, 1) + text(b"\xff") + blob(b"one")), 2))
BROKER = number(2, 1) + text("h") + number(4, 5552)
STREAM = text("s") + OK + number(2, 1)
vector("nested-lists", frame(0x800F, C + listed(BROKER, BROKER) + listed(STREAM + listed(number(2, 1), number(2, 2)), STREAM + listed())))
vector("nested-list-of-count-minus-1", frame(0x800F, C + listed() + listed(STREAM + listed(count=-1))))
vector("nested-list-of-the-greatest-count", frame(0x800F, C + listed() + listed(STREAM + listed(number(2, 7), count=2**31 - 1))))
vector("nested-list-cut-in-its-second-element", frame(0x800F, C + listed() + listed(STREAM + listed(number(2, 1), b"\x00"))))
vector("nested-list-count-cut", frame(0x800F, C + listed() + listed(STREAM + b"\x00\x00")))
vector("nested-list-takes-the-next-stream", frame(0x800F, C + listed() + listed(STREAM + listed(number(2, 1), count=2), STREAM + listed())))
vector("nested-list-byte-left", frame(0x800F, C + listed() + listed(STREAM + listed(number(2, 1))) + b"\x00"))
vector("super-stream-first-list-negative", frame(0x1D, C + text("s") + listed(count=-1) + listed() + listed()))
vector("super-stream-second-list-negative", frame(0x1D, C + text("s") + listed() + listed(count=-1) + listed()))
vector("super-stream-third-list-missing", frame(0x1D, C + text("s") + listed(text("p")) + listed(text("b"))))

# Offset specifications, in Subscribe and in ConsumerUpdate's response.
for kind in (0, 1, 2, 3, 4, 5, 6, 256, 65535):
    for more in (0, 7, 8):
        tail = number(8, -5)[:more]
        spec = number(2, kind) + tail
        vector("subscribe-spec-%d-and-%d-bytes" % (kind, more), frame(7, C + b"\x05" + text("s") + spec + number(2, 9) + listed()))
        vector("consumer-update-spec-%d-and-%d-bytes" % (kind, more), frame(0x801A, C + OK + spec))
vector("offset-after-type-next", frame(7, C + b"\x05" + text("s") + number(2, 3) + number(8, 4) + number(2, 9) + listed()))
vector("offset-largest", frame(7, C + b"\x05" + text("s") + number(2, 4) + number(8, 2**64 - 1) + number(2, 9) + listed()))
vector("timestamp-least", frame(7, C + b"\x05" + text("s") + number(2, 5) + number(8, -(2**63)) + number(2, 9) + listed()))
vector("timestamp-greatest", frame(7, C + b"\x05" + text("s") + number(2, 5) + number(8, 2**63 - 1) + number(2, 9) + listed()))
vector("subscribe-spec-cut", frame(7, C + b"\x05" + text("s") + b"\x00"))
vector("subscribe-spec-7-with-nothing-behind", frame(7, C + b"\x05" + text("s") + number(2, 7)))
vector("subscribe-offset-missing", frame(7, C + b"\x05" + text("s") + number(2, 4)))
vector("subscribe-ends-after-credit", frame(7, C + b"\x05" + text("s") + number(2, 3) + number(2, 9)))
vector("subscribe-null-stream-and-spec-0", frame(7, C + b"\x05" + text("", NULL) + number(2, 0) + number(2, 9) + listed()))
for active in (0, 1, 2, 128, 255):
    vector("active-%d" % active, frame(0x1A, C + b"\x05" + number(1, active)))
vector("active-2-and-byte-left", frame(0x1A, C + b"\x05\x02\x00"))
vector("active-missing", frame(0x1A, C + b"\x05"))

# Chunks.
ONE, TWO, THREE = entry(b"one"), entry(b"second"), entry(b"third")


def deliver(name, content, also_v2=True):
    vector(name, frame(8, b"\x05" + content))
    if also_v2:
        vector(name + "-v2", frame(8, b"\x05" + number(8, 999) + content, 2))


deliver("deliver-no-entries", chunk())
assert len(frame(8, b"\x05" + chunk())) - 4 == 53 and len(frame(8, b"\x05" + number(8, 999) + chunk(), 2)) - 4 == 61
deliver("deliver-three-entries", chunk(ONE, TWO, THREE))
deliver("deliver-empty-messages", chunk(entry(b""), entry(b"")))
deliver("deliver-cut-in-third-entry", chunk(ONE, TWO, THREE[:-1]))
deliver("deliver-cut-in-third-header", chunk(ONE, TWO, THREE[:3]))
deliver("deliver-cut-before-third-entry", chunk(ONE, TWO, count=3))
deliver("deliver-fourth-entry-left", chunk(ONE, TWO, THREE, ONE, count=3), False)
deliver("deliver-byte-left-in-data", chunk(ONE, TWO, THREE + b"\x00"))
deliver("deliver-no-entries-but-data", chunk(b"\x00" * 5, count=0), False)
deliver("deliver-data-shorter-than-its-length", chunk(ONE, TWO, length=18))
deliver("deliver-data-longer-than-its-length", chunk(ONE, TWO, length=16))
deliver("deliver-data-missing", chunk(length=5), False)
deliver("deliver-data-of-the-greatest-length", chunk(ONE, length=0xFFFFFFFF), False)
deliver("deliver-data-of-length-0-but-bytes", chunk(ONE, length=0), False)
deliver("deliver-data-length-is-not-signed", chunk(ONE, length=0x80000000), False)
deliver("deliver-header-missing", b"")
deliver("deliver-header-of-47-bytes", chunk()[:47])
deliver("deliver-header-of-2-bytes-and-type-3", chunk(kind=3)[:2], False)
deliver("deliver-records-above-entries", chunk(ONE, TWO, records=3))
deliver("deliver-records-below-entries", chunk(ONE, TWO, records=1), False)
deliver("deliver-records-0", chunk(ONE, records=0), False)
deliver("deliver-records-65537-and-1-entry", chunk(ONE, records=65537), False)
deliver("deliver-records-but-no-entries", chunk(records=1), False)
deliver("deliver-entry-with-top-bit", chunk(ONE, entry(b"two", 0x80000003)))
deliver("deliver-entry-with-top-bit-alone", chunk(ONE, entry(b"", 0x80000000)), False)
deliver("deliver-entry-with-top-bit-and-no-body", chunk(entry(b"", 0x80000009)), False)
deliver("deliver-entry-with-top-bit-cut", chunk(ONE, b"\x80\x00\x00"), False)
deliver("deliver-entry-of-the-greatest-size", chunk(entry(b"x", 0x7FFFFFFF)), False)
deliver("deliver-entry-size-ff", chunk(entry(b"x", 0xFFFFFFFF)), False)
for kind in (0, 1, 2, 3, 127, -1, -128):
    deliver("chunk-type-%d" % kind, chunk(ONE, TWO, kind=kind), False)
for kind in (1, 2):
    deliver("chunk-type-%d-records-not-entries" % kind, chunk(ONE, kind=kind, records=9), False)
    deliver("chunk-type-%d-data-is-no-entries" % kind, chunk(b"\xff\xff", kind=kind), False)
    deliver("chunk-type-%d-no-data" % kind, chunk(kind=kind, count=4), False)
    deliver("chunk-type-%d-data-short" % kind, chunk(b"abc", kind=kind, length=4), False)
    deliver("chunk-type-%d-data-long" % kind, chunk(b"abc", kind=kind, length=2), False)
deliver("chunk-type-3-and-data-short", chunk(ONE, kind=3, length=99), False)
deliver("data-short-and-records-wrong", chunk(ONE, records=9, length=99), False)
deliver("data-long-and-records-wrong", chunk(ONE, records=9, length=1), False)
deliver("records-wrong-and-entry-cut", chunk(ONE[:-1], records=9), False)
deliver("top-bit-before-byte-left", chunk(entry(b"one", 0x80000003), b"\x00", count=1), False)
deliver("cut-entry-before-later-top-bit", chunk(entry(b"one", 9), entry(b"", 0x80000000)), False)
vector("deliver-every-header-number-at-its-edge", frame(8, b"\xff" + bytes.fromhex(
    "8001ffffffffffff" "8000000000000000" "ffffffffffffffff" "ffffffffffffffff" "80000000" "00000002" "ffffffff" "ff" "ffffff" "6162")))

# Every beginning of three contents, with a Size that fits it.
for name, whole in {
    "subscribe": frame(7, C + b"\x05" + text("st") + number(2, 4) + number(8, 6) + number(2, 9) + listed(text("k") + text("v"))),
    "metadata-response": frame(0x800F, C + listed(BROKER) + listed(STREAM + listed(number(2, 1)))),
    "deliver": frame(8, b"\x05" + chunk(ONE, TWO)),
}.items():
    for n in range(4, len(whole)):
        vector("%s-of-size-%d" % (name, n - 4), number(4, n - 4) + whole[4:n])

# ---- The files ------------------------------------------------------------------------------------------------------

if __name__ == "__main__":
    folder = os.path.join(os.path.dirname(os.path.abspath(__file__)), "..", "..", "crates", "test_frames")
    for name, lines in (("stdin", STDIN), ("stdout", STDOUT)):
        with open(os.path.join(folder, name), "w") as f:
            f.write("".join(lines))
    assert sum(map(len, STDIN)) < MOST_TEXT
