#!/usr/bin/env python3
"""Stores for the listing, and what is printed of each: written from the documents alone, not from the code.

    python3 tests/stores.py                     writes the files below
    python3 tests/stores.py --check             fails if one of them is not what would be written
    python3 tests/stores.py --against PROGRAM   runs a listing program over these and many more stores; prints how many

The files: crates/listings/data/NAME (one store for each case), crates/listings/args (the names, in order) and stdout (what is
printed); crates/listing/stdin and stdout (document 01's example); examples/store.bin and examples/store.txt.

Two ways lead to what is printed. `lines` makes it from a description of the records. `listing` reads the bytes by the rules of
docs/LAYOUTS.md. Both must agree on every case. A damaged store names the one rule that it breaks: with that rule left out it
must be readable, so that nothing else is wrong with it.
"""

import copy
import pathlib
import re
import subprocess
import sys
from fractions import Fraction

ROOT = pathlib.Path(__file__).resolve().parent.parent
LARGEST = 4294967295
LONGEST = 65536

# ---- describing records and making their images


class Record:
    """A record, with the defaults of document 01's example but for its remote number."""

    def __init__(self, **given):
        self.call_id, self.local_tag, self.remote_tag = b"c1", b"L", b"R"
        self.state, self.side = "C", "uas"
        self.target, self.local_uri, self.remote_uri = b"sip:r@h", b"sip:l@h", b"sip:r@h"
        self.local, self.remote = 0, 0
        self.last_ack, self.seconds, self.refresher = None, None, None
        self.routes = []
        for name, value in given.items():
            assert hasattr(self, name), name
            setattr(self, name, value)


def text(b):
    return len(b).to_bytes(2, "big") + b


def number(n):
    return n.to_bytes(4, "big")


def route_list(routes, count=None):
    return bytes([len(routes) if count is None else count]) + b"".join(map(text, routes))


def begins_sips(uri):
    return uri[:5].lower() == b"sips:"


def state_byte(r):
    byte = {"E": 1, "C": 2, "T": 3}[r.state]
    if r.side == "uac":
        byte += 4
    if begins_sips(r.local_uri) or begins_sips(r.remote_uri):
        byte += 8
    return byte


def image(r, damage=None):
    """The image of a record. damage: for a bit the bytes that stand for it instead, or None where the bit is not to stand."""
    fields = {
        0: text(r.call_id) if r.call_id else None,
        1: text(r.local_tag) if r.local_tag else None,
        2: text(r.remote_tag) if r.remote_tag else None,
        3: bytes([state_byte(r)]),
        4: text(r.target),
        5: text(r.local_uri),
        6: text(r.remote_uri),
        7: number(r.local) if r.local else None,
        8: number(r.remote) if r.remote else None,
        9: number(r.last_ack) if r.last_ack is not None else None,
        10: number(r.seconds) if r.seconds is not None else None,
        11: number(r.refresher) if r.refresher is not None else None,
        12: route_list(r.routes) if r.routes else None,
    }
    fields.update(damage or {})
    standing = [bit for bit in sorted(fields) if fields[bit] is not None]
    bits = sum(1 << bit for bit in standing)
    return bits.to_bytes(2, "big") + b"".join(fields[bit] for bit in standing)


def without_bit(one_image, bit):
    """An image whose map lacks a bit, though the field's bytes are there."""
    bits = int.from_bytes(one_image[:2], "big") & ~(1 << bit)
    return bits.to_bytes(2, "big") + one_image[2:]


def store_of(records):
    return b"".join(map(image, records))


def or_dash(n):
    return "-" if n is None else str(n)


def line(position, state, side, local, remote, last_ack, seconds, routes):
    half = None if seconds is None else round(Fraction(seconds, 2))  # to the nearest, a half to the even one
    columns = [position, state, side, local, remote, or_dash(last_ack), or_dash(seconds), or_dash(half), routes]
    return " ".join(map(str, columns)) + "\n"


def lines(records):
    """What is printed of a store with these records."""
    out = ""
    for position, r in enumerate(records, 1):
        out += line(position, r.state, r.side, r.local, r.remote, r.last_ack, r.seconds, len(r.routes))
    return out + "total %d\n" % len(records)


# ---- reading the bytes by the rules


class Refused(Exception):
    def __init__(self, cause):
        self.cause = cause


HOST = re.compile(rb"(\[[0-9A-Fa-f:.]+\]|[A-Za-z0-9.-]+)(?::([0-9]{1,5}))?([;?].*)?")


def is_uri(b):
    """Document 01, "Contact", the SipUri stand-in."""
    scheme = re.match(rb"(?i)sips?:", b)
    if not scheme or any(c < 33 or c > 126 or c in b'<>"' for c in b):
        return False
    user, at, rest = b[scheme.end():].partition(b"@")
    if not at:
        user, rest = b"-", user
    parts = HOST.fullmatch(rest)
    return bool(user and parts and int(parts[2] or b"0") <= 65535)


class Reader:
    def __init__(self, store, left_out=None):
        self.store, self.at, self.left_out = store, 0, left_out

    def rule(self, name, holds):
        if not holds and name != self.left_out:
            raise Refused(3)

    def take(self, n):
        if len(self.store) - self.at < n:
            raise Refused(3)
        self.at += n
        return self.store[self.at - n:self.at]

    def number(self, n=4):
        return int.from_bytes(self.take(n), "big")

    def text(self):
        return self.take(self.number(2))

    def identifier(self, stands):
        if not stands:
            return b""
        b = self.text()
        self.rule("a text whose bit stands is not empty", b)
        self.rule("bytes of a text", all(c == 9 or 32 <= c <= 126 for c in b))
        return b

    def uri(self, which, stands):
        self.rule("bits 3 to 6 stand", stands)
        b = self.text() if stands else b"sip:h"
        self.rule("readable " + which, is_uri(b))
        return b

    def positive(self, stands):
        n = self.number() if stands else 0
        self.rule("a number whose bit stands is not 0", n or not stands)
        return n

    def routes(self):
        count = self.number(1)
        self.rule("1 to 50 routes", 1 <= count <= 50)
        for _ in range(count):
            self.uri("route", True)
        return count

    def record(self, position):
        bits = self.number(2)
        stands = [bits >> bit & 1 for bit in range(16)]
        self.rule("no bit over 12", bits < 1 << 13)
        identifier = tuple(self.identifier(stands[bit]) for bit in (0, 1, 2))
        self.rule("bits 3 to 6 stand", stands[3])
        state = self.number(1) if stands[3] else 2
        self.rule("a state", state & 3)
        self.rule("the rest of the state byte is 0", state < 16)
        self.uri("target", stands[4])
        local_uri = self.uri("local URI", stands[5])
        remote_uri = self.uri("remote URI", stands[6])
        secure = begins_sips(local_uri) or begins_sips(remote_uri)
        self.rule("secure exactly by the local or remote URI", bool(state & 8) == secure)
        local, remote = self.positive(stands[7]), self.positive(stands[8])
        last_ack = self.number() if stands[9] else None
        seconds = self.number() if stands[10] else None
        refresher = self.number() if stands[11] else 1
        self.rule("refresher 1 or 2", refresher in (1, 2))
        routes = self.routes() if stands[12] else 0
        side = "uac" if state & 4 else "uas"
        return identifier, line(position, "-ECT"[state & 3], side, local, remote, last_ack, seconds, routes)

    def all(self):
        if len(self.store) > LONGEST:
            raise Refused(1)
        seen, out = set(), []
        while self.at < len(self.store):
            identifier, printed = self.record(len(out) + 1)
            self.rule("no identifier twice", identifier not in seen)
            seen.add(identifier)
            out.append(printed)
        return "".join(out) + "total %d\n" % len(out)


def listing(store, left_out=None):
    """What is printed of these bytes."""
    try:
        return Reader(store, left_out).all()
    except Refused as refused:
        return "refused %d\n" % refused.cause


# ---- the cases: a name, the store, what is printed

CASES = []


def case(name, store, printed):
    assert re.fullmatch("[a-z0-9_]+", name) and name not in [c[0] for c in CASES], name
    assert listing(store) == printed, (name, listing(store), printed)
    CASES.append((name, store, printed))


def good(name, *records):
    case(name, store_of(records), lines(records))


def bad(name, rule, store):
    assert not listing(store, rule).startswith("refused"), (name, rule)
    case(name, store, "refused 3\n")


def damaged(name, rule, damage, **given):
    """One record with one fault, alone."""
    bad(name, rule, image(Record(**given), damage))


def cut(name, store, length):
    """The first bytes of a store, which end within a record."""
    assert 0 < length < len(store)
    case(name, store[:length], "refused 3\n")


def numbered(n, **given):
    """Records with identifiers of their own."""
    return [Record(call_id=b"c%d" % i, **given) for i in range(1, n + 1)]


SHEET = bytes.fromhex("017F 0002 6331 0001 4C 0001 52 02 0007 7369703A724068 0007 7369703A6C4068 0007 7369703A724068 00000007")
SHEET_PRINTS = "1 C uas 0 7 - - - 0\ntotal 1\n"

FULL = Record(local=4, remote=7, last_ack=5, seconds=1800, refresher=2, routes=[b"sip:p1;lr", b"sips:p2:5061"])


def columns_and_numbers():
    case("example_of_document_01", SHEET, SHEET_PRINTS)
    good("empty_store")
    good("no_number_stands", Record())
    good("every_number_stands", FULL)
    good("local_number_alone", Record(local=1))
    good("remote_number_alone", Record(remote=1))
    good("last_ack_alone", Record(last_ack=7))
    good("last_ack_0_is_present", Record(last_ack=0))
    good("seconds_alone", Record(seconds=90))
    good("seconds_0_are_present", Record(seconds=0))
    for seconds, half in ((1, 0), (3, 2), (90, 45), (91, 46), (93, 46), (95, 48), (1801, 900), (1803, 902), (LARGEST, 2147483648)):
        name = "refresh_second_of_%d" % seconds
        case(name, image(Record(seconds=seconds)), "1 C uas 0 0 - %d %d 0\ntotal 1\n" % (seconds, half))
    good("refresher_uac_is_not_printed", Record(seconds=90, refresher=1))
    good("refresher_uas_without_seconds", Record(refresher=2))
    good("largest_numbers", Record(local=LARGEST, remote=LARGEST, last_ack=LARGEST, seconds=LARGEST))
    good("numbers_by_their_four_bytes", Record(local=0x01020304, remote=0x01000000, last_ack=0x00010000, seconds=0x0100))
    good("one_route", Record(routes=[b"sip:p;lr"]))
    good("ten_routes", Record(routes=[b"sip:p%d" % i for i in range(10)]))
    good("fifty_routes", Record(routes=[b"sip:p%d" % i for i in range(50)]))


def states_and_sides():
    for state, name in (("E", "early"), ("C", "confirmed"), ("T", "terminated")):
        for side in ("uac", "uas"):
            good("%s_%s" % (name, side), Record(state=state, side=side))
    good("every_state_byte", *[
        Record(call_id=b"c" + state.encode() + side.encode(), state=state, side=side, local_tag=scheme, local_uri=scheme + b":l@h")
        for state in "ECT" for side in ("uac", "uas") for scheme in (b"sip", b"sips")
    ])
    good("secure_by_local", Record(local_uri=b"sips:l@h"))
    good("secure_by_remote", Record(remote_uri=b"sips:r@h"))
    good("secure_in_any_case", Record(remote_uri=b"SiPs:r@h"))
    good("not_secure_by_target", Record(target=b"sips:r@h"))
    good("not_secure_by_route", Record(routes=[b"sips:p"]))


def texts():
    good("no_identifier_text", Record(call_id=b"", local_tag=b"", remote_tag=b""))
    good("no_remote_tag", Record(remote_tag=b""))
    good("identifier_of_blanks_and_126", Record(call_id=b"\t ", local_tag=b" ~\t", remote_tag=b" "))
    good("call_id_of_256_bytes", Record(call_id=b"c" * 256))
    good("call_id_of_257_bytes", Record(call_id=b"c" * 257))
    good("uri_over_512_bytes", Record(target=b"sip:" + b"u" * 600 + b"@h"))
    good("uris_of_every_form", Record(
        target=b"SIP:u;x:y@[2001:DB8::1.2]:65535;lr?a=b", local_uri=b"sip:a-b.c:00080?x=y", remote_uri=b"sip:h;a=b@c",
        routes=[b"sip:h", b"sip:h?", b"sip:h;", b"sip:h:0", b"sip:-", b"sip:[:]", b"sip:a@b;c@d"],
    ))


def several_records():
    good("records_in_order", *[Record(call_id=b"c%d" % i, state="TEC"[i % 3], local=i, seconds=9 - i) for i in (3, 1, 2)])
    good("positions_of_three_digits", *numbered(101, remote=7))
    a_or_none = (b"a", b"")
    good("same_texts_in_other_places", *[
        Record(call_id=c, local_tag=l, remote_tag=r) for c in a_or_none for l in a_or_none for r in a_or_none
    ])
    good("call_id_a_and_local_tag_a", *[Record(call_id=c, local_tag=l, remote_tag=b"") for c, l in ((b"a", b""), (b"", b"a"))])
    good("same_bytes_cut_elsewhere", Record(call_id=b"ab", local_tag=b"c"), Record(call_id=b"a", local_tag=b"bc"))
    good("identifiers_by_letter_case", Record(call_id=b"a"), Record(call_id=b"A"))
    good("one_identifier_begins_another", Record(call_id=b"ab"), Record(call_id=b"a"), Record(call_id=b"abc"))
    good("records_alike_but_for_the_tag", Record(remote_tag=b"R"), Record(remote_tag=b"S"))
    twice = "no identifier twice"
    bad("one_identifier_twice", twice, image(Record()) + image(Record(state="T", remote=9, target=b"sip:other")))
    bad("one_identifier_twice_apart", twice, store_of(numbered(60) + [Record(call_id=b"c1")]))
    bad("one_identifier_twice_in_a_long_store", twice, store_of(numbered(400) + [Record(call_id=b"c200")]))
    bad("no_identifier_text_twice", twice, 2 * image(Record(call_id=b"", local_tag=b"", remote_tag=b"")))
    without_state = image(Record(call_id=b"c4"), {3: b"\x00"})
    bad("fault_in_the_last_record", "a state", store_of(numbered(3)) + without_state)
    bad("fault_in_the_first_record", "a state", without_state + store_of(numbered(3)))


def damaged_maps():
    for bit in (13, 14, 15):
        damaged("bit_%d_stands" % bit, "no bit over 12", {bit: b""})
    for bit, field in ((3, "state"), (4, "target"), (5, "local_uri"), (6, "remote_uri")):
        damaged("bit_%d_and_%s_missing" % (bit, field), "bits 3 to 6 stand", {bit: None})
        case("bit_%d_missing_%s_there" % (bit, field), without_bit(SHEET, bit), "refused 3\n")


def damaged_texts():
    fields = ((0, "call_id"), (1, "local_tag"), (2, "remote_tag"))
    for bit, field in fields:
        damaged("empty_" + field, "a text whose bit stands is not empty", {bit: text(b"")})
    for bit, field in fields:
        for byte in (0, 8, 10, 31, 127, 128, 255):
            damaged("%s_with_byte_%d" % (field, byte), "bytes of a text", {bit: text(b"a" + bytes([byte]))})


UNREADABLE = {
    "empty": b"",
    "without_scheme": b"r@h",
    "of_tel": b"tel:1",
    "without_host": b"sip:",
    "with_empty_user": b"sip:@h",
    "with_user_and_no_host": b"sip:u@",
    "with_blank_before": b" sip:h",
    "with_blank_after": b"sip:h ",
    "in_angle_brackets": b"<sip:h>",
    "with_quote": b'sip:"u"@h',
    "with_tab": b"sip:u\t@h",
    "with_byte_127": b"sip:\x7f@h",
    "with_byte_128": b"sip:\x80@h",
    "with_host_of_other_bytes": b"sip:h_h",
    "with_two_at": b"sip:a@b@c",
    "with_at_late": b"sip:h;x=@",
    "with_empty_port": b"sip:h:",
    "with_port_65536": b"sip:h:65536",
    "with_port_of_six_digits": b"sip:h:000080",
    "with_port_of_letters": b"sip:h:a",
    "with_empty_address": b"sip:[]",
    "with_open_address": b"sip:[::1",
    "with_address_of_other_bytes": b"sip:[g]",
    "with_bytes_after_address": b"sip:[::1]x",
}


def damaged_uris():
    for bit, field, which in ((4, "target", "target"), (5, "local_uri", "local URI"), (6, "remote_uri", "remote URI")):
        damaged(field + "_unreadable", "readable " + which, {bit: text(b"h")})
    for place in (1, 2, 3):
        routes = [b"sip:p%d" % i for i in (1, 2, 3)]
        routes[place - 1] = b"p"
        damaged("route_%d_of_3_unreadable" % place, "readable route", {12: route_list(routes)})
    for name, uri in UNREADABLE.items():
        damaged("target_" + name, "readable target", {4: text(uri)})


def damaged_numbers():
    damaged("local_number_0", "a number whose bit stands is not 0", {7: number(0)})
    damaged("remote_number_0", "a number whose bit stands is not 0", {8: number(0)})
    for n in (0, 3, 257, 0x01000000, LARGEST):
        damaged("refresher_%d" % n, "refresher 1 or 2", {11: number(n)}, seconds=90)
    damaged("no_routes", "1 to 50 routes", {12: route_list([])})
    damaged("fifty_one_routes", "1 to 50 routes", {12: route_list([b"sip:p%d" % i for i in range(51)])})
    damaged("routes_of_255", "1 to 50 routes", {12: route_list([b"sip:p"] * 255)})
    case("fewer_routes_than_counted", image(Record(), {12: route_list([b"sip:p"], count=2)}), "refused 3\n")
    case("more_routes_than_counted", image(Record(), {12: route_list([b"sip:p", b"sip:q"], count=1)}), "refused 3\n")


def damaged_states():
    damaged("no_state", "a state", {3: b"\x00"})
    damaged("no_state_uac", "a state", {3: b"\x04"})
    for bit in (4, 5, 6, 7):
        damaged("state_byte_with_bit_%d" % bit, "the rest of the state byte is 0", {3: bytes([2 + (1 << bit)])})
    case("state_byte_16", image(Record(), {3: b"\x10"}), "refused 3\n")
    secure = "secure exactly by the local or remote URI"
    damaged("secure_though_no_uri_is_sips", secure, {3: b"\x0a"})
    damaged("secure_though_only_the_target_is_sips", secure, {3: b"\x0a"}, target=b"sips:r@h")
    damaged("secure_though_only_a_route_is_sips", secure, {3: b"\x0a"}, routes=[b"sips:p"])
    damaged("not_secure_though_local_is_sips", secure, {3: b"\x02"}, local_uri=b"sips:l@h")
    damaged("not_secure_though_remote_is_sips", secure, {3: b"\x02"}, remote_uri=b"sips:r@h")
    damaged("not_secure_though_local_is_sips_in_capitals", secure, {3: b"\x02"}, local_uri=b"SIPS:l@h")


def cuts():
    whole = image(FULL)
    cut("cut_within_the_map", whole, 1)
    cut("cut_after_the_map", whole, 2)
    cut("cut_within_a_length", whole, 3)
    cut("cut_within_the_call_id", whole, 5)
    cut("cut_before_the_state", whole, 12)
    cut("cut_after_the_state", whole, 13)
    cut("cut_within_the_target", whole, 20)
    cut("cut_before_the_numbers", whole, 40)
    cut("cut_within_a_number", whole, 42)
    cut("cut_before_the_routes", whole, 60)
    cut("cut_after_the_route_count", whole, 61)
    cut("cut_between_routes", whole, 72)
    cut("cut_before_the_last_byte", whole, len(whole) - 1)
    cut("cut_within_the_second_record", SHEET + image(Record(call_id=b"c2")), len(SHEET) + 30)
    case("text_longer_than_the_store", image(Record(), {6: b"\xff\xff" + b"sip:r@h"}), "refused 3\n")
    for after in (b"\x00", b"\n", b"\x00\x00"):
        case("after_the_last_record_" + after.hex(), SHEET + after, "refused 3\n")
    case("one_byte", b"\x00", "refused 3\n")
    case("text_is_no_store", b"1 C uas 0 7 - - - 0\ntotal 1\n", "refused 3\n")


def padded(records, size):
    """The records with the last one's local tag so long that the store has exactly so many bytes."""
    last = copy.copy(records[-1])
    last.local_tag = b"L"
    last.local_tag *= 1 + size - len(store_of(records[:-1] + [last]))
    assert len(store_of(records[:-1] + [last])) == size
    return records[:-1] + [last]


def three_long_records():
    long_target = b"sip:" + b"u" * 60000 + b"@h"
    return [
        Record(call_id=b"c1", remote=7),
        Record(call_id=b"c2", state="E", target=long_target),
        Record(call_id=b"c3", state="T", seconds=90),
    ]


def sizes():
    good("bytes_65536", *padded(three_long_records(), LONGEST))
    case("bytes_65537", store_of(padded(three_long_records(), LONGEST + 1)), "refused 1\n")


columns_and_numbers()
states_and_sides()
texts()
several_records()
damaged_maps()
damaged_texts()
damaged_uris()
damaged_numbers()
damaged_states()
cuts()
sizes()

# ---- the example store

EXAMPLE = [
    Record(
        call_id=b"a84b4c76e66710@pc33.example.com", local_tag=b"1928301774", remote_tag=b"", state="E", side="uac", local=314159,
        target=b"sip:bob@example.net", local_uri=b"sip:alice@example.com", remote_uri=b"sip:bob@example.net",
    ),
    Record(
        call_id=b"zone-4-panel-2", local_tag=b"p2", remote_tag=b"x9", state="C", side="uas",
        remote=7, last_ack=7, seconds=1801, refresher=1,
        target=b"sip:desk@192.0.2.4:5070;transport=tcp", local_uri=b"sips:panel2@zone4.example.org", remote_uri=b"sip:desk@example.org",
        routes=[b"sip:p1.example.org;lr", b"sip:p2.example.org;lr"],
    ),
    Record(
        call_id=b"zone-4-panel-2", local_tag=b"p2", remote_tag=b"y1", state="C", side="uac",
        local=LARGEST, remote=2147483647, last_ack=0, seconds=0,
        target=b"sip:desk@[2001:db8::9]", local_uri=b"sip:panel2@zone4.example.org", remote_uri=b"sip:desk@[2001:db8::9]",
    ),
    Record(
        call_id=b"zone-1-panel-7", local_tag=b"p7", remote_tag=b"z3", state="T", side="uas", local=2, remote=1007, seconds=90, refresher=2,
        target=b"sip:desk@example.org", local_uri=b"sip:panel7@zone1.example.org", remote_uri=b"sip:desk@example.org",
    ),
]

# ---- the files


def files():
    out = {}
    for name, store, _ in CASES:
        out["crates/listings/data/" + name] = store
    out["crates/listings/args"] = "".join(name + "\n" for name, _, _ in CASES).encode()
    out["crates/listings/stdout"] = "".join(name + "\n" + printed for name, _, printed in CASES).encode()
    out["crates/listing/stdin"] = SHEET
    out["crates/listing/stdout"] = SHEET_PRINTS.encode()
    out["examples/store.bin"] = store_of(EXAMPLE)
    out["examples/store.txt"] = lines(EXAMPLE).encode()
    assert listing(out["examples/store.bin"]) == lines(EXAMPLE)
    return out


def kept_data():
    return sorted("crates/listings/data/" + p.name for p in (ROOT / "crates/listings/data").glob("*"))


def write():
    made = files()
    for name in kept_data():
        if name not in made:
            (ROOT / name).unlink()
    for name, content in made.items():
        (ROOT / name).parent.mkdir(parents=True, exist_ok=True)
        (ROOT / name).write_bytes(content)
    print("stores: %d cases written" % len(CASES))


def check():
    made = files()
    wrong = [name for name in kept_data() if name not in made]
    for name, content in made.items():
        path = ROOT / name
        if not path.is_file() or path.read_bytes() != content:
            wrong.append(name)
    for name in wrong:
        print("stores.py: %s is not what this script writes" % name, file=sys.stderr)
    if wrong:
        sys.exit(1)
    print("stores: %d cases, all files as written by this script" % len(CASES))


# ---- a program over many stores

SMALLEST = dict(local_tag=b"", remote_tag=b"", target=b"sip:h", local_uri=b"sip:h", remote_uri=b"sip:h")


def as_many(**given):
    """Records as small as they can be, with so many Call-IDs as 65,536 bytes hold; the first has none."""
    visible = [bytes([c]) for c in range(33, 127)]
    out, size = [], 0
    for call_id in [b""] + visible + [c + d for c in visible for d in visible]:
        r = Record(call_id=call_id, **SMALLEST, **given)
        size += len(image(r))
        if size > LONGEST:
            break
        out.append(r)
    return out


def full_stores():
    """Stores of about 65,536 bytes, and longer ones."""
    many = as_many()
    numbers = as_many(local=LARGEST, remote=LARGEST, last_ack=LARGEST, seconds=LARGEST)
    for records in (many, numbers):
        yield store_of(records)
        yield store_of(padded(records[:-1], LONGEST))
        yield store_of(padded(records[:-1], LONGEST)) + b"\x00"
    yield store_of(many[:-3] + many[:1])
    yield store_of(many[:-3] + many[-4:-3])
    yield store_of(many) + bytes(200000)
    yield bytes(LONGEST)
    yield bytes(LONGEST + 1)


def changed(store):
    """Every cut of a store, and every change of one of its bits."""
    for n in range(len(store)):
        yield store[:n]
    for place in range(len(store)):
        for bit in range(8):
            yield store[:place] + bytes([store[place] ^ 1 << bit]) + store[place + 1:]


def against(program):
    stores = [store for _, store, _ in CASES]
    stores += full_stores()
    stores += changed(store_of([FULL, Record(call_id=b"c2")]))
    stores += changed(store_of(EXAMPLE))
    for store in stores:
        printed = subprocess.run([program], input=store, stdout=subprocess.PIPE, check=True).stdout.decode()
        if printed != listing(store):
            print("stores.py: %s prints %r, not %r, of the %d bytes %s" % (
                program, printed[-200:], listing(store)[-200:], len(store), store[:600].hex()), file=sys.stderr)
            sys.exit(1)
    print(len(stores))


if sys.argv[1:] == []:
    write()
elif sys.argv[1:] == ["--check"]:
    check()
elif len(sys.argv) == 3 and sys.argv[1] == "--against":
    against(sys.argv[2])
else:
    sys.exit(__doc__)
