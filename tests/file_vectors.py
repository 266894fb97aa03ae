#!/usr/bin/env python3
"""Makes stdin and stdout of the crate file_vectors, which reads and writes river files, from the reference.

    tests/file_vectors.py --check | --write
"""

import sys

import reference
import vectors
from reference import LONGEST, Ammonia, Card, Dam, Factors, Pressure, Refused, River, Sludge, Take

CRATE = "file_vectors"
# The kinds of cases, as in its src/given.rt.
READ, WRITE, COPY, LONGEST_FILE = (bytes([kind]) for kind in range(4))
# The widths of the numbers of a reach in a case, as in its src/given.rt; those of records after it, each behind a byte that tells whether it is there.
REACH_WIDTHS = {"outlet": 1, "temperature": 1, "inflow_oxygen": 2, "k1": 4, "k2": 4, "volume": 4, "inflow": 4, "inflow_bod": 4, "load": 4}
RECORD_WIDTHS = {"dam": (2, 4), "take": (4,), "pressure": (4,), "sludge": (4,), "ammonia": (4, 4, 4)}
FACTOR_WIDTHS = (2, 2)
MOST_REACHES = 128
ROOM = 100              # bytes of the buffer to which a river that was read is written again
CHAIN_ROOM = LONGEST    # bytes of the buffer for a chain

PLAIN = Card(0, 20, 300, 400, 1000, 3000, 2000, 8000, 70000)
FIRST = PLAIN._replace(outlet=2)
MOST = Card(0, 35, 20000, 20000, 1000000000, 100000000, 1000000, 20000, 4294967295, Dam(1000, 100000000))
MOST_TAKEN = MOST._replace(take=Take(100000000))
LEAST = Card(0, 0, 0, 0, 0, 0, 0, 0, 0)
DM = b"DM\x01\xf4\x00\x00\x03\xe8"
WD = b"WD\x00\x00\x03\xe8"
BP = b"BP\x02\xbc"
SD = b"SD\x0f\xa0"
NT = b"NT\x01\x2c\x00\x00\x0f\xa0\x00\x00\x00\x05" + bytes(4)
TH = b"TH\x04\x17\x04\x00"


def file(*cards):
    return reference.encode(River(cards))


def changed(**fields):
    """The file of one plain reach with some fields changed."""
    return file(PLAIN._replace(**fields))


def dammed(share, generating, **fields):
    return changed(dam=Dam(share, generating), **fields)


def taken(take, **fields):
    return changed(take=Take(take), **fields)


def under(pressure, **fields):
    return changed(pressure=Pressure(pressure), **fields)


def bedded(sludge, **fields):
    return changed(sludge=Sludge(sludge), **fields)


def nitrified(*ammonia, **fields):
    return changed(ammonia=Ammonia(*ammonia), **fields)


def factored(decay, aeration, *cards):
    """The file of some cards, or of one plain reach, with these rate factors."""
    return reference.encode(River(cards or [PLAIN], Factors(decay, aeration)))


ONE = file(PLAIN)
TWO = file(FIRST, PLAIN)
DAMMED = dammed(500, 1000)

FILES = {
    "headers": [
        b"", b"RV\x00", b"XV\x00", b"RW\x00\x01", b"VR\x00\x01", b"rv\x00\x01", b"RE\x00\x00",
        b"RV\x00\x00", b"RV\x00\x81", b"RV\x01\x00", b"RV\xff\xff" + ONE[4:], b"RV\x00\x80",
    ],
    "reaches": [
        ONE[:4], ONE[:29], ONE[:28] + b"DM", ONE[:4] + b"RX" + ONE[6:], ONE[:4] + b"DM" + ONE[6:], ONE[:4] + b"XX\x09\x63" + ONE[8:],
        ONE[:4] + DM + ONE[4:], changed(temperature=36), changed(temperature=255), changed(k1=20001), changed(k2=20001),
        changed(volume=1000000001), changed(inflow=100000001), changed(inflow_bod=1000001), changed(inflow_oxygen=20001),
        changed(outlet=1), changed(outlet=255), changed(temperature=36, outlet=1), changed(k2=65535, outlet=9),
        TWO[:31], TWO[:55], TWO[:30] + b"RV" + TWO[32:], TWO[:30] + b"DN" + TWO[32:],
        file(PLAIN, PLAIN), file(FIRST._replace(outlet=1), PLAIN), file(FIRST._replace(outlet=3), PLAIN),
        file(FIRST, FIRST), file(FIRST, PLAIN._replace(outlet=1)), file(FIRST, PLAIN._replace(temperature=40)),
    ],
    "dams": [
        ONE + b"DM", ONE + DM[:7], dammed(1001, 0), dammed(0, 100000001), dammed(65535, 4294967295),
        dammed(1001, 0, outlet=1), dammed(1001, 0, temperature=36), changed(outlet=1) + b"DM",
        file(FIRST._replace(dam=Dam(1001, 0)), PLAIN), file(FIRST, PLAIN._replace(dam=Dam(5, 100000001))),
        TWO[:30] + DM + DM + TWO[30:],
    ],
    "takes": [
        ONE + b"WD", DAMMED + WD[:5], taken(100000001), taken(100000001, outlet=1), dammed(1001, 0, take=Take(100000001)),
        file(FIRST._replace(take=Take(4294967295)), PLAIN._replace(outlet=1)), file(FIRST, PLAIN._replace(take=Take(100000001))),
        ONE + WD + DM, TWO[:30] + WD + DM + TWO[30:], ONE + WD + WD, TWO[:30] + WD + WD + TWO[30:], ONE[:4] + WD + ONE[4:],
    ],
    "pressures": [
        ONE + b"BP", ONE + WD + BP[:3], under(499), under(801), under(801, outlet=1), taken(100000001, pressure=Pressure(801)),
        file(FIRST._replace(pressure=Pressure(801)), PLAIN._replace(outlet=1)), file(FIRST, PLAIN._replace(pressure=Pressure(499))),
        ONE + BP + WD, TWO[:30] + BP + DM + TWO[30:], TWO[:30] + BP + BP + TWO[30:], ONE[:4] + BP + ONE[4:],
    ],
    "sludges": [
        ONE + b"SD", ONE + BP + SD[:3], bedded(0, outlet=1), under(801) + SD[:3], changed(outlet=1) + b"SD", TWO[:30] + SD[:3],
        ONE + SD + BP, TWO[:30] + SD + BP + TWO[30:], ONE + SD + DM, TWO[:30] + SD + WD + TWO[30:], ONE + SD + SD, TWO[:30] + SD + SD + TWO[30:],
        ONE[:4] + SD + ONE[4:], bedded(65535) + b"\x00",
    ],
    "ammonias": [
        ONE + b"NT", ONE + SD + NT[:15], ONE + NT[:12], nitrified(20001, 0, 0), nitrified(0, 1000001, 0), nitrified(65535, 4294967295, 4294967295),
        *(ONE + NT[:byte] + b"\x01" + NT[byte + 1:] for byte in range(12, 16)), ONE + NT[:12] + b"NTNT", TWO[:30] + NT[:15] + b"\xff" + TWO[30:],
        nitrified(20001, 0, 0, outlet=1), changed(outlet=1) + NT[:15], under(801) + NT[:15], bedded(0, ammonia=Ammonia(20001, 0, 0)),
        file(FIRST._replace(ammonia=Ammonia(20001, 0, 0)), PLAIN._replace(outlet=1)), file(FIRST, PLAIN._replace(ammonia=Ammonia(0, 1000001, 0))),
        ONE + NT + SD, TWO[:30] + NT + SD + TWO[30:], ONE + NT + DM, TWO[:30] + NT + WD + TWO[30:], ONE + NT + NT, TWO[:30] + NT + NT + TWO[30:],
        ONE[:4] + NT + ONE[4:], nitrified(0, 0, 0) + b"\x00",
    ],
    "factors": [
        ONE[:4] + b"T", ONE[:4] + TH[:2], ONE[:4] + TH[:5], ONE[:4] + TH, factored(999, 1000), factored(1101, 1000), factored(1000, 999), factored(1000, 1101),
        b"RV\x00\x81" + TH[:2] + bytes(4), factored(999, 1000, PLAIN._replace(outlet=1)), factored(1047, 1024, PLAIN._replace(outlet=1)),
        ONE[:4] + TH + TH + ONE[4:], ONE[:4] + TH + DM + ONE[4:], TWO[:30] + TH + TWO[30:], ONE + TH, TH + ONE,
    ],
    "trailing": [ONE + b"D", ONE + b"\x00", ONE + ONE[4:], TWO + b"RE", DAMMED + b"M", DAMMED + DM, TWO[:2] + b"\x00\x01" + changed()[4:] + TWO[30:]],
    "lawful": [
        ONE, file(LEAST), file(MOST), TWO, DAMMED, dammed(0, 0), dammed(0, 1), dammed(1000, 100000000), taken(0), taken(100000000),
        file(FIRST._replace(dam=Dam(0, 0)), PLAIN), file(FIRST, PLAIN._replace(dam=Dam(500, 1000))),
        file(PLAIN._replace(outlet=3), PLAIN._replace(outlet=3), PLAIN),
        file(PLAIN._replace(outlet=2), PLAIN._replace(outlet=3, dam=Dam(7, 8)), PLAIN),
        file(FIRST, PLAIN._replace(dam=Dam(7, 8), take=Take(2999))), file(MOST_TAKEN),
        under(500), under(760), dammed(7, 8, pressure=Pressure(634)), file(FIRST, MOST_TAKEN._replace(pressure=Pressure(800))),
        bedded(0), bedded(65535), dammed(7, 8, sludge=Sludge(4000)),
        file(FIRST._replace(sludge=Sludge(1)), MOST._replace(take=Take(1), pressure=Pressure(500), sludge=Sludge(256))),
        nitrified(0, 0, 0), nitrified(20000, 1000000, 4294967295), nitrified(1, 2, 3, sludge=Sludge(4)), dammed(7, 8, ammonia=Ammonia(300, 4000, 5)),
        file(FIRST._replace(ammonia=Ammonia(1, 2, 3)), PLAIN._replace(ammonia=Ammonia(256, 65536, 16777216))),
        file(FIRST, MOST._replace(take=Take(1), pressure=Pressure(500), sludge=Sludge(256), ammonia=Ammonia(257, 66051, 67305985))),
        factored(1000, 1000), factored(1100, 1100), factored(1047, 1024, FIRST._replace(dam=Dam(7, 8)), PLAIN._replace(ammonia=Ammonia(300, 4000, 5))),
    ],
}

# Cards to write, with the length of the buffer.
RIVERS = [
    ([PLAIN], 30), ([PLAIN], 29), ([PLAIN], 0), ([PLAIN], 40), ([PLAIN._replace(dam=Dam(0, 0))], 38), ([PLAIN._replace(dam=Dam(0, 0))], 37),
    ([FIRST, PLAIN], 56), ([FIRST, PLAIN], 55), ([FIRST, MOST], 64), ([PLAIN._replace(temperature=36, outlet=1)], 40), ([PLAIN._replace(outlet=1)], 40),
    ([PLAIN._replace(outlet=1, dam=Dam(1001, 0))], 40), ([PLAIN._replace(dam=Dam(1001, 0))], 40), ([PLAIN._replace(dam=Dam(0, 100000001))], 10),
    ([PLAIN._replace(load=4294967295)], 30), ([FIRST._replace(k1=20001), PLAIN._replace(outlet=9)], 60), ([FIRST, PLAIN._replace(outlet=2)], 60),
    ([FIRST._replace(dam=Dam(1001, 0)), PLAIN._replace(k2=20001)], 60), ([FIRST, PLAIN._replace(inflow_oxygen=20001)], 60),
    ([FIRST._replace(outlet=3), PLAIN], 60), ([FIRST._replace(volume=1000000001), PLAIN], 60), ([FIRST._replace(inflow=100000001), PLAIN], 60),
    ([FIRST._replace(inflow_bod=1000001), PLAIN], 60),
    ([PLAIN._replace(take=Take(0))], 36), ([PLAIN._replace(take=Take(0))], 35), ([PLAIN._replace(take=Take(100000001))], 40),
    ([PLAIN._replace(outlet=1, take=Take(100000001))], 40), ([FIRST._replace(take=Take(100000001)), PLAIN._replace(outlet=9)], 70),
    ([FIRST, PLAIN._replace(dam=Dam(1, 2), take=Take(4294967295))], 70), ([FIRST._replace(take=Take(5)), MOST_TAKEN], 76),
    ([PLAIN._replace(pressure=Pressure(500))], 34), ([PLAIN._replace(pressure=Pressure(500))], 33), ([PLAIN._replace(pressure=Pressure(499))], 40),
    ([PLAIN._replace(outlet=1, pressure=Pressure(801))], 40), ([FIRST, PLAIN._replace(pressure=Pressure(65536 + 700))], 80),
    ([FIRST._replace(pressure=Pressure(760)), PLAIN._replace(dam=Dam(1, 2), take=Take(3), pressure=Pressure(800))], 78),
    ([PLAIN._replace(sludge=Sludge(0))], 34), ([PLAIN._replace(sludge=Sludge(0))], 33), ([PLAIN._replace(sludge=Sludge(65536))], 40),
    ([PLAIN._replace(outlet=1, sludge=Sludge(65536))], 40), ([FIRST._replace(sludge=Sludge(4294967295)), PLAIN._replace(outlet=9)], 80),
    ([FIRST._replace(sludge=Sludge(4000)), PLAIN._replace(dam=Dam(1, 2), take=Take(3), pressure=Pressure(800), sludge=Sludge(258))], 82),
    ([PLAIN._replace(ammonia=Ammonia(0, 0, 0))], 46), ([PLAIN._replace(ammonia=Ammonia(0, 0, 0))], 45), ([PLAIN._replace(ammonia=Ammonia(20001, 0, 0))], 50),
    ([PLAIN._replace(ammonia=Ammonia(0, 1000001, 0))], 50), ([PLAIN._replace(outlet=1, ammonia=Ammonia(20001, 0, 0))], 50),
    ([FIRST._replace(ammonia=Ammonia(65535, 0, 0)), PLAIN._replace(outlet=9)], 80),
    ([FIRST._replace(ammonia=Ammonia(1, 2, 3)), PLAIN._replace(dam=Dam(1, 2), take=Take(3), pressure=Pressure(800), sludge=Sludge(258),
                                                               ammonia=Ammonia(20000, 1000000, 4294967295))], 110),
]

# Rate factors, two cards to write with them, and the length of the buffer.
FACTORED = [
    (Factors(1000, 1100), [FIRST, PLAIN], 63), (Factors(1047, 1024), [FIRST, PLAIN], 61), (Factors(1000, 1101), [FIRST, PLAIN], 10),
    (Factors(999, 1000), [FIRST._replace(k1=20001), PLAIN], 70), (Factors(1047, 1024), [FIRST._replace(k1=20001), PLAIN], 70),
    # Rates that two bytes cannot hold.
    (Factors(1047, 1024), [FIRST._replace(k1=65536 + 300), PLAIN], 70), (Factors(1047, 1024), [FIRST, PLAIN._replace(k2=65536 + 300)], 70),
    (Factors(1047, 1024), [FIRST, PLAIN._replace(ammonia=Ammonia(65536 + 300, 0, 0))], 90),
]

# Chains of so many reaches, some with rate factors, are written and read again.
COUNTS = [0, 1, 2, 127, 128, 129]
FACTORED_COUNTS = [(Factors(1047, 1024), 128), (Factors(999, 1000), 129)]


# ---- The output

def answered(call, *arguments):
    """What a call gives, and the line of its refusal, if it refuses."""
    answer = reference.answer(call, *arguments)
    return (None, answer.line() + "\n") if isinstance(answer, Refused) else (answer, None)


def written(river, room):
    """What writing to a buffer of sevens prints: the length or the refusal, and the buffer."""
    data, refusal = answered(reference.write, river, room)
    if refusal:
        return refusal + "07" * room + "\n"
    return f"wrote {len(data)}\n" + data.hex() + "07" * (room - len(data)) + "\n"


def card_line(card):
    added = "".join(f" {kind.name} {' '.join(map(str, values))}" for kind, values in reference.added_records(card))
    return " ".join(map(str, reference.reach_values(card))) + added + "\n"


def shown(data):
    """What reading a file prints: the refusal, or the cards and what writing them gives."""
    river, refusal = answered(reference.read, data)
    if refusal:
        return refusal
    factors = "" if river.factors is None else f"factors {' '.join(map(str, river.factors))}\n"
    return f"read {len(river.cards)}\n" + factors + "".join(map(card_line, river.cards)) + written(river, ROOM)


def chain(count):
    """So many reaches, each above the next."""
    return [PLAIN._replace(outlet=reach + 1 if reach < count else 0) for reach in range(1, count + 1)]


def many(count, factors=None):
    """What writing and reading a chain of so many reaches prints."""
    data, refusal = answered(reference.write, River(chain(count), factors), CHAIN_ROOM)
    return refusal or f"wrote {len(data)}\nread {len(reference.read(data).cards)}\n"


def output():
    return "".join([shown(data) for files in FILES.values() for data in files]
                   + [written(River(cards), room) for cards, room in RIVERS]
                   + [written(River(cards, factors), room) for factors, cards, room in FACTORED]
                   + [many(count) for count in COUNTS] + [many(count, factors) for factors, count in FACTORED_COUNTS] + [f"longest {LONGEST}\n"])


# ---- The cases

def number(value, width):
    return value.to_bytes(width, "big")


def optional(values, widths):
    """Numbers that may be missing, behind a byte that tells."""
    if values is None:
        return bytes(1 + sum(widths))
    return b"\x01" + b"".join(map(number, values, widths))


def card_case(card):
    """The numbers of a card as a program holds them."""
    return (b"".join(number(getattr(card, name), width) for name, width in REACH_WIDTHS.items())
            + b"".join(optional(getattr(card, name), widths) for name, widths in RECORD_WIDTHS.items()))


def river_case(kind, factors, count, room=0):
    """The start of a case of a river: its rate factors, how many reaches it has, and the room for its file."""
    return kind + optional(factors, FACTOR_WIDTHS) + number(count, 1) + number(room, 2)


def writing(cards, room, factors=None):
    """Cards to write, in the numbers that memory holds."""
    if len(cards) > 2 or room > LONGEST:
        raise vectors.Failed("a case has at most two cards, and a buffer as long as the longest file")
    return river_case(WRITE, factors, len(cards), room) + b"".join(map(card_case, cards))


def copying(count, factors=None):
    """A chain to write, by its file; where there is none, since the count is refused, by no bytes."""
    return river_case(COPY, factors, count) + (file(*chain(count)) if 1 <= count <= MOST_REACHES else b"")


def cases():
    return ([READ + data for files in FILES.values() for data in files]
            + [writing(cards, room) for cards, room in RIVERS] + [writing(cards, room, factors) for factors, cards, room in FACTORED]
            + [copying(count) for count in COUNTS] + [copying(count, factors) for factors, count in FACTORED_COUNTS] + [LONGEST_FILE])


def make(write):
    vectors.settle_both(CRATE, cases(), output(), write)
    return f"file vectors: {sum(map(len, FILES.values()))} files, {len(RIVERS) + len(FACTORED)} rivers and {len(COUNTS) + len(FACTORED_COUNTS)} chains are up to date"


if __name__ == "__main__":
    sys.exit(vectors.run(__doc__, make))
