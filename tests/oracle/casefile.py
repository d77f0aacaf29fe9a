"""The two files shared by cases.py and generate.py: cases.bin and expected.txt.

cases.bin, repeated to the end: 1 byte mode (1 RNDF alone, 2 pair; 3 and 4 the same
in the edition of December 6, 2006); RNDF length
and MDF length, 3 bytes LE each; ten table lengths in numbers, 2 bytes LE each
(segments, lanes, zones, spots, points, checkpoints, stops, exits, goals,
limits; the last two 0 in modes 1 and 3); the RNDF's bytes; the MDF's bytes.

expected.txt, per case: `case K`; then `refused F L N C`, or `ok` with ten counts,
`file` and (modes 2 and 4) `mission`; then, accepted or refused, one line per lent
table with all its numbers.
"""

import oracle

TEXT_BOUND = 8192       # every text is shorter
TABLE_BOUND = 600       # every table is shorter


OLDER = 2               # what the older edition adds to the mode


def is_pair(mode):
    return mode % 2 == 0


def full_room(room, mode):
    room = dict(room)
    for table in oracle.TABLES:
        room.setdefault(table, 0)
    if not is_pair(mode):
        room["goals"] = room["limits"] = 0
    return room


def encode(mode, rndf, mdf, room):
    assert len(rndf) < TEXT_BOUND and len(mdf) < TEXT_BOUND
    assert is_pair(mode) or mdf == b""
    parts = [bytes([mode]), len(rndf).to_bytes(3, "little"),
             len(mdf).to_bytes(3, "little")]
    for table in oracle.TABLES:
        assert 0 <= room[table] < TABLE_BOUND, (table, room[table])
        parts.append(room[table].to_bytes(2, "little"))
    return b"".join(parts) + rndf + mdf


def decode(data):
    """The cases of a cases.bin, as (mode, rndf, mdf, room)."""
    at = 0
    while at < len(data):
        mode = data[at]
        rndf_len = int.from_bytes(data[at + 1:at + 4], "little")
        mdf_len = int.from_bytes(data[at + 4:at + 7], "little")
        at += 7
        room = {}
        for table in oracle.TABLES:
            room[table] = int.from_bytes(data[at:at + 2], "little")
            at += 2
        rndf = data[at:at + rndf_len]
        at += rndf_len
        mdf = data[at:at + mdf_len]
        at += mdf_len
        yield mode, rndf, mdf, room


def judge(mode, rndf, mdf, room, module=oracle):
    edition = module.DECEMBER_2006 if mode > 2 else module.PRESENT
    if is_pair(mode):
        return module.read_pair(rndf, mdf, room, edition)
    return module.read_rndf(rndf, room, edition)


def expected(k, mode, reply):
    out = ["case %d" % k, reply.head()]
    if reply.accepted:
        out.append("file " + " ".join(map(str, reply.file)))
        if is_pair(mode):
            out.append("mission " + " ".join(map(str, reply.mission)))
    for table in (oracle.TABLES if is_pair(mode) else oracle.RNDF_TABLES):
        out.append(" ".join([table] + [str(n) for n in reply.tables[table]]))
    return "\n".join(out) + "\n"


class Writer:
    def __init__(self, bin_path, expected_path, labels_path=None):
        self.bin = open(bin_path, "wb")
        self.expected = open(expected_path, "w")
        self.labels = open(labels_path, "w") if labels_path else None
        self.count = 0
        self.histogram = {}     # by (file, number) or "ok"

    def add(self, label, mode, rndf, mdf, room):
        room = full_room(room, mode)
        reply = judge(mode, rndf, mdf, room)
        self.count += 1
        self.bin.write(encode(mode, rndf, mdf, room))
        self.expected.write(expected(self.count, mode, reply))
        if self.labels:
            self.labels.write("%d\t%s\t%s\n" % (self.count, reply.head(), label))
        key = "ok" if reply.accepted else (reply.refusal[0], reply.refusal[2])
        self.histogram[key] = self.histogram.get(key, 0) + 1
        return reply

    def close(self):
        self.bin.close()
        self.expected.close()
        if self.labels:
            self.labels.close()

    def print_histogram(self):
        print("cases: %d, accepted: %d" % (self.count,
                                           self.histogram.get("ok", 0)))
        print("number     RNDF      MDF")
        for number in [*range(1, 19), 25]:
            print("%6d %8d %8d" % (number, self.histogram.get((1, number), 0),
                                   self.histogram.get((2, number), 0)))
