#!/usr/bin/env python3
# Makes stdin and stdout of this crate from document 01's lists, knowing nothing of the code:
#   vectors.py DOCUMENT-01
# The lists below are in the order in which `word` numbers them; that their words are just those that document 01 quotes is tested.
import os
import re
import sys

rndf = """RNDF_name num_segments num_zones format_version creation_date segment num_lanes segment_name end_segment lane num_waypoints
lane_width left_boundary right_boundary checkpoint stop exit end_lane zone num_spots zone_name end_zone perimeter num_perimeterpoints
end_perimeter spot spot_width end_spot end_file""".split()
mdf = """MDF_name RNDF format_version creation_date checkpoints num_checkpoints end_checkpoints speed_limits num_speed_limits
end_speed_limits end_file""".split()
boundary = "double_yellow solid_yellow solid_white broken_white".split()

# what document 01 quotes under the two headings (the paragraphs behind the MDF's list speak of other things)
text = open(sys.argv[1], encoding="utf-8").read()


def quoted(heading):
    section = text.split("## " + heading + "\n")[1].split("\n## ")[0]
    if heading == "The order of an MDF":
        section = section.strip().split("\n")[0]
    return set(re.findall(r"`([A-Za-z_]+)`", section))


assert quoted("The order of an RNDF") == set(rndf) | set(boundary)
assert quoted("The order of an MDF") == set(mdf)
place = [text.index("`" + w + "`") for w in boundary]
assert place == sorted(place)

fields = []
for w in dict.fromkeys(rndf + mdf + boundary):
    fields += [
        w,
        w[:-1] + chr(ord(w[-1]) + 1),  # its last byte changed
        chr(ord(w[0]) ^ 1) + w[1:],  # its first byte changed
        w[:-1],  # cut by one
        w + "s",  # one byte more
        w.swapcase(),  # in other case
    ]
fields += ["", "0", "9", "/", ":", "1.1.1", "45.000000", "-93.000000", "lan", "l", "abcdefghijklmnopqrst", "abcdefghijklmnopqrstu", "0" * 40]


def number(words, field, first):
    return str(words.index(field) + first) if field in words else "none"


here = os.path.dirname(os.path.abspath(__file__))
with open(os.path.join(here, "stdin"), "w") as out:
    out.write("".join(f + "\n" for f in fields))
with open(os.path.join(here, "stdout"), "w") as out:
    for f in fields:
        digit = "digit" if f[:1].isdigit() else "other"
        out.write("\t".join([f, number(rndf, f, 0), number(mdf, f, 0), number(boundary, f, 1), digit]) + "\n")
