"""L2: maps (GeoJSON) of networks with bytes worked out by hand, and a look at
any map with Python's own JSON reader.

`differences(map, network)` knows nothing of the oracle's writer: it reads the map
as JSON and says where features, their order, properties, positions, ring
directions or closings are not the network's.
"""

import json
from decimal import Decimal

from yards import YARD_A, cut, ins, put, text


def feature(kind, coordinates, properties):
    return ('{"type":"Feature","geometry":{"type":"%s","coordinates":%s},"properties":{%s}}'
            % (kind, coordinates, properties))


def collection(*features):
    return ('{"type":"FeatureCollection","features":[%s]}' % ",".join(features)).encode()


LANE_A = feature("LineString", "[[-93.000000,45.000000],[-93.000000,45.000100]]", '"kind":"lane","id":"1.1"')
SEVEN = feature("Point", "[-93.000000,45.000100]", '"kind":"checkpoint","id":"1.1.2","number":7')
MAP_A = collection(LANE_A, SEVEN)       # 338 bytes

# Perimeters of 1, 2, 3 and 4 points; zones without, with, without and with spots;
# names, one with quotation marks; a lane of one point; checkpoints out of order,
# and two on one waypoint.
YARD_M = """\
RNDF_name>m
num_segments>2
num_zones>4
segment>1
num_lanes>2
segment_name>a"b
lane>1.1
num_waypoints>3
checkpoint>1.1.2>5
checkpoint>1.1.1>9
checkpoint>1.1.2>32768
1.1.1>-0.000000>0.000001
1.1.2>-0.500000>-180.000000
1.1.3>90.000000>-0.000000
end_lane
lane>1.2
num_waypoints>1
1.2.1>1.000000>2.000000
end_lane
end_segment
segment>2
num_lanes>1
lane>2.1
num_waypoints>2
checkpoint>2.1.2>1
2.1.1>3.000000>4.000000
2.1.2>3.000001>4.000001
end_lane
end_segment
zone>3
num_spots>0
perimeter>3.0
num_perimeterpoints>1
3.0.1>5.000000>6.000000
end_perimeter
end_zone
zone>4
num_spots>2
zone_name>""
perimeter>4.0
num_perimeterpoints>2
4.0.1>7.000000>8.000000
4.0.2>7.000001>8.000001
end_perimeter
spot>4.1
checkpoint>4.1.2>41
4.1.1>9.000000>10.000000
4.1.2>9.000001>10.000001
end_spot
spot>4.2
checkpoint>4.2.2>2
4.2.1>11.000000>12.000000
4.2.2>11.000001>12.000001
end_spot
end_zone
zone>5
num_spots>0
zone_name>Lot/5
perimeter>5.0
num_perimeterpoints>3
5.0.1>10.000000>0.000000
5.0.2>0.000000>10.000000
5.0.3>0.000000>-10.000000
end_perimeter
end_zone
zone>6
num_spots>1
perimeter>6.0
num_perimeterpoints>4
6.0.1>1.000000>1.000000
6.0.2>2.000000>2.000000
6.0.3>3.000000>3.000000
6.0.4>4.000000>4.000000
end_perimeter
spot>6.1
checkpoint>6.1.2>61
6.1.1>13.000000>14.000000
6.1.2>13.000001>14.000001
end_spot
end_zone
end_file
""".splitlines()

MAP_M = collection(
    feature("LineString", "[[0.000001,0.000000],[-180.000000,-0.500000],[0.000000,90.000000]]",
            '"kind":"lane","id":"1.1","name":"a\\"b"'),
    feature("Point", "[2.000000,1.000000]", '"kind":"lane","id":"1.2","name":"a\\"b"'),
    feature("LineString", "[[4.000000,3.000000],[4.000001,3.000001]]", '"kind":"lane","id":"2.1"'),
    feature("Point", "[6.000000,5.000000]", '"kind":"perimeter","id":"3.0"'),
    feature("LineString", "[[8.000000,7.000000],[8.000001,7.000001]]",
            '"kind":"perimeter","id":"4.0","name":"\\"\\""'),
    feature("Polygon", "[[[-10.000000,0.000000],[10.000000,0.000000],[0.000000,10.000000],[-10.000000,0.000000]]]",
            '"kind":"perimeter","id":"5.0","name":"Lot/5"'),
    feature("Polygon", "[[[4.000000,4.000000],[3.000000,3.000000],[2.000000,2.000000],[1.000000,1.000000],"
            "[4.000000,4.000000]]]", '"kind":"perimeter","id":"6.0"'),
    feature("Point", "[-180.000000,-0.500000]", '"kind":"checkpoint","id":"1.1.2","number":5'),
    feature("Point", "[0.000001,0.000000]", '"kind":"checkpoint","id":"1.1.1","number":9'),
    feature("Point", "[-180.000000,-0.500000]", '"kind":"checkpoint","id":"1.1.2","number":32768'),
    feature("Point", "[4.000001,3.000001]", '"kind":"checkpoint","id":"2.1.2","number":1'),
    feature("Point", "[10.000001,9.000001]", '"kind":"checkpoint","id":"4.1.2","number":41'),
    feature("Point", "[12.000001,11.000001]", '"kind":"checkpoint","id":"4.2.2","number":2'),
    feature("Point", "[14.000001,13.000001]", '"kind":"checkpoint","id":"6.1.2","number":61'))


def ten_lanes():
    """Yard A with lanes 1.1 to 1.10 of one point each."""
    lanes = [line for n in range(1, 11) for line in
             ("lane>1.%d" % n, "num_waypoints>1", "1.%d.1>%d.000000>0.000000" % (n, n), "end_lane")]
    return YARD_A[:4] + ["num_lanes>10"] + lanes + YARD_A[12:]


# (label, RNDF, its map); None: refused as the reader refuses
HAND = [
    ("yard A", text(YARD_A), MAP_A),
    ("yard A by spaces, with comments", text([" " + l.replace(">", "  ") + " /* x */" for l in YARD_A], "\r\n"), MAP_A),
    ("yard A without its checkpoint", text(cut(YARD_A, 8)), collection(LANE_A)),
    ("two checkpoints on one waypoint", text(ins(YARD_A, 9, "checkpoint>1.1.2>6")),
     collection(LANE_A, SEVEN, SEVEN.replace("7}", "6}"))),
    ("names, perimeters, checkpoints out of order", text(YARD_M), MAP_M),
    ("lanes 1.1 to 1.10", text(ten_lanes()), collection(*(
        feature("Point", "[0.000000,%d.000000]" % n, '"kind":"lane","id":"1.%d"' % n) for n in range(1, 11)))),
    ("no width, boundary, stop, exit, version or date", text(ins(ins(YARD_A, 8, "lane_width>12", "left_boundary>solid_white",
                                                                  "stop>1.1.1"), 4, "format_version>v", "creation_date>d")), MAP_A),
    ("the file's own name is left out", text(put(YARD_A, 1, 'RNDF_name>"')), MAP_A),
    ("refused by its form", text(put(YARD_A, 12, "end")), None),
    ("refused by a reference", text(put(YARD_A, 9, "exit>1.1.2>1.1.3")), None),
    ("empty", b"", None),
]


def longest(segments):
    """An RNDF: so many segments of 32,768 lanes of one point, each under a name of
    128 quotation marks. The map of one has 12,801,223 bytes, that of two is too long."""
    out = ["RNDF_name>y", "num_segments>%d" % segments, "num_zones>0"]
    for s in range(1, segments + 1):
        out += ["segment>%d" % s, "num_lanes>32768", "segment_name>" + '"' * 128]
        for n in range(1, 32769):
            out += ["lane>%d.%d" % (s, n), "num_waypoints>1", "%d.%d.1>0.000000>0.000000" % (s, n), "end_lane"]
        out.append("end_segment")
    return text(out + ["end_file"])


def shapes(network):
    """How often a network has what the map shows in its own way."""
    count = {}

    def add(what, n=1):
        count[what] = count.get(what, 0) + n
    for row in network.lanes:
        add("lanes of one point" if row[1] == 1 else "lanes of more points")
    for row in network.zones:
        add("perimeters of %s" % ["one point", "two points", "three points", "more points"][min(row[1], 4) - 1])
    for a, b in zip(network.zones, network.zones[1:]):
        if a[3] == 0 < b[3]:
            add("zones without spots before one with")
    spots = {first + k for first, _ in network.spots for k in (0, 1)}
    met, before = set(), 0
    for _, point in network.checkpoints:
        add("checkpoints in a spot" if point in spots else "checkpoints in a lane")
        if point in met:
            add("checkpoints on a waypoint with another")
        if point < before:
            add("checkpoints out of their waypoints' order")
        met.add(point)
        before = point
    names = [row[-1] for row in network.segments + network.zones if row[-1]]
    add("names", len(names))
    add("names with quotation marks", sum(b'"' in name for name in names))
    return count


def ids_of(network):
    """Lanes, perimeters and points with their identifiers, gone through anew."""
    lanes, perimeters, points, at = [], [], [], 0
    for s, (first, count, name) in enumerate(network.segments, 1):
        for n, lane in enumerate(network.lanes[first:first + count], 1):
            lanes.append(("%d.%d" % (s, n), name, list(range(at, at + lane[1]))))
            points += ["%d.%d.%d" % (s, n, p) for p in range(1, lane[1] + 1)]
            at += lane[1]
    for z, row in enumerate(network.zones, len(network.segments) + 1):
        perimeters.append(("%d.0" % z, row[4], list(range(at, at + row[1]))))
        points += ["%d.0.%d" % (z, p) for p in range(1, row[1] + 1)]
        points += ["%d.%d.%d" % (z, s, p) for s in range(1, row[3] + 1) for p in (1, 2)]
        at += row[1] + 2 * row[3]
    assert at == len(points) == len(network.points)
    return lanes, perimeters, points


def twice_area(positions):
    return sum(a[0] * b[1] - b[0] * a[1] for a, b in zip(positions, positions[1:] + positions[:1]))


def differences(written, network):
    """What a map says otherwise than its network, in words; [] if nothing."""
    out = []

    def same(what, got, want):
        if got != want:
            out.append("%s: %r, and not %r" % (what, got, want))

    def millionths(position):
        """[longitude, latitude] as (latitude, longitude) of the point table."""
        same("numbers of a position", [type(n) for n in position], [Decimal, Decimal])
        same("places of a position", [n.as_tuple().exponent for n in position], [-6, -6])
        return tuple(int(n * 1_000_000) for n in reversed(position))

    def no_twins(pairs):
        same("members of one name", len({k for k, _ in pairs}), len(pairs))
        return dict(pairs)

    if any(not 32 < byte < 127 for byte in written):
        out.append("a byte between tokens, or one that is no ASCII")
    whole = json.loads(written.decode("ascii", "replace"), parse_float=Decimal, object_pairs_hook=no_twins)
    same("the collection's members", list(whole), ["type", "features"])
    same("the collection's type", whole.get("type"), "FeatureCollection")
    features = whole.get("features", [])
    lanes, perimeters, points = ids_of(network)
    due = ([("lane",) + lane for lane in lanes] + [("perimeter",) + p for p in perimeters]
           + [("checkpoint", points[row], number, [row]) for number, row in network.checkpoints])
    same("features", len(features), len(due))
    for one, (kind, identifier, more, rows) in zip(features, due):
        label = "%s %s" % (kind, identifier)
        same(label + " members", list(one), ["type", "geometry", "properties"])
        same(label + " type", one["type"], "Feature")
        properties = {"kind": kind, "id": identifier}
        if kind == "checkpoint":
            properties["number"] = more
        elif more:
            properties["name"] = more.decode()
        same(label + " properties", list(one["properties"].items()), list(properties.items()))
        geometry, want = one["geometry"], [network.points[row] for row in rows]
        same(label + " geometry's members", list(geometry), ["type", "coordinates"])
        if len(rows) == 1:
            same(label + " geometry", geometry["type"], "Point")
            same(label + " position", [millionths(geometry["coordinates"])], want)
        elif kind == "lane" or len(rows) == 2:
            same(label + " geometry", geometry["type"], "LineString")
            same(label + " positions", [millionths(p) for p in geometry["coordinates"]], want)
        else:
            same(label + " geometry", geometry["type"], "Polygon")
            same(label + " rings", len(geometry["coordinates"]), 1)
            ring = [millionths(p) for p in geometry["coordinates"][0]]
            same(label + " closing", ring[-1], ring[0])
            same(label + " ring", ring[:-1], want[::-1])
            same(label + " direction", twice_area(ring[:-1]), -twice_area(want))
    return out


# Small mistakes in the oracle's map, each of which the damage run's maps notice (tests/damage/compare.py --mutants).
MUTANTS = [
    ("(write_coordinate(longitude), write_coordinate(latitude))", "(write_coordinate(latitude), write_coordinate(longitude))"),
    (""".replace('"', '\\\\"')""", ""),
    ("        if points == 1:\n", "        if points == 0:\n"),
    ("        if points < 3:\n", "        if points < 2:\n"),
    ("        if points < 3:\n", "        if points < 4:\n"),
    ("range(first + points - 1, first - 1, -1)", "range(first, first + points)"),
    ("for row in rows + rows[:1])", "for row in rows)"),
    ("for row in rows + rows[:1])", "for row in rows + rows[-1:])"),
    ('"%d.%d" % (s, l), name))', '"%d.%d" % (s, l)))'),
    ('"%d.0" % z, name))', '"%d.0" % z))'),
    ('"%d.0" % z, name))', '"%d" % z, name))'),
    ("enumerate(network.zones, len(network.segments) + 1):\n        features", "enumerate(network.zones, 1):\n        features"),
    ("        if name:\n            # \"A quot", "        if True:\n            # \"A quot"),
    ("called[point], number=number))", "called[point], number=point))"),
    ("called[point], number=number))", "called[max(0, point - 1)], number=number))"),
    ('position(point), "checkpoint"', 'position(0), "checkpoint"'),
    ('\'"kind":"%s","id":"%s"\' % (kind, identifier)', '\'"kind":"%s","id":%s\' % (kind, identifier)'),
    ("len(text) <= out_len:", "len(text) < out_len:"),
    ("len(text) <= out_len:", "len(text) <= out_len + 1:"),
    ("text + bytes(out_len - len(text))", "text + b' ' * (out_len - len(text))"),
]
