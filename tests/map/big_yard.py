"""Prints the RNDF of a yard that looks like one: about 200 lanes of streets and crossings, six zones with and without spots, 100 checkpoints and more, names that a
careless page would run or show as markup."""

import math

LATITUDE, LONGITUDE = 45.0, -93.0
METRE = 1 / 111_320
NAMES = ['Gate_"A"', "<b>bold</b>", "a&amp;b&c", '</script><script>document.title="run"</script>', "'\"><img/src=x/onerror=document.title='run'>"]


class Yard:
    def __init__(self):
        self.lines, self.checkpoint = [], 0

    def say(self, *fields):
        self.lines.append("\t".join(str(f) for f in fields))

    def point(self, identifier, east, north):
        self.say(identifier, "%.6f" % (LATITUDE + north * METRE), "%.6f" % (LONGITUDE + east * METRE / math.cos(math.radians(LATITUDE))))

    def next_checkpoint(self, identifier):
        self.checkpoint += 1
        self.say("checkpoint", identifier, self.checkpoint)

    def lane(self, identifier, points, checkpoints):
        self.say("lane", identifier)
        self.say("num_waypoints", len(points))
        for i in checkpoints:
            self.next_checkpoint("%s.%d" % (identifier, i))
        for i, (east, north) in enumerate(points, 1):
            self.point("%s.%d" % (identifier, i), east, north)
        self.say("end_lane")

    def segment(self, number, name, lanes):
        self.say("segment", number)
        self.say("num_lanes", len(lanes))
        if name:
            self.say("segment_name", name)
        for n, (points, checkpoints) in enumerate(lanes, 1):
            self.lane("%d.%d" % (number, n), points, checkpoints)
        self.say("end_segment")

    def zone(self, number, name, perimeter, spots):
        self.say("zone", number)
        self.say("num_spots", len(spots))
        if name:
            self.say("zone_name", name)
        self.say("perimeter", "%d.0" % number)
        self.say("num_perimeterpoints", len(perimeter))
        for i, (east, north) in enumerate(perimeter, 1):
            self.point("%d.0.%d" % (number, i), east, north)
        self.say("end_perimeter")
        for n, (east, north) in enumerate(spots, 1):
            self.say("spot", "%d.%d" % (number, n))
            self.next_checkpoint("%d.%d.2" % (number, n))
            self.point("%d.%d.1" % (number, n), east, north)
            self.point("%d.%d.2" % (number, n), east, north + 12)
            self.say("end_spot")
        self.say("end_zone")


def street(k):
    """Four lanes along a street that bends a little; two of them with checkpoints, the later waypoint's first."""
    lanes = []
    for lane in range(4):
        if k % 2 == 0:
            points = [(x, 40 * (k // 2) + 4 * lane + 3 * math.sin(x / 90 + k)) for x in range(0, 1001, 50)]
        else:
            points = [(40 * (k // 2) + 4 * lane + 3 * math.sin(y / 90 + k), y) for y in range(0, 961, 60)]
        lanes.append((points, [9, 4] if lane == k % 4 else []))
    return lanes


def yard():
    y = Yard()
    streets, zones = 48, 6
    y.say("RNDF_name", "big_yard")
    y.say("num_segments", streets + 2)
    y.say("num_zones", zones)
    for k in range(streets):
        y.segment(k + 1, NAMES[k] if k < len(NAMES) else "Street_%d" % (k + 1) if k % 3 else None, street(k))
    y.segment(streets + 1, "Stand", [([(1040, 20 * n)], [1, 1] if n == 3 else []) for n in range(12)])
    y.segment(streets + 2, None, [([(1060, 0), (1060, 960)], [2])])
    square = [(0, 0), (0, 150), (190, 150), (190, 0)]
    for z in range(zones):
        east, north = 1100 + 220 * (z % 2), 330 * (z // 2)
        perimeter = square if z < 4 else square[: 6 - z]
        spots = [(east + 15 + 20 * (s % 8), north + 20 + 45 * (s // 8)) for s in range(12)] if z in (1, 2, 5) else []
        y.zone(streets + 3 + z, 'Lot_"%d"<i>' % z if z % 2 else None, [(east + a, north + b) for a, b in perimeter], spots)
    y.say("end_file")
    return "\n".join(y.lines) + "\n"


if __name__ == "__main__":
    print(yard(), end="")
