// An accepted network as the page asks for it: identifiers of rows and rows of identifiers, names, limits, and which part stands in a line of the text. Over the tables that the library filled
// (include/kastepuhm.h has their columns) and the lines that lines.js found. In the page and in the tests (node).
"use strict";

const Network = (() => {
    const NO_WIDTH = 65535;
    const BOUNDARIES = [null, "double_yellow", "solid_yellow", "solid_white", "broken_white"];
    const counted = (n, word) => n.toLocaleString("en") + " " + word + (n === 1 ? "" : "s");

    // The last row whose number is not above `value`; -1 if there is none. `of(row)` grows with the row.
    function lastBelow(rows, of, value) {
        let low = 0, high = rows;
        while (low < high) {
            const middle = (low + high) >> 1;
            if (of(middle) <= value) low = middle + 1;
            else high = middle;
        }
        return low - 1;
    }

    // The row whose number this is, or -1.
    function rowIn(list, value) {
        const row = lastBelow(list.length, (i) => list[i], value);
        return row >= 0 && list[row] === value ? row : -1;
    }

    return class Network {
        // `nameAt(start, length)` gives the characters of a name in the RNDF; `lines` are null where the text has none to link (packed bytes).
        constructor(answer, lines, nameAt) {
            this.answer = answer;
            this.lines = lines;
            this.nameAt = nameAt;
            Object.assign(this, answer.tables);     // segments, lanes, ..
            this.goals = this.goals || new Uint32Array(0);
            this.limits = this.limits || new Uint32Array(0);
            this.pointCount = this.points.length / 2;
            this.limitOf = new Map();
            for (let i = 0; i < this.limits.length; i += 3) this.limitOf.set(this.limits[i], [this.limits[i + 1], this.limits[i + 2], i / 3]);
            this.checkpointOf = new Map();           // by number
            for (let i = 0; i < this.checkpoints.length; i += 2) this.checkpointOf.set(this.checkpoints[i], i / 2);
        }

        // ## Identifiers

        laneId(row) {
            const segment = lastBelow(this.segments.length / 4, (i) => this.segments[4 * i], row);
            return [segment + 1, row - this.segments[4 * segment] + 1];
        }

        zoneId(row) {
            return this.segments.length / 4 + row + 1;
        }

        // Zones without spots say 0 as their first spot, so the zone is the one whose spots the row is among.
        spotId(row) {
            if (!this.spotZones) {
                this.spotZones = new Uint32Array(this.spots.length / 2);
                for (let zone = 0; 6 * zone < this.zones.length; zone++) this.spotZones.fill(zone, this.zones[6 * zone + 2], this.zones[6 * zone + 2] + this.zones[6 * zone + 3]);
            }
            const zone = this.spotZones[row];
            return [this.zoneId(zone), row - this.zones[6 * zone + 2] + 1];
        }

        // Which part a point is of, and which of its points it is, from 0.
        partOf(point) {
            const lane = lastBelow(this.lanes.length / 5, (i) => this.lanes[5 * i], point);
            if (lane >= 0 && point < this.lanes[5 * lane] + this.lanes[5 * lane + 1]) return { kind: "lane", row: lane, place: point - this.lanes[5 * lane] };
            const spot = lastBelow(this.spots.length / 2, (i) => this.spots[2 * i], point);
            if (spot >= 0 && point < this.spots[2 * spot] + 2) return { kind: "spot", row: spot, place: point - this.spots[2 * spot] };
            const zone = lastBelow(this.zones.length / 6, (i) => this.zones[6 * i], point);
            return { kind: "perimeter", row: zone, place: point - this.zones[6 * zone] };
        }

        // `1.2.3`, of a perimeter `5.0.1`
        pointId(point) {
            const { kind, row, place } = this.partOf(point);
            const front = kind === "lane" ? this.laneId(row) : kind === "spot" ? this.spotId(row) : [this.zoneId(row), 0];
            return [...front, place + 1].join(".");
        }

        // The row of the point with this identifier, or -1.
        pointRow(id) {
            const found = /^([1-9]\d{0,4})\.(0|[1-9]\d{0,4})\.([1-9]\d{0,4})$/.exec(id);
            if (!found) return -1;
            const [x, y, z] = found.slice(1).map(Number);
            const segments = this.segments.length / 4;
            const within = (first, count) => (z <= count ? first + z - 1 : -1);
            if (x <= segments) {
                if (y < 1 || y > this.segments[4 * (x - 1) + 1]) return -1;
                const lane = 5 * (this.segments[4 * (x - 1)] + y - 1);
                return within(this.lanes[lane], this.lanes[lane + 1]);
            }
            const zone = 6 * (x - segments - 1);
            if (zone >= this.zones.length) return -1;
            if (y === 0) return within(this.zones[zone], this.zones[zone + 1]);
            return y <= this.zones[zone + 3] ? within(this.spots[2 * (this.zones[zone + 2] + y - 1)], 2) : -1;
        }

        // ## In words

        segmentName(segment) {
            return this.nameAt(this.segments[4 * segment + 2], this.segments[4 * segment + 3]);
        }

        zoneName(zone) {
            return this.nameAt(this.zones[6 * zone + 4], this.zones[6 * zone + 5]);
        }

        limitWords(id) {
            const limit = this.limitOf.get(id);
            if (!limit) return null;
            const [least, most] = limit;
            if (!least && !most) return "no speed limit";
            return !least ? "up to " + most + " mph" : !most ? "at least " + least + " mph" : least + " to " + most + " mph";
        }

        goalsOf(number) {
            if (!this.goalPlaces) {
                this.goalPlaces = new Map();
                this.goals.forEach((goal, i) => {
                    if (!this.goalPlaces.has(goal)) this.goalPlaces.set(goal, []);
                    this.goalPlaces.get(goal).push(i + 1);
                });
            }
            return this.goalPlaces.get(number) || [];
        }

        // The point of the goal in this row.
        goalPoint(row) {
            return this.checkpoints[2 * this.checkpointOf.get(this.goals[row]) + 1];
        }

        // What is shown where the pointer rests, a line each.
        describe({ kind, row }) {
            const width = (feet) => (feet === NO_WIDTH ? null : feet + " ft wide");
            if (kind === "lane") {
                const [segment, lane] = this.laneId(row);
                const left = BOUNDARIES[this.lanes[5 * row + 3]], right = BOUNDARIES[this.lanes[5 * row + 4]];
                return ["lane " + segment + "." + lane, this.segmentName(segment - 1), counted(this.lanes[5 * row + 1], "waypoint"), width(this.lanes[5 * row + 2]), left && "left " + left, right && "right " + right,
                    this.limitWords(segment)].filter(Boolean);
            }
            if (kind === "perimeter") {
                const id = this.zoneId(row);
                return ["zone " + id, this.zoneName(row), counted(this.zones[6 * row + 1], "perimeter point"), counted(this.zones[6 * row + 3], "spot"), this.limitWords(id)].filter(Boolean);
            }
            if (kind === "spot") {
                const [zone, spot] = this.spotId(row);
                return ["spot " + zone + "." + spot, width(this.spots[2 * row + 1]), this.limitWords(zone)].filter(Boolean);
            }
            if (kind === "checkpoint") {
                const goals = this.goalsOf(this.checkpoints[2 * row]);
                return ["checkpoint " + this.checkpoints[2 * row], "on " + this.pointId(this.checkpoints[2 * row + 1]), goals.length ? "goal " + listed(goals) + " of the mission" : null].filter(Boolean);
            }
            if (kind === "exit") return ["exit " + this.pointId(this.exits[2 * row]) + " to " + this.pointId(this.exits[2 * row + 1])];
            if (kind === "stop") return ["stop at " + this.pointId(this.stops[row])];
            return ["point " + this.pointId(row)];
        }

        // ## Lines of the text, from 0

        linesOf({ kind, row }) {
            if (!this.lines) return null;
            const one = { checkpoint: "checkpoints", exit: "exits", stop: "stops", point: "points" }[kind];
            if (one) return [this.lines[one][row], this.lines[one][row]];
            const part = this.lines[{ lane: "lanes", perimeter: "perimeters", spot: "spots", segment: "segments", zone: "zones" }[kind]];
            return [part.from[row], part.to[row]];
        }

        // What stands in this line: the smallest part that can be shown on the map, or null.
        featureAt(line) {
            if (!this.lines) return null;
            for (const [kind, list] of [["point", "points"], ["checkpoint", "checkpoints"], ["exit", "exits"], ["stop", "stops"]]) {
                const row = rowIn(this.lines[list], line);
                if (row >= 0) return { kind, row };
            }
            for (const [kind, list] of [["lane", "lanes"], ["spot", "spots"], ["perimeter", "perimeters"], ["segment", "segments"], ["zone", "zones"]]) {
                const { from, to } = this.lines[list];
                const row = lastBelow(from.length, (i) => from[i], line);
                if (row >= 0 && line <= to[row]) return { kind, row };
            }
            return null;
        }

        // And in this line of the mission: a goal's checkpoint, or the segment or zone of a limit.
        featureAtMission(line, lines) {
            if (!lines) return null;
            const goal = rowIn(lines.goals, line), limit = rowIn(lines.limits, line);
            if (goal >= 0) return { kind: "checkpoint", row: this.checkpointOf.get(this.goals[goal]) };
            if (limit < 0) return null;
            const part = this.limits[3 * limit] - 1, segments = this.segments.length / 4;
            return part < segments ? { kind: "segment", row: part } : { kind: "zone", row: part - segments };
        }

        // The points of a feature, as runs of rows: [first, count], ..
        runsOf({ kind, row }) {
            const lane = (i) => [this.lanes[5 * i], this.lanes[5 * i + 1]];
            if (kind === "lane") return [lane(row)];
            if (kind === "segment") return Array.from({ length: this.segments[4 * row + 1] }, (_, i) => lane(this.segments[4 * row] + i));
            if (kind === "perimeter" || kind === "zone") return [[this.zones[6 * row], this.zones[6 * row + 1]]];
            if (kind === "spot") return [[this.spots[2 * row], 2]];
            if (kind === "checkpoint") return [[this.checkpoints[2 * row + 1], 1]];
            if (kind === "stop") return [[this.stops[row], 1]];
            if (kind === "exit") return [[this.exits[2 * row], 1], [this.exits[2 * row + 1], 1]];
            return [[row, 1]];
        }
    };

    // `1, 4, 9`, of many the first
    function listed(numbers) {
        return numbers.length > 8 ? numbers.slice(0, 8).join(", ") + ", .." : numbers.join(", ");
    }
})();

if (typeof module !== "undefined") module.exports = Network;
