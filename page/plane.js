// Where a network lies: its points on the unit square of the map's projection (Web Mercator), boxes around its lanes and zones, and what lies at a place of the square.
"use strict";

class Plane {
    constructor(network) {
        this.network = network;
        const { points, lanes, zones } = network;
        this.x = new Float64Array(network.pointCount);
        this.y = new Float64Array(network.pointCount);
        const most = L.Projection.SphericalMercator.MAX_LATITUDE;
        for (let i = 0; i < network.pointCount; i++) {
            const sine = Math.sin(Math.max(-most, Math.min(most, points[2 * i] / 1e6)) * Math.PI / 180);
            this.x[i] = points[2 * i + 1] / 3.6e8 + 0.5;
            this.y[i] = 0.5 - Math.log((1 + sine) / (1 - sine)) / (4 * Math.PI);
        }
        this.laneRun = (i) => [lanes[5 * i], lanes[5 * i + 1]];          // its first point, and how many
        this.zoneRun = (i) => [zones[6 * i], zones[6 * i + 1]];
        this.laneBoxes = this.boxes(lanes.length / 5, this.laneRun);
        this.zoneBoxes = this.boxes(zones.length / 6, this.zoneRun);
    }

    // West, north, east and south of each; y grows to the south.
    boxes(count, runOf) {
        const boxes = new Float64Array(4 * count);
        for (let i = 0; i < count; i++) {
            const [first, points] = runOf(i);
            let west = Infinity, north = Infinity, east = -Infinity, south = -Infinity;
            for (let p = first; p < first + points; p++) {
                west = Math.min(west, this.x[p]);
                east = Math.max(east, this.x[p]);
                north = Math.min(north, this.y[p]);
                south = Math.max(south, this.y[p]);
            }
            boxes.set([west, north, east, south], 4 * i);
        }
        return boxes;
    }

    // The corners of runs of points in degrees, as Leaflet has them.
    bounds(runs) {
        const { points } = this.network;
        let south = Infinity, west = Infinity, north = -Infinity, east = -Infinity;
        for (const [first, count] of runs) {
            for (let p = 2 * first; p < 2 * (first + count); p += 2) {
                south = Math.min(south, points[p]);
                north = Math.max(north, points[p]);
                west = Math.min(west, points[p + 1]);
                east = Math.max(east, points[p + 1]);
            }
        }
        return L.latLngBounds([[south / 1e6, west / 1e6], [north / 1e6, east / 1e6]]);
    }

    whole() {
        return this.bounds([[0, this.network.pointCount]]);
    }

    // ## What lies at a place; `pixel` is how large one is on the square

    // The nearest within some pixels, a checkpoint before a spot before a lane before a perimeter, else the zone around; or null.
    featureAt(x, y, pixel) {
        const { checkpoints, spots, lanes, zones } = this.network;
        return this.nearestOf(checkpoints, x, y, 9 * pixel)
            || this.nearestRun("spot", spots.length / 2, (i) => [spots[2 * i], 2], null, x, y, 7 * pixel, false)
            || this.nearestRun("lane", lanes.length / 5, this.laneRun, this.laneBoxes, x, y, 8 * pixel, false)
            || this.nearestRun("perimeter", zones.length / 6, this.zoneRun, this.zoneBoxes, x, y, 8 * pixel, true)
            || this.zoneAround(x, y);
    }

    // The row of the nearest point, whatever it is of, or -1.
    pointAt(x, y, near) {
        let best = near, row = -1;
        for (let p = 0; p < this.x.length; p++) {
            if (Math.abs(this.x[p] - x) > best) continue;
            const away = Math.hypot(this.x[p] - x, this.y[p] - y);
            if (away < best) { best = away; row = p; }
        }
        return row;
    }

    // The last of those nearest, since it is drawn on top.
    nearestOf(checkpoints, x, y, near) {
        let best = near, row = -1;
        for (let i = 0; i < checkpoints.length; i += 2) {
            const away = Math.hypot(this.x[checkpoints[i + 1]] - x, this.y[checkpoints[i + 1]] - y);
            if (away <= best) { best = away; row = i / 2; }
        }
        return row < 0 ? null : { kind: "checkpoint", row };
    }

    nearestRun(kind, count, runOf, boxes, x, y, near, closed) {
        let best = near, row = -1;
        for (let i = 0; i < count; i++) {
            if (boxes && (boxes[4 * i] - near > x || boxes[4 * i + 2] + near < x || boxes[4 * i + 1] - near > y || boxes[4 * i + 3] + near < y)) continue;
            const [first, points] = runOf(i);
            for (let k = 0; k < points; k++) {
                const away = this.away(x, y, first + k, k + 1 < points ? first + k + 1 : closed ? first : first + k);
                if (away < best) { best = away; row = i; }
            }
        }
        return row < 0 ? null : { kind, row };
    }

    // How far a place is from the line from point a to point b.
    away(x, y, a, b) {
        const dx = this.x[b] - this.x[a], dy = this.y[b] - this.y[a], long = dx * dx + dy * dy;
        const along = long ? Math.max(0, Math.min(1, ((x - this.x[a]) * dx + (y - this.y[a]) * dy) / long)) : 0;
        return Math.hypot(x - this.x[a] - along * dx, y - this.y[a] - along * dy);
    }

    zoneAround(x, y) {
        for (let i = 0; 4 * i < this.zoneBoxes.length; i++) {
            if (this.zoneBoxes[4 * i] > x || this.zoneBoxes[4 * i + 2] < x || this.zoneBoxes[4 * i + 1] > y || this.zoneBoxes[4 * i + 3] < y) continue;
            const [first, count] = this.zoneRun(i);
            let within = false;
            for (let a = first, b = first + count - 1; a < first + count; b = a++) {
                if (this.y[a] > y !== this.y[b] > y && x < (this.x[b] - this.x[a]) * (y - this.y[a]) / (this.y[b] - this.y[a]) + this.x[a]) within = !within;
            }
            if (within) return { kind: "perimeter", row: i };
        }
        return null;
    }
}
