// Draws a network on three canvases of a Leaflet map (sheet.js): what is selected, as a halo; above it the yard; above that the goals, a route, a start, a goal that is missed. Straight from the tables, since
// 500,000 points as Leaflet's own layers would take minutes. Where there is more than a screen can show, a part is left out, and `simplified` says so.
"use strict";

const Painter = (() => {
    const MOST_INK = 3e6;            // pixels of lines in all: more can't be told apart
    const SHARE = 150000;            // and in one frame
    const MOST_HALO = 300000, HALO_SHARE = 30000;        // wide lines cost more
    const MOST_DOTS = 4000, MANY_CHECKPOINTS = 3000, MANY_GOALS = 100;
    const COLOUR = { lane: "#1f6feb", perimeter: "#b45309", fill: "rgba(217, 119, 6, .13)", spot: "#8a5a00", checkpoint: "#b3123c", exit: "#6b7280", stop: "#111827", point: "#174ea6", later: "#9aa3ad",
        halo: "#ffc400", good: "#0a7d36", bad: "#d1001f", start: "#0a7d36", goal: "#111827" };

    return class Painter {
        constructor(map, changed) {
            this.map = map;
            this.changed = changed;          // what is said of the drawing has changed
            this.network = null;
            this.plane = null;
            this.exits = true;
            this.selected = null;
            this.route = { points: [], bad: -1 };
            this.start = -1;
            this.missed = -1;
            this.simplified = "";
            const sheet = (pane, share, paint) => new Sheet({ pane, paint: (context, view) => (this.network ? paint(new Brush(context, view, this.plane, share)) : [].values()) }).addTo(map);
            this.below = sheet("tilePane", HALO_SHARE, (brush) => this.paintSelected(brush));
            this.base = sheet("overlayPane", SHARE, (brush) => this.paintYard(brush));
            this.above = sheet("markerPane", SHARE, (brush) => this.paintAbove(brush));
        }

        // ## What is drawn

        setNetwork(network) {
            this.network = network;
            this.plane = network && new Plane(network);
            this.selected = null;
            this.simplified = "";
            this.changed();
            this.repaint();
        }

        repaint(whole) {
            for (const sheet of [this.below, this.base, this.above]) sheet.repaint(whole);
        }

        select(feature) {
            if (!this.selected && !feature) return;
            this.selected = feature;
            this.below.repaint();
        }

        // The route, the start, the goal that is missed.
        setAbove(what) {
            Object.assign(this, what);
            this.above.repaint();
        }

        // ## The yard

        *paintYard(brush) {
            const many = this.amount(brush);
            this.say(many);
            if (many.thin) Object.assign(brush.context, { lineCap: "butt", lineJoin: "bevel" });
            yield* this.paintZones(brush, many);
            if (this.exits) yield* this.paintExits(brush, many);
            yield* this.paintLanes(brush, many);
            yield* this.paintSpots(brush, many);
            if (many.dots <= MOST_DOTS) this.paintPoints(brush, many);
            yield* this.paintCheckpoints(brush, many);
        }

        // How much there is in view, and what follows from that: one in how many is drawn, and how wide.
        amount(brush) {
            const { network, plane } = this;
            let points = 0, ink = 0, exitInk = 0, dots = 0;
            for (const [boxes, runOf] of [[plane.laneBoxes, plane.laneRun], [plane.zoneBoxes, plane.zoneRun]]) {
                for (let i = 0; 4 * i < boxes.length; i++) {
                    if (!brush.seen(boxes, i)) continue;
                    points += runOf(i)[1];
                    ink += brush.inkOfRun(...runOf(i));
                }
            }
            for (let i = 0; i < network.exits.length; i += 2) exitInk += brush.inkOf(network.exits[i], network.exits[i + 1]);
            for (let p = 0; p < network.pointCount && dots <= MOST_DOTS; p++) if (brush.inView(p)) dots++;
            const thin = ink > MOST_INK / 4;
            // lanes about as wide as they are, within reason
            const metre = brush.view.scale / (40075016 * Math.max(0.1, Math.cos(this.map.getCenter().lat * Math.PI / 180)));
            const wide = thin ? 1 : Math.max(1.2, Math.min(3.5, 3 * metre));
            return { points, dots, thin, wide, mark: wide < 2 ? 3 : 5, every: Math.max(1, Math.ceil(ink / MOST_INK)), everyExit: Math.max(1, Math.ceil(exitInk / MOST_INK)) };
        }

        say({ points, every, everyExit }) {
            const parts = [...(every > 1 ? ["of " + points.toLocaleString("en") + " points one in " + every] : []), ...(everyExit > 1 && this.exits ? ["of the exits one in " + everyExit] : [])];
            this.simplified = parts.length ? "Simplified: " + parts.join(", ") + " is drawn; zoom in to see more." : "";
            this.changed();
        }

        *paintZones(brush, { every, thin }) {
            const { context } = brush;
            const { zoneBoxes, zoneRun } = this.plane;
            context.fillStyle = COLOUR.fill;
            context.strokeStyle = COLOUR.perimeter;
            for (let i = 0; 4 * i < zoneBoxes.length; i++) {
                if (!brush.seen(zoneBoxes, i)) continue;
                const [first, count] = zoneRun(i);
                context.lineWidth = count === 1 ? 8 : thin ? 1 : 2;
                yield* brush.run(i, first, count, every, true, zoneBoxes.length < 2000 && count < 500);
            }
        }

        *paintExits(brush, { everyExit, thin }) {
            const { exits } = this.network;
            for (let i = 0; i < exits.length; i += 2 * everyExit) {
                const more = brush.inkOf(exits[i], exits[i + 1]);
                if (!more) continue;
                brush.through([exits[i], exits[i + 1]], COLOUR.exit, 1, thin || everyExit > 1 ? [] : [4, 3]);
                if ((brush.ink += more + 20) > brush.share) yield* brush.rest();
            }
        }

        *paintLanes(brush, { every, wide, mark }) {
            const { laneBoxes, laneRun } = this.plane;
            brush.context.strokeStyle = COLOUR.lane;
            brush.context.lineWidth = wide;
            for (let i = 0; 4 * i < laneBoxes.length; i++) {
                if (!brush.seen(laneBoxes, i)) continue;
                const [first, count] = laneRun(i);
                yield* brush.run(i, first, count, every, false, false);
                if (count === 1) brush.dot(first, mark - 1, COLOUR.lane);
            }
        }

        *paintSpots(brush, { every, thin, wide }) {
            const { spots } = this.network;
            brush.context.strokeStyle = COLOUR.spot;
            brush.context.lineWidth = thin ? 1 : wide + 1;
            for (let i = 0; i < spots.length; i += 2) {
                if (!brush.inkOf(spots[i], spots[i] + 1)) continue;
                brush.ink += 40;
                yield* brush.run(i / 2, spots[i], 2, every, false, false);
            }
        }

        // Points, the way that lanes go, and stops, where these are not too dense.
        paintPoints(brush, { dots, mark }) {
            const { network, plane } = this;
            const apart = Math.sqrt(brush.view.width * brush.view.height / Math.max(1, dots)) / 3;       // pixels, about
            for (let p = 0; p < network.pointCount && apart > 7; p++) if (brush.inView(p)) brush.ring(p, apart > 16 ? 2.6 : 1.7, COLOUR.point, 1.2, "#fff");
            for (let i = 0; 4 * i < plane.laneBoxes.length && apart > 18; i++) if (brush.seen(plane.laneBoxes, i)) this.paintArrow(brush, ...plane.laneRun(i));
            for (const p of network.stops) if (brush.inView(p)) brush.square(p, mark - 0.5, COLOUR.stop);
        }

        // On the lane's longest step, the first of equal ones, if it has room.
        paintArrow(brush, first, count) {
            let longest = 24, place = -1;
            for (let p = first; p < first + count - 1; p++) {
                const long = Math.hypot(brush.X(p + 1) - brush.X(p), brush.Y(p + 1) - brush.Y(p));
                if (long > longest) { longest = long * 1.01; place = p; }
            }
            if (place >= 0) brush.arrow(place, COLOUR.point);
        }

        *paintCheckpoints(brush, { dots, mark }) {
            const { checkpoints } = this.network;
            const few = checkpoints.length / 2 <= MANY_CHECKPOINTS || dots <= MOST_DOTS;
            for (let i = 1, n = 0; i < checkpoints.length; i += 2) {
                if (!brush.inView(checkpoints[i])) continue;
                if (few) brush.dot(checkpoints[i], mark, COLOUR.checkpoint);
                else brush.square(checkpoints[i], 1.5, COLOUR.checkpoint);
                if (++n % 2000 === 0) yield* brush.rest();
            }
        }

        // ## What is selected

        *paintSelected(brush) {
            if (!this.selected) return;
            const { kind } = this.selected;
            const runs = this.network.runsOf(this.selected);
            if (kind === "exit") {
                brush.through([runs[0][0], runs[1][0]], COLOUR.halo, 9);
                return;
            }
            const every = Math.max(1, Math.ceil(runs.reduce((ink, run) => ink + brush.inkOfRun(...run), 0) / MOST_HALO));
            brush.context.strokeStyle = COLOUR.halo;
            brush.context.lineWidth = every > 1 ? 6 : 13;
            for (let i = 0; i < runs.length; i++) {
                if (runs[i][1] === 1) brush.dot(runs[i][0], 13, COLOUR.halo);
                else yield* brush.run(i, ...runs[i], every, kind === "perimeter" || kind === "zone", false);
            }
        }

        // ## Goals, a route, a start

        *paintAbove(brush) {
            this.paintRoute(brush);
            this.paintGoals(brush);
            if (this.start >= 0) {
                brush.ring(this.start, 10, COLOUR.start, 4);
                brush.dot(this.start, 3, COLOUR.start);
            }
            if (this.missed >= 0) brush.ring(this.missed, 14, COLOUR.bad, 4);
        }

        // Good up to the first step that is no move, which is marked; what follows it was not judged.
        paintRoute(brush) {
            const { points, bad } = this.route;
            if (!points.length) return;
            brush.through(bad < 0 ? points : points.slice(0, bad), COLOUR.good, 6);
            if (bad > 0) {
                brush.through(points.slice(bad), COLOUR.later, 4);
                brush.through([points[bad - 1], points[bad]], COLOUR.bad, 6, [10, 7]);
                brush.ring(points[bad], 10, COLOUR.bad, 3);
            }
            points.forEach((p, i) => brush.dot(p, i ? 3.5 : 6, bad < 0 || i < bad ? COLOUR.good : i === bad ? COLOUR.bad : COLOUR.later));
        }

        // Beside their points, numbered in the order in which they are to be met; several on one point in one label. Of many, a label that would cover another is left out.
        paintGoals(brush) {
            const { context } = brush;
            const labels = this.goalLabels(), taken = new Set();
            context.font = "bold 12px sans-serif";
            context.textBaseline = "middle";
            for (const [point, words] of labels) {
                if (!brush.inView(point)) continue;
                const wide = context.measureText(words).width + 8, left = brush.X(point) + 8, top = brush.Y(point) - 8;
                if (labels.size > MANY_GOALS) {
                    const cells = [0, 1, 2, 3].flatMap((i) => [0, 15].map((j) => Math.floor((left + i * wide / 3) / 12) + " " + Math.floor((top + j) / 16)));
                    if (cells.some((cell) => taken.has(cell))) continue;
                    cells.forEach((cell) => taken.add(cell));
                }
                context.fillStyle = COLOUR.goal;
                context.fillRect(left, top, wide, 16);
                context.fillStyle = "#fff";
                context.fillText(words, left + 4, top + 8.5);
            }
        }

        // Point to label: `1`, `2, 5`, of many the first three.
        goalLabels() {
            const { network } = this;
            if (!network) return new Map();
            if (network.labels) return network.labels;
            const places = new Map();
            network.goals.forEach((_, i) => {
                const point = network.goalPoint(i);
                if (!places.has(point)) places.set(point, []);
                places.get(point).push(i + 1);
            });
            network.labels = new Map([...places].map(([point, list]) => [point, list.length > 3 ? list.slice(0, 3).join(", ") + " .." : list.join(", ")]));
            return network.labels;
        }

        // ## What is there

        // A place of the map's container on the plane, and how large a pixel is there.
        placed(place) {
            const scale = this.map.options.crs.scale(this.map.getZoom()), at = this.map.containerPointToLayerPoint(place).add(this.map.getPixelOrigin());
            return [at.x / scale, at.y / scale, 1 / scale];
        }

        featureAt(place) {
            return this.plane && this.plane.featureAt(...this.placed(place));
        }

        pointAt(place, pixels) {
            const [x, y, pixel] = this.placed(place);
            return this.plane ? this.plane.pointAt(x, y, pixels * pixel) : -1;
        }
    };
})();
