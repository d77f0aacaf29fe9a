// A canvas of a Leaflet map that covers the view and some more, and is painted again when the view has moved; and a brush for it. Painting is a generator: it yields where a frame has had its share, so that
// the page goes on however much there is to draw.
"use strict";

const Sheet = L.Renderer.extend({
    options: { padding: 0.2, paint: null },
    _initContainer() {
        this._container = document.createElement("canvas");
        this._container.setAttribute("aria-hidden", "true");
    },
    _destroyContainer() {
        cancelAnimationFrame(this._frame);
        this._container.remove();
        this._container = null;
    },
    _update() {
        if (!this._map || (this._map._animatingZoom && this._bounds)) return;
        L.Renderer.prototype._update.call(this);
        const size = this._bounds.getSize(), dense = window.devicePixelRatio || 1;
        L.DomUtil.setPosition(this._container, this._bounds.min);
        this._container.width = Math.round(size.x * dense);
        this._container.height = Math.round(size.y * dense);
        this._container.style.width = size.x + "px";
        this._container.style.height = size.y + "px";
        this.repaint();
    },
    // What was begun before is dropped; `whole`: without a break.
    repaint(whole) {
        cancelAnimationFrame(this._frame);
        if (!this._map || !this._bounds) return;
        const dense = window.devicePixelRatio || 1, size = this._bounds.getSize();
        const context = this._container.getContext("2d");
        context.setTransform(dense, 0, 0, dense, 0, 0);
        context.clearRect(0, 0, size.x, size.y);
        const origin = this._map.getPixelOrigin().add(this._bounds.min), scale = this._map.options.crs.scale(this._map.getZoom());
        const steps = this.options.paint(context, { scale, x: origin.x, y: origin.y, width: size.x, height: size.y });
        const go = () => {
            let step = steps.next();
            while (!step.done && whole) step = steps.next();
            if (!step.done) this._frame = requestAnimationFrame(go);
            this.finished = !!step.done;
        };
        this.finished = false;
        go();
    },
});

class Brush {
    // `share`: pixels of lines in one frame. A browser that draws without a graphics card needs some 50 ms for 150,000 thin ones.
    constructor(context, view, plane, share) {
        Object.assign(this, { context, view, plane, share, ink: 0 });
        this.west = view.x / view.scale;
        this.north = view.y / view.scale;
        this.east = (view.x + view.width) / view.scale;
        this.south = (view.y + view.height) / view.scale;
        context.lineJoin = context.lineCap = "round";
    }

    // ## Points by their rows

    X(p) {
        return this.plane.x[p] * this.view.scale - this.view.x;
    }

    Y(p) {
        return this.plane.y[p] * this.view.scale - this.view.y;
    }

    seen(boxes, i) {
        return boxes[4 * i] <= this.east && boxes[4 * i + 2] >= this.west && boxes[4 * i + 1] <= this.south && boxes[4 * i + 3] >= this.north;
    }

    inView(p) {
        const { x, y } = this.plane;
        return x[p] >= this.west && x[p] <= this.east && y[p] >= this.north && y[p] <= this.south;
    }

    // The pixels of a line from a to b, none where it passes by the view.
    inkOf(a, b) {
        const { x, y } = this.plane;
        if (Math.max(x[a], x[b]) < this.west || Math.min(x[a], x[b]) > this.east || Math.max(y[a], y[b]) < this.north || Math.min(y[a], y[b]) > this.south) return 0;
        return Math.min(this.view.width + this.view.height, (Math.abs(x[a] - x[b]) + Math.abs(y[a] - y[b])) * this.view.scale) + 1;
    }

    inkOfRun(first, count) {
        let ink = 0;
        for (let p = first + 1; p < first + count; p++) ink += this.inkOf(p - 1, p);
        return ink;
    }

    // ## Lines

    // Strokes the lane, perimeter or spot in a row, by its first point and how many it has. Where one in `every` is drawn, of a long one these are points, of short ones whole ones. What falls on the same pixel
    // as the last point is left out.
    *run(row, first, count, every, closed, fill) {
        const { context } = this;
        const step = count > 4 * every ? every : 1;
        if (step < every && row % every) return;
        let last = first, lastX = this.X(first), lastY = this.Y(first);
        context.beginPath();
        context.moveTo(lastX, lastY);
        for (let p = first + step; p < first + count; p += step) {
            const px = this.X(p), py = this.Y(p);
            if (Math.abs(px - lastX) + Math.abs(py - lastY) < 0.7 && p + step < first + count) continue;
            const more = this.inkOf(last, p);
            if (more || fill) context.lineTo(px, py);
            else context.moveTo(px, py);
            [last, lastX, lastY] = [p, px, py];
            this.ink += more;
            if (this.ink > this.share && !fill) {
                context.stroke();
                yield* this.rest();
                context.beginPath();
                context.moveTo(px, py);
            }
        }
        if (count === 1) context.lineTo(lastX + 0.01, lastY);
        if (closed) context.lineTo(this.X(first), this.Y(first));
        if (fill) context.fill();
        context.stroke();
        if (this.ink > this.share) yield* this.rest();
    }

    *rest() {
        yield;
        this.ink = 0;
    }

    // Through any points.
    through(points, style, wide, dash = []) {
        const { context } = this;
        context.strokeStyle = style;
        context.lineWidth = wide;
        context.setLineDash(dash);
        context.beginPath();
        points.forEach((p, i) => (i ? context.lineTo(this.X(p), this.Y(p)) : context.moveTo(this.X(p), this.Y(p))));
        context.stroke();
        context.setLineDash([]);
    }

    // ## Marks on a point

    dot(p, radius, colour) {
        this.context.fillStyle = colour;
        this.context.beginPath();
        this.context.arc(this.X(p), this.Y(p), radius, 0, 7);
        this.context.fill();
    }

    ring(p, radius, colour, wide, fill) {
        const { context } = this;
        context.strokeStyle = colour;
        context.lineWidth = wide;
        context.beginPath();
        context.arc(this.X(p), this.Y(p), radius, 0, 7);
        if (fill) {
            context.fillStyle = fill;
            context.fill();
        }
        context.stroke();
    }

    square(p, half, colour) {
        this.context.fillStyle = colour;
        this.context.fillRect(this.X(p) - half, this.Y(p) - half, 2 * half, 2 * half);
    }

    // An arrow in the middle of the line from point p to the next.
    arrow(p, colour) {
        const { context } = this;
        context.save();
        context.translate((this.X(p) + this.X(p + 1)) / 2, (this.Y(p) + this.Y(p + 1)) / 2);
        context.rotate(Math.atan2(this.Y(p + 1) - this.Y(p), this.X(p + 1) - this.X(p)));
        context.fillStyle = colour;
        context.beginPath();
        context.moveTo(7, 0);
        context.lineTo(-5, -5);
        context.lineTo(-5, 5);
        context.fill();
        context.restore();
    }
}
