// The map: Leaflet for the view (moving, zooming, keys), painter.js for what is drawn. It tells of clicks and shows what lies under the pointer; names go into it as text.
"use strict";

class YardMap {
    // hooks: picked(feature), pointed(point row), describe(feature) in lines, drawn()
    constructor(element, hooks) {
        this.hooks = hooks;
        this.picking = false;            // clicks choose points, not features
        const still = matchMedia("(prefers-reduced-motion: reduce)").matches;
        this.map = L.map(element, { zoomSnap: 0.25, maxZoom: 24, minZoom: 1, attributionControl: false, fadeAnimation: !still, zoomAnimation: !still, doubleClickZoom: true, worldCopyJump: false }).setView([0, 0], 2);
        L.control.scale().addTo(this.map);
        this.painter = new Painter(this.map, () => hooks.drawn());
        this.tip = L.tooltip({ direction: "right", offset: [14, 0], opacity: 1, className: "tip" });
        this.map.on("mousemove", ({ containerPoint }) => this.hover(containerPoint));
        this.map.on("mouseout dragstart zoomstart", () => this.tip.remove());
        this.map.on("click", ({ containerPoint }) => this.click(containerPoint));
        // the layout decides the size: the window, the divider, a panel
        new ResizeObserver(() => this.map.invalidateSize({ animate: false })).observe(element);
    }

    // A network, or null; `fit` brings all of it into view.
    show(network, fit) {
        this.age(false);
        this.painter.setNetwork(network);
        this.tip.remove();
        if (network && fit) this.fit();
    }

    fit() {
        if (!this.painter.network) return;
        this.map.invalidateSize({ animate: false });
        const label = this.painter.network.goals.length ? 64 : 28;       // a goal's label stands on the right of its point
        this.map.fitBounds(this.painter.plane.whole(), { paddingTopLeft: [28, 28], paddingBottomRight: [label, 28], maxZoom: 20, animate: false });
    }

    // The network is of an earlier text: it is shown in grey.
    age(old) {
        this.map.getContainer().classList.toggle("old", old);
    }

    // Marks a feature, and brings it into view if nothing of it is.
    select(feature) {
        const { painter, map } = this;
        painter.select(painter.network ? feature : null);
        if (!feature || !painter.network) return;
        const bounds = painter.plane.bounds(painter.network.runsOf(feature));
        if (!map.getBounds().intersects(bounds)) map.panTo(bounds.getCenter(), { animate: false });
    }

    // A point comes into view if it is not.
    showPoint(row) {
        const { points } = this.painter.network;
        const place = [points[2 * row] / 1e6, points[2 * row + 1] / 1e6];
        if (!this.map.getBounds().contains(place)) this.map.panTo(place, { animate: false });
    }

    pick(on) {
        this.picking = on;
        this.map.getContainer().classList.toggle("picking", on);
    }

    // ## What the pointer does

    hover(place) {
        cancelAnimationFrame(this.frame);
        this.frame = requestAnimationFrame(() => {
            const found = this.under(place);
            this.map.getContainer().classList.toggle("over-feature", !!found);
            if (!found) {
                this.tip.remove();
                return;
            }
            const label = document.createElement("div");
            label.textContent = this.hooks.describe(found).join("\n");
            this.tip.setContent(label).setLatLng(this.map.containerPointToLatLng(place));
            if (!this.map.hasLayer(this.tip)) this.tip.addTo(this.map);
        });
    }

    under(place) {
        if (!this.picking) return this.painter.featureAt(place);
        const row = this.painter.pointAt(place, 16);
        return row < 0 ? null : { kind: "point", row };
    }

    click(place) {
        const found = this.under(place);
        if (this.picking && found) this.hooks.pointed(found.row);
        else if (!this.picking) this.hooks.picked(found);
    }
}
