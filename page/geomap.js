// A .geojson of a yard, as run-map writes it (docs/GEOJSON.md), by Leaflet's own layers.
"use strict";

const GeoMap = (() => {
    const KINDS = {
        perimeter: { color: "#b45309", weight: 2, fillOpacity: 0.13, radius: 6 },
        lane: { color: "#1f6feb", weight: 3, fillOpacity: 1, radius: 4 },
        checkpoint: { color: "#b3123c", weight: 1, fillOpacity: 0.9, radius: 5 },
    };
    const OTHER = { color: "#555555", weight: 2, fillOpacity: 0.3, radius: 4 };
    const styleOf = (feature) => KINDS[(feature.properties || {}).kind] || OTHER;

    // `lane 1.1`, the name, the number, each on its line.
    function labelOf(properties) {
        const lines = [[properties.kind, properties.id].filter((word) => word !== undefined).join(" ")];
        if (properties.name !== undefined) lines.push(String(properties.name));
        if (properties.number !== undefined) lines.push("checkpoint number " + properties.number);
        const label = document.createElement("div");
        label.textContent = lines.join("\n");
        return label;
    }

    function layer(collection) {
        if (!collection || collection.type !== "FeatureCollection" || !Array.isArray(collection.features)) throw new Error("no FeatureCollection");
        const renderer = L.canvas();
        return L.geoJSON(collection, {
            style: (feature) => ({ ...styleOf(feature), renderer }),
            pointToLayer: (feature, place) => L.circleMarker(place, { ...styleOf(feature), renderer }),
            onEachFeature: (feature, one) => one.bindTooltip(() => labelOf(feature.properties || {}), { sticky: true, className: "tip" }),
        });
    }

    return { layer };
})();
