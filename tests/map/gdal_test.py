"""gdal_test.py MAP FOLDER: GDAL reads MAP as we mean it (layers, features, types, extent, fields), and writes it to another format and back with every position and property."""

import json
import re
import subprocess
import sys


def positions(coordinates):
    if isinstance(coordinates[0], list):
        return [p for part in coordinates for p in positions(part)]
    return [tuple(coordinates)]


def run(*words):
    return subprocess.run(words, check=True, capture_output=True, text=True).stdout


def key(feature):
    p = feature["properties"]
    return (p["kind"], p["id"], p.get("name"), p.get("number"), feature["geometry"]["type"], json.dumps(feature["geometry"]["coordinates"]))


def main(path, folder):
    with open(path) as f:
        features = json.load(f)["features"]
    said = run("ogrinfo", "-al", "-so", path)
    count = int(re.search(r"Feature Count: (\d+)", said).group(1))
    assert count == len(features), (count, len(features))
    low_x, low_y, high_x, high_y = map(float, re.search(r"Extent: \((\S+), (\S+)\) - \((\S+), (\S+)\)", said).groups())
    xs, ys = zip(*(p for f in features for p in positions(f["geometry"]["coordinates"])))
    assert (low_x, low_y, high_x, high_y) == (min(xs), min(ys), max(xs), max(ys)), said
    fields = dict(re.findall(r"^(kind|id|name|number): (\w+)", said, re.M))
    assert fields == {"kind": "String", "id": "String", "name": "String", "number": "Integer"}, fields
    print("ogrinfo: one layer of %d features, its extent and fields as they should be" % count)
    run("ogr2ogr", "-f", "GPKG", folder + "/there.gpkg", path, "-nln", "yard")
    run("ogr2ogr", "-f", "GeoJSON", "-lco", "COORDINATE_PRECISION=6", folder + "/back.geojson", folder + "/there.gpkg", "yard")
    with open(folder + "/back.geojson") as f:
        back = json.load(f)["features"]
    for f in back:
        f["properties"] = {k: v for k, v in f["properties"].items() if v is not None}
    assert [key(f) for f in back] == [key(f) for f in features], "there and back changed something"
    print("ogr2ogr: to a GeoPackage and back without a change")


if __name__ == "__main__":
    main(*sys.argv[1:])
