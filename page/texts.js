// Bytes of a file and the characters that the editor shows. A text that is good UTF-8 is shown as such; of any other each byte is a character, so that nothing is lost. A text that can be accepted is
// ASCII, and both are then the same. In the page, its worker and the tests (node).
"use strict";

const Texts = (() => {
    const LONGEST = 16777215;        // a longer one is refused, whatever it holds

    // { text, encoding }; in a given encoding, or in the one that fits.
    function decode(bytes, encoding) {
        try {
            if (encoding !== "bytes") return { text: new TextDecoder("utf-8", { fatal: true, ignoreBOM: true }).decode(bytes), encoding: "utf-8" };
        } catch {
            // no UTF-8
        }
        const parts = [];
        for (let at = 0; at < bytes.length; at += 8192) parts.push(String.fromCharCode(...bytes.subarray(at, at + 8192)));
        return { text: parts.join(""), encoding: "bytes" };
    }

    // What is typed above 255 goes into a text of bytes as UTF-8.
    function encode(text, encoding) {
        if (encoding !== "bytes") return new TextEncoder().encode(text);
        const bytes = new Uint8Array(3 * text.length);
        const encoder = new TextEncoder();
        let length = 0;
        for (const sign of text) {
            if (sign.charCodeAt(0) < 256) bytes[length++] = sign.charCodeAt(0);
            else length += encoder.encodeInto(sign, bytes.subarray(length)).written;
        }
        return bytes.slice(0, length);
    }

    // How many lines a text has, and how long the longest is.
    function shapeOf(bytes) {
        let lines = 1, longest = 0, from = 0;
        for (let at = bytes.indexOf(10); at >= 0; at = bytes.indexOf(10, from)) {
            lines++;
            longest = Math.max(longest, at - from);
            from = at + 1;
        }
        return { lines, longest: Math.max(longest, bytes.length - from) };
    }

    // The place in a line's characters of the byte at this column, which counts from 1.
    function placeOf(line, column, encoding) {
        let bytes = 0, place = 0;
        for (const sign of line) {
            const code = sign.codePointAt(0);
            bytes += code < 128 || (encoding === "bytes" && code < 256) ? 1 : code < 2048 ? 2 : code < 65536 ? 3 : 4;
            if (bytes >= column) return place;
            place += sign.length;
        }
        return place;
    }

    return { LONGEST, decode, encode, shapeOf, placeOf };
})();

if (typeof module !== "undefined") module.exports = Texts;
