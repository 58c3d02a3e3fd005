"use strict";
// A journal as long as is wanted: a stored one, and the flight of its last frame again and again.
const fs = require("fs");
const path = require("path");
const { top } = require("./load.js");

const folder = path.join(top, "examples/four-hosts");
const FRAME = 13;
const FLIGHT = 7; // its entries

const journal = lines => {
    const stored = fs.readFileSync(path.join(folder, "expected/journal.txt"), "utf8");
    const flight = stored.split("\n").filter(line => line.split(" ")[1] === `${FRAME}` && line.startsWith("line ") === false);
    const parts = [stored];
    for (let [n, id] = [stored.split("\n").length - 1, FRAME + 1]; n < lines; n += FLIGHT, id++) {
        parts.push(flight.map(line => `${line.replace(` ${FRAME} `, ` ${id} `)}\n`).join(""));
    }
    return parts.join("");
};

module.exports = { folder, journal, FLIGHT };
