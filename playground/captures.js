"use strict";
// The captures of the scenario: what is in them, files that are added, and frames that are made.
globalThis.Captures = (() => {
    const $ = id => document.getElementById(id);
    const MOST = 64 << 20; // bytes of all captures together
    const MOST_SHOWN = 200;
    const shown = new Set(); // the captures whose records are listed

    const elementOf = (tag, text, name = "") => {
        const element = document.createElement(tag);
        element.textContent = text;
        if (name) element.className = name;
        return element;
    };
    const buttonOf = (text, title, act) => {
        const button = elementOf("button", text);
        Object.assign(button, { type: "button", title });
        button.addEventListener("click", act);
        return button;
    };

    const hostsOf = topology => topology.tables.get("host").filter(host => typeof host.get("name") === "string");
    const isWhole = host => /^([0-9a-f]{2}:){5}[0-9a-f]{2}$/i.test(host.get("mac")) && /^\d{1,3}(\.\d{1,3}){3}$/.test(host.get("ip"));
    const namesOf = topology => new Map(hostsOf(topology).filter(isWhole).map(host => [Number(`0x${host.get("mac").replaceAll(":", "")}`), host.get("name")]));

    const readings = new WeakMap();
    const readOnce = bytes => {
        if (!readings.has(bytes)) readings.set(bytes, Capture.read(bytes));
        return readings.get(bytes);
    };

    const countOf = records => (records.length === 1 ? "1 frame" : `${records.length} frames`);

    const rowOf = (name, bytes, topology, drop) => {
        const row = elementOf("div", "", "capture");
        const { format, records, tail, refused } = readOnce(bytes);
        const owners = hostsOf(topology).filter(host => host.get("capture") === name).map(host => host.get("name"));
        const of = owners.length > 0 ? `of ${owners.join(", ")}` : "no host of the topology names it";
        const what = elementOf("span", `${of}; ${countOf(records)}, ${format}, ${bytes.length} bytes${tail > 0 ? `, the last ${tail} cut off` : ""}`, "what");
        row.append(elementOf("b", name), what);
        if (refused) row.append(elementOf("span", `at byte ${refused.at} it cannot be read: ${refused.reason}`, "wrong"));
        if (owners.length === 0) what.classList.add("wrong");
        const list = shown.has(name) ? "hide" : "show";
        if (records.length > 0) row.append(buttonOf(list, `${list} the frames of ${name}`, () => { if (!shown.delete(name)) shown.add(name); draw(); }));
        row.append(buttonOf("remove", `remove ${name}`, () => drop(name)));
        if (shown.has(name)) row.append(framesOf(records, namesOf(topology)));
        return row;
    };

    const framesOf = (records, names) => {
        const list = document.createElement("ol");
        list.append(...records.slice(0, MOST_SHOWN).map(record => elementOf("li", Capture.sentence(record, names))));
        if (records.length > MOST_SHOWN) list.append(elementOf("li", `and ${records.length - MOST_SHOWN} more`));
        return list;
    };

    let bench = null; // what the list belongs to: captures, topology(), changed()

    const draw = () => {
        const topology = bench.topology();
        $("play-list").replaceChildren(...[...bench.captures].map(([name, bytes]) => rowOf(name, bytes, topology, drop)));
        const names = hostsOf(topology).map(host => host.get("name"));
        for (const id of ["play-from", "play-to"]) {
            const select = $(id);
            const before = select.value;
            select.replaceChildren(...names.map(name => new Option(name, name)));
            if (names.includes(before)) select.value = before;
            else select.selectedIndex = id === "play-to" ? Math.min(1, names.length - 1) : 0;
        }
    };

    const drop = name => {
        bench.captures.delete(name);
        shown.delete(name);
        bench.changed();
    };

    // A name that a topology can have, of one that a file has.
    const nameOf = given => {
        const [, name, ending] = /^(.*?)((?:\.\w{1,6})?)$/s.exec(given.normalize("NFKD").replace(/[^A-Za-z0-9_.-]+/g, "-").replace(/^[.-]+/, ""));
        return name.slice(0, 64 - ending.length) + ending || "capture.pcap";
    };

    const total = () => [...bench.captures.values()].reduce((sum, bytes) => sum + bytes.length, 0);

    // Adds files; answers what is to be said of them.
    const add = async files => {
        const told = [];
        for (const file of files) {
            const name = nameOf(file.name);
            if (file.size + total() > MOST) {
                told.push(`${file.name} is too large: captures have at most 64 MiB together`);
                continue;
            }
            try {
                bench.captures.set(name, new Uint8Array(await file.arrayBuffer()));
                if (name !== file.name) told.push(`${file.name} is kept as ${name}: a capture has letters, digits, _, - and points`);
            } catch {
                told.push(`${file.name} cannot be read; a folder cannot be dropped here: drop the files in it`);
            }
        }
        bench.changed();
        return told.join("\n");
    };

    // ---- frames that are made

    const numberOf = id => (/^\d+$/.test($(id).value.trim()) ? Number($(id).value) : NaN);
    const wish = () => ({
        kind: $("play-kind").value, group: $("play-group").value.trim(), sourcePort: numberOf("play-source-port"), destinationPort: numberOf("play-destination-port"),
        data: [...Bytes.ofText($("play-data").value)],
    });

    const showFields = () => {
        const { value } = $("play-kind");
        $("play-group-label").hidden = value !== "group";
        $("play-to").parentElement.hidden = value === "group";
        $("play-ports").hidden = !["udp", "tcp", "group"].includes(value);
        $("play-data-label").hidden = value === "arp";
    };

    // The topology's text with a capture for a host that names none: a line at the end of its table.
    const withCapture = (text, name, capture) => {
        const lines = text.split("\n");
        const heads = lines.flatMap((line, n) => (/^\s*\[\[\s*host\s*\]\]/.test(line) ? [n] : []));
        const head = heads.find(n => new RegExp(`^\\s*name\\s*=\\s*["']${name}["']`).test(lines.slice(n + 1).find(line => /^\s*name\s*=/.test(line)) || ""));
        if (head === undefined) throw new Error(`write \`capture = "${capture}"\` into the table of host ${name}`);
        let end = head + 1;
        while (end < lines.length && !/^\s*\[/.test(lines[end])) end++;
        while (lines[end - 1].trim() === "") end--;
        lines.splice(end, 0, `capture = "${capture}"`);
        return lines.join("\n");
    };

    const plainHost = host => ({ mac: host.get("mac"), ip: host.get("ip") });

    const make = () => {
        const topology = bench.topology();
        const [from, to] = ["play-from", "play-to"].map(id => hostsOf(topology).find(host => host.get("name") === $(id).value));
        if (!from || !to) throw new Error("the topology has no hosts yet: write a [[host]] for each");
        if (!isWhole(from) || !isWhole(to)) throw new Error("the host has no mac or no ip that can be read");
        const made = Maker.frames(wish(), plainHost(from), plainHost(to), numberOf("play-count"));
        const name = from.get("capture") || `${from.get("name")}.pcap`;
        if (!Scenario.NAME.test(name)) throw new Error(`the capture of host ${from.get("name")} has a name that a capture cannot have`);
        const before = bench.captures.has(name) ? Capture.read(bench.captures.get(name)) : { records: [] };
        if (before.refused) throw new Error(`${name} cannot be read, so nothing is added to it: remove it first`);
        if (!from.get("capture")) bench.setTopology(withCapture(bench.topologyText(), from.get("name"), name));
        bench.captures.set(name, Capture.write([...before.records, ...made.map(bytes => ({ bytes, length: bytes.length }))]));
        shown.add(name);
        bench.changed();
        return `${made.length === 1 ? "a frame was" : `${made.length} frames were`} added to ${name}; \`send ${from.get("name")} all\` in the script sends what is in it`;
    };

    const on = (given, say) => {
        bench = given;
        $("play-kind").append(...Object.entries(Maker.KINDS).map(([kind, name]) => new Option(name, kind)));
        $("play-kind").addEventListener("change", showFields);
        $("play-make").addEventListener("click", () => {
            $("play-maker").hidden = !$("play-maker").hidden;
            $("play-make").setAttribute("aria-expanded", String(!$("play-maker").hidden));
        });
        $("play-maker").addEventListener("submit", event => {
            event.preventDefault();
            try {
                say(make(), false);
            } catch (error) {
                say(error.message, true);
            }
        });
        showFields();
    };

    return { on, draw, add, total };
})();
