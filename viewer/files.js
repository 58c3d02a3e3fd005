"use strict";
// Reads the files of a run: those that are chosen or dropped, or those that `viewer/pack` put into the page.
globalThis.Files = (() => {
    const COMMANDS = ["start", "send", "raw", "retry", "join", "leave", "move", "fail", "repair", "lose", "deliver", "tick",
        "sweep", "settle", "random", "restart", "expect"];

    // What a file of a run is: by its name, else by its first word. Captures and pages are none.
    const kindOf = (name, bytes) => {
        if (/\.toml$/i.test(name)) return "topology";
        if (/^script(\.txt)?$/i.test(name)) return "script";
        if (/^(journal|log)(\.txt)?$/i.test(name)) return "journal";
        if (/\.[a-z]+$/i.test(name) && !/\.txt$/i.test(name)) return null;
        const words = new TextDecoder().decode(bytes.subarray(0, 4096)).replace(/#.*/g, "").trim().split(/\s+/);
        if (Journal.WORDS.includes(words[0]) || words[0] === "@") return "journal";
        return COMMANDS.includes(words[0]) ? "script" : null;
    };

    // A run of the bytes of its files. A file that is refused is named in the error.
    const runOf = files => {
        const text = bytes => new TextDecoder().decode(bytes);
        const named = (what, act) => {
            try {
                return act();
            } catch (error) {
                throw new Error(`The ${what} is refused: ${error.message}.`, { cause: error });
            }
        };
        const fabric = named("topology", () => Fabric.of(Toml.read(text(files.topology))));
        const run = named("journal", () => Journal.read(files.journal, fabric));
        return { run, states: At.run(run), script: files.script ? Script.read(text(files.script)) : null };
    };

    const unpacked = async text => {
        const letters = atob(text);
        const bytes = new Uint8Array(letters.length);
        for (let n = 0; n < letters.length; n++) bytes[n] = letters.charCodeAt(n);
        const stream = new Blob([bytes]).stream().pipeThrough(new DecompressionStream("gzip"));
        return new Uint8Array(await new Response(stream).arrayBuffer());
    };

    // the run that was packed into this page, or null
    const packed = async () => {
        const files = {};
        for (const element of document.querySelectorAll("script[data-packed]")) {
            files[element.dataset.packed] = await unpacked(element.textContent);
        }
        const title = document.querySelector("meta[name='run']");
        const { notes, ...run } = files;
        const head = document.querySelector("meta[name='run-title']");
        const text = notes ? new TextDecoder().decode(notes) : "";
        return files.journal ? { files: run, name: title ? title.content : "packed run", title: head ? head.content : "", notes: text } : null;
    };

    // the files of a run that is behind a button of the welcome page
    const example = async ({ topology, journal, script }) => {
        const files = {};
        for (const [kind, text] of Object.entries({ topology, journal, script })) files[kind] = await unpacked(text);
        return files;
    };

    const bytesOf = async file => {
        try {
            return new Uint8Array(await file.arrayBuffer());
        } catch (error) {
            throw new Error(`${file.name} cannot be read; if it is a folder, use Open folder.`, { cause: error });
        }
    };

    const depth = file => (file.webkitRelativePath || "").split("/").length;

    // the first file of each kind, of a folder's files those that lie the least deep first
    const chosen = async list => {
        const files = {};
        for (const file of [...list].sort((a, b) => depth(a) - depth(b))) {
            if (/\.(pcap|pcapng|cap)$/i.test(file.name)) continue;
            const bytes = await bytesOf(file);
            const kind = kindOf(file.name, bytes);
            if (kind && !files[kind]) files[kind] = bytes;
        }
        return files;
    };

    // the files below a handle, so many folders deep, those of a folder before those of the folders in it
    const below = async (handle, folders) => {
        if (handle.kind === "file") return [await handle.getFile()];
        const inner = [];
        if (folders > 0) for await (const one of handle.values()) inner.push(one);
        const inOrder = [...inner.filter(one => one.kind === "file"), ...inner.filter(one => one.kind !== "file")];
        return (await Promise.all(inOrder.map(one => below(one, folders - 1)))).flat();
    };

    // What was dropped. Where a browser has no handles of what is dropped, files alone can be dropped, and no folders: from a page
    // on the disk it lets nobody read the entries that it has instead.
    const dropped = async transfer => {
        const items = [...transfer.items].filter(item => item.kind === "file");
        if (items.some(item => !item.getAsFileSystemHandle)) return chosen(transfer.files);
        const handles = await Promise.all(items.map(item => item.getAsFileSystemHandle()));
        return chosen((await Promise.all(handles.filter(Boolean).map(handle => below(handle, 2)))).flat());
    };

    return { kindOf, runOf, packed, example, chosen, dropped };
})();
