"use strict";
// Plays the proved program, as WebAssembly, over files in memory: what the C library and the system do for it elsewhere.
globalThis.Machine = (() => {
    const ERROR = { NOENT: 2, BADF: 9, EXIST: 17, ISDIR: 21, INVAL: 22 };
    const FLAG = { CREAT: 0o100, TRUNC: 0o1000, APPEND: 0o2000 };

    const normal = path => {
        const parts = [];
        for (const part of path.split("/")) {
            if (part === "..") parts.pop();
            else if (part !== "" && part !== ".") parts.push(part);
        }
        return parts.join("/");
    };
    const above = path => path.slice(0, Math.max(0, path.lastIndexOf("/")));

    // A file that grows: it gets twice the room where it is short of it.
    class Growing {
        constructor(bytes = new Uint8Array(0)) {
            this.bytes = bytes;
            this.length = bytes.length;
        }

        put(at, from) {
            const end = at + from.length;
            if (end > this.bytes.length) {
                const more = new Uint8Array(Math.max(end, this.length > 0 ? 2 * this.bytes.length : end));
                more.set(this.bytes.subarray(0, this.length));
                this.bytes = more;
            }
            this.bytes.set(from, at);
            this.length = Math.max(this.length, end);
        }

        all() {
            return this.bytes.subarray(0, this.length);
        }
    }

    // Files and folders by their paths, and what is open. Each call answers as the system's does: -1 where it fails, and then `error` says why.
    class Disk {
        constructor(files) {
            this.files = new Map();
            this.folders = new Set([""]);
            this.saved = new Set(); // the paths of the files that were made
            this.open = [];
            this.streams = [null, new Growing(), new Growing()];
            this.error = 0;
            for (const [path, bytes] of files) {
                const name = normal(path);
                this.files.set(name, new Growing(bytes));
                for (let folder = above(name); folder !== ""; folder = above(folder)) this.folders.add(folder);
            }
        }

        fail(error) {
            this.error = error;
            return -1;
        }

        make(path) {
            const file = new Growing();
            this.files.set(path, file);
            this.saved.add(path);
            return file;
        }

        openFile(name, flags) {
            const path = normal(name);
            if (this.folders.has(path)) return this.fail(ERROR.ISDIR);
            let file = this.files.get(path);
            if (!file && !((flags & FLAG.CREAT) && this.folders.has(above(path)))) return this.fail(ERROR.NOENT);
            if (!file || (flags & FLAG.TRUNC)) file = this.make(path);
            let fd = 3;
            while (this.open[fd]) fd++;
            this.open[fd] = { file, at: 0, appends: (flags & FLAG.APPEND) !== 0 };
            return fd;
        }

        // at most so many bytes from where the file is read, or null
        read(fd, most) {
            const opened = this.open[fd];
            if (!opened) return fd === 0 ? new Uint8Array(0) : null;
            const bytes = opened.file.all().subarray(opened.at, opened.at + most);
            opened.at += bytes.length;
            return bytes;
        }

        write(fd, bytes) {
            const opened = this.open[fd];
            const stream = this.streams[fd];
            if (stream) stream.put(stream.length, bytes);
            else if (!opened) return this.fail(ERROR.BADF);
            else {
                if (opened.appends) opened.at = opened.file.length;
                opened.file.put(opened.at, bytes);
                opened.at += bytes.length;
            }
            return bytes.length;
        }

        seek(fd, offset, whence) {
            const opened = this.open[fd];
            if (!opened) return this.fail(ERROR.BADF);
            const to = offset + [0, opened.at, opened.file.length][whence];
            if (to < 0) return this.fail(ERROR.INVAL);
            opened.at = to;
            return to;
        }

        close(fd) {
            if (!this.open[fd]) return this.fail(ERROR.BADF);
            this.open[fd] = null;
            return 0;
        }

        makeFolder(name) {
            const path = normal(name);
            if (this.folders.has(path) || this.files.has(path)) return this.fail(ERROR.EXIST);
            if (!this.folders.has(above(path))) return this.fail(ERROR.NOENT);
            this.folders.add(path);
            return 0;
        }
    }

    // The functions that the module imports, over a disk and words. `memory` gives its memory, `notice` hears how far the run is.
    const importsOf = (disk, words, memory, notice) => {
        const bytesAt = (address, length) => new Uint8Array(memory().buffer, Number(address), Number(length));
        const textAt = address => {
            const all = new Uint8Array(memory().buffer);
            const from = Number(address);
            return new TextDecoder().decode(all.slice(from, all.indexOf(0, from)));
        };
        const given = ["portland", ...words].map(word => new TextEncoder().encode(word));
        return {
            open: (address, flags) => {
                const name = textAt(address);
                notice({ [flags & FLAG.CREAT ? "saves" : "reads"]: name });
                return disk.openFile(name, flags);
            },
            read: (fd, to, most) => {
                const bytes = disk.read(fd, Number(most));
                if (!bytes) return BigInt(disk.fail(ERROR.BADF));
                bytesAt(to, bytes.length).set(bytes);
                return BigInt(bytes.length);
            },
            write: (fd, from, length) => BigInt(disk.write(fd, bytesAt(from, length))),
            seek: (fd, offset, whence) => BigInt(disk.seek(fd, Number(offset), whence)),
            close: fd => disk.close(fd),
            mkdir: address => disk.makeFolder(textAt(address)),
            arg: (index, to, most) => {
                const word = given[Number(index)];
                if (!word) return -1n;
                const fits = word.length <= Number(most);
                bytesAt(to, fits ? word.length : most).set(fits ? word : word.subarray(0, Number(most)));
                return fits ? BigInt(word.length) : -2n;
            },
            error: () => disk.error,
            set_error: error => { disk.error = error; },
            grown: bytes => notice({ memory: Number(bytes) }),
        };
    };

    // An instance of the module, for tests of its heap.
    const instance = (module, disk = new Disk([]), words = [], notice = () => {}) => {
        let exports = null;
        exports = new WebAssembly.Instance(module, { web: importsOf(disk, words, () => exports.memory, notice) }).exports;
        return exports;
    };

    // Plays words, as on the command line behind the program's name, over files, a Map from path to bytes. Answers the exit status, what was
    // printed, and a Map of the files that were saved.
    const play = (module, words, files, notice = () => {}) => {
        const disk = new Disk(files);
        const exports = instance(module, disk, words, notice);
        const began = performance.now();
        const status = exports.main(0, 0n);
        const text = stream => new TextDecoder().decode(disk.streams[stream].all());
        return {
            status,
            out: text(1),
            err: text(2),
            saved: new Map([...disk.saved].map(path => [path, disk.files.get(path).all().slice()])),
            seconds: (performance.now() - began) / 1000,
            memory: exports.memory.buffer.byteLength,
        };
    };

    return { play, instance };
})();
