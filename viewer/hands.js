"use strict";
// What the hands do: buttons, keys, the pointer over the picture, and files that are dropped.
(() => {
    const $ = id => document.getElementById(id);
    const { page, picture } = Page;

    const redraw = () => {
        if (!page.run) return;
        picture.draw();
        $("canvas").classList.toggle("near", !picture.isWhole);
    };
    const zoom = (factor, x, y) => {
        picture.zoom(factor, x, y);
        redraw();
    };
    const zoomAtSight = factor => {
        const { x, y } = picture.centreOfSight();
        zoom(factor, x, y);
    };
    const fit = () => {
        if (page.run) picture.fit();
        redraw();
    };

    // Where pods fold: all are opened, or all are folded. The button says what it would do.
    const drawPods = () => {
        const { layout } = picture;
        $("pods").hidden = !layout || !layout.folds;
        $("pods").textContent = picture.open.size > 0 ? "fold pods" : "open pods";
    };
    const laid = () => {
        Page.draw(false);
        drawPods();
    };
    const pods = () => {
        if (!picture.layout.folds) return;
        picture.openPods(picture.open.size > 0 ? [] : picture.layout.pods.keys());
        laid();
    };
    // opens the pod of whose story is shown, else that of the entry of now
    const openPod = () => {
        const { subject, now } = picture.scene;
        const place = subject && subject.frame === undefined ? subject : now && now.place;
        if (!place || place.link !== undefined) return;
        const pod = Layout.podOf(page.run.fabric, place, page.state.spots);
        if (pod >= 0 && picture.layout.folds) picture.toggle(pod);
        laid();
    };

    // the colours of the layer of loads, with the least number of frames of each
    let scaled = -1; // the most frames of a link that it was drawn for
    const drawScale = () => {
        const { isLoads } = picture;
        $("loads").setAttribute("aria-pressed", String(isLoads));
        $("scale").hidden = !isLoads;
        if (!isLoads) return;
        const most = Ground.most(picture, "carried");
        if (most === scaled) return;
        scaled = most;
        const bounds = Ground.bounds(most);
        $("scale").replaceChildren(picture.beside ? "frames over a link, in both runs:" : "frames over a link:", ...bounds.flatMap((least, n) => {
            const top = n < 4 ? bounds[n + 1] - 1 : most;
            if (top < least) return [];
            const colour = document.createElement("i");
            colour.style.background = `var(--load${n + 1})`;
            return [colour, top === least ? Words.count(least) : `${Words.count(least)}–${Words.count(top)}`];
        }));
    };
    const loads = () => {
        picture.isLoads = !picture.isLoads;
        Page.draw(false);
    };
    page.followers.push(drawScale, drawPods); // behind the second run, whose loads the scale has too

    const toldMoment = () => [`${page.name ? `${page.name}, ` : ""}${$("where").textContent}`, $("said").textContent];
    const fileName = () => `portland-entry-${page.state.entry}`;
    const keep = {
        link: async () => {
            const link = `${window.location.href.replace(/#.*/, "")}${Moment.text(page.run, page.state.entry, page.subject, page.sift)}`;
            try {
                await navigator.clipboard.writeText(link);
                $("kept").textContent = "copied";
            } catch {
                window.prompt("The link to this moment:", link);
            }
        },
        png: async () => Moment.save(await Moment.png(picture, ...toldMoment()), `${fileName()}.png`),
        svg: () => Moment.save(new Blob([Moment.svg(picture, ...toldMoment())], { type: "image/svg+xml" }), `${fileName()}.svg`),
    };

    const ACTS = {
        first: () => Page.step(0),
        last: () => Page.step(Infinity),
        back: () => Page.step(Page.backwards()),
        next: () => Page.step(Page.onwards()),
        lineback: () => Page.lineOn(-1),
        lineon: () => Page.lineOn(1),
        play: () => Page.play(1),
        playback: () => Page.play(-1),
        in: () => zoomAtSight(1.3),
        out: () => zoomAtSight(1 / 1.3),
        fit,
        pods,
        loads,
        ...keep,
        alone: () => {
            Second.close();
            resize();
        },
        all: () => Page.tell(null),
        "tab-journal": () => Page.choose("journal"),
        "tab-script": () => Page.choose("script"),
        "tab-fabric": () => Page.choose("fabric"),
        help: () => $("manual").showModal(),
    };

    // Arrow keys on a tab go to the next one that is there.
    document.querySelector(".tabs").addEventListener("keydown", event => {
        const step = { ArrowLeft: -1, ArrowRight: 1 }[event.key];
        if (!step || !event.target.matches("[role='tab']") || event.shiftKey) return;
        const tabs = [...document.querySelectorAll(".tabs [role='tab']")].filter(tab => !tab.hidden);
        const next = tabs[(tabs.indexOf(event.target) + step + tabs.length) % tabs.length];
        event.preventDefault();
        event.stopPropagation();
        if (page.run) ACTS[next.id]();
        next.focus();
    });
    for (const [id, act] of Object.entries(ACTS)) {
        $(id).addEventListener("click", () => {
            if (page.run || id === "help") act();
        });
    }

    const KEYS = {
        " ": "play", ArrowLeft: "back", ArrowRight: "next", Home: "first", End: "last",
        "+": "in", "=": "in", "-": "out", 0: "fit", "?": "help", Escape: "all",
    };
    const pan = (x, y) => {
        if (page.run) picture.pan(x, y);
        redraw();
    };
    const OTHERS = {
        a: () => pan(80, 0),
        d: () => pan(-80, 0),
        w: () => pan(0, 80),
        s: () => pan(0, -80),
        f: () => Page.tellNow(),
        l: loads,
        p: pods,
        o: openPod,
        "[": () => Page.faster(-1),
        "]": () => Page.faster(1),
        "/": () => $("find").focus(),
    };

    // Keys belong to a field or a list while it is used, and a button has its own space bar.
    const isTaken = event => {
        const { target, key } = event;
        if (event.ctrlKey || event.altKey || event.metaKey || $("manual").open) return true;
        if (target.matches("select")) return true;
        if (target.matches("input[type='range']")) return key === "Home" || key === "End" || key.startsWith("Arrow");
        if (target.matches("input[type='checkbox']")) return key === " ";
        if (target.matches("input")) return key !== "Escape";
        return target.matches("button:focus-visible") && key === " ";
    };

    document.addEventListener("keydown", event => {
        if (isTaken(event)) return;
        const { key } = event;
        if (event.target.matches("input")) event.target.blur();
        const line = event.shiftKey ? { ArrowLeft: "lineback", ArrowRight: "lineon", " ": "playback" }[key] : undefined;
        const act = ACTS[line || KEYS[key]] || OTHERS[key];
        if (!act) return;
        event.preventDefault();
        if (page.run || key === "?") act();
    });

    // A speed that was chosen by the pointer leaves the keys to the page.
    $("speed").addEventListener("change", () => {
        if (!$("speed").matches(":focus-visible")) $("speed").blur();
    });
    $("slider").addEventListener("input", () => Page.step(Number($("slider").value)));
    $("liner").addEventListener("submit", event => {
        event.preventDefault();
        if (page.run && $("line").value !== "") Page.toLine(Number($("line").value));
        $("line").blur();
    });
    $("enterer").addEventListener("submit", event => {
        event.preventDefault();
        if (page.run && $("entry").value !== "") Page.step(Number($("entry").value));
        $("entry").blur();
    });
    $("finder").addEventListener("submit", event => {
        event.preventDefault();
        const subject = page.run ? Stories.find(page.run, $("find").value) : null;
        $("find").setCustomValidity(subject ? "" : "There is no such switch, host or frame.");
        if (!subject) $("find").reportValidity();
        else {
            Page.tell(subject);
            if (subject.frame === undefined) picture.approach(subject);
            $("find").value = "";
            $("find").blur();
            redraw();
        }
    });
    $("find").addEventListener("input", () => $("find").setCustomValidity(""));

    const SIFTS = { seek: ["input", "text"], kind: ["change", "kind"], who: ["input", "who"] };
    for (const [id, [event, part]] of Object.entries(SIFTS)) $(id).addEventListener(event, () => Page.resift({ [part]: $(id).value }));
    $("fold").addEventListener("change", () => Page.resift({ folds: $("fold").checked }));

    $("knowledge").addEventListener("change", Page.drawKnown);
    $("filter").addEventListener("input", Page.drawKnown);

    // what is at a place of the picture, in words
    const nameOf = found => {
        if (found.manager) return "the fabric manager";
        if (found.pod !== undefined) return `pod ${found.pod}: ${picture.open.has(found.pod) ? "fold" : "open"} it`;
        if (found.host !== undefined) return `${Facts.name(page.run, found)}, ${page.run.fabric.hosts[found.host].ip}`;
        if (picture.isOfBridge) return Facts.name(page.run, found);
        return `${Facts.name(page.run, found)}, ${Drawing.placeTexts(At.place(page.state, found.switch))[0].replace("?", "place not known")}`;
    };
    Pointers.on($("canvas"), picture, {
        isOpen: () => page.run !== null,
        redraw,
        name: nameOf,
        choose: (found, isTouch) => {
            if (found.pod !== undefined) {
                picture.toggle(found.pod);
                laid();
                return;
            }
            Page.tell(found);
            if (isTouch) picture.touched = { place: found, text: nameOf(found) };
            redraw();
        },
    });
    Pointers.on($("other"), Second.picture, {
        isOpen: () => Second.second.run !== null,
        redraw: () => Second.picture.draw(),
        name: found => (found.pod === undefined ? Facts.name(Second.second.run, found) : `pod ${found.pod}`),
        choose: found => {
            if (found.pod !== undefined) {
                Second.picture.toggle(found.pod);
                Second.draw();
                return;
            }
            const subject = Stories.find(page.run, Moment.nameOf(Second.second.run, found));
            if (subject) Page.tell(subject);
        },
    });

    // Opens what `files` answers; what cannot be read is told.
    const open = async (files, name) => {
        try {
            await Page.open(await files, name);
        } catch (error) {
            Page.refuse(error);
        }
    };
    $("example").addEventListener("click", () => open(Files.example(Example), Example.name));
    $("example-log").addEventListener("click", () => open(Files.example(Example.log), Example.log.name));

    // What is printed of a story: as many of its entries as have a page's room.
    const PRINTED = 200;
    window.addEventListener("beforeprint", () => {
        const entries = page.run && page.list.path ? page.list.path.slice(0, PRINTED) : [];
        $("printed").replaceChildren(...entries.map(n => Object.assign(document.createElement("li"), { value: n + 1, textContent: Words.sentence(page.run, n, page.script) })));
    });
    $("beside").addEventListener("change", async () => {
        $("kept").textContent = "";
        try {
            Second.open(await Files.chosen([...$("beside").files]));
            resize();
        } catch (error) {
            $("kept").textContent = error.message;
        }
        $("beside").value = "";
    });
    for (const id of ["files", "folder"]) {
        $(id).addEventListener("change", async () => {
            const list = [...$(id).files];
            const path = list.length > 0 ? list[0].webkitRelativePath : "";
            await open(Files.chosen(list), path.split("/")[0]);
            $(id).value = "";
        });
    }
    document.addEventListener("dragover", event => {
        event.preventDefault();
        $("welcome").classList.add("over");
    });
    document.addEventListener("dragleave", () => $("welcome").classList.remove("over"));
    document.addEventListener("drop", async event => {
        event.preventDefault();
        $("welcome").classList.remove("over");
        const { files } = event.dataTransfer;
        await open(Files.dropped(event.dataTransfer), files.length === 1 ? files[0].name : "");
    });

    const resize = () => {
        if (!page.run) {
            picture.measure();
            return picture.draw();
        }
        picture.resized();
        return Page.draw(false);
    };
    new ResizeObserver(resize).observe($("canvas"));
    new ResizeObserver(Second.resized).observe($("other"));
    window.addEventListener("hashchange", event => Page.toMoment(new URL(event.newURL).hash)); // the page may have written another one since
    window.matchMedia("(prefers-color-scheme: dark)").addEventListener("change", () => {
        picture.themed();
        Second.picture.themed();
        resize();
    });

    picture.themed();
    Files.packed().then(async found => {
        if (!found) return;
        const [heading, ...paragraphs] = [["h2", found.title], ...found.notes.split(/\n\s*\n/).map(text => ["p", text.trim()])];
        const parts = [heading, ...paragraphs].filter(([, text]) => text !== "");
        $("notes").replaceChildren(...parts.map(([name, textContent]) => Object.assign(document.createElement(name), { textContent })));
        $("notes").hidden = parts.length === 0;
        await Page.open(found.files, found.name);
        if (found.files.second) Second.open({ journal: found.files.second });
    }).catch(Page.refuse);
})();
