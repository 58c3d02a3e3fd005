"use strict";
// A text that is edited: a textarea with line numbers beside it and coloured words below it, of which only the lines in sight are drawn. Lines have
// marks, and a list of words comes up to complete the one that is typed.
globalThis.Editor = (() => {
    const elementOf = (tag, name, text = "") => {
        const element = document.createElement(tag);
        if (name) element.className = name;
        element.textContent = text;
        return element;
    };

    const partsOf = box => {
        const title = box.dataset.name;
        const [page, ruler, sheet, colours] = [elementOf("div", "page"), elementOf("div", "ruler"), elementOf("div", "sheet"), elementOf("div", "colours")];
        const area = elementOf("textarea");
        const list = elementOf("ul", "choices-list");
        Object.assign(area, { spellcheck: false, autocapitalize: "off", autocomplete: "off", wrap: "off" });
        area.setAttribute("aria-label", title);
        area.setAttribute("aria-autocomplete", "list");
        ruler.setAttribute("aria-hidden", "true");
        colours.setAttribute("aria-hidden", "true");
        list.setAttribute("role", "listbox");
        list.id = `${box.id}-choices`;
        list.hidden = true;
        area.setAttribute("aria-controls", list.id);
        sheet.append(colours, area, list);
        page.append(ruler, sheet);
        box.append(elementOf("div", "name", title), page);
        return { ruler, sheet, colours, area, list };
    };

    // Which line a place of a text is in, from 0, and where that begins.
    const lineAt = (text, place) => {
        const start = text.lastIndexOf("\n", place - 1) + 1;
        let line = 0;
        for (let at = text.indexOf("\n"); at >= 0 && at < start; at = text.indexOf("\n", at + 1)) line++;
        return { line, start };
    };

    // An editor in a box. `colour(line)` gives the parts of a line, each as a text and a class; `complete(before, lines, line)` the words that may
    // complete the last one of `before`; `changed()` is called when the text is another one.
    const of = (box, { colour, complete, changed }) => {
        const { ruler, sheet, colours, area, list } = partsOf(box);
        const editor = { area, marks: new Map(), text: "", lines: [""] };
        let choices = [];
        let chosen = 0;

        const high = () => parseFloat(getComputedStyle(area).lineHeight) || 18;

        const rowOf = (text, n) => {
            const row = elementOf("div");
            for (const [part, name] of colour(text, n)) row.append(name ? elementOf("span", name, part) : part);
            const mark = editor.marks.get(n + 1);
            if (mark && mark.kind === "refused") row.classList.add("refused");
            return row;
        };

        const draw = () => {
            const height = high();
            const first = Math.max(0, Math.floor(area.scrollTop / height) - 1);
            const last = Math.min(editor.lines.length, first + Math.ceil(area.clientHeight / height) + 3);
            const [rows, numbers] = [[], []];
            for (let n = first; n < last; n++) {
                const top = `${n * height - area.scrollTop}px`;
                const row = rowOf(editor.lines[n].slice(0, 2000), n);
                const number = elementOf("span", "", `${n + 1}`);
                const mark = editor.marks.get(n + 1);
                if (mark) {
                    number.className = mark.kind;
                    number.title = mark.text;
                }
                row.style.top = number.style.top = top;
                row.style.left = `${-area.scrollLeft}px`;
                rows.push(row);
                numbers.push(number);
            }
            colours.replaceChildren(...rows);
            ruler.replaceChildren(...numbers);
        };

        const take = () => {
            editor.text = area.value;
            editor.lines = editor.text.split("\n");
            editor.marks = new Map();
        };

        const close = () => {
            list.hidden = true;
            choices = [];
            area.removeAttribute("aria-activedescendant");
        };

        const showChosen = () => {
            [...list.children].forEach((item, n) => item.setAttribute("aria-selected", String(n === chosen)));
            area.setAttribute("aria-activedescendant", list.children[chosen].id);
            list.children[chosen].scrollIntoView({ block: "nearest" });
        };

        // how wide a text is, in points
        const widthOf = text => {
            const probe = elementOf("div", "", text);
            colours.append(probe);
            probe.style.right = "auto";
            const width = probe.getBoundingClientRect().width - 12;
            probe.remove();
            return width;
        };

        const place = (line, before, word) => {
            const height = high();
            const top = (line + 1) * height - area.scrollTop;
            const left = widthOf(before.slice(0, before.length - word.length)) - area.scrollLeft;
            list.style.left = `${Math.max(0, Math.min(left, sheet.clientWidth - 130))}px`;
            list.style.top = top + 120 > sheet.clientHeight ? "auto" : `${top}px`;
            list.style.bottom = top + 120 > sheet.clientHeight ? `${Math.max(0, sheet.clientHeight - top + height)}px` : "auto";
        };

        const wordBefore = before => /[^\s"[\]=,]*$/.exec(before)[0];

        // brings up the words that may be meant; where `isAsked`, also before a letter is typed
        const suggest = isAsked => {
            const { value, selectionStart, selectionEnd } = area;
            const { line, start } = lineAt(value, selectionStart);
            const before = value.slice(start, selectionStart);
            const word = wordBefore(before);
            const isInside = selectionStart !== selectionEnd || /^[\w.:-]/.test(value.slice(selectionStart));
            if (isInside || before.includes("#") || (!isAsked && word === "")) return close();
            choices = complete(before, editor.lines, line).filter(choice => choice.startsWith(word) && choice !== word).slice(0, 60);
            if (choices.length === 0) return close();
            chosen = 0;
            list.replaceChildren(...choices.map((choice, n) => {
                const item = elementOf("li", "", choice);
                item.id = `${list.id}-${n}`;
                item.setAttribute("role", "option");
                item.addEventListener("mousedown", event => {
                    event.preventDefault();
                    chosen = n;
                    accept();
                });
                return item;
            }));
            list.hidden = false;
            place(line, before, word);
            return showChosen();
        };

        // types a text as a user does, so that it can be undone
        const type = text => {
            area.focus();
            if (!document.execCommand("insertText", false, text)) {
                area.setRangeText(text, area.selectionStart, area.selectionEnd, "end");
                area.dispatchEvent(new Event("input"));
            }
        };

        const accept = () => {
            const { start } = lineAt(area.value, area.selectionStart);
            const word = wordBefore(area.value.slice(start, area.selectionStart));
            const choice = choices[chosen];
            close();
            type(choice.slice(word.length));
            close();
        };

        const KEYS = {
            ArrowDown: () => { chosen = (chosen + 1) % choices.length; showChosen(); },
            ArrowUp: () => { chosen = (chosen + choices.length - 1) % choices.length; showChosen(); },
            Tab: accept, Enter: accept, Escape: close,
        };

        area.addEventListener("keydown", event => {
            if (event.key === " " && event.ctrlKey) {
                event.preventDefault();
                suggest(true);
            } else if (!list.hidden && KEYS[event.key] && !event.ctrlKey && !event.shiftKey) {
                event.preventDefault();
                KEYS[event.key]();
            }
        });
        area.addEventListener("input", event => {
            take();
            draw();
            changed();
            if (event.inputType === "insertText" || event.inputType === "insertCompositionText") suggest(false);
            else close();
        });
        area.addEventListener("scroll", () => { close(); draw(); });
        area.addEventListener("blur", close);
        area.addEventListener("click", close);
        new ResizeObserver(draw).observe(area);

        // another text; what was typed before is not kept
        editor.put = text => {
            area.value = text;
            take();
            area.scrollTop = area.scrollLeft = 0;
            draw();
        };
        // another text, as if it was typed: the browser's own undo brings back what was there
        editor.edit = text => {
            area.focus();
            area.select();
            type(text);
        };
        // marks lines by their numbers, from 1, each with a kind, `refused` or `faulty`, and a text
        editor.mark = marks => {
            editor.marks = marks;
            draw();
        };
        // brings a line into sight
        editor.reveal = number => {
            const height = high();
            const top = (number - 1) * height;
            if (top < area.scrollTop || top + height > area.scrollTop + area.clientHeight) area.scrollTop = Math.max(0, top - area.clientHeight / 2);
            draw();
        };
        // puts the caret at the beginning of a line
        editor.go = number => {
            const at = editor.lines.slice(0, number - 1).reduce((sum, line) => sum + line.length + 1, 0);
            area.focus();
            area.setSelectionRange(at, at);
            editor.reveal(number);
        };
        return editor;
    };

    return { of };
})();
