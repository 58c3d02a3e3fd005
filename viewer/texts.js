"use strict";
// Texts of elements: where one changes, its node stays, so that a browser makes no element's box anew.
globalThis.Texts = (() => {
    // gives an element that has no others this text
    const put = (element, text) => {
        const { firstChild: node } = element;
        if (!node || node.nextSibling || node.nodeType !== Node.TEXT_NODE) element.textContent = text;
        else if (node.data !== text) node.data = text;
    };

    // Gives an element these parts as its only nodes: a part is a text, or what `kinds` make an element of. A kind is { tag, make(), put(element,
    // part) }, found by the name of the part that is its own; elements of the same kinds stay and get the parts that are there now.
    const putParts = (element, parts, kinds) => {
        const kindOf = part => (typeof part === "string" ? null : kinds.find(({ name }) => name in part));
        const isOf = (node, kind) => (kind === null ? node.nodeType === Node.TEXT_NODE : node.nodeName === kind.tag);
        const wanted = parts.map(kindOf);
        const { childNodes: nodes } = element;
        if (nodes.length !== parts.length || wanted.some((kind, n) => !isOf(nodes[n], kind))) {
            element.replaceChildren(...wanted.map(kind => (kind === null ? document.createTextNode("") : kind.make())));
        }
        parts.forEach((part, n) => {
            if (wanted[n] !== null) wanted[n].put(nodes[n], part);
            else if (nodes[n].data !== part) nodes[n].data = part;
        });
    };

    return { put, putParts };
})();
