"use strict";
// The page as it was before any script changed it, so that it can be saved with a scenario in it.
globalThis.Source = (() => {
    const here = document.currentScript;
    const before = document.documentElement.outerHTML.replace(/<\/body>\s*<\/html>\s*$/, "");
    const SCENARIO = '<script type="application/gzip" data-part="scenario">';

    const escaped = text => text.replace(/[&<>"]/g, letter => `&#${letter.charCodeAt(0)};`);

    // The page with a title, and with a scenario, which is base64.
    const withScenario = (title, letters) => {
        const behind = [...document.querySelectorAll("script, meta[name='portland']")].filter(element => here.compareDocumentPosition(element) & Node.DOCUMENT_POSITION_FOLLOWING)
            .filter(element => element.dataset.part !== "scenario").map(element => element.outerHTML);
        const head = before.replace(/<title>[^<]*<\/title>/, () => `<title>${escaped(title)}</title>`);
        return `<!doctype html>\n${head}\n${SCENARIO}${letters}<\/script>\n${behind.join("\n")}\n</body></html>\n`;
    };

    return { withScenario };
})();
