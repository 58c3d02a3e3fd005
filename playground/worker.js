"use strict";
// What a worker of the page does: it plays one run, says how far it is, and answers.
self.onmessage = ({ data: { module, words, files } }) => {
    try {
        const answer = Machine.play(module, words, files, notice => self.postMessage({ notice }));
        self.postMessage({ answer }, [...new Set([...answer.saved.values()].map(bytes => bytes.buffer))]);
    } catch (error) {
        self.postMessage({ broken: String(error) });
    }
};
