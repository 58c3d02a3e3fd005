"""The mistakes of tests/check/hints, each with what tools/explain says of it, as JSON: for tests of the page, which is to say the same.

    python3 playground/tests/hint_cases.py > cases.json
"""

import base64
import importlib.machinery
import importlib.util
import json
import os
import pathlib
import sys
import tempfile

TOP = pathlib.Path(__file__).resolve().parent.parent.parent
sys.dont_write_bytecode = True
sys.path.insert(0, str(TOP / "tools"))


def loaded(name, path):
    loader = importlib.machinery.SourceFileLoader(name, str(path))
    module = importlib.util.module_from_spec(importlib.util.spec_from_loader(name, loader))
    loader.exec_module(module)
    return module


HINTS = loaded("check_hints", TOP / "tests" / "check" / "hints")
EXPLAIN = loaded("explain", TOP / "tools" / "explain")


def with_line(text):
    return HINTS.SCRIPT + text + "\n"


def cases():
    """Name, files other than those of the scenario, status, what was said, and the words."""
    run, verify = HINTS.RUN, ["verify", "--topology", "topology.toml", "--journal", "journal.txt"]
    for name, file, reason, _ in HINTS.TOPOLOGIES:
        yield f"topology: {name}", {"topology.toml": file}, 4, f"bad topology: {reason}", run
    for name, file, _ in HINTS.NOTED:
        yield f"noted: {name}", {"topology.toml": file}, 0, "", run
    for name, line, reason, _ in HINTS.LINES:
        yield f"script: {name}", {"script": with_line(line)}, 5, f"bad script, line 5: {reason}", run
    for name, line, reason, _ in HINTS.REFUSED:
        yield f"refused: {name}", {"script": with_line(line)}, 9, f"refused, line 5: {reason}", run
    for name, line, _ in HINTS.EXPECTED:
        yield f"expected: {name}", {"script": with_line(line)}, 8, "expectation false, line 5", run
    for name, file, offset, reason, _ in HINTS.CAPTURES:
        yield f"capture: {name}", {"captures/a.pcap": file}, 6, f"bad capture of host number 0 at byte {offset}: {reason}", run
    for name, last, offset, reason, _ in HINTS.SECTIONS:
        yield f"pcapng: {name}", {"captures/a.pcap": HINTS.sections(last)}, 15, f"bad capture of host number 0 at byte {offset}: {reason}", run
    for verb in ("repair e0.0 a0.0", "random 1 2", "restart", "expect settled", "expect address a 00:00:00:00:00:01"):
        yield f"bridge: {verb}", {"script": with_line(verb)}, 5, "bad script, line 5: Word", ["bridge", *run[1:]]
    yield "script: no UTF-8", {"script": HINTS.SCRIPT.encode() + b"# caf\xe9\n"}, 5, "bad script, line 5: NotUtf8", run
    yield "script: UTF-16", {"script": HINTS.SCRIPT.encode("utf-16")}, 5, "bad script, line 1: NotUtf8", run
    yield "script: too many lines", {}, 5, "bad script, line 1000001: TooManyLines", run
    yield "cannot read a capture", {"captures/a.pcap": None, "captures/b.pcap": HINTS.capture()}, 3, "cannot read captures/a.pcap", run
    yield "too long: captures", {}, 10, "too long: captures/a.pcap", run
    yield "too long: script", {}, 10, "too long: script", run
    yield "steps spent", {}, 11, "steps spent, line 4", run
    yield "out of memory", {}, 12, "out of memory", run
    journal = "sent 1 a 00\ncrossed 1 e0.0\nlast without a newline"
    yield "not legal", {"journal.txt": journal}, 13, "not legal, entry 2", verify
    yield "bad journal", {"journal.txt": journal}, 14, "bad journal, line 3", verify
    yield "not legal: a host of another topology", {"journal.txt": "arrived 1 zz 00\n"}, 13, "not legal, entry 1", verify
    yield "not legal: a switch of another topology", {"journal.txt": "crossed 1 e9.9\n"}, 13, "not legal, entry 1", verify
    yield "not legal: a place of another topology", {"journal.txt": "granted 00:00:00:00:00:01 a e1.0 0\n"}, 13, "not legal, entry 1", verify
    yield "skipped", {"out/journal.txt": "skipped a Short\nskipped a NoOwner\nskipped b NoOwner\nskipped a RecordedArp\n"}, 0, "", run
    yield from left()


# A script and its journal, of which something is left to be said.
LEFT = [
    ("in flight", "start all\nsettle 64\nsend a\n", "line 2\ngranted 00:00:00:00:00:01 a e0.0 0\nsettled 9\nline 3\nsent 1 a 00\nsent 2 a 00\ntaken 1 e0.0\n"),
    ("in flight behind the last line", "start all\nsettle 64\nsend a\nsweep 1\n", "line 2\nsettled 9\nline 3\nsent 1 a 00\nline 4\n"),
    ("no start", "send a\nsettle 64\n", "line 2\nsettled 9\n"),
    ("no address", "start all\nsweep 5\n", "line 2\n"),
    ("not settled", "start all\n# x\nsettle 1 # x\n", "line 3\nunsettled 12\n"),
    ("a link failed behind it", "start all\nsettle 64\nfail e0.0 a0.0\nrestart\n", "line 2\nsettled 9\nline 3\nlinkdown e0.0 a0.0\nline 4\nrestarted 1\n"),
    ("raw to a host's own address", HINTS.SCRIPT, "line 2\nsettled 9\nline 3\nsent 1 a 02000000000b\nsent 2 a 02000000000a\ndropped 1 NoNextHop\ndropped 2 NoAddress\n"),
    ("nothing", HINTS.SCRIPT, "line 2\ngranted 00:00:00:00:00:01 a e0.0 0\nsettled 9\nline 4\nsettled 2\n"),
]  # fmt: skip


def left():
    wireless = HINTS.foreign_packets(3)
    for name, script, journal in LEFT:
        for command in ("run", "bridge"):
            yield f"left by {command}: {name}", {"script": script, "out/journal.txt": journal}, 0, "", [command, *HINTS.RUN[1:]]
    yield "left: packets, none of Ethernet", {"captures/a.pcap": wireless, "out/journal.txt": ""}, 0, "", HINTS.RUN
    yield "refused: packets, none of Ethernet", {"captures/a.pcap": wireless, "script": with_line("send a")}, 9, "refused, line 5: NothingThere", HINTS.RUN


def answered(files, status, said, words):
    with tempfile.TemporaryDirectory() as folder:
        for name, data in files.items():
            path = pathlib.Path(folder, name)
            path.parent.mkdir(parents=True, exist_ok=True)
            path.write_bytes(data)
        before = pathlib.Path.cwd()
        os.chdir(folder)
        try:
            return EXPLAIN.hints(status, f"portland: {said}" if said else "", list(words))
        finally:
            os.chdir(before)


def main():
    scenario = {"topology.toml": HINTS.TOPOLOGY, "script": HINTS.SCRIPT, "captures/a.pcap": HINTS.capture()}
    found = []
    for name, changed, status, said, words in cases():
        files = {path: data.encode() if isinstance(data, str) else data for path, data in {**scenario, **changed}.items() if data is not None}
        found.append({
            "name": name, "status": status, "said": f"portland: {said}" if said else "", "words": words,
            "files": {path: base64.b64encode(data).decode() for path, data in files.items()}, "expected": answered(files, status, said, words),
        })
    json.dump(found, sys.stdout)


if __name__ == "__main__":
    main()
