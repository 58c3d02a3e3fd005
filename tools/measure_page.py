"""The page of figures: on which machine they were read, and the blocks that `tools/measure` writes anew."""

import datetime
import hashlib
import os
import pathlib
import platform
import re
import shutil
import subprocess
import time
from dataclasses import dataclass, field

from portland_journal import Fault
from portland_play import TOP

PAGE = TOP / "docs" / "PERFORMANCE.md"
MACHINE = "machine"


@dataclass
class Table:
    head: list
    rows: list
    commands: list  # what was run, with K, F and the like for what the row says
    remarks: list = field(default_factory=list)

    def text(self):
        if not self.rows:
            return "\n\n".join(self.remarks)
        lines = [f"| {' | '.join(map(str, row))} |" for row in (self.head, *self.rows)]
        lines.insert(1, "|" + "---|" * len(self.head))
        lines += ["", "```sh", *self.commands, "```"] if self.commands else []
        return "\n".join(lines + [line for remark in self.remarks for line in ("", remark)])


def printed(*words):
    """What a command prints in its first line; nothing where it is not there."""
    if shutil.which(words[0]) is None:
        return ""
    done = subprocess.run(words, capture_output=True, text=True, cwd=TOP, check=False)
    return done.stdout.strip() if done.returncode == 0 else ""


def line_of(path, key):
    """The value of a line `key : value` of a file of /proc."""
    found = re.search(rf"(?m)^{key}\s*:\s*(.*)$", pathlib.Path(path).read_text())
    return found[1].strip() if found else "unknown"


def machine_text():
    """The machine, as a table."""
    memory = int(line_of("/proc/meminfo", "MemTotal").split()[0]) / 2**20
    ns3 = printed("dpkg-query", "-W", "-f", "${Version}", "libns3-dev")
    rows = [
        ["processor", f"{line_of('/proc/cpuinfo', 'model name')}, {os.cpu_count()} of them"],
        ["memory", f"{memory:.0f} GiB"],
        ["system", f"{platform.system()} {platform.release()}"],
        ["toolchain", printed("rt", "version") or "unknown: rt is not on the path"],
        ["the limit", printed("rustc", "--version") or "rustc is not here"],
        ["the peer", f"ns-3 {ns3}, as Debian builds it" if ns3 else "ns-3 is not here"],
    ]
    return Table(["what", "which"], rows, []).text()


def sitting(program):
    """When figures are read, and of which program."""
    commit = printed("git", "rev-parse", "--short", "HEAD") or "unknown"
    is_changed = printed("git", "status", "--porcelain", "--", "crates", "crates.txt")
    now = datetime.datetime.now(datetime.timezone.utc)
    of_file = hashlib.sha256(pathlib.Path(program).read_bytes()).hexdigest()
    return f"{now:%Y-%m-%d %H:%M} UTC, commit {commit}{' with changes' if is_changed else ''}, program {of_file[:12]}"


class Others:
    """How much of the machine other programs have, from now on."""

    def __init__(self):
        self.begun = time.monotonic(), self.taken()

    @staticmethod
    def taken():
        """The seconds of processor that others have had."""
        fields = [int(word) for word in pathlib.Path("/proc/stat").read_text().split("\n")[0].split()[1:8]]
        busy = (sum(fields) - fields[3] - fields[4]) / os.sysconf("SC_CLK_TCK")  # without idling and waiting
        return busy - sum(os.times()[:4])

    def processors(self):
        now, taken = time.monotonic(), self.taken()
        return max(0.0, taken - self.begun[1]) / max(now - self.begun[0], 0.01)


# The page.


def block(text, name):
    """Where the block of a name stands in a page: its text between the two markers."""
    found = re.search(rf"(?<=<!-- measure {name} -->\n).*?(?=<!-- end -->)", text, re.S)
    if found is None:
        raise Fault(f"the page has no block of {name}: its figures go between the lines `<!-- measure {name} -->` and `<!-- end -->`")
    return found


def with_block(text, name, new):
    found = block(text, name)
    return text[: found.start()] + new + "\n" + text[found.end() :]


def read_page(path):
    try:
        return pathlib.Path(path).read_text()
    except OSError as error:
        raise Fault(f"{error.strerror}: {path}") from None


def check_page(path, names, is_whole):
    """Before anything is measured: the page has the blocks, and figures of a part alone come to figures of the same machine."""
    text = read_page(path)
    for name in (MACHINE, *names):
        block(text, name)
    stored = block(text, MACHINE)[0].strip()
    if not is_whole and stored and stored != machine_text():
        raise Fault(f"the figures of {path} were read on another machine, or by another toolchain: measure all parts, without --only")


def write_page(path, name, new):
    text = with_block(read_page(path), MACHINE, machine_text())
    pathlib.Path(path).write_text(with_block(text, name, new))
