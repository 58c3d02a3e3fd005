"""Takes readings of programs for `tools/measure`: processor time and memory, the best of some rounds, within limits."""

import os
import pathlib
import re
import shutil
import signal
import subprocess
import sys
from dataclasses import dataclass, field

from portland_journal import Fault
from portland_play import TOP

CHILD = TOP / "tools" / "measure_child.py"
LIMIT = TOP / "tools" / "measure_limit" / "main.rs"
NS3 = TOP / "tools" / "measure_ns3.cc"
NS3_HEADER = pathlib.Path("/usr/include/ns3/core-module.h")
NS3_PARTS = ("bridge", "csma", "internet", "point-to-point", "network", "core")
OUT_OF_MEMORY = 12
LONG = 60.0  # a reading of so many seconds is not taken again
CLOCK = 0.02  # seconds that no difference of two readings tells apart from nothing


@dataclass
class Command:
    """What is read: a program with its words, and the folder that it saves into."""

    words: list
    out: pathlib.Path | None = None


@dataclass
class Reading:
    seconds: float  # of processor
    kibibytes: int
    ended: str = ""  # why it was stopped, where it was
    text: str = ""  # what it printed

    def count(self, word):
        """The number behind a word that it printed, 0 where there is none."""
        found = re.search(rf"(?m)(?:^| ){word} (\d+)", self.text)
        return int(found[1]) if found else 0


@dataclass
class Pair:
    """A reading of a run and one of the same run that goes on: what they differ by is what goes on."""

    base: Reading
    whole: Reading

    @property
    def seconds(self):
        """None where a run was stopped, or the two do not tell."""
        took = self.whole.seconds - self.base.seconds
        return None if self.base.ended or self.whole.ended or took < CLOCK else took

    def count(self, word):
        return self.whole.count(word) - self.base.count(word)

    def told(self, form):
        """A text of these seconds, or why there is none."""
        return form(self.seconds) if self.seconds else self.base.ended or self.whole.ended or "-"

    def more(self):
        return self.told(figure)

    def rate(self, count):
        """So many things in these seconds."""
        return self.told(lambda took: f"{count / took:,.0f}")


@dataclass
class Bench:
    program: str
    work: pathlib.Path  # a folder of its own
    inputs: pathlib.Path  # the folder of what is played
    rounds: int
    seconds: int
    memory: int  # bytes
    built: dict = field(default_factory=dict)

    def read(self, command):
        """One reading."""
        if command.out:
            shutil.rmtree(command.out, ignore_errors=True)
            command.out.mkdir(parents=True)
        printed, said = self.work / "printed", self.work / "said"
        seconds, kibibytes, status = told_by([CHILD, self.seconds, self.memory, printed, said, *command.words])
        if command.out:
            shutil.rmtree(command.out)
        reading = Reading(float(seconds), int(kibibytes), text=printed.read_text(errors="replace"))
        reading.ended = self.why_stopped(int(status), said)
        if int(status) and not reading.ended:
            first = said.read_text(errors="replace").strip().splitlines()[:1]
            name = pathlib.Path(command.words[0]).name
            raise Fault(f"{name} ended with status {status}: {''.join(first)}\n  {' '.join(map(str, command.words))}")
        return reading

    def why_stopped(self, status, said):
        if status == -signal.SIGXCPU:
            return f"stopped after {self.seconds} s"
        if status in (OUT_OF_MEMORY, -signal.SIGKILL) or "bad_alloc" in said.read_text(errors="replace"):
            return f"stopped at {self.memory / 2**30:.0f} GiB" if self.memory else "stopped for want of memory"
        return ""

    def in_turn(self, commands):
        """The best reading of each of some commands, by their names. They are read in turn, since a machine does not stay the same."""
        best = {}
        for _ in range(self.rounds):
            for name, command in commands.items():
                if name in best and (best[name].ended or best[name].seconds > LONG):
                    continue
                reading = self.read(command)
                if name not in best or reading.seconds < best[name].seconds:
                    best[name] = reading
        return best

    def best(self, command):
        return self.in_turn({"it": command})["it"]

    def pairs(self, commands):
        """Of each name with two commands the pair of their readings; all are read in turn."""
        flat = {(name, n): command for name, both in commands.items() for n, command in enumerate(both)}
        best = self.in_turn(flat)
        return {name: Pair(best[name, 0], best[name, 1]) for name in commands}

    # The programs.

    def portland(self, *words, out=None):
        return Command([self.program, *words], out)

    def play(self, folder, script, how="run"):
        """Plays a script of a folder of inputs."""
        out = self.work / "out"
        files = ("--topology", folder / "topology.toml", "--script", folder / script, "--captures", folder / "captures")
        return self.portland(how, *files, "--out", out, out=out)

    def limit(self, *words):
        out = self.work / "out"
        return Command([self.built_by("rustc", "limit"), *words, f"--out={out}"], out)

    def has_limit(self):
        return shutil.which("rustc") is not None

    def ns3(self, *words):
        out = self.work / "out"
        return Command([self.built_by("g++", "ns3"), *words, f"--captures={out}"], out)

    def has_ns3(self):
        return shutil.which("g++") is not None and NS3_HEADER.exists()

    def built_by(self, compiler, name):
        """A program to measure beside, built once."""
        if name not in self.built:
            target = self.work / name
            words = {
                "limit": ["--edition=2021", "-C", "opt-level=3", "-C", "codegen-units=1", LIMIT, "-o", target],
                "ns3": ["-std=c++17", "-O2", NS3, "-o", target, *(f"-lns3-{part}" for part in NS3_PARTS)],
            }[name]
            done = subprocess.run([compiler, *map(str, words)], capture_output=True, text=True, check=False)
            if done.returncode:
                raise Fault(f"{compiler} does not build tools/measure_{name}:\n{done.stderr.strip()}")
            self.built[name] = target
        return self.built[name]


def told_by(words):
    """The words that a script of Python prints. It and what it runs end when this process is stopped."""
    command = [sys.executable, "-I", "-S", *map(str, words)]
    with subprocess.Popen(command, stdout=subprocess.PIPE, text=True, start_new_session=True) as script:
        try:
            return script.communicate()[0].split()
        except BaseException:
            os.killpg(script.pid, signal.SIGKILL)
            raise


def named_program():
    """The program that PORTLAND_PROGRAM names."""
    found = shutil.which(os.environ["PORTLAND_PROGRAM"])
    if found is None:
        raise Fault(f"PORTLAND_PROGRAM names no program: {os.environ['PORTLAND_PROGRAM']}")
    return str(pathlib.Path(found).absolute())


def proved_program():
    """The program that is measured: what PORTLAND_PROGRAM names, or the one that is proved here."""
    if os.environ.get("PORTLAND_PROGRAM"):
        return named_program()
    if subprocess.run([str(TOP / "portland"), "prove"], check=False).returncode:
        raise Fault("the program could not be proved: name one by PORTLAND_PROGRAM=FILE, or see what was said above")
    return str(TOP / "crates" / "portland" / "out" / "portland")


# Figures as text.


def figure(number):
    return f"{number:.2f}" if number < 10 else f"{number:.0f}"


def seconds_of(reading):
    return reading.ended or figure(reading.seconds)


def mebibytes_of(reading):
    return f"{reading.kibibytes / 1024:,.0f}"
