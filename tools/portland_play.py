"""What the tools share: how one ends, which packages it needs, how a run is played, how captures are written."""

import argparse
import importlib
import os
import pathlib
import re
import shutil
import signal
import subprocess
import sys

from portland_captures import Writer
from portland_frames import kind_of, mac_bytes
from portland_journal import Fabric, Fault, Host

TOP = pathlib.Path(__file__).resolve().parent.parent
DEBIAN = "/usr/bin/python3"


def run_tool(name, main, faulty=1):
    """Plays a tool with the words behind its name, and gives its status; a fault is one line, with a status that a tool may choose."""
    # A reader such as `head` may stop before the end.
    signal.signal(signal.SIGPIPE, signal.SIG_DFL)
    try:
        return main(sys.argv[1:]) or 0
    except Fault as fault:
        print(f"{name}: {fault}", file=sys.stderr)
        return faulty
    except KeyboardInterrupt:
        return 130


def usage(text):
    print(f"usage: {text}", file=sys.stderr)
    return 2


def needed(module, package):
    """A module of a Debian package. Another Python than Debian's own does not see it, and then that one plays the tool."""
    try:
        return importlib.import_module(module)
    except ModuleNotFoundError:
        other = pathlib.Path(DEBIAN)
        if other.exists() and other.resolve() != pathlib.Path(sys.executable).resolve():
            os.execv(DEBIAN, [DEBIAN, *sys.argv])
        raise Fault(f"needs the Debian package {package}: sudo apt install {package}") from None


def needed_parallel():
    """GNU parallel; moreutils has another program of that name."""
    found = shutil.which("parallel")
    said = subprocess.run([found, "--version"], capture_output=True, text=True, check=False).stdout if found else ""
    if not said.startswith("GNU parallel"):
        raise Fault("needs GNU parallel, the Debian package parallel: sudo apt install parallel")
    return found


PORTLAND = TOP / "portland"  # plays the program that is built here, or that PORTLAND_PROGRAM names


def call(*words, is_said=False):
    """What portland prints for these words. Of a fault its first line stands before what to do."""
    errors = None if is_said and sys.stderr.isatty() else subprocess.PIPE
    command = [str(PORTLAND), *map(str, words)]
    played = subprocess.run(command, stdin=subprocess.DEVNULL, stdout=subprocess.PIPE, stderr=errors, text=True, check=False)
    said = [line for line in (played.stderr or "").splitlines() if line and "not proved yet" not in line]
    if played.returncode != 0:
        raise Fault("\n".join(said) or f"the program ended with status {played.returncode}")
    if is_said:
        print("".join(f"{line}\n" for line in said if line.startswith("note: ")), end="", file=sys.stderr)
    return played.stdout


def play(topology, script, captures, out, command="run", is_said=False):
    """Plays a run and gives its summary; files are saved in `out`."""
    pathlib.Path(out).mkdir(parents=True, exist_ok=True)
    items = ["--topology", topology, "--script", script, "--captures", captures, "--out", out]
    return call(command, *items, "--bare", is_said=is_said)


# Folders that hold a whole run: topology.toml, script and captures/, and what comes of them.


def play_folder(folder):
    """Plays the run of a folder, and saves journal, captures and summary beside it."""
    folder = pathlib.Path(folder)
    summary = play(folder / "topology.toml", folder / "script", folder / "captures", folder, is_said=True)
    (folder / "summary").write_text(summary)
    return summary


def new_folder(path, *inputs):
    """A folder for a whole run, made if it is not there; none in which an input lies."""
    folder = pathlib.Path(path)
    for given in map(pathlib.Path, filter(None, inputs)):
        if folder.resolve() in (given.resolve(), given.resolve().parent) or (folder / "captures").resolve() == given.resolve().parent:
            raise Fault(f"{given} lies in {folder}, where the run is to be saved: name another folder")
    try:
        (folder / "captures").mkdir(parents=True, exist_ok=True)
    except OSError as error:
        raise Fault(f"{error.strerror}: {folder}") from None
    return folder


def all_hosts(k):
    """A fabric of k ports with a host at each place, as `portland gen` draws it."""
    fabric = Fabric(k)
    for edge in (switch.label for switch in fabric.switches if switch.level == 0):
        for port in fabric.host_ports(edge):
            n = len(fabric.hosts)
            mac = f"02:00:00:00:{n // 256:02x}:{n % 256:02x}"
            fabric.hosts.append(Host(f"h{n}", mac, f"10.1.{(n + 1) // 256}.{(n + 1) % 256}", edge, port))
    return fabric


def arity(word):
    """The k that a word of the command line says."""
    if not word.isdecimal() or int(word) not in range(4, 25, 2):
        raise argparse.ArgumentTypeError(f"{word} is no even number from 4 to 24")
    return int(word)


def at_least_1(word):
    """A number of the command line that is at least 1."""
    if not word.isdecimal() or int(word) < 1:
        raise argparse.ArgumentTypeError(f"{word} is no number from 1 on")
    return int(word)


def linked(words):
    """The words of a command line, with a link behind --fail as two words, be it given as `e0.0-a0.0`."""
    found = []
    for word in words:
        name, is_joined, link = word.partition("=")
        if name == "--fail" and is_joined:
            found.append(name)
            word = link
        is_link = found[-1:] == ["--fail"] and re.fullmatch(r"[eac]\d+\.\d+-[eac]\d+\.\d+", word)
        found += word.split("-") if is_link else [word]
    return found


# Test frames: each host sends to each other one. They have the type 88b6, which is free for experiments.


def probe(hosts, a, b, turn=0):
    """The frame of host number a to host number b."""
    ends = mac_bytes(hosts[b].mac) + mac_bytes(hosts[a].mac)
    return ends + bytes.fromhex("88b6") + b"".join(n.to_bytes(2, "big") for n in (a, b, turn)) + bytes(40)


def read_probe(data):
    """The sender, the receiver and the turn of a test frame; None of other frames."""
    if kind_of(data) != 0x88B6 or len(data) != 60:
        return None
    return tuple(int.from_bytes(data[at : at + 2], "big") for at in (14, 16, 18))


def write_probes(fabric, folder, turns=1):
    """For each host a capture with its frames to each other one, as often as asked."""
    hosts = fabric.hosts
    for a, host in enumerate(hosts):
        host.capture = f"{host.name}.pcap"
        with Writer(folder / host.capture) as capture:
            for turn in range(turns):
                for b in range(len(hosts)):
                    if a != b:
                        capture.write(probe(hosts, a, b, turn), turn)
