"""Reads the lessons of `lessons/`, and checks what a student made of an exercise.

A lesson is a folder: a page, `lesson.toml`, a run (topology, script, captures), and three exercises. `lessons/README.md` has the form.
"""

import os
import pathlib
import re
import shutil
import subprocess
import tomllib
from dataclasses import dataclass, field

from portland_captures import Writer
from portland_frames import mac_bytes
from portland_journal import Fault, read_script, read_topology, text_of
from portland_play import PORTLAND, TOP, probe

LESSONS = TOP / "lessons"
HEAD = re.compile(r"# Lesson (\d+), exercise (\d+)\b")
FILES = ("topology.toml", "script")
BLANK = "ff:ff:ff:ff:ff:ff"  # an address in a given `expect` line that the student fills in


@dataclass
class Exercise:
    """What is wanted, which file the student changes, and what may change in it."""

    lesson: "Lesson"
    number: int
    title: str
    level: str  # easy, medium or hard
    file: str  # topology.toml or script
    wanted: str
    hint: str
    command: str = "run"
    may: list = field(default_factory=list)  # verbs of lines that may be added; keys of a topology that may change
    keep: str = "all"  # which lines of the given script stay, in their order: `all`, or those that `expect`
    most: int | None = None  # how many lines may be added, or how many hosts of the topology may change
    journal: list = field(default_factory=list)  # lines that the journal must have
    without: list = field(default_factory=list)  # lines that it must not have

    @property
    def folder(self):
        return self.lesson.folder / f"exercise-{self.number}"

    def path(self, part, name):
        """A file of `given` or `solution`. What neither has is the lesson's own."""
        places = [self.folder / part / name, self.folder / "given" / name, self.lesson.folder / name]
        return next(place for place in places if place.exists())

    def copy(self, part, folder):
        """Makes a whole run of `given`, or of `solution`, in a new folder."""
        folder = pathlib.Path(folder)
        if folder.exists() and any(folder.iterdir()):
            raise Fault(f"{folder} is not empty: name a new folder")
        for name in FILES:
            folder.mkdir(parents=True, exist_ok=True)
            shutil.copyfile(self.path(part, name), folder / name)
        shutil.copytree(self.path(part, "captures"), folder / "captures")


@dataclass
class Lesson:
    folder: pathlib.Path
    number: int
    title: str
    know: list
    command: str = "run"
    captures: dict = field(default_factory=dict)
    exercises: list = field(default_factory=list)

    @property
    def page(self):
        return self.folder / "README.md"

    def exercise(self, number):
        found = next((exercise for exercise in self.exercises if exercise.number == number), None)
        if found is None:
            raise Fault(f"lesson {self.number} has the exercises 1 to {len(self.exercises)}, and no exercise {number}")
        return found


def made(kind, table, where):
    """A value of a table of `lesson.toml`."""
    try:
        return kind(**table)
    except TypeError as error:
        raise Fault(f"{where}: {str(error).split('() ')[-1]}") from None


def read_lesson(folder):
    path = folder / "lesson.toml"
    try:
        document = tomllib.loads(text_of(path, "utf-8"))
    except tomllib.TOMLDecodeError as error:
        raise Fault(f"{path}: {error}") from None
    tables = document.pop("exercise", [])
    lesson = made(Lesson, {"folder": folder, **document}, path)
    numbered = enumerate(tables, 1)
    lesson.exercises = [made(Exercise, {"lesson": lesson, "number": n, **table}, f"{path}, exercise {n}") for n, table in numbered]
    return lesson


def lessons():
    """All lessons, by their numbers."""
    return sorted(map(read_lesson, (path.parent for path in LESSONS.glob("*/lesson.toml"))), key=lambda lesson: lesson.number)


def lesson_of(number):
    found = {lesson.number: lesson for lesson in lessons()}
    if number not in found:
        raise Fault(f"there is no lesson {number}: there are {', '.join(map(str, found))}")
    return found[number]


def write_captures(lesson, folder):
    """The captures of a lesson: for each host test frames to the hosts or addresses that `lesson.toml` names, in their order."""
    fabric = read_topology(lesson.folder / "topology.toml")
    folder.mkdir(parents=True, exist_ok=True)
    number = {host.name: n for n, host in enumerate(fabric.hosts)}
    for name, receivers in lesson.captures.items():
        with Writer(folder / fabric.host(name).capture) as capture:
            for turn, receiver in enumerate(receivers):
                is_host = ":" not in receiver
                data = probe(fabric.hosts, number[name], number[fabric.host(receiver).name] if is_host else 0, turn)
                capture.write(data if is_host else mac_bytes(receiver) + data[6:], turn)


# An exercise that a student has done.


def exercise_in(lesson, folder):
    """The exercise whose number the first line of a folder's script says."""
    for name in FILES:
        if not (folder / name).is_file():
            raise Fault(f"there is no {name} in {folder}: `tools/lesson {lesson.number} begin 1 {folder}` makes the folder of exercise 1")
    found = HEAD.match(text_of(folder / "script", "utf-8"))
    if not found:
        raise Fault(f"the first line of {folder}/script says no exercise: it was `# Lesson {lesson.number}, exercise 1`, or 2 or 3")
    if int(found[1]) != lesson.number:
        raise Fault(f"{folder} is of lesson {found[1]}: `tools/lesson {found[1]} check {folder}` checks it")
    return lesson.exercise(int(found[2]))


def is_filled_in(given, done):
    """Whether a line is the given one, where an address that was left blank may be any other."""
    if given.words[-1] != BLANK:
        return given.words == done.words
    return given.words[:-1] == done.words[:-1]


def added_lines(given, done):
    """The lines of a script that are not among the given ones, and the first given line that is missing or out of order."""
    left = list(given)
    added = []
    for command in done:
        if left and is_filled_in(left[0], command):
            left.pop(0)
        else:
            added.append(command)
    return added, left[0] if left else None


def faults_of_script(exercise, done):
    given = read_script(exercise.path("given", "script"))
    kept = [command for command in given if exercise.keep == "all" or command.words[0] == "expect"]
    added, missing = added_lines(kept, done)
    if missing:
        yield f"the given line `{missing.text.strip()}` is missing, or is not in its order any more: put it back"
    for command in added:
        if command.words[0] not in exercise.may:
            yield f"line {command.line}, `{command.text.strip()}`: only lines with {', '.join(exercise.may)} may be added here"
    if exercise.most is not None and len(added) > exercise.most:
        yield f"{len(added)} lines were added, and {exercise.most} are enough"


def toml_of(path):
    try:
        return tomllib.loads(text_of(path, "utf-8"))
    except tomllib.TOMLDecodeError as error:
        raise Fault(f"{path}: {error}") from None


def faults_of_topology(exercise, path):
    given, done = toml_of(exercise.path("given", "topology.toml")), toml_of(path)
    for key in sorted(given.keys() | done.keys()):
        if key not in exercise.may and given.get(key) != done.get(key):
            yield f"`{key}` of topology.toml is not as it was given: here {', '.join(f'`{key}`' for key in exercise.may)} may change"
    if "host" not in exercise.may:
        return
    before, after = given.get("host", []), done.get("host", [])
    fixed = [[{**host, "edge": None, "port": None} for host in hosts] for hosts in (before, after)]
    if fixed[0] != fixed[1]:
        yield "only `edge` and `port` of a host may change: names, addresses, captures and their order stay"
    changed = sum(old != new for old, new in zip(before, after))
    if exercise.most is not None and changed > exercise.most:
        yield f"{changed} hosts were moved, and {exercise.most} are enough"


def faults_of_files(exercise, folder):
    """What was changed that is not the student's to change."""
    other = next(name for name in FILES if name != exercise.file)
    same = {"script": lambda path: [command.words for command in read_script(path)], "topology.toml": toml_of}[other]
    if same(folder / other) != same(exercise.path("given", other)):
        yield f"{other} is not as it was given: this exercise changes {exercise.file} alone"
    if exercise.file == "script":
        yield from faults_of_script(exercise, read_script(folder / "script"))
    else:
        yield from faults_of_topology(exercise, folder / "topology.toml")


def played(folder, out, words, hints="off"):
    """What the program says on standard error, and its status."""
    items = ["--topology", folder / "topology.toml", "--script", folder / "script", "--captures", folder / "captures", "--out", out]
    env = {**os.environ, "PORTLAND_HINTS": hints}
    done = subprocess.run([PORTLAND, *words, *items], capture_output=True, text=True, check=False, stdin=subprocess.DEVNULL, env=env)
    return done.stderr.splitlines(), done.returncode


def not_there(exercise, folder, out, said):
    """The `expect` line that does not hold, and what was there, unless that is what the student is to find out."""
    line = re.search(r"line (\d+)", said[0])[1]
    text = text_of(folder / "script", "utf-8").split("\n")[int(line) - 1].strip()
    there, _ = played(folder, out, ["until", line, exercise.command])
    blanks = [command.words[:-1] for command in read_script(exercise.path("given", "script")) if command.words[-1] == BLANK]
    before = [words.removeprefix("portland: ") for words in there if words.startswith("portland: there")]
    return [f"line {line} of the script does not hold yet: `{text}`", *(before if text.split()[:3] not in blanks else [])]


def faults_of_run(exercise, folder):
    """What the program says, and what its journal lacks. What comes of the run is saved in `out`, up to a line that does not hold."""
    out = folder / "out"
    (out / "journal.txt").unlink(missing_ok=True)
    said, status = played(folder, out, [exercise.command])
    if status == 8:
        return not_there(exercise, folder, out, said)
    if status != 0:
        said, _ = played(folder, out, [exercise.command], hints="on")
        return [line for line in said if line and not line.startswith("more:")]
    journal = set(text_of(out / "journal.txt", "ascii").splitlines())
    missing = [f"the journal does not have the line `{line}` yet" for line in exercise.journal if line not in journal]
    return missing + [f"the journal has the line `{line}`, and is not to have it" for line in exercise.without if line in journal]


def faults_of(exercise, folder):
    """What is not yet so, one text each; none where the exercise is done."""
    return list(faults_of_files(exercise, folder)) or faults_of_run(exercise, folder)
