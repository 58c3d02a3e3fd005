# shellcheck shell=sh disable=SC2154
# The part of ./portland that says how it is used: `help_on` reads it, and calls `say_help`. It stands on the wrapper's `top`.

# say_help COMMAND: what it takes, with an example; of none, what there is.
say_help() {
    case $1 in
        run) cat <<'END' ;;
./portland run --topology T --script S --captures DIR --out DIR [--bare]

Plays a script over the hosts' captures. Saves into --out a capture for each host and journal.txt, and prints the summary. Topology and script
are put there too, as topology.toml and script, so that the folder is a whole run for the tools.
  --topology T    a TOML file: how large the fabric is, and which hosts stand where
  --script S      what happens, a line for each thing; - is standard input
  --captures DIR  the folder of the captures that the topology names
  --out DIR       the folder to save into, made where there is none
  --bare          leaves topology and script out of that folder
Items stand in any order, as --out DIR or --out=DIR. Example:
  ./portland run --topology examples/four-hosts/topology.toml --script examples/four-hosts/script \
      --captures examples/four-hosts/captures --out out/four-hosts
END
        bridge) cat <<'END' ;;
./portland bridge --topology T --script S --captures DIR --out DIR

Plays the same on learning bridges, which flood over a tree of the links, to compare the fabric with. Takes the items of run, and saves and prints what
it does. A script has no repair, random, restart, expect address and expect settled then, and settle N makes N sweeps at most. Example:
  ./portland bridge --topology examples/beside-bridges/topology.toml --script examples/beside-bridges/script \
      --captures examples/beside-bridges/captures --out out/beside-bridges
END
        watch) cat <<'END' ;;
./portland watch --topology T --script S --captures DIR [--of SWITCH] [--kind KIND] [--lines FROM-TO] [--json]

Plays the script of a run, saves nothing, and prints what the switches say: each step, and below it what was heard, known then and done, with the journal among it.
docs/LOG.md has each line.
  --of SWITCH      what one switch hears, knows and does
  --kind KIND      the lines of one kind, as vote, avoid, silent
  --lines FROM-TO  what happens in these lines of the script
  --json           an array of its words for each line
Example:
  ./portland watch --topology examples/link-fails/topology.toml --script examples/link-fails/script \
      --captures examples/link-fails/captures --lines 15-16 --kind avoid
END
        until) cat <<'END' ;;
./portland until N run --topology T --script S --captures DIR --out DIR

Plays the script up to before line N, and saves what a run saves; where line N is an `expect`, it shows what was there. Example:
  ./portland until 9 run --topology examples/four-hosts/topology.toml --script examples/four-hosts/script \
      --captures examples/four-hosts/captures --out out/before-line-9
END
        check) cat <<'END' ;;
./portland check --topology T

Reads a topology, and prints how many switches, links and hosts it has. Example:
  ./portland check --topology examples/four-hosts/topology.toml
END
        gen) cat <<'END' ;;
./portland gen --k K --number N --frames F [--out DIR]

Draws a topology with a host at each host port, captures and a script, plays them, and prints the summary. Nothing is saved without --out.
  --k K           even, 4 to 24
  --number N      what is drawn: 0 to 18446744073709551615
  --frames F      1 to 100000
  --out DIR       what was drawn, and what came of it, is kept there as a whole run (Python 3.11 or newer draws it)
Example:
  ./portland gen --k 4 --number 1 --frames 100
END
        verify) cat <<'END' ;;
./portland verify --topology T --journal J

Checks a saved journal by itself, from whatever it comes: prints `legal N`, with the number of its entries, where each may follow those before it; else
says which entry is the first that may not, or which line is the first that is none of an entry. Nothing is saved. Example:
  ./portland verify --topology examples/four-hosts/topology.toml --journal out/four-hosts/journal.txt
END
        prove) cat <<'END' ;;
./portland prove
./portland prove watch

Proves the program and builds it, once: until then each call builds the same sources unproved, a minute or more. From nothing it
takes over an hour of processor, as many crates at a time as there are processors (PORTLAND_JOBS=N for another number), and a minute or two
where this machine has proved the same sources. `rt`, the kit of Rattle, must be on the path. With `watch` it is the program behind
./portland watch. A program that was built elsewhere is played by PORTLAND_PROGRAM=FILE, here and by all tools; the one behind
./portland watch is then FILE_watch, or portland_watch in its folder.
END
        try) cat <<'END' ;;
./portland try WORDS..

Plays the unproved build with the words of a command, also where the program is proved. It has a minute for each run.
END
        *) say_commands ;;
    esac
}

say_commands() {
    cat <<'END'
./portland COMMAND ..

  run     plays a script over the hosts' captures     run --topology T --script S --captures DIR --out DIR
  bridge  plays it on learning bridges, to compare    bridge --topology T --script S --captures DIR --out DIR
  watch   prints what the switches say meanwhile      watch --topology T --script S --captures DIR
  check   reads a topology                            check --topology T
  gen     draws a run of a whole fabric, and plays it gen --k K --number N --frames F
  verify  checks a saved journal                      verify --topology T --journal J
  until   plays up to before a line of the script     until N run --topology T --script S --captures DIR --out DIR
  prove   proves and builds the program, once         prove, prove watch
  try     plays the unproved build                    try run ..
  help    says what a command takes                   help run
  --version  says which version, commit and kit this is
END
    for tool in "$top"/tools/*; do
        name=${tool##*/}
        case $name in
            *.* | explain) continue ;;
        esac
        [ -f "$tool" ] && [ -x "$tool" ] && printf '  %-7s a tool: tools/%s\n' "$name" "$name"
    done
    cat <<'END'

Begin with:
  ./portland run --topology examples/two-hosts/topology.toml --script examples/two-hosts/script \
      --captures examples/two-hosts/captures --out out/two-hosts
docs/FORMATS.md has every key and line, docs/MESSAGES.md what each refusal means. PORTLAND_HINTS=off leaves hints away.
END
}
