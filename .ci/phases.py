"""Runs the gate, or the command that is given, and prints what each crate and each of its phases took.

    .ci/phases                    runs `rt ci` at the top of the repository
    .ci/phases rt must-fail NAME  runs that, as an example
    .ci/phases --aloud            runs `rt ci` and passes on what it says, as .ci/run does: first comes how long it
                                  will take; the line that ends a crate gets its times; behind what was proved come
                                  .ci/replay and .ci/play, which the last line counts too, and no table follows

It looks twice a second at the programs that the command starts. A phase is the proof of a crate, the
proof of its tests, its edits or its runs. The first table has a line for each crate, the second a line
for each phase; the last line is the longest chain, of which each link waits for the one before. Behind
a processor time stands how often it has that of the proof of rx_time, so that machines can be compared:
as this run saw it, or of so many seconds as the variable RX_TIME says, of checks alone in the same hour.
The log of the command goes to the file gate.log, or to the one that the variable GATE_LOG names. An
interrupt, or the signal TERM, stops the command; the tables then say what was seen. The exit status is
the command's own. docs/dev/gate.md says how to read the tables. It needs Linux, for /proc.
"""
import os
import re
import resource
import signal
import subprocess
import sys
import threading
import time

import expected

TICK = os.sysconf("SC_CLK_TCK")
PAGE = os.sysconf("SC_PAGE_SIZE")
KINDS = ("proof", "tests", "edits", "runs")
ENDS = re.compile(r"rt: (\w+)(?:(: its tests) are)? (?:NOT )?(?:proved|PROVED)$")
SCRIPTS = (".ci/replay", ".ci/play")  # over the programs that were proved
LAST = re.compile(r"(\d+) passed, (\d+) failed")


class Process:
    """What /proc says of a process: its parent, when it began, its memory, and the processor seconds of
    itself and of the children that have ended."""

    def __init__(self, pid):
        with open(f"/proc/{pid}/stat", encoding="utf-8", errors="replace") as it:
            fields = it.read().rpartition(")")[2].split()
        self.parent, self.key = int(fields[1]), (int(pid), int(fields[19]))
        self.seconds, self.memory = sum(map(int, fields[11:15])) / TICK, int(fields[21]) * PAGE


def phase_of(pid):
    """The crate and the kind of phase that a process works for, where its words tell."""
    with open(f"/proc/{pid}/cmdline", "rb") as it:
        words = it.read().decode(errors="replace").split("\0")
    if "--crate-name" in words:
        crate = words[words.index("--crate-name") + 1]
        if os.path.basename(os.readlink(f"/proc/{pid}/cwd")).startswith("rt-edit-"):
            return crate, "edits"
        return crate, "tests" if "--test" in words else "proof"
    for word in words:
        ran = re.search(r"/rt-run-[^/]*/bin/(\w+?)(_tests)?(\.\w+)?$", word)
        if ran:
            return ran.group(1), "runs"
    return None


class Phase:
    """A phase: when it began, how long it lasted, its most memory, and the processor seconds of each of
    the programs that were started for it."""

    def __init__(self, now):
        self.began, self.lasted, self.memory, self.by_program = now, 0.0, 0, {}

    def see(self, passed, memory, by_program):
        """Notes what its programs have at this moment, after so many seconds more."""
        self.lasted += passed
        self.memory = max(self.memory, memory)
        for key, seconds in by_program.items():
            self.by_program[key] = max(self.by_program.get(key, 0.0), seconds)

    def seconds(self):
        return sum(list(self.by_program.values()))


def processes_below(top):
    """The processes that stem from this one, by number."""
    found = {}
    for name in os.listdir("/proc"):
        if name.isdigit():
            try:
                found[int(name)] = Process(name)
            except (OSError, ValueError, IndexError):
                continue
    below, grew = {top}, True
    while grew:
        more = {pid for pid, it in found.items() if it.parent in below} - below
        below, grew = below | more, bool(more)
    return {pid: found[pid] for pid in below & found.keys() if pid != top}


def owners_of(running):
    """For each process the phase that it works for and the program that was started for that. A process
    whose own words tell of no phase, or of the same one, belongs to its parent's program."""
    owners = {}

    def owner(pid):
        if pid not in running:
            return None
        if pid not in owners:
            above = owner(running[pid].parent)
            try:
                own = phase_of(pid)
            except (OSError, IndexError):
                own = None
            owners[pid] = above if own is None or above and above[0] == own else (own, running[pid].key)
        return owners[pid]

    for pid in running:
        owner(pid)
    return owners


def look(top, phases, now, since):
    """Adds what runs now to the phases."""
    running, seen = processes_below(top), {}
    for pid, owner in owners_of(running).items():
        if owner:
            phase, program = owner
            memory, by_program = seen.setdefault(phase, ([], {}))
            memory.append(running[pid].memory)
            by_program[program] = by_program.get(program, 0.0) + running[pid].seconds
    for phase, (memory, by_program) in seen.items():
        phases.setdefault(phase, Phase(since)).see(now - since, sum(memory), by_program)


def counts_of(log):
    """Of each crate its functions, its tests and its wrong bodies, by what the log says of them."""
    counts, crate, tests = {}, None, False
    for line in log.split("\n"):
        heading = re.match(r"== (\w+)(: its tests)?$", line)
        trying = re.match(r"rt: (\w+): trying its must-fail edits \((\d+)\)", line)
        verdict = re.match(r"logic=\S+ (?:tests=(\d+) )?functions=(\d+)", line)
        if heading:
            crate, tests = heading.group(1), bool(heading.group(2))
        elif trying:
            counts.setdefault(trying.group(1), {})["edits"] = trying.group(2)
        elif crate and verdict:
            counts.setdefault(crate, {})["tests" if tests else "proof"] = verdict.group(1 if tests else 2) or 0
    return counts


def unit_of(phases):
    """The processor seconds of the proof of rx_time; None where nobody says them."""
    known = float(os.environ.get("RX_TIME") or 0)
    proof = phases.get(("rx_time", "proof"))
    return known or (proof.seconds() if proof else 0.0) or None


def times(seconds, unit):
    """How often this is a unit, where there is one."""
    return f"{seconds / unit:.1f}" if unit else ""


def uses_of():
    """Of each crate the crates that it uses, by crates.txt."""
    rows = {}
    with open("crates.txt", encoding="utf-8") as it:
        for line in it:
            head, _, uses = line.partition("#")[0].partition(":")
            if head.split():
                rows[head.split()[0]] = uses.split()
    return {crate: [it for it in uses if it in rows] for crate, uses in rows.items()}


def longest_chain(phases, uses):
    """The proofs of which each waits for the one before, and what follows the last, that last longest together."""
    lasted = {at: it.lasted for at, it in phases.items()}
    chains = {}

    def chain_to(crate):
        if crate not in chains:
            below = max((chain_to(it) for it in uses.get(crate, ())), default=(0.0, []))
            proof = lasted.get((crate, "proof"), 0.0)
            chains[crate] = below[0] + proof, [*below[1], (crate, "proof", proof)]
        return chains[crate]

    ends = [(chain_to(crate), kind, lasted.get((crate, kind), 0.0)) for crate in uses for kind in ("tests", "edits")]
    (whole, links), kind, more = max(ends, key=lambda it: it[0][0] + it[2])
    return whole + more, [it for it in [*links, (links[-1][0], kind, more)] if it[2]]


def clock(seconds):
    return f"{int(seconds + 0.5) // 60}:{int(seconds + 0.5) % 60:02}"


def row(*cells):
    print(f"| {' | '.join(map(str, cells))} |")


def by_crate(phases, counts, whole, spent):
    """A line for each crate, the dearest first: how long each phase lasted, and its processor time."""
    row("Crate", "Functions", "Tests", "Edits", "Proof of the crate", "of its tests", "Its edits", "Its runs", "Processor time", "rx_time")
    print("|---" * 10 + "|")
    unit = unit_of(phases)
    crates = {crate: [phases.get((crate, kind)) for kind in KINDS] for crate, _ in phases}
    cost = {crate: sum(it.seconds() for it in its if it) for crate, its in crates.items()}
    for crate in sorted(crates, key=lambda it: -cost[it]):
        said = counts.get(crate, {})
        cells = [f"{clock(it.lasted)} ({clock(it.seconds())})" if it else "" for it in crates[crate]]
        row(crate, said.get("proof", ""), said.get("tests", ""), said.get("edits", ""), *cells, clock(cost[crate]), times(cost[crate], unit))
    spent = max(spent, sum(cost.values()))
    row("no phase of these", *[""] * 7, clock(spent - sum(cost.values())), times(spent - sum(cost.values()), unit))
    sums = [sum(int(it.get(kind, 0)) for it in counts.values()) for kind in KINDS[:3]]
    kinds = [clock(sum(it.seconds() for (_, at), it in phases.items() if at == kind)) for kind in KINDS]
    row(f"in all, {clock(whole)}", *sums, *(f"({it})" for it in kinds), clock(spent), times(spent, unit))


def by_phase(phases):
    """A line for each phase, in the order in which they began."""
    row("Crate", "Phase", "Began", "Lasted", "Processor", "Cores", "Memory")
    print("|---" * 7 + "|")
    for (crate, kind), it in sorted(phases.items(), key=lambda p: (p[1].began, KINDS.index(p[0][1]))):
        cores = f"{it.seconds() / it.lasted:.1f}" if it.lasted else ""
        row(crate, kind, clock(it.began), clock(it.lasted), clock(it.seconds()), cores, f"{it.memory / 2**30:.1f} GiB")


def print_chain(phases):
    """The longest chain, link by link."""
    whole, links = longest_chain(phases, uses_of())
    print(f"\nThe longest chain, {clock(whole)}: {', '.join(f'{crate} {kind} {clock(it)}' for crate, kind, it in links)}")


def stop(gate):
    """Stops the command and what it started."""
    its = [gate.pid, *processes_below(gate.pid)]
    for pid in its:
        try:
            os.kill(pid, signal.SIGTERM)
        except OSError:
            continue


def watch(gate, phases, start):
    since = 0.0
    while gate.poll() is None:
        time.sleep(0.5)
        now = time.monotonic() - start
        look(gate.pid, phases, now, since)
        since = now


def interrupted(*_):
    raise KeyboardInterrupt


def with_times(line, phases, now):
    """The line, and where it ends a crate how long that took, of the processor too, and when it ended."""
    ended = ENDS.match(line)
    if not ended:
        return line
    it = phases.get((ended.group(1), "tests" if ended.group(2) else "proof"))
    took = f"{clock(it.lasted)}, {clock(it.seconds())} of a processor, " if it else ""
    return f"{line} ({took}at {clock(now)})"


def what_is_new(proved, phases, now):
    """What a run proved, of what its lines said, and its processor time where that can be compared."""
    if not proved:
        return f"gate: proved nothing anew, in {clock(now)}"
    crates, tests = ([crate for crate, its_tests in proved if bool(its_tests) == of_tests] for of_tests in (False, True))
    parts = [*(["crates " + " ".join(crates)] if crates else []), *(["the tests of " + " ".join(tests)] if tests else [])]
    spent, unit = sum(it.seconds() for it in list(phases.values())), unit_of(phases)
    compared = f", {clock(spent)} of a processor, {times(spent, unit)} times rx_time" if unit else ""
    return f"gate: proved anew, in {clock(now)}{compared}: {'; '.join(parts)}"


def aloud(command):
    """Runs the command and passes on what it says, a line at a time; behind `rt ci` it runs the scripts."""
    is_gate = command == ["rt", "ci"]
    if is_gate:
        print(f"gate: {expected.sentence()}", flush=True)
    start, phases, proved, last = time.monotonic(), {}, [], None
    gate = subprocess.Popen(command, stdout=subprocess.PIPE, stderr=subprocess.STDOUT, stdin=subprocess.DEVNULL)
    threading.Thread(target=watch, args=(gate, phases, start), daemon=True).start()
    try:
        for line in gate.stdout:
            said = line.decode(errors="replace").rstrip("\n")
            ended = ENDS.match(said)
            if ended and said.endswith(" proved"):
                proved.append(ended.groups())
            if is_gate and LAST.fullmatch(said):
                last = LAST.fullmatch(said)
                print(what_is_new(proved, phases, time.monotonic() - start), flush=True)
            else:
                print(with_times(said, phases, time.monotonic() - start), flush=True)
    except KeyboardInterrupt:
        stop(gate)
    status = gate.wait()
    if last:
        differ = sum(subprocess.run([it], check=False).returncode != 0 for it in SCRIPTS)
        status = status or differ
        if not status:
            # (so that an install takes what was proved here)
            subprocess.run(["tools/proved", "mark"], check=False)
        print(f"{int(last[1]) + len(SCRIPTS) - differ} passed, {int(last[2]) + differ} failed", flush=True)
    return status


def main():
    words = sys.argv[1:]
    is_aloud = words[:1] == ["--aloud"]
    command = words[is_aloud:] or ["rt", "ci"]
    os.chdir(subprocess.run(["git", "rev-parse", "--show-toplevel"], capture_output=True, text=True, check=True).stdout.strip())
    signal.signal(signal.SIGTERM, interrupted)
    if is_aloud:
        return aloud(command)
    before, start, phases, name = resource.getrusage(resource.RUSAGE_CHILDREN), time.monotonic(), {}, os.environ.get("GATE_LOG", "gate.log")
    with open(name, "w", encoding="utf-8") as log:
        gate = subprocess.Popen(command, stdout=log, stderr=subprocess.STDOUT, stdin=subprocess.DEVNULL)
        try:
            watch(gate, phases, start)
        except KeyboardInterrupt:
            stop(gate)
            gate.wait()
    whole, after = time.monotonic() - start, resource.getrusage(resource.RUSAGE_CHILDREN)
    spent = after.ru_utime + after.ru_stime - before.ru_utime - before.ru_stime
    with open(name, encoding="utf-8", errors="replace") as it:
        log = it.read()
    last = (log.strip().split("\n") or [""])[-1]
    print(f"`{' '.join(command)}`: status {gate.returncode}, {os.cpu_count()} processors, {clock(whole)} in all; its last line: {last}\n")
    by_crate(phases, counts_of(log), whole, spent)
    print()
    by_phase(phases)
    print_chain(phases)
    return gate.returncode


if __name__ == "__main__":
    sys.exit(main())
