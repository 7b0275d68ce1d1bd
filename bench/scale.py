#!/usr/bin/env python3
"""Measures how the cost of `vicos group` grows with the length of its script.

usage: scale.py [--program FILE] [--events N | --puts N] [--rounds N] [--in-turn] [--clients N ..] [--keys N] [--count BY]

It makes a script of N events and one of 2 N events, an event being a line behind the header, for each number of clients, and
runs the program on them. Calls use so many keys. With --puts a script has N puts in place of events, and one of 2 N: of one
client, each of another key of 255 bytes with a value of 64, and each sealed before the next. Scripts are the same at each run.

Times. In a round the longer script runs once, and beside it, on another processor, the shorter one twice, one run after the
other: so both see the machine as it is in that while, whose speed may vary with what else goes on. With --in-turn the three run
one after the other, the longer one in the middle, so only one processor is used. It prints of each run the user, system and
elapsed time, memory and size of the output, and then by what factor the user time grew: the mean of all runs of the longer
script, divided by that of the shorter one. No memory is told below that of this script, which starts the runs. With --rounds 0
no times are taken.

Instructions don't vary with what else goes on. Each script is run once more to count them. BY is `perf` (perf stat, as fast as a
run), `cachegrind` (of valgrind, some 30 times as long as a run), `none`, or `any`, which is the first of these that works here.

The factor of the instructions decides where they are counted; else that of the times does, and only where the shorter script
takes at least a second, since below that it is noise. Of few instructions many belong to the start of a run, which hides growth.

Status 0: no factor that decides is above 2.3. Status 1: one is, or a run ended otherwise than with status 0 and `tags made`.
Status 2: wrong words, or there is no program. FILE is the built program, which `./vicos` leaves as crates/vicos/out/vicos.
"""
import argparse
import itertools
import os
import platform
import re
import shutil
import subprocess
import sys
import tempfile
import time

MOST = 2.3
LONG_ENOUGH = 1.0  # seconds of user time from which on a factor of times means something
MANY_ENOUGH = 10**9  # instructions from which on the start of a run no longer hides how the rest grows
LIMIT = 16_777_216  # bytes that a script may have
MOST_PUTS = 25_040  # of 255 and 64 bytes: one more would be too heavy for a dictionary


def numbers(seed):
    """Numbers below 2^31, by a linear congruence."""
    while True:
        seed = (seed * 1103515245 + 12345) % 2**31
        yield seed


def operation(draw, keys):
    """One call's words: half of them put, two in five get, the others delete or list."""
    kind = next(draw) // 64 % 20
    key = f"k{next(draw) // 64 % keys:03}"
    if kind < 10:
        return f"put {key} v{next(draw) // 64 % 1000}"
    if kind < 18:
        return f"get {key}"
    if kind < 19:
        return f"del {key}"
    return f"list {key}"


def rounds(clients, keys, draw):
    """Lines without end. Half of the rounds have all calls ordered before one of them is taken, so that some abort."""
    members = range(1, clients + 1)
    while True:
        is_at_once = next(draw) // 64 % 2 == 0
        for who in members:
            yield f"call {who} {operation(draw, keys)}"
            if not is_at_once:
                yield f"run {who}"
        if is_at_once:
            for step in ("serve", "take", "run"):
                for who in members:
                    yield f"{step} {who}"


def puts():
    """Lines that put, and that seal what was put: two a put."""
    for put in range(MOST_PUTS):
        yield f"call 1 put {put:05}{'k' * 250} {'v' * 64}"
        yield "run 1"


def write_script(path, clients, lines, count):
    with open(path, "w", encoding="ascii") as out:
        out.write(f"clients {clients}\n")
        for line in itertools.islice(lines, count):
            out.write(line + "\n")
    if os.path.getsize(path) > LIMIT:
        stop(f"a script of {count} lines is over {LIMIT} bytes: give a smaller --events")


def stop(why):
    print(f"{os.path.basename(sys.argv[0])}: {why}", file=sys.stderr)
    sys.exit(2)


def last_line(path):
    with open(path, "rb") as text:
        text.seek(max(0, os.path.getsize(path) - 200))
        return text.read().splitlines()[-1:]


class Scripts:
    """What is measured: scripts for so many clients, one of a size and one of twice that. A size counts events or puts."""

    def __init__(self, program, folder, clients, unit, size):
        self.program, self.folder, self.clients, self.unit = program, folder, clients, unit
        self.sizes = (size, 2 * size)

    def path(self, size):
        return f"{self.folder}/script-{size}"

    def write(self, keys):
        for size in self.sizes:
            if self.unit == "puts":
                write_script(self.path(size), self.clients, puts(), 2 * size)
            else:
                write_script(self.path(size), self.clients, rounds(self.clients, keys, numbers(7)), size)

    def says(self, told):
        print(f"{self.clients:7} clients: {told}", flush=True)


class Run:
    """The program on the script of a size."""

    def __init__(self, scripts, size):
        self.scripts, self.size = scripts, size
        self.printed = f"{scripts.folder}/printed-{size}"
        self.began = time.monotonic()
        with open(scripts.path(size), "rb") as given, open(self.printed, "wb") as taken:
            actions = [(os.POSIX_SPAWN_DUP2, given.fileno(), 0), (os.POSIX_SPAWN_DUP2, taken.fileno(), 1)]
            self.child = os.posix_spawn(scripts.program, [scripts.program, "group"], {}, file_actions=actions)

    def end(self):
        """The user time in seconds, and whether the program ended as it should."""
        _, status, used = os.wait4(self.child, 0)
        elapsed = time.monotonic() - self.began
        is_right = status == 0 and last_line(self.printed) == [b"tags made"]
        print(
            f"{self.scripts.clients:7} clients {self.size:8} {self.scripts.unit} {used.ru_utime:9.2f} s user "
            f"{used.ru_stime:7.2f} s system {elapsed:9.2f} s elapsed {used.ru_maxrss / 1024:8.0f} MiB "
            f"{os.path.getsize(self.printed) / 1e6:8.1f} MB printed{'' if is_right else '   ENDED OTHERWISE'}",
            flush=True,
        )
        return used.ru_utime, is_right


def measure(scripts, times, is_in_turn):
    """The mean user times of both scripts, and whether each run ended as it should."""
    once, twice = scripts.sizes
    short, long = [], []
    for _ in range(times):
        if is_in_turn:
            short.append(Run(scripts, once).end())
            long.append(Run(scripts, twice).end())
            short.append(Run(scripts, once).end())
        else:
            beside = Run(scripts, twice)
            short += [Run(scripts, once).end() for _ in range(2)]
            long.append(beside.end())
    means = [sum(used for used, _ in runs) / len(runs) for runs in (short, long)]
    return means, all(is_right for _, is_right in short + long)


def counted_by_perf(words, given):
    """The instructions of a command in user mode; None where they weren't counted, or it ended otherwise than with status 0."""
    perf = shutil.which("perf")
    if not perf:
        return None
    run = subprocess.run(
        [perf, "stat", "-x", ",", "-e", "instructions:u", *words],
        stdin=given, stdout=subprocess.DEVNULL, stderr=subprocess.PIPE, text=True, check=False,
    )
    found = re.search(r"^(\d+),[^,]*,instructions", run.stderr, re.M)
    return int(found.group(1)) if found and run.returncode == 0 else None


def counted_by_cachegrind(words, given):
    """The same, by an emulated processor."""
    valgrind = shutil.which("valgrind")
    if not valgrind:
        return None
    run = subprocess.run(
        [valgrind, "--tool=cachegrind", "--cache-sim=no", "--cachegrind-out-file=/dev/null", *words],
        stdin=given, stdout=subprocess.DEVNULL, stderr=subprocess.PIPE, text=True, check=False,
    )
    found = re.search(r"I +refs: +([\d,]+)", run.stderr)
    return int(found.group(1).replace(",", "")) if found and run.returncode == 0 else None


COUNTERS = {"perf": counted_by_perf, "cachegrind": counted_by_cachegrind}


def counter_for(asked):
    """The name of the counter to use, or None. It is tried on a command that does nothing."""
    for name in COUNTERS if asked == "any" else [asked]:
        if name != "none" and COUNTERS[name]([shutil.which("true") or "/bin/true"], subprocess.DEVNULL):
            return name
    if asked not in ("any", "none"):
        stop(f"{asked} counts no instructions here")
    return None


def count(counter, scripts, size):
    with open(scripts.path(size), "rb") as given:
        return COUNTERS[counter]([scripts.program, "group"], given)


def factor_of_times(scripts, once, twice):
    """What the times say; None where they are too short to decide."""
    factor = twice / max(once, 0.01)
    told = f"{once:.2f} s and {twice:.2f} s in the mean, so twice the {scripts.unit} cost {factor:.2f} times as much"
    if once >= LONG_ENOUGH:
        scripts.says(f"{told}; at most {MOST} is wanted")
        return factor
    enough = int(scripts.sizes[0] * LONG_ENOUGH / max(once, 0.01))
    scripts.says(f"{told}; that is noise: from about {enough} {scripts.unit} on, a second's work, it means something")
    return None


def factor_of_counts(scripts, once, twice, counter):
    """What the counted instructions say."""
    if not once or not twice:
        scripts.says(f"{counter} counted nothing")
        return None
    factor = twice / once
    enough = int(scripts.sizes[0] * MANY_ENOUGH / once)
    few = f"; a smaller factor means something from about {enough} {scripts.unit} on" if once < MANY_ENOUGH else ""
    scripts.says(
        f"{once / 1e6:,.0f} and {twice / 1e6:,.0f} million instructions by {counter}, so twice the {scripts.unit} "
        f"cost {factor:.2f} times as much; at most {MOST} is wanted{few}"
    )
    return factor


def is_within(scripts, asked, counter):
    """Whether the factor that decides is within the bound, and each run ended as it should."""
    scripts.write(asked.keys)
    is_right, decides = True, None
    if asked.rounds:
        means, is_right = measure(scripts, asked.rounds, asked.in_turn)
        decides = factor_of_times(scripts, *means)
    if counter:
        counts = [count(counter, scripts, size) for size in scripts.sizes]
        is_right = is_right and all(counts)
        decides = factor_of_counts(scripts, *counts, counter)
    return is_right and (decides is None or decides <= MOST)


def processor():
    """The processor's name, where the system tells it."""
    try:
        with open("/proc/cpuinfo", encoding="utf-8") as told:
            found = re.search(r"^model name\s*: (.*)$", told.read(), re.M)
    except OSError:
        found = None
    return found.group(1) if found else platform.machine()


def number(low, high=None):
    """A whole number from low to high, as a word of the command."""

    def read(word):
        value = int(word)
        if value < low or high is not None and value > high:
            raise argparse.ArgumentTypeError(f"{value} isn't from {low} to {high}" if high else f"{value} is below {low}")
        return value

    read.__name__ = "number"
    return read


def default_program():
    top = os.path.dirname(os.path.dirname(os.path.abspath(__file__)))
    return f"{top}/crates/vicos/out/vicos"


def built(path):
    """The program's whole path; where there is none, that is said and all ends."""
    program = os.path.abspath(path)
    if not (os.path.isfile(program) and os.access(program, os.X_OK)):
        stop(f"no program at {program}: build it first, by ./vicos")
    return program


def words():
    wanted = argparse.ArgumentParser(description="Measures how the cost of `vicos group` grows with its script.")
    wanted.add_argument("--program", default=default_program(), help="the built program")
    size = wanted.add_mutually_exclusive_group()
    size.add_argument("--events", type=number(1), default=50_000, help="lines of the shorter script (50000)")
    size.add_argument("--puts", type=number(1, MOST_PUTS // 2), help="sealed puts of the shorter script, in place of calls")
    wanted.add_argument("--rounds", type=number(0), default=4, help="how often the times are taken (4)")
    wanted.add_argument("--in-turn", action="store_true", help="one run at a time")
    wanted.add_argument("--clients", type=number(1, 64), nargs="+", default=[1, 8, 64], help="sizes of the group (1 8 64)")
    wanted.add_argument("--keys", type=number(1, 1_000_000), default=200, help="how many keys the calls use (200)")
    wanted.add_argument("--count", choices=[*COUNTERS, "none", "any"], default="any", help="what counts instructions (any)")
    return wanted.parse_args()


def main():
    asked = words()
    program = built(asked.program)
    counter = counter_for(asked.count)
    if not (asked.rounds or counter):
        stop("nothing to measure: no rounds, and no instructions counted")
    keys = "each put of another key" if asked.puts else f"{asked.keys} keys"
    print(f"{program} on {processor()}, {os.cpu_count()} processors, load {os.getloadavg()[0]:.1f}; {keys}")
    no_counter = "as asked" if asked.count == "none" else "since neither perf nor valgrind counts here"
    by = f"instructions are counted by {counter}" if counter else f"instructions aren't counted, {no_counter}: times alone decide"
    print(by, flush=True)
    is_well = True
    with tempfile.TemporaryDirectory(prefix="vicos-scale-") as folder:
        for clients in [1] if asked.puts else asked.clients:
            unit, size = ("puts", asked.puts) if asked.puts else ("events", asked.events)
            is_well = is_within(Scripts(program, folder, clients, unit, size), asked, counter) and is_well
    return 0 if is_well else 1


if __name__ == "__main__":
    sys.exit(main())
