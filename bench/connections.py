#!/usr/bin/env python3
"""Measures what `vicos serve` does for verifying clients, each a process of its own, over the loopback address.

usage: connections.py [--program FILE] [--connections N ..] [--calls N] [--keys N] [--batch N] [--rounds N] [--processors N]

For each number of connections it starts a server and as many clients of one group. They share the calls out evenly: half of a
client's calls put, half get, on so many keys of its own, so no call is aborted. Behind each batch of calls stands `settle 1000`:
the client polls until its own calls are sealed. Batches are small, since no more than 1,024 calls of all clients may wait to be
sealed. A round has two runs.

The plain run. Each client's script is written, but for its end, before the clock starts; then the ends of all inputs are closed.
A client prints nothing before its session is over. Its output is taken only when all sessions are, so till then it waits with its
connection open, and the server is still whole. It is then that these are read:

- the requests: data segments that the server's connections took (`ss`; each request is one segment, since it is sent by one
  write, its client awaits the answer, and the loopback address loses none), of these the polls, which are what changed nothing;
- the elapsed time, from the closing of the first input to the end of the last session, as its output begins;
- the server's peak memory and its threads (/proc).

User and system times are those of whole processes, the start and the end of each with them.

The relayed run. The last client's connection goes through this script, which passes each request on and each answer back, and
takes the time from before it sends the request until it has the whole answer. That is what the server takes, with its queue,
both ways over the loopback address, and waking the worker and this script; the client's own work isn't in it. The relay slows
its own connection down, and the sealing of all calls behind that client's. So such a run counts for latencies alone.

It prints each run, and the medians of the rounds. --processors N keeps all processes, this one too, on so many processors.

Status 0: each session ended with status 0, nothing was aborted or refused, and all calls were sealed. Status 1: one ended
otherwise. Status 2: wrong words, or there is no program. FILE is the built program, which `./vicos` leaves as
crates/vicos/out/vicos. Linux alone has what this reads; where there is no `ss`, requests aren't counted.
"""
import argparse
import collections
import fcntl
import math
import os
import re
import select
import shutil
import signal
import socket
import statistics
import struct
import subprocess
import sys
import threading
import time

sys.dont_write_bytecode = True  # no folder of Python's own beside the measures
from scale import built, default_program, number, numbers, processor, stop

KEY = "6578616d706c65"  # the group's key, which the server isn't given
PATIENCE = 600  # seconds after which a run is given up
WAITED = 30  # seconds in which a server listens and its clients connect
PAGE = os.sysconf("SC_PAGE_SIZE")
SET_PIPE_SIZE = getattr(fcntl, "F_SETPIPE_SZ", 1031)
# A client prints at least 30 bytes for a `settle`, also where it has nothing to settle and sends nothing. So many at the end of its
# script let it print more than a pipe of one page holds.
LAST_SETTLES = PAGE // 30 + 8
KINDS = {0x22: "Invoke", 0x23: "Commit", 0x24: "Poll", 0x25: "Seal"}


def script(client, calls, keys, batch):
    """The lines of one client."""
    draw = numbers(client)
    lines = []
    for call in range(1, calls + 1):
        key = f"c{client:02}k{next(draw) // 64 % keys:03}"
        puts = next(draw) // 64 % 2 == 0
        lines.append(f"put {key} v{next(draw) // 64 % 1000}" if puts else f"get {key}")
        if call % batch == 0:
            lines.append("settle 1000")
    lines += ["settle 1000"] * LAST_SETTLES
    return "".join(line + "\n" for line in lines).encode()


def free_port():
    with socket.socket() as tried:
        tried.bind(("127.0.0.1", 0))
        return tried.getsockname()[1]


def sockets(port, state):
    """How many sockets of this port here are in a state: 0A listens, 01 is connected."""
    with open("/proc/net/tcp", encoding="ascii") as table:
        rows = [row.split()[1:4] for row in table.readlines()[1:]]
    return sum(own.endswith(f":{port:04X}") and is_in == state for own, _, is_in in rows)


class Process:
    """A command of the program, with pipes for what it reads and prints. The pipe for its output is as small as can be."""

    def __init__(self, program, *words):
        given, self.given = os.pipe()
        self.taken, taken = os.pipe()
        fcntl.fcntl(taken, SET_PIPE_SIZE, PAGE)
        actions = [(os.POSIX_SPAWN_DUP2, given, 0), (os.POSIX_SPAWN_DUP2, taken, 1)]
        self.child = os.posix_spawn(program, [program, *words], {}, file_actions=actions)
        os.close(given)
        os.close(taken)

    def write(self, text):
        while text:
            text = text[os.write(self.given, text):]

    def end_input(self):
        os.close(self.given)
        self.given = None

    def is_over(self):
        """Whether it has ended; it is still to be waited for."""
        return os.waitid(os.P_PID, self.child, os.WEXITED | os.WNOHANG | os.WNOWAIT) is not None

    def told(self, name):
        """A number of the process's status; 0 where it has ended."""
        with open(f"/proc/{self.child}/status", encoding="ascii") as status:
            found = re.search(rf"^{name}:\s*(\d+)", status.read(), re.M)
        return int(found.group(1)) if found else 0

    def end(self):
        """What it printed, its status, and the times that it used."""
        with os.fdopen(self.taken, "rb") as taken:
            self.taken = None
            text = taken.read().decode()
        _, status, used = os.wait4(self.child, 0)
        self.child = None
        return text, status, used

    def stop(self):
        """Ends what hasn't ended."""
        if self.child is not None:
            os.kill(self.child, signal.SIGKILL)
            os.wait4(self.child, 0)
        for pipe in (self.given, self.taken):
            if pipe is not None:
                os.close(pipe)


def frame(connection):
    """The next frame; no bytes where the connection has ended."""
    text = b""
    while len(text) < 4 or len(text) < 4 + struct.unpack(">I", text[:4])[0]:
        piece = connection.recv(65536)
        if not piece:
            return b""
        text += piece
    return text


class Relay(threading.Thread):
    """One connection that goes through here, and how long each of its requests took, in nanoseconds, by its kind."""

    def __init__(self, port):
        super().__init__(daemon=True)
        self.port = port
        self.doors = socket.create_server(("127.0.0.1", 0))
        self.taken = collections.defaultdict(list)

    def address(self):
        return self.doors.getsockname()[1]

    def run(self):
        client, _ = self.doors.accept()
        server = socket.create_connection(("127.0.0.1", self.port))
        with client, server, self.doors:
            for connection in (client, server):
                connection.setsockopt(socket.IPPROTO_TCP, socket.TCP_NODELAY, 1)
            while request := frame(client):
                began = time.perf_counter_ns()
                server.sendall(request)
                answer = frame(server)
                spent = time.perf_counter_ns() - began
                self.taken[request[4]].append(spent)
                client.sendall(answer)

    def latencies(self, kind=None):
        """In microseconds, ascending, of the requests of a group's calls."""
        return sorted(spent / 1000 for one in KINDS if kind in (None, one) for spent in self.taken[one])


def segments(port):
    """The data segments that the connections of this port took; None where they can't be counted."""
    ss = shutil.which("ss")
    if not ss:
        return None
    told = subprocess.run([ss, "-HtinO", f"sport = :{port}"], stdout=subprocess.PIPE, text=True, check=False).stdout
    return sum(int(found) for found in re.findall(r"data_segs_in:(\d+)", told))


def wait_for_ends(clients):
    """Waits until each client prints, so until each session is over."""
    waiting = select.poll()
    for client in clients:
        waiting.register(client.taken, select.POLLIN)
    left, until = len(clients), time.monotonic() + PATIENCE
    while left:
        ready = waiting.poll(max(0, until - time.monotonic()) * 1000)
        if not ready:
            raise RuntimeError(f"{left} sessions aren't over after {PATIENCE} seconds")
        for pipe, _ in ready:
            waiting.unregister(pipe)
        left -= len(ready)


class Run:
    """One server, so many clients, and what they took."""

    def __init__(self, program, connections, asked, is_relayed):
        self.program, self.connections, self.asked = program, connections, asked
        self.calls = max(1, asked.calls // connections)
        self.port = free_port()
        self.relay = Relay(self.port) if is_relayed else None
        self.processes = []
        try:
            self.measure()
        finally:
            for process in self.processes:
                process.stop()

    def start(self, *words):
        self.processes.append(Process(self.program, *words))
        return self.processes[-1]

    def wait_for(self, is_so, what):
        until = time.monotonic() + WAITED
        while not is_so():
            if any(process.is_over() for process in self.processes):
                raise RuntimeError(f"a process ended before {what}")
            if time.monotonic() > until:
                raise RuntimeError(f"it took more than {WAITED} seconds until {what}")
            time.sleep(0.005)

    def start_all(self):
        """The server and its clients, all of them connected, and their scripts written but for the end."""
        count = str(self.connections)
        server = self.start("serve", f"127.0.0.1:{self.port}", count, "plain", count)
        self.wait_for(lambda: sockets(self.port, "0A") > 0, "the server listened")
        if self.relay:
            self.relay.start()
        for client in range(1, self.connections + 1):
            is_relayed = self.relay and client == self.connections
            port = self.relay.address() if is_relayed else self.port
            self.start("client", f"127.0.0.1:{port}", str(client), count, KEY, "plain")
        self.wait_for(lambda: sockets(self.port, "01") == self.connections, "all clients were connected")
        clients = self.processes[1:]
        for client, process in enumerate(clients, 1):
            process.write(script(client, self.calls, self.asked.keys, self.asked.batch))
        return server, clients

    def measure(self):
        server, clients = self.start_all()
        began = time.perf_counter()
        for client in clients:
            client.end_input()
        wait_for_ends(clients)
        self.elapsed = time.perf_counter() - began
        self.requests = segments(self.port)
        self.memory = server.told("VmHWM") / 1024
        self.threads = server.told("Threads")
        ends = [client.end() for client in clients]
        self.clients_used = sum(used.ru_utime + used.ru_stime for _, _, used in ends)
        text, status, used = server.end()
        self.server_user, self.server_system = used.ru_utime, used.ru_stime
        self.told = {name: int(count) for name, count in re.findall(r"^(.*) (\d+)$", text, re.M)}
        self.is_right = status == 0 and self.is_served() and all(self.is_ended(text, status) for text, status, _ in ends)

    def is_served(self):
        """Whether all calls were ordered and sealed, and no connection ended otherwise than it should."""
        calls = self.connections * self.calls
        wanted = {"ordered": calls, "sealed": calls, "link faults": 0, "bad frames": 0, "no memory": 0}
        return all(self.told.get(name) == count for name, count in wanted.items())

    def is_ended(self, text, status):
        """Whether a session was done, each of its calls too."""
        lines = text.splitlines()
        return status == 0 and lines[-1:] == ["bye"] and sum(line.startswith("done ") for line in lines) == self.calls

    def polls(self):
        """The requests that changed nothing: where nothing was refused these are the polls."""
        return self.requests - self.told.get("changes", 0)

    def report(self):
        """What the plain run took, by name."""
        calls = self.connections * self.calls
        found = {
            "elapsed s": self.elapsed,
            "calls/s": calls / self.elapsed,
            "server MiB": self.memory,
            "threads": self.threads,
            "clients us/call": self.clients_used * 1e6 / calls,
        }
        if self.requests:
            found |= {
                "requests": self.requests,
                "polls": self.polls(),
                "requests/s": self.requests / self.elapsed,
                "user us/request": self.server_user * 1e6 / self.requests,
                "system us/request": self.server_system * 1e6 / self.requests,
            }
        return found

    def latencies(self):
        """What the relayed run took, by name; in microseconds, and how many requests it was."""
        found = {"calls/s": self.connections * self.calls / self.elapsed}
        for kind in (None, *KINDS):
            taken = self.relay.latencies(kind)
            name = KINDS.get(kind, "any")
            if taken:
                found |= {
                    f"{name} median us": statistics.median(taken),
                    f"{name} p99 us": taken[math.ceil(0.99 * len(taken)) - 1],
                    f"{name} count": len(taken),
                }
        return found


def shown(found):
    return ", ".join(f"{name} {value:,.{0 if value >= 1000 or value == int(value) else 2}f}" for name, value in found.items())


def is_well_measured(program, connections, asked):
    """Prints what the rounds took; whether each run ended as it should."""
    is_well, rounds = True, {"plain": [], "relayed": []}
    for _ in range(asked.rounds):
        for kind, found in rounds.items():
            run = Run(program, connections, asked, kind == "relayed")
            found.append(run.latencies() if run.relay else run.report())
            otherwise = "" if run.is_right else "   ENDED OTHERWISE"
            print(f"{connections:3} connections, {kind}: {shown(found[-1])}{otherwise}", flush=True)
            is_well = is_well and run.is_right
    for kind, found in rounds.items():
        medians = {name: statistics.median(one[name] for one in found if name in one) for name in found[0]}
        print(f"{connections:3} connections, {kind}, medians of {asked.rounds}: {shown(medians)}", flush=True)
    return is_well


def words():
    wanted = argparse.ArgumentParser(description="Measures what `vicos serve` does for verifying clients.")
    wanted.add_argument("--program", default=default_program(), help="the built program")
    wanted.add_argument("--connections", type=number(1, 64), nargs="+", default=[1, 8, 64], help="how many (1 8 64)")
    wanted.add_argument("--calls", type=number(1, 500_000), default=16_000, help="calls of all clients together (16000)")
    wanted.add_argument("--keys", type=number(1, 1000), default=200, help="how many keys each client uses (200)")
    wanted.add_argument("--batch", type=number(1, 15), default=4, help="calls between two settles (4)")
    wanted.add_argument("--rounds", type=number(1), default=3, help="how often it is measured (3)")
    wanted.add_argument("--processors", type=number(1), help="on how many processors (all)")
    return wanted.parse_args()


def main():
    asked = words()
    program = built(asked.program)
    allowed = sorted(os.sched_getaffinity(0))
    used = allowed[-asked.processors:] if asked.processors else allowed
    os.sched_setaffinity(0, used)
    print(f"{program} on {processor()}, {len(used)} of {os.cpu_count()} processors, load {os.getloadavg()[0]:.1f}")
    print(f"{asked.calls} calls, {asked.keys} keys a client, {asked.batch} calls between two settles", flush=True)
    try:
        are_well = [is_well_measured(program, connections, asked) for connections in asked.connections]
    except (RuntimeError, OSError) as fault:
        print(f"connections.py: {fault}", file=sys.stderr)
        return 1
    return 0 if all(are_well) else 1


if __name__ == "__main__":
    sys.exit(main())
