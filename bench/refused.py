#!/usr/bin/env python3
"""Refuses each allocation of short runs of the program in turn, and tells what each run then comes to.

usage: refused.py [--program FILE] [--all]

A run is done once with no allocation refused, and then once for each allocation that it asked for, the first, the second and so
on, which is refused alone. Growths of what was allocated before count too. Those of the system's own library don't: only what the
program itself asks for is counted and refused, by a library of this script's own, which the system loads before the program
(LD_PRELOAD) and which a C compiler builds at the start.

The runs: a script of one client; one of a group with objects, in which the longest content is stored and loaded; a client's
session over the loopback address with a server of this script's own; a drill; and a server to which a client of this script's own
comes. Each is to end with status 6 and `no memory` alone, or as it does undisturbed; the server also with status 0, where its one
connection was given up for want of memory and is counted so. It prints how many allocations each run asked for and what came, and
with --all what came of each.

Status 0: nothing else came. Status 1: something else did, and is told. Status 2: wrong words, or there is no program or no C
compiler. FILE is the built program, which `./vicos` leaves as crates/vicos/out/vicos.
"""
import argparse
import hashlib
import shutil
import socket
import struct
import subprocess
import sys
import tempfile
import threading
import time

sys.dont_write_bytecode = True  # no folder of Python's own beside the measures
from scale import built, default_program, stop

PATIENCE = 60  # seconds after which a run is given up
NO_MEMORY = (6, b"no memory\n")
LONGEST = 8_388_608  # bytes that a content may have

# Counts what the program asks for in a file's first eight bytes, which outlive it, and refuses the one with the number that the
# environment tells.
LIBRARY = r"""
#define _GNU_SOURCE
#include <errno.h>
#include <fcntl.h>
#include <link.h>
#include <stdint.h>
#include <stdlib.h>
#include <sys/mman.h>

extern void *__libc_malloc(size_t), *__libc_realloc(void *, size_t);

static uint64_t unseen, *asked = &unseen, refused;
static uintptr_t low, high;

/* The first of the objects is the program. */
static int see(struct dl_phdr_info *it, size_t size, void *data) {
    for (int i = 0; i < it->dlpi_phnum; i++) {
        const ElfW(Phdr) *part = &it->dlpi_phdr[i];
        uintptr_t from = it->dlpi_addr + part->p_vaddr, to = from + part->p_memsz;
        if (part->p_type != PT_LOAD) continue;
        if (!low || from < low) low = from;
        if (to > high) high = to;
    }
    return 1;
}

__attribute__((constructor)) static void begin(void) {
    const char *number = getenv("REFUSED"), *file = getenv("ASKED");
    int it = file ? open(file, O_RDWR) : -1;
    void *at = mmap(0, 8, PROT_READ | PROT_WRITE, MAP_SHARED, it, 0);
    if (at != MAP_FAILED) asked = at;
    refused = number ? strtoull(number, 0, 10) : 0;
    dl_iterate_phdr(see, 0);
}

static int refuses(void *caller) {
    uintptr_t at = (uintptr_t)caller;
    if (at < low || at >= high) return 0;
    if (__atomic_add_fetch(asked, 1, __ATOMIC_SEQ_CST) != refused) return 0;
    errno = ENOMEM;
    return 1;
}

void *malloc(size_t size) {
    return refuses(__builtin_return_address(0)) ? 0 : __libc_malloc(size);
}

void *realloc(void *old, size_t size) {
    return refuses(__builtin_return_address(0)) ? 0 : __libc_realloc(old, size);
}
"""


def built_library(folder):
    """The library, built in a folder."""
    compiler = next((it for it in map(shutil.which, ("cc", "gcc", "clang")) if it), None)
    if not compiler:
        stop("there is no C compiler")
    source, library = f"{folder}/refused.c", f"{folder}/refused.so"
    with open(source, "w", encoding="utf-8") as it:
        it.write(LIBRARY)
    subprocess.run([compiler, "-O1", "-fno-optimize-sibling-calls", "-shared", "-fPIC", "-o", library, source], check=True)
    return library


def talk(line, text):
    """Sends a text and its end, and takes all that comes until the other end is closed."""
    try:
        line.sendall(bytes.fromhex(text))
        line.shutdown(socket.SHUT_WR)
        while line.recv(4096):
            pass
    except OSError:
        pass  # the other end is gone
    line.close()


def serve(listener):
    """Gives Hi, Refused 2 and Gone to each that connects."""
    while True:
        talk(listener.accept()[0], "0000000141" "000000024602" "0000000149")


def free_address():
    """An address whose port nobody had a moment ago."""
    with socket.create_server(("127.0.0.1", 0)) as it:
        return it.getsockname()


def call(address, over):
    """Connects as soon as somebody listens there, comes in as client 1 and leaves; gives up once the server's run is over."""
    while not over.is_set():
        try:
            line = socket.create_connection(address, PATIENCE)
        except OSError:
            time.sleep(0.002)
            continue
        return talk(line, "0000000421010001" "0000000129")


def run(program, library, counter, words, script, number):
    """What a run comes to whose allocation with this number is refused (0: none), and how many it asked for."""
    with open(counter, "wb") as it:
        it.write(bytes(8))
    environment = {"LD_PRELOAD": library, "REFUSED": str(number), "ASKED": counter}
    over = threading.Event()
    if words[0] == "serve":
        host, port = free_address()
        words = ["serve", f"{host}:{port}", *words[1:]]
        threading.Thread(target=call, args=((host, port), over), daemon=True).start()
    ran = subprocess.run([program, *words], input=script, stdout=subprocess.PIPE, env=environment, timeout=PATIENCE)
    over.set()
    with open(counter, "rb") as it:
        (asked,) = struct.unpack("=Q", it.read(8))
    return (ran.returncode, ran.stdout), asked


def stored_and_loaded(length):
    """A script that stores so many zeros, at least 32, and loads them again, and what it comes to."""
    reference = hashlib.sha256(b"\x06" + bytes(length)).hexdigest() + f"{length:08x}"
    script = f"objects 1\ncall 1 store f zeros:{length}\nrun 1\ncall 1 load f\nrun 1\n"
    printed = (
        "1 took\n1 done stored\n1 object stored\n1 took\n1 took\n"
        f"1 done value %{reference}\n1 took\n1 took\n1 object content {length} %{'00' * 32}\n"
        f"view 1\n1.1 put f %{reference} = done stored\n1.2 get f = done value %{reference}\ntags made\n"
    )
    return script.encode(), (0, printed.encode())


def served(changes, no_memory):
    """What a server prints of one connection, of a client that comes in and leaves."""
    return b"connections 1\nordered 0\nsealed 0\nchanges %d\nlink faults 0\nbad frames 0\nno memory %d\n" % (changes, no_memory)


GIVEN_UP = [(0, served(changes, 1)) for changes in range(3)]


def shown(end):
    status, text = end
    return f"status {status}, {text.decode(errors='replace')!r}"


def refuse_each(program, library, counter, name, words, script, wanted, tells_all):
    """Does a run with each allocation refused in turn, tells of it, and answers whether nothing strange came."""
    whole, asked = run(program, library, counter, words, script, 0)
    if whole != wanted:
        print(f"{name}: undisturbed it comes to {shown(whole)}, and not to {shown(wanted)}")
        return False
    ends = [run(program, library, counter, words, script, number)[0] for number in range(1, asked + 1)]
    allowed = [NO_MEMORY, whole, *(GIVEN_UP if name == "serve" else [])]
    strange = [end for end in ends if end not in allowed]
    given_up = f", {sum(end in GIVEN_UP for end in ends)} with a connection given up" if name == "serve" else ""
    print(
        f"{name}: {asked} allocations, each refused in turn: {ends.count(NO_MEMORY)} times status 6 and `no memory` alone, "
        f"{ends.count(whole)} as undisturbed{given_up}, {len(strange)} otherwise"
    )
    for number, end in enumerate(ends, 1):
        if tells_all or end in strange:
            print(f"{name}: allocation {number}: {shown(end)}")
    return asked > 0 and not strange


def main():
    words = argparse.ArgumentParser(description="Refuses each allocation of short runs in turn.")
    words.add_argument("--program", default=default_program())
    words.add_argument("--all", action="store_true")
    asked = words.parse_args()
    program = built(asked.program)
    listener = socket.create_server(("127.0.0.1", 0))
    threading.Thread(target=serve, args=(listener,), daemon=True).start()
    address = "127.0.0.1:%d" % listener.getsockname()[1]
    runs = [
        (
            "group",
            ["group"],
            b"clients 1\ncall 1 put a x\nrun 1\ncall 1 get a\nrun 1\n",
            (
                0,
                b"1 done stored\n1 took\n1 took\n1 done value x\n1 took\n1 took\n"
                b"view 1\n1.1 put a x = done stored\n1.2 get a = done value x\ntags made\n",
            ),
        ),
        ("objects", ["group"], *stored_and_loaded(LONGEST)),
        ("client", ["client", address, "1", "1", "0b", "plain"], b"put a x", (0, b"refused 2\nbye\n")),
        (
            "drill",
            ["drill", "7", "1", "1"],
            b"",
            (0, b"clients 1\ncalls 1\ndone 1\naborted 0\nrefused 0\nsealed 1\npairs 1\nweight 22\n"),
        ),
        ("serve", ["serve", "1", "plain", "1"], b"", (0, served(2, 0))),
    ]
    with tempfile.TemporaryDirectory() as folder:
        library = built_library(folder)
        well = [refuse_each(program, library, f"{folder}/asked", *it, asked.all) for it in runs]
    sys.exit(0 if all(well) else 1)


if __name__ == "__main__":
    main()
