"""Commands that find no memory: python3 bench/memory.py TERAMAC [FOLDER]

Runs `go`, `compile`, `run`, `diagnose`, `check`, `repair`, `eval` and `pair` on the files of examples/ again and again, and refuses
one allocation of each run: the first, the second and so on (of more than 5,000 some thousand, evenly spread). A library that is
loaded before the C library does so (it is compiled in FOLDER, else in a temporary one). Each run must end as with ample memory, or with status 6 and, behind
whole lines of what is written with ample memory, the line `refused memory`. The first few, before there are words, files and an
output, write nothing. Says for each command how many allocations were refused and how these runs ended.
"""
import os
import pathlib
import subprocess
import sys
import tempfile

LIBRARY = r"""
#define _GNU_SOURCE
#include <dlfcn.h>
#include <errno.h>
#include <stdlib.h>
static long count, refused = -2;
static int wanted(void) {
    if (refused == -2) {
        char *text = getenv("REFUSED");
        refused = text ? atol(text) : -1;
    }
    return count++ == refused;
}
void *malloc(size_t size) {
    static void *(*real)(size_t);
    if (!real) real = dlsym(RTLD_NEXT, "malloc");
    if (wanted()) { errno = ENOMEM; return 0; }
    return real(size);
}
void *realloc(void *old, size_t size) {
    static void *(*real)(void *, size_t);
    if (!real) real = dlsym(RTLD_NEXT, "realloc");
    if (wanted()) { errno = ENOMEM; return 0; }
    return real(old, size);
}
void *aligned_alloc(size_t align, size_t size) {
    static void *(*real)(size_t, size_t);
    if (!real) real = dlsym(RTLD_NEXT, "aligned_alloc");
    if (wanted()) { errno = ENOMEM; return 0; }
    return real(align, size);
}
int posix_memalign(void **out, size_t align, size_t size) {
    static int (*real)(void **, size_t, size_t);
    if (!real) real = dlsym(RTLD_NEXT, "posix_memalign");
    if (wanted()) return ENOMEM;
    return real(out, align, size);
}
__attribute__((destructor)) static void tell(void) {
    char *path = getenv("ALLOCATIONS");
    if (!path) return;
    refused = -1;
    extern int dprintf(int, const char *, ...);
    extern int open(const char *, int, ...);
    int file = open(path, 0x241, 0644);
    if (file >= 0) dprintf(file, "%ld\n", count);
}
"""


COMMANDS = [
    ("eval", ["eval", "lfsr.blif", "lfsr.vec"]),
    ("diagnose", ["diagnose", "tiny.machine", "tiny.faults"]),
    ("compile", ["compile", "tiny.machine", "tiny.defects", "and.blif"]),
    ("run", ["run", "tiny.machine", "tiny.faults", "and.image", "and.vec"]),
    ("check", ["check", "tiny.machine", "tiny.faults", "and.image"]),
    ("repair", ["repair", "tiny.machine", "tiny.defects", "and.image"]),
    ("go", ["go", "tiny.machine", "tiny.faults", "and.blif", "and.vec"]),
    ("pair", ["pair", "small.machine", "small.faults", "counter.blif", "counter.blif", "and.vec"]),
]


def library(folder):
    source = folder / "refuse.c"
    source.write_text(LIBRARY)
    subprocess.run(["cc", "-O1", "-shared", "-fPIC", "-o", folder / "refuse.so", source, "-ldl"], check=True)
    return folder / "refuse.so"


def run(command, folder, preload, number):
    """Its status, what it writes, and how many allocations it asked for."""
    told = folder / "allocations"
    told.unlink(missing_ok=True)
    words = dict(os.environ, LD_PRELOAD=str(preload), REFUSED=str(number), ALLOCATIONS=str(told))
    done = subprocess.run(command, cwd=folder, env=words, stdout=subprocess.PIPE, stderr=subprocess.PIPE)
    return done.returncode, done.stdout, int(told.read_text()) if told.exists() else -1


def is_right(ample, status, written):
    if (status, written) == ample[:2]:
        return True
    end = b"refused memory\n"
    return status == 6 and written.endswith(end) and is_front(written[: -len(end)], ample[1])


def is_front(front, whole):
    return whole.startswith(front) and (front == b"" or front.endswith(b"\n"))


def refuse_each(name, command, folder, preload):
    ample = run(command, folder, preload, -1)
    wrong, ended, early = [], 0, 0
    for number in range(0, ample[2], 1 if ample[2] <= 5000 else ample[2] // 1000):
        status, written, _ = run(command, folder, preload, number)
        ended += status == 6
        if early == number and (status, written) == (6, b""):
            early += 1
        elif not is_right(ample, status, written):
            wrong.append((number, status, written[-80:]))
    print(f"{name}: status {ample[0]}, {ample[2]} allocations; {ended} runs end with status 6, {early} of them before there is an "
          f"output; {len(wrong)} are wrong")
    for one in wrong[:5]:
        print("   ", one)
    return not wrong


def main():
    teramac = str(pathlib.Path(sys.argv[1]).resolve())
    examples = pathlib.Path(__file__).resolve().parent.parent / "examples"
    with tempfile.TemporaryDirectory() as made:
        folder = pathlib.Path(sys.argv[2] if len(sys.argv) > 2 else made).resolve()
        preload = library(folder)
        for file in examples.iterdir():
            if file.is_file():
                (folder / file.name).write_bytes(file.read_bytes())
        right = True
        for name, words in COMMANDS:
            right &= refuse_each(name, [teramac] + words, folder, preload)
    sys.exit(0 if right else 1)


main()
