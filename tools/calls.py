"""Runs a program under a library that counts its calls for memory and for threads, and can refuse one of them.

The library comes before the C library (LD_PRELOAD), so it sees each call of the program.
"""

import os
import re
import subprocess
from dataclasses import dataclass

from prover import KIT
from testing import ROOT, SECONDS, call

MEMORY, THREAD = "m", "t"
# It writes to the descriptor CALLS_NOTED: the kind of the call that is refused; and at the end how many calls there
# were, which was the first for a thread, the bytes that they asked for, and the threads that were started and not joined.
LIBRARY = r"""
extern void *dlsym(void *, const char *);
extern char *getenv(const char *);
extern long atol(const char *);
extern int snprintf(char *, unsigned long, const char *, ...);
extern long write(int, const void *, unsigned long);
extern int *__errno_location(void);

static long calls, first_thread, bytes, unjoined, is_noted;

static long number_of(const char *name) {
    const char *text = getenv(name);
    return text ? atol(text) : 0;
}

static long added(long *count, long more) { return __atomic_add_fetch(count, more, __ATOMIC_SEQ_CST); }

static void note(const char *text, long length) { write(number_of("CALLS_NOTED"), text, length); }

static void *next(const char *name) { return dlsym((void *)-1l, name); }

static int is_refused(const char *kind, unsigned long size) {
    long number = added(&calls, 1);
    added(&bytes, size);
    if (*kind == 't' && !first_thread) first_thread = number;
    if (number != number_of("REFUSED_CALL")) return 0;
    note(kind, 2);
    *__errno_location() = 12;
    return 1;
}

static __attribute__((destructor)) void note_counts(void) {
    char text[100];
    if (__atomic_exchange_n(&is_noted, 1, __ATOMIC_SEQ_CST)) return;
    // this one calls for no memory itself
    note(text, snprintf(text, sizeof text, "%ld %ld %ld %ld\n", calls, first_thread, bytes, unjoined));
}

void *malloc(unsigned long size) {
    void *(*real)(unsigned long) = next("malloc");
    return is_refused("m ", size) ? 0 : real(size);
}

void *realloc(void *old, unsigned long size) {
    void *(*real)(void *, unsigned long) = next("realloc");
    return is_refused("m ", size) ? 0 : real(old, size);
}

int pthread_create(void *thread, void *attributes, void *body, void *argument) {
    int (*real)(void *, void *, void *, void *) = next("pthread_create");
    int fault = is_refused("t ", 0) ? 11 : real(thread, attributes, body, argument);
    if (!fault) added(&unjoined, 1);
    return fault;
}

int pthread_join(unsigned long thread, void **result) {
    int (*real)(unsigned long, void **) = next("pthread_join");
    int fault = real(thread, result);
    if (!fault) added(&unjoined, -1);
    return fault;
}

void _exit(int status) {
    void (*real)(int) = next("_exit");
    note_counts();
    real(status);
    for (;;) {}
}
"""


@dataclass
class Counted:
    """How a run ended, and what it called for. The numbers are 0 where it was killed."""

    # the status, standard output and standard error
    answer: tuple
    # which kind of call was refused, if one was
    refused: str | None = None
    calls: int = 0
    # the number of the first call for a thread, or 0 without any: up to there the nth call is the same in each run
    first_thread: int = 0
    bytes: int = 0
    unjoined: int = 0


def built_library(folder):
    """The library, built in a folder by the compiler of the kit, or else by that of the system."""
    compiler = KIT / "toolchain" / "bin" / "clang"
    source, library = folder / "calls.c", folder / "calls.so"
    source.write_text(LIBRARY)
    words = ["-shared", "-fPIC", "-nostdlib", "-O1", "-w", "-fuse-ld=lld", "-o", library, source]
    subprocess.run([compiler if compiler.is_file() else "cc", *words], check=True)
    return library


def counted(words, library, refused_call=0, folder=ROOT, seconds=SECONDS):
    """Runs a command in a folder, with the nth of its calls refused, and counts them. No call is refused for 0."""
    reading, writing = os.pipe()
    places = {"LD_PRELOAD": str(library), "REFUSED_CALL": str(refused_call), "CALLS_NOTED": str(writing)}
    try:
        ran = call(words, seconds, env={**os.environ, **places}, cwd=folder, pass_fds=[writing])
    finally:
        os.close(writing)
        with os.fdopen(reading, "rb") as reader:
            noted = re.fullmatch(r"(?:([mt]) )?(?:(\d+) (\d+) (\d+) (\d+)\n)?", reader.read().decode())
    kind, *numbers = noted.groups() if noted else [None]
    return Counted((ran.returncode, ran.stdout, ran.stderr), kind, *(int(it or 0) for it in numbers))
