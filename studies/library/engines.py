"""How the files of jobs of a study are run: by this machine, by GNU parallel or by Slurm."""

import concurrent.futures
import contextlib
import os
import re
import shlex
import signal
import subprocess
import sys
import threading
import time
from pathlib import Path

from library.pieces import is_answered, write

SCRIPT = Path(__file__).resolve().parent.parent / "piece"
MOST_TASKS = 1000  # Slurm's own limit on an array is 1001 unless it is configured otherwise
BETWEEN_LOOKS = 0.5
# what sbatch says, also with --parsable or --clusters
SUBMITTED = re.compile(r"^(?:Submitted batch job )?(\d+)(?:(?: on cluster |;)(\S+))?$", re.MULTILINE)


class EngineFault(Exception):
    """Why an engine couldn't do its work, in one line."""


class Progress:
    """Lines on standard error: points done of all, and the time left."""

    def __init__(self, done, points, stream):
        self._began, self._first = time.monotonic(), done
        self._done, self._points, self._stream = done, points, stream
        self._lock = threading.Lock()

    def add(self, points):
        with self._lock:
            self._done += points
            passed = time.monotonic() - self._began
            left = passed / (self._done - self._first) * (self._points - self._done)
            print(f"study: {self._done} of {self._points} points, {left:.0f} s left", file=self._stream, flush=True)


def command(folder, name, ultra, question):
    return [str(SCRIPT), str(folder), name, "--ultra", ultra, *question.words()]


def command_line(folder, name, ultra, question):
    """The command for a shell, in which the name is something that an engine or the shell replaces."""
    return " ".join(it if it is name else shlex.quote(it) for it in command(folder, name, ultra, question))


def end(process):
    """Ends a process and all of its group. GNU parallel ends its jobs at the second request."""
    for number, seconds in ((signal.SIGTERM, 1), (signal.SIGTERM, 5), (signal.SIGKILL, None)):
        with contextlib.suppress(ProcessLookupError):
            os.killpg(process.pid, number)
        with contextlib.suppress(subprocess.TimeoutExpired):
            process.wait(seconds)


def run_engine(words, folder, log, pieces, progress):
    """Runs an engine, and reports the pieces that are answered meanwhile. Its messages go into the file `log`."""
    waiting = list(pieces)
    with open(log, "w") as messages:
        try:
            engine = subprocess.Popen(
                words, cwd=folder, stdin=subprocess.DEVNULL, stdout=messages, stderr=subprocess.STDOUT, process_group=0,
            )
        except FileNotFoundError:
            raise EngineFault(f"there is no command {words[0]}") from None
    has_ended = False
    try:
        while not has_ended:
            has_ended = engine.poll() is not None
            for it in [it for it in waiting if is_answered(folder, it)]:
                waiting.remove(it)
                progress.add(len(it.jobs))
            if not has_ended:
                time.sleep(BETWEEN_LOOKS)
    except BaseException:
        end(engine)
        raise
    if engine.returncode:
        print(f"study: {words[0]} ended with status {engine.returncode}; its messages are in {log}", file=sys.stderr)


class Local:
    """The files of jobs that run on this machine. They end with this process, whatever ends it."""

    def __init__(self, folder, ultra, question, progress):
        self._folder, self._ultra, self._question, self._progress = folder, ultra, question, progress
        self._running, self._has_ended, self._lock = set(), False, threading.Lock()

    def _start(self, piece):
        words = [sys.executable, *command(self._folder, piece.name, self._ultra, self._question), "--until-input-ends"]
        with self._lock:
            if self._has_ended:
                raise EngineFault("interrupted")
            # its input ends when this process does: nothing is ever written there
            started = subprocess.Popen(words, stdin=subprocess.PIPE, stderr=subprocess.PIPE, text=True, process_group=0)
            self._running.add(started)
        return started

    def run(self, piece):
        with self._start(piece) as running:
            messages = running.stderr.read()
            status = running.wait()
        self._running.discard(running)
        if status:
            lines = messages.strip().splitlines() or [f"jobs/{piece.name}.toml: ended with status {status}"]
            raise EngineFault(lines[-1].removeprefix("study: "))
        self._progress.add(len(piece.jobs))

    def end(self):
        with self._lock:
            self._has_ended = True
            for it in list(self._running):
                it.terminate()


def run_local(folder, pieces, ultra, question, workers, arguments, progress):
    """Runs `workers` files of jobs at once on this machine."""
    if arguments:
        raise EngineFault("--engine-args is for parallel and slurm")
    local = Local(folder, ultra, question, progress)
    with concurrent.futures.ThreadPoolExecutor(workers) as pool:
        try:
            for it in concurrent.futures.as_completed([pool.submit(local.run, it) for it in pieces]):
                it.result()
        except KeyboardInterrupt:
            local.end()
            raise
        finally:
            pool.shutdown(wait=True, cancel_futures=True)


def run_parallel(folder, pieces, ultra, question, workers, arguments, progress):
    """Hands the files of jobs to GNU parallel, which tries each three times. Its own options name the hosts."""
    one = command_line(folder, "{}", ultra, question)
    own = ["--jobs", str(workers), "--retries", "3", "--joblog", str(folder / "parallel.joblog")]
    words = ["parallel", *own, *arguments, one, ":::", *(it.name for it in pieces)]
    run_engine(words, folder, folder / "parallel.log", pieces, progress)


def cancel(log):
    """Takes an array off the cluster. Its number is in the log of `sbatch`."""
    found = SUBMITTED.search(log.read_text(errors="replace")) if log.is_file() else None
    if found is None:
        print(f"study: {log} names no job: squeue shows whether one is still on the cluster", file=sys.stderr)
        return
    job, cluster = found.groups()
    words = ["scancel", *([f"--clusters={cluster}"] if cluster else []), job]
    try:
        is_cancelled = subprocess.run(words, stdin=subprocess.DEVNULL, capture_output=True).returncode == 0
    except OSError:
        is_cancelled = False
    if not is_cancelled:
        print(f"study: {' '.join(words)} failed: the job may still be on the cluster", file=sys.stderr)


def run_slurm(folder, pieces, ultra, question, workers, arguments, progress):
    """Hands the files of jobs to Slurm as array jobs, and waits for them. Slurm itself decides how many run at once."""
    one = command_line(folder, '"${names[SLURM_ARRAY_TASK_ID]}"', ultra, question)
    for array, index in enumerate(range(0, len(pieces), MOST_TASKS)):
        part = pieces[index:index + MOST_TASKS]
        names = " ".join(it.name for it in part)
        lines = ["#!/bin/bash", f"names=({names})", 'echo "node $SLURMD_NODENAME"', f"exec {one}"]
        # each array has its own files: a message may point to those of any
        tasks, log = folder / f"array_{array}.sh", folder / f"sbatch_{array}.log"
        write(tasks, "\n".join(lines) + "\n")
        log.unlink(missing_ok=True)
        own = ["--wait", f"--array=0-{len(part) - 1}", "--job-name=study", "--ntasks=1"]
        own.append(f"--output={folder}/slurm_{array}_%a.log")
        try:
            run_engine(["sbatch", *own, *arguments, str(tasks)], folder, log, part, progress)
        except KeyboardInterrupt:
            cancel(log)
            raise


ENGINES = {"local": run_local, "parallel": run_parallel, "slurm": run_slurm}


def processors():
    return len(os.sched_getaffinity(0))
