#!/usr/bin/env python3
"""Proves and builds a program of this repository, and the crates that it stands on, side by side.

    tools/first_build.py PROGRAM LOG [WORD ..]

PROGRAM is the crate of the program. Progress goes to standard error and what the commands say to
LOG. The last step is `rt run -- WORD ..` in the program's own folder.

`rt` locks the folder of a crate and of each crate below it, so two checks in one checkout that
share a crate wait for each other. Each worker therefore has a copy of the sources, in
.xscrub/work; a library that is built moves to crates/NAME/out, where every later command of `rt`
takes it as it is (its stamp is a sum of texts, and no path is part of it).

XSCRUB_WORKERS and XSCRUB_GB take the place of the number of workers and of the memory, in GiB,
that each of them is given.
"""
import contextlib
import fcntl
import os
import re
import shutil
import signal
import subprocess
import sys
import time

GIB = 2**30
TOP = os.path.dirname(os.path.dirname(os.path.abspath(__file__)))
WORK = f"{TOP}/.xscrub/work"
# What proving one crate takes at most, and each further job of the prover in one crate.
EACH = int(float(os.environ.get("XSCRUB_GB", "2.5")) * GIB)
JOB = 2 * GIB
# The statuses of a command that was killed, most likely for memory.
KILLED = (-9, 137, 247)
PARTS = ("src", "specs", "proofs")


# ---- what the machine has

def number_in(file, pattern):
    """The first number in a file that the pattern finds, or None."""
    try:
        with open(file, encoding="utf-8") as it:
            return int(re.search(pattern, it.read())[1])
    except (OSError, TypeError, ValueError):
        return None


def free_memory():
    """The bytes that may still be taken: the machine's, or what its control group leaves."""
    found = [1024 * (number_in("/proc/meminfo", r"MemAvailable:\s+(\d+)") or 0)]
    for limit, held, word in (
        ("/sys/fs/cgroup/memory.max", "/sys/fs/cgroup/memory.stat", r"anon (\d+)"),
        ("/sys/fs/cgroup/memory/memory.limit_in_bytes", "/sys/fs/cgroup/memory/memory.stat", r"total_rss (\d+)"),
    ):
        most, now = number_in(limit, r"(\d+)"), number_in(held, word)
        if most and now is not None:
            found.append(most - now)
    return min(found)


def processors():
    """The processors that this process may use, at least one."""
    found = len(os.sched_getaffinity(0))
    quota, period = number_in("/sys/fs/cgroup/cpu.max", r"^(\d+)"), number_in("/sys/fs/cgroup/cpu.max", r" (\d+)")
    return max(1, min(found, quota // period)) if quota and period else found


# ---- the table of crates

def table():
    """What each crate of the repository stands on, crates of the repository alone."""
    rows = {}
    with open(f"{TOP}/crates.txt", encoding="utf-8") as it:
        for line in it:
            name, colon, words = line.partition("#")[0].partition(":")
            if colon:
                rows[name.split()[0]] = words.split()
    return {name: [word for word in words if word in rows] for name, words in rows.items()}


def below(rows, name, found=None):
    """The crates that one stands on, each behind those that it uses itself."""
    found = [] if found is None else found
    for dep in rows[name]:
        if dep not in found:
            below(rows, dep, found)
            found.append(dep)
    return found


def lines_of(name):
    """How many lines a crate has, with its definitions and proofs."""
    count = 0
    for part in PARTS:
        for at, _, files in os.walk(f"{TOP}/crates/{name}/{part}"):
            for file in files:
                with open(f"{at}/{file}", "rb") as it:
                    count += it.read().count(b"\n")
    return count


def chains(rows, names):
    """For each crate the weight of the longest chain that begins with it: lines, and what loading costs."""
    found = {}
    for name in reversed(names):
        above = [other for other in names if name in rows[other]]
        found[name] = 200 + lines_of(name) + max([found[other] for other in above], default=0)
    return found


# ---- copies of the sources

def link_tree(one, other):
    """Copies a folder by hard links, or by bytes where there can't be any."""
    def put(source, target):
        try:
            os.link(source, target)
        except OSError:
            shutil.copyfile(source, target)

    shutil.copytree(one, other, copy_function=put)


@contextlib.contextmanager
def alone_in(folder):
    """Holds the lock that `rt` takes of a crate's folder."""
    held = os.open(folder, os.O_RDONLY)
    try:
        with contextlib.suppress(OSError):
            fcntl.flock(held, fcntl.LOCK_EX)
        yield
    finally:
        os.close(held)


def give_back(folder, name):
    """Moves what a worker made of a crate to the checkout: a library that is whole, and kept work."""
    own = f"{TOP}/crates/{name}"
    if not os.path.isdir(f"{folder}/out") or not os.path.isdir(own):
        return
    with alone_in(own):
        os.makedirs(f"{own}/out", exist_ok=True)
        for part in ("rlib", "incremental"):
            is_whole = part != "rlib" or os.path.isfile(f"{folder}/out/rlib/stamp")
            if os.path.isdir(f"{folder}/out/{part}") and is_whole:
                shutil.rmtree(f"{own}/out/{part}", ignore_errors=True)
                os.rename(f"{folder}/out/{part}", f"{own}/out/{part}")
    shutil.rmtree(f"{folder}/out", ignore_errors=True)


def take_back_all():
    """Gives back what a build that was cut off left in its copies, and removes these."""
    for at, folders, _ in os.walk(WORK):
        if os.path.basename(at) == "crates":
            for name in folders:
                give_back(f"{at}/{name}", name)
    shutil.rmtree(WORK, ignore_errors=True)


def make_room(number, names):
    """Makes a copy of the sources for one worker, and returns its folder."""
    room = f"{WORK}/{number}"
    os.makedirs(f"{room}/crates")
    # `rt` refuses a table that names a folder which isn't there.
    with open(f"{TOP}/crates.txt", encoding="utf-8") as it, open(f"{room}/crates.txt", "w", encoding="utf-8") as own:
        own.writelines(line for line in it if line.partition(":")[0].strip() in names)
    if os.path.exists(f"{TOP}/HANDLES"):
        shutil.copyfile(f"{TOP}/HANDLES", f"{room}/HANDLES")
    for name in names:
        for part in PARTS:
            if os.path.isdir(f"{TOP}/crates/{name}/{part}"):
                shutil.copytree(f"{TOP}/crates/{name}/{part}", f"{room}/crates/{name}/{part}")
    return room


def fill(room, name, deps):
    """Gives a worker the libraries below a crate, and what the checkout kept of the crate itself."""
    for dep in deps:
        at = f"{room}/crates/{dep}/out"
        shutil.rmtree(f"{at}/rlib", ignore_errors=True)
        os.makedirs(at, exist_ok=True)
        link_tree(f"{TOP}/crates/{dep}/out/rlib", f"{at}/rlib")
    own, at = f"{TOP}/crates/{name}", f"{room}/crates/{name}"
    shutil.rmtree(f"{at}/out", ignore_errors=True)
    os.makedirs(f"{at}/out")
    with alone_in(own):
        if os.path.isdir(f"{own}/out/rlib"):
            link_tree(f"{own}/out/rlib", f"{at}/out/rlib")
        if os.path.isdir(f"{own}/out/incremental"):
            os.rename(f"{own}/out/incremental", f"{at}/out/incremental")


# ---- the build

class Build:
    """One build: the crates that wait, those that run, and what each took."""

    def __init__(self, program, log, words):
        self.program, self.log, self.words = program, log, words
        self.rows = table()
        self.names = below(self.rows, program)
        self.chain = chains(self.rows, self.names)
        self.waits = sorted(self.names, key=lambda it: -self.chain[it])
        self.done, self.killed, self.running, self.times = set(), set(), {}, {}
        self.begun, self.start = 0, time.time()
        self.is_terminal = sys.stderr.isatty()

    def say(self, text, end="\n"):
        sys.stderr.write(("\r\033[K" if self.is_terminal else "") + f"xscrub: {text}{end}")
        sys.stderr.flush()

    def tell_progress(self, name):
        self.begun += 1
        took = int(time.time() - self.start)
        beside = f", {len(self.running)} beside it" if self.running else ""
        text = f"proving {self.begun} of {len(self.names) + 1}: {name} ({took // 60}:{took % 60:02}{beside})"
        self.say(text, "" if self.is_terminal else "\n")

    def is_leading(self, name):
        """Whether the longest chain that is left, or nearly that, begins with the crate."""
        left = [self.chain[it] for it in [*self.waits, *(it for it, *_ in self.running.values())] if it in self.chain]
        return self.chain.get(name, 0) >= 0.9 * max(left, default=0)

    def jobs(self, name, ready):
        """How many of the prover's jobs a crate gets, as far as the memory lasts: the longest chain gets more."""
        if name in self.killed:
            return 1
        idle = self.workers // (len(self.running) + ready)
        wanted = min(3, self.workers) if self.is_leading(name) else min(2, idle)
        return max(1, min(wanted, 1 + (free_memory() - EACH) // JOB))

    def begin(self, name, room, ready):
        jobs = self.jobs(name, ready)
        self.tell_progress(name)
        fill(room, name, below(self.rows, name))
        # What the longest chain doesn't wait for gives way to it.
        words = [*["nice", "-n", "5"] * (not self.is_leading(name)), "rt", "lib", "--jobs", str(jobs)]
        with open(f"{room}/{name}.log", "wb") as said:
            ran = subprocess.Popen(words, cwd=f"{room}/crates/{name}", stdin=subprocess.DEVNULL, stdout=said, stderr=said)
        self.running[ran.pid] = (name, room, time.time(), ran)

    def end(self):
        """Waits for a command, and returns the crate, its worker and its status."""
        pid, status, used = os.wait4(-1, 0)
        if pid not in self.running:
            return None
        name, room, begun, _ = self.running.pop(pid)
        self.times[name] = (time.time() - begun, used.ru_utime + used.ru_stime, used.ru_maxrss / 2**20)
        with open(f"{room}/{name}.log", "rb") as it, open(self.log, "ab") as log:
            log.write(f"== {name}\n".encode() + it.read())
        return name, room, os.waitstatus_to_exitcode(status)

    def stop_all(self):
        for pid in self.running:
            with contextlib.suppress(ProcessLookupError):
                os.kill(pid, signal.SIGKILL)
        while self.running:
            try:
                self.running.pop(os.wait4(-1, 0)[0], None)
            except ChildProcessError:
                self.running.clear()

    def next_ready(self):
        """The next crate to begin, with the number of those that are ready, or None. One that was killed waits until it is alone."""
        if any(name in self.killed for name, *_ in self.running.values()):
            return None, 0
        ready = [it for it in self.waits if all(dep in self.done for dep in self.rows[it])]
        ready = [it for it in ready if it not in self.killed or not self.running]
        return (ready[0] if ready else None), len(ready)

    def settle(self, name, room, status):
        """Takes in what a command came to, and returns whether the build goes on."""
        give_back(f"{room}/crates/{name}", name)
        if status in KILLED and name not in self.killed:
            self.killed.add(name)
            self.waits.insert(0, name)
            self.begun -= 1
            self.say(f"{name} was killed, most likely for memory: once more, with nothing beside it")
        elif status or not os.path.isfile(f"{TOP}/crates/{name}/out/rlib/stamp"):
            self.stop_all()
            self.tell_failure(name, status)
            return False
        else:
            self.done.add(name)
        return True

    def build_libraries(self):
        take_back_all()
        free = [make_room(number, self.names) for number in range(self.workers)]
        while self.waits or self.running:
            name, ready = self.next_ready()
            if name and free and (not self.running or free_memory() > EACH):
                self.waits.remove(name)
                self.begin(name, free.pop(), ready)
                continue
            ended = self.end()
            if ended:
                free.append(ended[1])
                if not self.settle(*ended):
                    return False
        return True

    def build_program(self):
        self.tell_progress(self.program)
        begun, words = time.time(), ["rt", "run", "--jobs", str(self.jobs(self.program, 1)), "--", *self.words]
        with open(self.log, "ab") as log:
            log.write(f"== {self.program}\n".encode())
            log.flush()
            at = f"{TOP}/crates/{self.program}"
            ran = subprocess.Popen(words, cwd=at, stdin=subprocess.DEVNULL, stdout=log, stderr=log)
            self.running[ran.pid] = (self.program, "", begun, ran)
            _, status, used = os.wait4(ran.pid, 0)
            del self.running[ran.pid]
        self.times[self.program] = (time.time() - begun, used.ru_utime + used.ru_stime, used.ru_maxrss / 2**20)
        status = os.waitstatus_to_exitcode(status)
        if status:
            self.tell_failure(self.program, status)
        return status == 0

    def tell_failure(self, name, status):
        self.say(f"{name} was not proved or built (status {status}); the end of its log:")
        with open(self.log, encoding="utf-8", errors="replace") as it:
            sys.stderr.write("".join(it.readlines()[-20:]))

    def tell_times(self):
        took, used = time.time() - self.start, sum(it[1] for it in self.times.values())
        single = sum(it[0] for it in self.times.values())
        with open(self.log, "a", encoding="utf-8") as log:
            log.write("== times: crate, wall seconds, processor seconds, most memory of one process in GiB\n")
            for name, it in self.times.items():
                log.write(f"{name} {it[0]:.1f} {it[1]:.1f} {it[2]:.2f}\n")
            log.write(f"whole {took:.1f}, single times together {single:.1f}, processor {used:.1f}, {self.workers} at once\n")
        self.say(f"built in {int(took) // 60}:{int(took) % 60:02}, {self.workers} at once, {used / 60:.1f} processor minutes")

    def run(self):
        open(self.log, "wb").close()
        most = max(1, min(processors(), free_memory() // EACH, len(self.names)))
        self.workers = int(os.environ.get("XSCRUB_WORKERS", most))
        if not (self.build_libraries() and self.build_program()):
            return 1
        shutil.rmtree(WORK, ignore_errors=True)
        self.tell_times()
        return 0


def main():
    if len(sys.argv) < 3:
        print(__doc__, file=sys.stderr)
        return 2
    build = Build(sys.argv[1], os.path.abspath(sys.argv[2]), sys.argv[3:])
    signal.signal(signal.SIGTERM, lambda *_: sys.exit(143))
    signal.signal(signal.SIGHUP, lambda *_: sys.exit(129))
    try:
        return build.run()
    except KeyboardInterrupt:
        return 130
    finally:
        build.stop_all()


if __name__ == "__main__":
    sys.exit(main())
