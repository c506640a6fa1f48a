"""Runs the program and measures it, for the scripts beside this file.

The program is build/scott, which ./scott builds; SCOTT_TOOL names another.
Instructions are callgrind's own count for the whole process, the C library included.
"""

import importlib.machinery
import importlib.util
import os
import re
import subprocess
import sys
import time

ROOT = os.path.dirname(os.path.dirname(os.path.abspath(__file__)))


def tool():
    path = os.environ.get("SCOTT_TOOL", os.path.join(ROOT, "build/scott"))
    if not os.path.exists(path):
        sys.exit("bench: %s isn't there; build it with ./scott, or set SCOTT_TOOL" % path)
    return os.path.abspath(path)


def instructions(words, folder, stdin=b"", expected=(0,)):
    """The instructions of one run, in `folder`."""
    return counted([tool()] + words, folder, stdin, expected)


def counted(command, folder, stdin=b"", expected=None):
    """The instructions of a command, which may end with one of these statuses, or with any."""
    watched = ["valgrind", "--tool=callgrind", "--callgrind-out-file=/dev/null"] + command
    try:
        done = subprocess.run(watched, cwd=folder, input=stdin, stdout=subprocess.DEVNULL, stderr=subprocess.PIPE)
    except FileNotFoundError:
        sys.exit("bench: valgrind isn't there")
    if expected is not None and done.returncode not in expected:
        sys.exit("bench: %s ended with %d" % (" ".join(command), done.returncode))
    found = re.search(rb"Collected : (\d+)", done.stderr)
    if not found:
        sys.exit("bench: no count from valgrind:\n" + done.stderr.decode(errors="replace"))
    return int(found.group(1))


def run(command, folder, stdin=None):
    """The seconds of one run."""
    with open(stdin or os.devnull, "rb") as lines:
        began = time.perf_counter()
        done = subprocess.run(command, cwd=folder, stdin=lines, stdout=subprocess.DEVNULL)
        seconds = time.perf_counter() - began
    if done.returncode != 0:
        sys.exit("bench: %s ended with %d" % (" ".join(command), done.returncode))
    return seconds


def best(command, folder, times=15, stdin=None):
    """The least time of several runs, and how much more three of four of them took."""
    seconds = sorted(run(command, folder, stdin) for _ in range(times))
    return seconds[0], seconds[times * 3 // 4] - seconds[0]


def peak_memory(command, folder):
    """The peak memory in bytes, up to the first output.

    The output goes to a pipe that is full, so the program stands still when it first says
    something, and its peak can be read. (What the system tells of a process that has ended
    counts the process that started it too.)
    """
    out, full = os.pipe()
    os.set_blocking(full, False)
    for piece in (4096, 1):
        try:
            while os.write(full, b" " * piece):
                pass
        except BlockingIOError:
            pass
    os.set_blocking(full, True)
    child = subprocess.Popen(command, cwd=folder, stdin=subprocess.DEVNULL, stdout=full)
    os.close(full)
    peak = peak_while_still(child)
    while os.read(out, 65536):
        pass
    os.close(out)
    child.wait()
    return peak


def peak_memory_storing(command, folder, name):
    """The peak memory in bytes of a command that stores a file of this name and says nothing.

    The file is a pipe that nobody reads, so the program stands still when it stores.
    """
    pipe = os.path.join(folder, name)
    if os.path.exists(pipe):
        os.remove(pipe)
    os.mkfifo(pipe)
    child = subprocess.Popen(command, cwd=folder, stdin=subprocess.DEVNULL, stdout=subprocess.DEVNULL)
    peak = peak_while_still(child)
    with open(pipe, "rb") as stored:
        while stored.read(65536):
            pass
    child.wait()
    os.remove(pipe)
    return peak


def peak_while_still(child):
    """The peak memory in bytes of a program, once it stands still."""
    quiet = 0
    while quiet < 20 and child.poll() is None:
        time.sleep(0.005)
        quiet = quiet + 1 if status_line(child.pid, "State:").split()[0] == "S" else 0
    return int(status_line(child.pid, "VmHWM:").split()[0]) * 1024


def status_line(pid, name):
    with open("/proc/%d/status" % pid) as lines:
        return next(line[len(name):] for line in lines if line.startswith(name))


def store(folder, name, data):
    with open(os.path.join(folder, name), "wb") as out:
        out.write(data)


def verdict(value, goal):
    return "%s the goal of %s" % ("within" if value <= goal else "OVER", "{:,}".format(goal))


def of_compare():
    """bench/compare as a module: its sides run a case."""
    loader = importlib.machinery.SourceFileLoader("compare_script", os.path.join(ROOT, "bench", "compare"))
    spec = importlib.util.spec_from_loader("compare_script", loader)
    module = importlib.util.module_from_spec(spec)
    loader.exec_module(module)
    return module
