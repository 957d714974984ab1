"""What the scripts share: they compile a peer, run a program to its end, and say which machine it was."""

import os
import resource
import subprocess
import sys


def compile_peer(source, folder):
    """Compiles the peer's one source in a folder, and answers the program's path."""
    program = os.path.join(folder, "peer")
    if subprocess.run(["rustc", "-O", "--edition", "2024", "-o", program, source], cwd=folder).returncode != 0:
        sys.exit("the peer isn't compiled: nothing to measure beside")
    return program


def run_once(command, out):
    """One run, which prints to an open file: its processor time in seconds, and its peak of resident memory in MB."""
    child = subprocess.Popen(command, stdin=subprocess.DEVNULL, stdout=out)
    _, status, used = os.wait4(child.pid, 0)
    child.returncode = os.waitstatus_to_exitcode(status)
    if child.returncode != 0:
        sys.exit(f"{' '.join(command)}: status {child.returncode}; it has no figures")
    return used.ru_utime + used.ru_stime, megabytes(used)


def own_peak():
    """This process's peak of resident memory in MB: that of a child may count what its parent had when it started the child."""
    return megabytes(resource.getrusage(resource.RUSAGE_SELF))


def megabytes(used):
    return used.ru_maxrss * 1024 / 1e6


def describe_machine():
    """Prints the machine's cores, processor and load, and the version of rustc, where there is one."""
    with open("/proc/cpuinfo", encoding="utf-8") as info:
        models = {line.split(":", 1)[1].strip() for line in info if line.startswith("model name")}
    print(f"{os.cpu_count()} cores, {', '.join(sorted(models)) or 'unknown processor'}, load {os.getloadavg()[0]:.0f}")
    try:
        print(subprocess.run(["rustc", "--version"], capture_output=True, text=True).stdout.strip(), flush=True)
    except FileNotFoundError:
        print("no rustc", flush=True)
