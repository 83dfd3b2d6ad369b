"""How much processor time a command takes over a case file, how many instructions, and how much memory."""
import os
import re
import subprocess

from builds import LIBRARY_DRIVER, ORACLE, OUT, Stop, has, must_run, say

# A driver of another library that takes more seconds is stopped: not every one of them is sure to end.
PATIENCE = 300
VALGRIND, GNU_TIME = "valgrind", "/usr/bin/time"


def use_one_core():
    """The oracle answers on every core that it is given, the port on one: so all that is started from here on gets the first."""
    os.sched_setaffinity(0, {min(os.sched_getaffinity(0))})


def generator(family, seed, records):
    return [ORACLE, "gen", family, str(seed), str(records)]


def generate(family, seed, records, case):
    with open(case, "wb") as sink:
        must_run(generator(family, seed, records), f"no {records} records of {family} could be made", stdout=sink)


def answer(command, case, lines):
    with open(case, "rb") as source, open(lines, "wb") as sink:
        must_run(command, f"{command[0]} failed", stdin=source, stdout=sink)


def seconds_over(command, case):
    with open(case, "rb") as source:
        return processor_seconds(command, source)


def processor_seconds(command, source):
    """Those of what the command waits for are counted too. Its output is thrown away."""
    process = subprocess.Popen(command, stdin=source, stdout=subprocess.DEVNULL)
    _, status, usage = os.wait4(process.pid, 0)
    process.returncode = os.waitstatus_to_exitcode(status)
    if process.returncode != 0:
        raise Stop(f"{command[0]} ended with status {process.returncode}")
    return usage.ru_utime + usage.ru_stime


def calls(case):
    """Of each library its seconds over the decoded records. The driver fails where the answers of port and Rust differ."""
    told = must_run([LIBRARY_DRIVER, case], "the library calls could not be measured")
    return {name: float(seconds) for name, seconds, _ in map(str.split, told.splitlines())}


def other_calls(driver, case, lines):
    """Of each way of another library its seconds, how many records both it and the Rust answered, and how many alike; and whether it came to an end."""
    process = subprocess.Popen([OUT / driver, case, lines], stdout=subprocess.PIPE, text=True)
    try:
        told, _ = process.communicate(timeout=PATIENCE)
    except subprocess.TimeoutExpired:
        process.kill()
        told, _ = process.communicate()
    if process.returncode != 0:
        say(f"{driver} did not come to an end (status {process.returncode})")
    ways = {name: (float(seconds), int(both), int(alike)) for name, seconds, both, alike in map(str.split, told.splitlines())}
    return ways, process.returncode == 0


def instructions(command, case):
    """By callgrind, as its file sums them up; nothing without valgrind."""
    if not has(VALGRIND):
        return None
    profile = OUT / "callgrind"
    with open(case, "rb") as source:
        words = [VALGRIND, "--tool=callgrind", f"--callgrind-out-file={profile}", *command]
        must_run(words, f"callgrind failed on {command[0]}", stdin=source, stdout=subprocess.DEVNULL)
    found = re.search(r"^summary: (\d+)$", profile.read_text(), re.MULTILINE)
    if not found:
        raise Stop(f"callgrind sums up nothing in {profile}")
    return int(found[1])


def streamed(command, family, seed, records):
    """The processor seconds of a command over records that come through a pipe, and the most kilobytes that it had resident; no kilobytes without GNU time.

    A process that is started from here counts what we have resident ourselves, from before it became the command; one that GNU time starts counts GNU
    time's, which is less than what either program has.
    """
    resident = OUT / "resident"
    watched = [GNU_TIME, "-f", "%M", "-o", resident, *command] if has(GNU_TIME) else command
    writer = subprocess.Popen(generator(family, seed, records), stdout=subprocess.PIPE)
    with writer.stdout as source:
        seconds = processor_seconds(watched, source)
    if writer.wait() != 0:
        raise Stop(f"no {records} records of {family} could be made")
    return seconds, int(resident.read_text()) if has(GNU_TIME) else None
