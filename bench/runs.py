"""Times runs of the program over scripts."""
import os, subprocess, sys, tempfile, time


def measure(simba, script):
    """Runs a script, given as its lines, and prints its time and peak memory. The answer is the time in seconds."""
    with tempfile.TemporaryFile("w+") as source:
        lines = 0
        for line in script:
            source.write(line + "\n")
            lines += 1
        source.seek(0)
        begun = time.monotonic()
        child = subprocess.Popen([simba, "run"], stdin=source, stdout=subprocess.DEVNULL)
        _, status, usage = os.wait4(child.pid, 0)
        taken = time.monotonic() - begun
    if status != 0:
        sys.exit(f"the run ended with {status}")
    print(f"{lines} lines: {taken:.2f} s, {lines / taken:.0f} lines a second, {usage.ru_maxrss / 1024:.0f} MiB at most")
    return taken


def outgrows(short, long, most):
    """Whether ten times the lines took more than so many times the time. Prints how many times it was."""
    print(f"ten times the lines took {long / short:.1f} times the time")
    return long > most * short


def compare(short, long):
    """Ends the program with 1 where ten times the lines took more than 15 times the time."""
    sys.exit(outgrows(short, long, 15))
