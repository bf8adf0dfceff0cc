"""The calls of a run that wait for the disk or cut a file, as strace tells them, and what docs/OPERATIONS.md says of the waits of a commit."""
import os
import re
import shutil
import subprocess

WAITS = "fsync,fdatasync,msync,sync_file_range"
CALL = re.compile(rb"^(?:\d+ +)?(\w+)\((?:\d+<([^>]*)>)?", re.MULTILINE)


def work(*words):
    """There is a strace that may trace, with these words too. Else it is told that something is skipped."""
    if shutil.which("strace") and subprocess.run(["strace", "-o", "calls", *words, "true"], capture_output=True).returncode == 0:
        return True
    print("skipped: there is no strace that works")
    return False


def words(into, *more):
    """What stands in front of a program whose waits and cuts are told in a file."""
    return ["strace", *more, "-f", "-y", "-o", into, "-e", f"trace={WAITS},ftruncate"]


def log_of(name):
    return f"{name}.undo"


def commits(name, calls):
    """Of each commit the files that are waited for, in order, and the data files that are cut, once for each cut. It ends as the log is waited for behind a cut of it.
    The first one has the waits of the opening too. What is waited for behind the last stands as one more."""
    found, waits, cuts = [], [], []
    for call, path in CALL.findall(calls):
        file = os.path.basename(path.decode())
        if call == b"ftruncate":
            cuts.append(file)
            continue
        waits.append(file)
        if file == log_of(name) and log_of(name) in cuts:
            found.append((waits, [it for it in cuts if it != log_of(name)]))
            waits, cuts = [], []
    return found + [(waits, cuts)] if waits else found


def as_told(commit, name, files, fills=0):
    """A commit that changes these files waits for the log, for each of them and for the log's end. For each cut it waits for the log once more at most, and of the main file of a table with
    indexes, whose pages are written behind that cut, twice; and twice for each time that the memory for writes fills."""
    waits, cuts = commit
    more = len(waits) - len(files) - 2
    most = len(cuts) + (cuts.count(name) if len(files) > 1 else 0) + 2 * fills
    return 0 <= more <= most and waits == [log_of(name)] * (1 + more) + files + [log_of(name)] and set(cuts) <= set(files)
