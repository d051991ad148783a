import os, subprocess, time


def fastest(command, path, runs, statuses):
    """Returns the seconds of the fastest of these runs of a command on a file; each ends with one of the statuses."""
    best = float("inf")
    for _ in range(runs):
        with open(path, "rb") as source:
            start = time.perf_counter()
            done = subprocess.run(command, stdin=source, stdout=subprocess.DEVNULL, env={"LC_ALL": "C"})
            best = min(best, time.perf_counter() - start)
        assert done.returncode in statuses, (command, done.returncode)
    return best


def words(path, runs):
    """Returns the seconds that `wc -w` takes on a file, and the size of the file."""
    return fastest(["/usr/bin/wc", "-w"], path, runs, (0,)), os.path.getsize(path)
