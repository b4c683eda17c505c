"""Where a run of the built program spends its instructions, counted by valgrind."""

import re
import subprocess
import tempfile


def counts_of(words, folder, *options):
    """The instructions of a run: all, and those of each function with its name."""
    with tempfile.TemporaryDirectory() as scratch:
        out = f"{scratch}/callgrind"
        run = ["valgrind", "--tool=callgrind", f"--callgrind-out-file={out}", *words]
        subprocess.run(run, cwd=folder, stdout=subprocess.DEVNULL, stderr=subprocess.DEVNULL, check=True)
        told = ["callgrind_annotate", "--threshold=100", *options, out]
        lines = subprocess.run(told, stdout=subprocess.PIPE, check=True, text=True).stdout.splitlines()
    counts = [(int(found[1].replace(",", "")), found[2]) for line in lines if (found := re.match(r" *([\d,]+) \(.*?\) +(.*)", line))]
    return next(count for count, name in counts if "PROGRAM TOTALS" in name), counts


def instructions(words, folder=None):
    """The instructions of a run: all, and those of the functions that are named after SHA-256's compression."""
    total, counts = counts_of(words, folder)
    return total, sum(count for count, name in counts if "compress" in name)


def replica_steps(words, folder=None):
    """The instructions of a run: all, and those of the replicas' steps with all that these call."""
    total, counts = counts_of(words, folder, "--inclusive=yes")
    return total, max((count for count, name in counts if "Replica::step::" in name), default=0)


def compression(counts):
    """The share of the compression."""
    total, compressed = counts
    return compressed / total
