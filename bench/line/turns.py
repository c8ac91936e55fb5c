"""Runs the line lister and its plain Rust counterpart in turns on each kind of capture, compares what they print, and prints the times.

CPU time (user and system) of each run; the least of all rounds, and the median over the rounds of the ratio within a round."""
import os
import resource
import statistics
import subprocess
import sys

BYTES = 20_000_000


def timed(program, capture, out):
    with open(capture, "rb") as source, open(out, "wb") as sink:
        before = resource.getrusage(resource.RUSAGE_CHILDREN)
        subprocess.run([program], stdin=source, stdout=sink, check=True)
        after = resource.getrusage(resource.RUSAGE_CHILDREN)
    return after.ru_utime + after.ru_stime - before.ru_utime - before.ru_stime


def main():
    rounds, folder, kinds = int(sys.argv[1]), sys.argv[2], sys.argv[3:]
    ours, plain = "crates/line_lister/out/line_lister", f"{folder}/reference"
    print(f"{'capture':8} {'ours ns':>8} {'Rust ns':>8} {'least/least':>12} {'median':>7}  events")
    for kind in kinds:
        capture = f"{folder}/{kind}.capture"
        with open(capture, "wb") as sink:
            subprocess.run([f"{folder}/capture", kind, str(BYTES)], stdout=sink, check=True)
        size = os.path.getsize(capture)
        pairs = []
        for _ in range(rounds):
            a = timed(ours, capture, f"{folder}/ours.txt")
            b = timed(plain, capture, f"{folder}/plain.txt")
            pairs.append((a, b))
        left, right = open(f"{folder}/ours.txt", "rb").read(), open(f"{folder}/plain.txt", "rb").read()
        if left != right:
            sys.exit(f"{kind}: the two print different events")
        least = [min(p[i] for p in pairs) for i in (0, 1)]
        median = statistics.median(a / b for a, b in pairs)
        events = left.count(b"\n") - 1
        print(f"{kind:8} {least[0] / size * 1e9:8.2f} {least[1] / size * 1e9:8.2f} {least[0] / least[1]:12.2f} {median:7.2f}  {events}", flush=True)


if __name__ == "__main__":
    main()
