"""told.py FILE: a table of what a benchmark's programs told, a line each: who, the work, its KB/s and a sum; in MB/s."""
import statistics
import sys

# What stands beside a work of Rattle's, if not Rust's work of the same name; files are loaded by all threads.
BESIDE = {"open-alone": "open-by-1", "load-alone": "open-by-1", "load-by-1": "open-by-4", "load-by-4": "open-by-4"}


def main(file):
    rates, sums = {"rust": {}, "rattle": {}}, {"rust": {}, "rattle": {}}
    for line in open(file):
        who, work, rate, check = line.split()
        rates[who].setdefault(work, []).append(int(rate) / 1000)
        sums[who].setdefault(work, set()).add(check)
    print(f"{'work':22}{'best':>7}{'median':>7}  {'beside':22}{'best':>7}{'median':>7}{'ratio':>7}{'median':>7}")
    wrong = False
    for work, ours in rates["rattle"].items():
        beside = BESIDE.get(work, work)
        rust = rates["rust"][beside]
        best, middle, rust_best, rust_middle = max(ours), statistics.median(ours), max(rust), statistics.median(rust)
        print(f"{work:22}{best:7.1f}{middle:7.1f}  {beside:22}{rust_best:7.1f}{rust_middle:7.1f}{best / rust_best:7.2f}{middle / rust_middle:7.2f}")
        wrong |= len(sums["rattle"][work] | sums["rust"][beside]) > 1
    return "the sums differ" if wrong else 0


if __name__ == "__main__":
    sys.exit(main(sys.argv[1]))
