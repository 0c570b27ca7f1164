#!/usr/bin/env python3
"""How many calls a second threads make on one shared table, beside plain Rust with the same steps and crossbeam's epochs.

Run it at the top of the repository, once `./build wfe_bench` has made the program:
bench/threads.py [--calls N] [--repeats R] [--threads 1,2,4] [--profile | --builds]

The proved program is `wfe_bench`. The plain one is `bench/plain`, built here with `rustc` at its highest level in two
placements: dense, each word beside the next, and placed, where the clock, the words of seats and the queue's head and
tail have a line of the cache each. The third is a map and a queue on crossbeam-epoch, built with `cargo` from the source
that Debian's librust-crossbeam-epoch-dev installs, and left out where there is none. Two more make the proved calls through C and
through the crate for Rust (`bench/border`), where `rt lib` in crates/wfe_c has made the archive. All make the same calls: gets alone
(`reads`), nine gets and a put (`mixed`), puts alone (`puts`), and an enqueue and a dequeue by turns (`pairs`), those of
the table under each scheme, and add up the numbers and values that they answer, so that no compiler leaves out what carries
an answer; on one thread all must come to the same sum, which is tried first. It prints

- million calls a second: the median of the bursts, each a run of its own in which a thread makes N calls (of reads and
  mixed four times as many), without what a run of one call takes; the programs take turns in each repeat;
- ratios of these medians: of each program to itself on one thread, to the plain program placed, and to crossbeam's; and
  the most rows that a seat's retire list had in the plain program's bursts, which the proved one doesn't tell.

With --profile it counts instructions a call on one thread with callgrind instead. What the border takes is
what a call through C or Rust has more than one from Rattle. Of `pairs` that is more than `apart`: from Rattle the queue's
calls are compiled whole into the loop of `pairs`, which is no call any more, as there is one of each in the program; `apart`
makes each by a call of a function, as a program does that makes them in several places. With --builds it times puts of the
plain program alone, as it is, with weaker orders of its steps and in each placement (`bench/plain/table.rs`), beside a
map on epochs of its own that needs no package. It fails where a call is refused.
"""
import argparse
import datetime
import glob
import json
import os
import platform
import re
import shutil
import statistics
import subprocess
import sys
import tempfile
import time

SCHEMES = ("he", "ibr", "wfe", "hp")
# How many times the calls of a burst are made of each work: a get is over sooner than a put.
WORKS = {"reads": 4, "mixed": 4, "puts": 1, "pairs": 1}
# From Rattle: the work that makes the same calls each by a call of a function, where these are compiled into their loop.
APART = {"pairs": "apart"}
# The programs whose medians are compared.
BESIDE = (("proved", "placed"), ("proved", "crossbeam"), ("placed", "crossbeam"))
TOP = os.path.dirname(os.path.dirname(os.path.realpath(__file__)))
PROVED = f"{TOP}/crates/wfe_bench/out/wfe_bench"
ARCHIVE = f"{TOP}/crates/wfe_c/out/libwfe_c.a"
REGISTRY = "/usr/share/cargo/registry"


def manifest_of(name, edition, path, rest):
    """What cargo is told of a program with one file."""
    program = f'[[bin]]\nname = "{name}"\npath = {json.dumps(f"{TOP}/{path}")}\n'
    return f'[package]\nname = "{name}"\nversion = "0.0.0"\nedition = "{edition}"\n{program}{rest}'


PLAIN = manifest_of(
    "plain",
    "2024",
    "bench/plain/main.rs",
    """[features]
crossbeam = []
[dependencies]
crossbeam-epoch = "0.9"
crossbeam-utils = "0.8"
[lints.rust]
unexpected_cfgs = "allow"
""",
)
BORDER = manifest_of(
    "calls", "2021", "bench/border/calls.rs", f"[dependencies]\nwfe = {{ path = {json.dumps(f'{TOP}/bindings/rust')} }}\n"
)


def built_plain(folder, *choices):
    """The plain program with these choices of `bench/plain/table.rs`."""
    program = f"{folder}/plain{''.join(choices)}"
    words = [word for choice in choices for word in ("--cfg", choice)]
    subprocess.run(["rustc", "--edition", "2024", "-C", "opt-level=3", *words, "-o", program, f"{TOP}/bench/plain/main.rs"],
                   check=True)
    return program


def built_crossbeam(folder):
    """The plain program that has crossbeam's epochs too, and their version, or none and why."""
    if not glob.glob(f"{REGISTRY}/crossbeam-epoch-0.9.*"):
        return None, f"{REGISTRY} has no crossbeam-epoch (apt-get install librust-crossbeam-epoch-dev)"
    if shutil.which("cargo") is None:
        return None, "there is no cargo"
    os.mkdir(f"{folder}/crossbeam")
    with open(f"{folder}/crossbeam/Cargo.toml", "w", encoding="utf-8") as manifest:
        manifest.write(PLAIN)
    made = subprocess.run(["cargo", "build", "--quiet", "--release", "--offline", "--features", "crossbeam", "--target-dir", "target",
                           "--config", 'source.crates-io.replace-with="debian"',
                           "--config", f"source.debian.directory={json.dumps(REGISTRY)}"],
                          cwd=f"{folder}/crossbeam", capture_output=True, text=True, check=False)
    if made.returncode:
        return None, f"cargo did not build it: {' '.join(made.stderr.split())}"
    with open(f"{folder}/crossbeam/Cargo.lock", encoding="utf-8") as lock:
        version = re.search(r'name = "crossbeam-epoch"\nversion = "(.*)"', lock.read())
    return f"{folder}/crossbeam/target/release/plain", f"crossbeam-epoch {version[1]}"


def built_border(folder):
    """The programs that make the proved calls through C and through Rust, as far as there is what makes them."""
    if not os.path.exists(ARCHIVE):
        print("C and Rust are left out: `rt lib` in crates/wfe_c makes the archive first")
        return {}
    at = f"{folder}/border"
    subprocess.run(["make", "--silent", f"{at}/libwfe_c.a", f"OUT={at}"], cwd=f"{TOP}/bindings/c", check=True)
    subprocess.run(["cc", "-std=c11", "-O3", "-pthread", f"-I{TOP}/bindings/c", f"{TOP}/bench/border/calls.c", f"{at}/libwfe_c.a",
                    "-o", f"{at}/calls"], check=True)
    found = {"C": f"{at}/calls"}
    if shutil.which("cargo") is None:
        print("Rust is left out: there is no cargo")
        return found
    with open(f"{at}/Cargo.toml", "w", encoding="utf-8") as manifest:
        manifest.write(BORDER)
    subprocess.run(["cargo", "build", "--quiet", "--release", "--offline", "--target-dir", "target"], cwd=at, check=True,
                   env={**os.environ, "WFE_LIB": at})
    return {**found, "Rust": f"{at}/target/release/calls"}


def burst(program, work, threads, calls):
    """The seconds of one run, in which each call was answered as it had to be, the sum of the answers, and the longest retire
    list where it tells."""
    file, scheme = program
    words = [file, scheme, work, str(threads), str(calls)]
    start = time.perf_counter()
    ran = subprocess.run(words, capture_output=True, text=True, check=True)
    took = time.perf_counter() - start
    told = re.fullmatch(r"\d+ calls, 0 refused, sum (\d+)(?:, (\d+) rows in the longest retire list)?\n", ran.stdout)
    if not told:
        sys.exit(f"{words}: {ran.stdout}{ran.stderr}")
    return took, int(told[1]), int(told[2] or 0)


def compare_sums(files):
    """Fails where the calls of one thread are answered otherwise by one of these programs than by another, or under another scheme."""
    for work in WORKS:
        sums = {it: burst(it, work, 1, 1_001)[1] for scheme in SCHEMES for it in named(files, scheme).values()}
        if work in APART:
            sums["apart"] = burst((PROVED, SCHEMES[0]), APART[work], 1, 1_001)[1]
        if len(set(sums.values())) != 1:
            sys.exit(f"sums of {work} differ: {sums}")


class Bursts:
    """What the bursts of one program at one work on so many threads came to."""

    def __init__(self, program, work, threads, calls):
        self.asked = program, work, threads
        self.calls = calls
        self.empty, self.full, self.longest = [], [], 0

    def run(self):
        """One more burst, and a run of one call."""
        self.empty.append(burst(*self.asked, 1)[0])
        took, _, longest = burst(*self.asked, self.calls)
        self.full.append(took)
        self.longest = max(self.longest, longest)

    def rates(self):
        """Calls a second of each burst: `inf` shows that it had too few to be timed."""
        empty = statistics.median(self.empty)
        calls = self.asked[2] * (self.calls - 1)
        return [calls / (full - empty) if full > empty else float("inf") for full in self.full]

    def median(self):
        """Calls a second of the burst in the middle."""
        return statistics.median(self.rates())

    def shown(self):
        """Million calls a second: the median, the lowest and the highest."""
        rates = self.rates()
        median, low, high = (f"{it / 1e6:.3g}" for it in (statistics.median(rates), min(rates), max(rates)))
        return f"{median} ({low}-{high})"


def measured(programs, work, options, times=1):
    """The bursts of these programs at one work, by program and threads. The programs take turns."""
    found = {(it, threads): Bursts(it, work, threads, times * options.calls) for threads in options.threads for it in programs}
    for _ in range(options.repeats):
        for it in found.values():
            it.run()
    return found


def print_row(cells):
    """A row of a table, which shows at once how far a long run is."""
    print("|", " | ".join(cells), "|", flush=True)


def print_head(title, cells):
    """A title, and the head of its table."""
    print(f"\n{title}\n")
    print_row(cells)
    print("|" + "---|" * len(cells), flush=True)


def print_machine(options):
    """When and on what the bursts are run."""
    with open("/proc/cpuinfo", encoding="utf-8") as lines:
        model = re.search(r"model name\s*: (.*)", lines.read())
    rustc = subprocess.run(["rustc", "--version"], capture_output=True, text=True, check=True).stdout.split(" (")[0].strip()
    print(f"{datetime.date.today()}, {model[1] if model else platform.machine()}, {os.cpu_count()} processors, "
          f"load before {os.getloadavg()[0]:.2f}, {rustc}; --calls {options.calls} --repeats {options.repeats}", flush=True)


def columns(folder):
    """The file of each program, by its name in the tables."""
    found = {"proved": PROVED, **built_border(folder), "dense": built_plain(folder), "placed": built_plain(folder, "placed")}
    crossbeam, told = built_crossbeam(folder)
    if crossbeam:
        found["crossbeam"] = crossbeam
        print(f"crossbeam: {told}")
    else:
        print(f"crossbeam is left out: {told}")
    return found


def named(files, scheme):
    """The programs of a scheme: a file, and the word with which it is called."""
    return {name: (file, name if name == "crossbeam" else scheme) for name, file in files.items()}


def print_rates(files, options):
    """Prints the first table, each work as soon as it is done, and hands on what it found."""
    print_head("Million calls a second: median (lowest-highest)", ["work", "scheme", "threads", *files])
    found = {}
    for work, times in WORKS.items():
        programs = dict.fromkeys(it for scheme in SCHEMES for it in named(files, scheme).values())
        found[work] = measured(programs, work, options, times)
        for scheme in SCHEMES:
            for threads in options.threads:
                cells = [found[work][it, threads].shown() for it in named(files, scheme).values()]
                print_row([work, f"`{scheme}`", str(threads), *cells])
    return found


def ratio(bursts, over, under):
    """The ratio of two medians, where both were measured."""
    return f"{bursts[over].median() / bursts[under].median():.2f}" if under in bursts else ""


def print_ratios(files, found, options):
    """Prints the second table, from what the first one found."""
    pairs = [it for it in BESIDE if it[1] in files]
    print_head("Ratios of these medians, and rows in the longest retire list",
               ["work", "scheme", "threads", *(f"{it} to 1 thread" for it in files), *(f"{over} to {under}" for over, under in pairs),
                "list"])
    for work, bursts in found.items():
        for scheme in SCHEMES:
            programs = named(files, scheme)
            for threads in options.threads:
                scaled = [ratio(bursts, (it, threads), (it, 1)) for it in programs.values()]
                beside = [ratio(bursts, (programs[over], threads), (programs[under], threads)) for over, under in pairs]
                longest = max(bursts[programs[it], threads].longest for it in ("dense", "placed"))
                print_row([work, f"`{scheme}`", str(threads), *scaled, *beside, str(longest)])


def instructions(program, scheme, work, calls):
    """Instructions that one thread takes for a call."""
    counts = []
    for count in (1, calls):
        with tempfile.NamedTemporaryFile() as out:
            words = [program, scheme, work, "1", str(count)]
            told = subprocess.run(["valgrind", "--tool=callgrind", f"--callgrind-out-file={out.name}", *words],
                                  capture_output=True, text=True, check=True).stderr
        counts.append(int(re.search(r"Collected : (\d+)", told)[1]))
    return (counts[1] - counts[0]) / (calls - 1)


def print_profile(folder):
    """Prints instructions a call of the proved program, from Rattle and through C and Rust, and of the plain one in both placements."""
    border = built_border(folder)
    files = {"proved": PROVED, "dense": built_plain(folder), "placed": built_plain(folder, "placed"), **border}
    compare_sums(files)
    print_head("Instructions a call on one thread",
               ["work", "scheme", *files, "proved to dense", "proved to placed", "apart", *(f"more by {it}" for it in border)])
    for work in WORKS:
        for scheme in SCHEMES:
            counts = [instructions(file, scheme, work, 20_001) for file in files.values()]
            apart = instructions(PROVED, scheme, APART[work], 20_001) if work in APART else counts[0]
            print_row([work, f"`{scheme}`", *(f"{it:,.0f}" for it in counts), *(f"{counts[0] / it:.2f}" for it in counts[1:3]),
                       f"{apart:,.0f}" if work in APART else "", *(f"{it - apart:.1f}" for it in counts[3:])])


def print_builds(folder, options):
    """Prints puts of each build of the plain program under Hazard Eras."""
    builds = {(order or "one for all", words or "dense"): (built_plain(folder, *filter(None, (order, words))), "he")
              for words in ("", "placed", "apart") for order in ("", "weak")}
    epochs = (builds["one for all", "dense"][0], "epochs")
    found = measured([*builds.values(), epochs], "puts", options)
    print_head("Million puts a second: median (lowest-highest)", ["threads", "order of steps", "words", "puts", "to epochs"])
    for threads in options.threads:
        for (order, words), build in builds.items():
            print_row([str(threads), order, words, found[build, threads].shown(), ratio(found, (build, threads), (epochs, threads))])


def asked():
    """The options."""
    parser = argparse.ArgumentParser(description=__doc__, formatter_class=argparse.RawDescriptionHelpFormatter)
    parser.add_argument("--calls", type=int, default=1_000_000)
    parser.add_argument("--repeats", type=int, default=7)
    parser.add_argument("--threads", type=lambda text: [int(it) for it in text.split(",")], default=[1, 2, 4])
    parser.add_argument("--profile", action="store_true")
    parser.add_argument("--builds", action="store_true")
    return parser.parse_args()


def main():
    options = asked()
    if not options.builds and not os.path.exists(PROVED):
        sys.exit("./build wfe_bench makes the program first")
    with tempfile.TemporaryDirectory() as folder:
        if options.profile:
            print_profile(folder)
            return
        print_machine(options)
        if options.builds:
            print_builds(folder, options)
            return
        files = columns(folder)
        compare_sums(files)
        print_ratios(files, print_rates(files, options), options)


if __name__ == "__main__":
    main()
