#!/usr/bin/env python3
"""Writes the inputs of bench/run into a folder: NAME.COMMAND.txt, where COMMAND is the words with `_`
for a space.

Usage: inputs.py PROGRAM FOLDER
"""
import os
import subprocess
import sys

LIMIT = 4_194_304
ROUND = 102_600
PROGRAM, FOLDER = sys.argv[1], sys.argv[2]


def write(name, text):
    with open(os.path.join(FOLDER, name + ".txt"), "w") as file:
        file.write(text)


def host(cores, vcpus, **keys):
    head = [f"cores = {cores}"] + [f"{key} = {value}" for key, value in keys.items()]
    parts = [
        f'\n[[vcpu]]\nname = "{name}"\nshare_ppm = {share}\nlatency_ns = {latency}'
        for name, share, latency in vcpus
    ]
    return "\n".join(head + parts) + "\n"


def drawn(name, kind="toml"):
    """A text of bench/hosts: hosts drawn at random, and a script with 15 changes of one of them."""
    with open(os.path.join(os.path.dirname(os.path.abspath(__file__)), "hosts", f"{name}.{kind}")) as file:
        return file.read()


def plan_of(text):
    """The plan text's lines, and each core's segments as (end, owner)."""
    planned = subprocess.run([PROGRAM, "plan"], input=text, capture_output=True, text=True, check=True)
    lines = planned.stdout.splitlines()
    rows = []
    for line in lines:
        words = line.split(" ")
        if words[0] == "core":
            rows.append([])
        elif rows and len(words) == 2:
            rows[-1].append((int(words[0]), words[1]))
    return lines, rows


def plans():
    write("spaces.plan", " " * LIMIT)
    write("comments.plan", ("# a comment line of a host document\n" * (LIMIT // 36 + 1))[:LIMIT])
    write("keys.plan", "".join(f"k{n} = 1\n" for n in range(1, 240_001)))
    write("bound.plan", host(32, [(f"v{n}", 100_000, 20_000_000) for n in range(256)]))
    write("split8.plan", host(8, [(f"v{n}", 700_000, 50_000_000) for n in range(8)]
                              + [(f"v{n}", 320_000, 100_000_000) for n in range(8, 15)]))
    write("split16.plan", host(16, [(f"v{n}", 660_000, 100_000_000) for n in range(24)]))
    write("split32.plan", host(32, [(f"v{n}", 663_000, 100_000_000) for n in range(48)]))
    write("noroom.plan", host(32, [(f"v{n}", 990_000, 100_000_000) for n in range(33)]))
    slivers = [(f"long{n}", 500_000, 102_702_600) for n in range(32)]
    slivers += [(f"short{n}", 100_000, 180_180) for n in range(32)]
    write("slivers.plan", host(32, slivers, sliver=11))
    write("slivers-left.plan", host(32, slivers, sliver=0))


def checks():
    """A plan whose segments are cut into pieces of a few ticks, until the text is near the input's limit."""
    text = host(32, [(f"v{n}", 100_000, 20_000_000) for n in range(256)])
    lines, rows = plan_of(text)
    head = lines[: lines.index("core 0")]
    ticks = 8
    out = head
    for core, row in enumerate(rows):
        out.append(f"core {core}")
        begin = 0
        for end, owner in row:
            out += [f"{min(at, end)} {owner}" for at in range(begin + ticks, end + ticks, ticks)]
            begin = end
    write("pieces.check", text + "%%\n" + "\n".join(out + ["end"]) + "\n")
    # a plan as it is written, whose rows have no vCPU in common
    usual = host(24, [(f"v{n}", 100_000, 20_000_000) for n in range(192)])
    write("check24.check", usual + "%%\n" + "\n".join(plan_of(usual)[0]) + "\n")
    # one vCPU to a core, in every other cell of its row, and vCPUs on all of 32 cores in turn
    write("cells4.check", rows_of(4, 500_000, 102_600, [[str(core), "-"] for core in range(4)], 1))
    turns = [[str((first + core) % 32) for first in range(32)] for core in range(32)]
    write("check32.check", rows_of(32, 28_125, 51_300, turns, 10))


def rows_of(cores, share, period, owners, ticks):
    """A host of one vCPU to a core, and tables in which a core's owners follow one another in turns of some ticks."""
    cost = -(-share * period // 1_000_000)
    vcpus = [(f"v{core}", share, 102_702_600) for core in range(cores)]
    out = [f"plan cores {cores} vcpus {cores}"]
    out += [f"vcpu v{core} period {period} cost {cost} home {core}" for core in range(cores)]
    for core, row in enumerate(owners):
        names = ["-" if owner == "-" else f"v{owner}" for owner in row]
        out.append(f"core {core}")
        out += [f"{begin + ticks} {names[begin // ticks % len(names)]}" for begin in range(0, ROUND, ticks)]
    return host(cores, vcpus) + "%%\n" + "\n".join(out + ["end"]) + "\n"


def steps_of(rows, lag, rounds, room):
    """Steps that always move the lowest core of least clock, each row's segments being its spans."""
    ends = [[end for end, _ in row] for row in rows]
    clocks, places, entered = [0] * len(rows), [0] * len(rows), [0] * len(rows)
    out, size = [], 0
    while size < room and min(clocks) < rounds * ROUND:
        core = min(range(len(rows)), key=lambda c: (clocks[c], c))
        begin = clocks[core] - clocks[core] % ROUND
        line = f"see {core}\n"
        if begin == clocks[core] and entered[core] * ROUND == begin:
            line += f"decide {core}\n"
            entered[core] += 1
            places[core] = 0
        line += f"run {core}\n"
        end = begin + ends[core][places[core]]
        clocks[core] = min(end, clocks[core] + lag)
        if clocks[core] == end:
            places[core] += 1
        out.append(line)
        size += len(line)
    return "".join(out)


def replays():
    idle = host(32, [], lag=700, quantum=102_600)
    room = LIMIT - 4000
    write("idle.replay_64", idle + "%%\n%%\n" + steps_of([[(ROUND, "-")]] * 32, 700, 64, room - len(idle)))
    busy = host(32, [(f"v{n}", 100_000, 20_000_000) for n in range(256)], lag=700, quantum=102_600)
    _, rows = plan_of(busy)
    write("planned.replay_64", busy + "%%\n%%\n" + steps_of(rows, 700, 64, room - len(busy)))
    names = [f"a-name-that-is-as-long-as-one-{n:02}" for n in range(16)]
    few = host(1, [(name, 10_000, 102_702_600) for name in names])
    events = "".join(f"{n * 100:>24} {'wake' if n % 2 else 'block'} {names[n % 16]}\n" for n in range(65_535))
    write("events.replay_64", few + "%%\n" + events + "%%\nsee 0\n")
    vcpus = [(f"v{n}", 100_000, 20_000_000) for n in range(256)]
    changes = "".join(f"{n} change set v{n} 90000 20000000\n" for n in range(15))
    write("changes.replay_64", host(32, vcpus) + "%%\n" + changes + "%%\nsee 0\n")
    write("drawn-long-changes32.replay_64", drawn("long32") + "%%\n" + moved() + "%%\nsee 0\n")


def moved():
    """15 changes of bench/hosts/long32.toml, of one vCPU each: nearly every row of every plan is another."""
    return "".join(f"{n * 60_000} change set v{n * 16 + 3} {60_000 + n * 1_000} 250000\n" for n in range(15))


def generated(seed, cores, vcpus):
    words = [PROGRAM, "gen", str(seed), str(cores), str(vcpus)]
    return subprocess.run(words, capture_output=True, text=True, check=True).stdout


def runs():
    usual = host(32, [(f"v{n}", 100_000, 20_000_000) for n in range(256)])
    write("cores32.run_10000", usual + "%%\n")
    changes = "".join(f"{n * 600_000} change set v{n} 90000 20000000\n" for n in range(15))
    for words in ("run_100", "run_100_live"):
        write(f"changes32.{words}", usual + "%%\n" + changes)
    for words in ("run_1", "run_1_trace", "run_1000"):
        write(f"generated32.{words}", generated(1, 32, 256) + "%%\n")
    # many segments in each of 16 plans; the last of these has too many stints and is refused
    short = "".join(f"{n * 100} change set v{n} {40_000 + n * 700} {300_000 + n * 7_007}\n" for n in range(15))
    for words in ("run_1", "run_1_trace", "run_1_burst", "run_10000_trace"):
        write(f"drawn-long32.{words}", drawn("long32") + "%%\n" + short)
    script = drawn("usual32", "script")
    write("drawn-usual32.run_100", drawn("usual32") + "%%\n")
    for words in ("run_100", "run_100_live"):
        write(f"drawn-changes32.{words}", drawn("usual32") + "%%\n" + script)
    for words in ("run_10", "run_10_live"):
        write(f"drawn-long-changes32.{words}", drawn("long32") + "%%\n" + moved())
    write("cores4.run_10000", host(4, [(f"v{n}", 100_000, 20_000_000) for n in range(32)]) + "%%\n")
    write("core1.run_10000", "cores = 1\n%%\n")
    few = [(f"v{n}", 400_000, 102_702_600) for n in range(64)]
    write("trace32.run_100_trace", host(32, few) + "%%\n")
    mixed = host(32, [(f"v{n}", 100_000 + n * 7_919 % 210_000, 7_000_000 + n * 604_171 % 80_000_000)
                      for n in range(128)])
    bursts = "".join(f"{n * 170} burst v{n % 128} {1 + n % 5_000}\n" for n in range(60_000))
    wakes = "".join(f"{n * 170} wake v{n % 128}\n" for n in range(60_000))
    write("mixed32.run_100", mixed + "%%\n")
    write("wake32.run_100", mixed + "%%\n" + wakes)
    write("burst32.run_100_burst", mixed + "%%\n" + bursts)
    events = "".join(f"{n * 15_600} {'wake' if n % 2 else 'block'} v{n // 2 % 32}\n" for n in range(65_535))
    write("events4.run_10000", host(4, [(f"v{n}", 100_000, 20_000_000) for n in range(32)]) + "%%\n" + events)


def wholes():
    write("generated32.plan_whole", generated(1, 32, 256))
    for name in ("full", "whole"):
        write(f"drawn-{name}.plan_whole", drawn(name))
    # demands of exactly 32 rounds, in periods of 25 ticks times a divisor
    write("full32.plan_whole", host(32, [(f"v{n}", 640_000, 200_000 + n * 900_000) for n in range(50)]))
    # periods of a hundred ticks or so: a million segments
    short = [(f"v{n}", 110_000 + n * 37 % 20_000, 180_000 + n * 2_500) for n in range(256)]
    write("short32.plan_whole", host(32, short))


for make in (plans, checks, replays, runs, wholes):
    make()
