#!/usr/bin/env python3
"""cost.py ROOM: what job.cost counted: instructions of programs, from a border to the switch, of a wake."""
import re
import sys

NAMES = ["select_cpu", "enqueue", "dispatch", "running", "arm", "init", "enable", "disable", "exit"]
EVENT = re.compile(r"^.*-\d+\s+\[\d+\]\s+\S+\s+(\d+): (\w+): (.*)$")
NS = 1  # of an instruction, by -icount shift=0; the TSC is in ns
SOON = 100_000  # a wake that runs later waited for another's slot


def median(values):
    return sorted(values)[len(values) // 2] if values else None


def sums(console):
    time = [int(n) for n in re.findall(r"^sum time (\d+)", console, re.M)]
    count = [int(n) for n in re.findall(r"^sum count (\d+)", console, re.M)]
    found = {name: (t, n) for name, t, n in zip(NAMES, time, count) if n}
    for name, (t, n) in found.items():
        print(f"{name}: {t / NS / n:.0f} instructions, {n} calls")
    return found


def spans(lines, names):
    """Of timers: how long they take, and up to the switch; of wakes that run soon: up to the switch."""
    timers, borders, wakes, waking, begin, last = [], [], [], {}, None, None
    for line in lines:
        if not (match := EVENT.match(line)):
            continue
        now, event, rest = int(match[1]), match[2], match[3]
        if event == "hrtimer_expire_entry":
            begin = now if "bpf_timer" in rest else None
        elif event == "hrtimer_expire_exit" and begin is not None:
            timers.append((now - begin) // NS)
            last, begin = begin, None
        elif event == "sched_waking":
            waking[int(re.search(r" pid=(\d+)", rest)[1])] = now
        elif event == "sched_switch":
            pid = int(re.search(r"next_pid=(\d+)", rest)[1])
            if last is not None and pid in names and now - last < SOON:
                borders.append((now - last) // NS)
            if pid in waking and pid in names and now - waking[pid] < SOON:
                wakes.append((now - waking[pid]) // NS)
            waking.pop(pid, None)
            last = None
    return timers, borders, wakes


def main():
    console = open(f"{sys.argv[1]}/console", encoding="utf-8", errors="replace").read().replace("\r", "")
    found = sums(console)
    head, *parts = re.split(r"^== (\w+)\n", open(f"{sys.argv[1]}/out", encoding="utf-8", errors="replace").read(), flags=re.M)
    names = {int(pid) for pid in re.findall(r"^pid (\d+)", head, re.M)}
    for kind, text in zip(parts[::2], parts[1::2]):
        timers, borders, wakes = spans(text.splitlines(), names)
        if kind == "tables":
            own = sum(t for name, (t, _) in found.items() if name in NAMES[:4]) / NS / found["running"][1]
            print(f"timer: {median(timers)} instructions with its two events, {len(timers)} times")
            print(f"own programs of a switch: {own:.0f}, and the timer's")
            print(f"from a border's timer to the switch: {median(borders)}, {len(borders)} times")
        print(f"{kind}: from a wake to its run: {median(wakes)}, {len(wakes)} times")


main()
