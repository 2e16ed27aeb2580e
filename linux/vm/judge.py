#!/usr/bin/env python3
"""judge.py ROOM: what a guest wrote into ROOM/out, as lines of `judge`, and how it kept to ROOM/tables.

The lines go to ROOM/lines.csv. Prints how late vCPUs that wanted to run got their slots, how many slots never
began (`lost`), and how much of each core's time went as the table says, looked at each 10 us. With `--plain`
it only makes the lines. The lines `pid PID NAME`, `loaded t0 T ..` and `tables .. count from round R` come
before ftrace's text, which is in whole microseconds of the clock mono. Core 0 is CPU 1.
"""
import bisect
import os
import re
import sys

sys.path.insert(0, os.path.join(os.path.dirname(os.path.abspath(__file__)), ".."))
import rows

EVENT = re.compile(r"^\s*.*-\d+\s+\[(\d+)\]\s+\S+\s+(\d+)\.(\d{6}): (sched_\w+): (.*)$")
STEP, FIRST = 10_000, 1
KERNEL, IDLE = -3, -2


class Trace:
    """The switches of each CPU, as (time, who), and the states of each vCPU, as (time, state, CPU)."""

    def __init__(self, file):
        self.names, self.t0, self.counts = {}, None, []
        self.cpus, self.states, self.lines, self.stopped = {}, {}, [], []
        running = set()
        for line in open(file, encoding="utf-8", errors="replace"):
            if match := EVENT.match(line):
                cpu, time, event, rest = int(match[1]), int(match[2] + match[3]) * 1000, match[4], match[5]
                if event == "sched_switch":
                    self.switch(cpu, time, rest, running)
                elif (pid := int(re.search(r" pid=(\d+)", rest)[1])) in self.names and pid not in running:
                    self.lines.append((time, self.names[pid], "wait", None))
            elif line.startswith("pid "):
                self.names[int(line.split()[1])] = line.split()[2]
            elif line.startswith("loaded t0"):
                self.t0 = int(line.split()[2])
            elif match := re.match(r"tables \w+ count from round (\d+)", line):
                self.counts.append(int(match[1]))
            elif re.search(r"overrun|dropped", line):
                self.stopped.append(line.strip())
        self.lines.sort(key=lambda line: line[0])
        for time, name, state, cpu in self.lines:
            self.states.setdefault(name, []).append((time, state, cpu))

    def switch(self, cpu, time, rest, running):
        before, after = (int(re.search(rf"{side}_pid=(\d+)", rest)[1]) for side in ("prev", "next"))
        if before in self.names:
            state = "wait" if re.search(r"prev_state=(\S+)", rest)[1].startswith("R") else "block"
            self.lines.append((time, self.names[before], state, cpu))
            running.discard(before)
        if after in self.names:
            self.lines.append((time, self.names[after], "run", cpu))
            running.add(after)
        who = self.names.get(after, IDLE if after == 0 else KERNEL)
        self.cpus.setdefault(cpu, []).append((time, who))


def borders(trace, tables):
    """How late each vCPU that wants to run gets each slot, and how many of these it never gets."""
    begin, end = trace.lines[0][0], trace.lines[-1][0]
    round_ns, late, lost = tables[0].number["round"], [], []
    for r in range((begin - trace.t0) // round_ns + 1, (end - trace.t0) // round_ns):
        table = tables[sum(1 for count in trace.counts if r >= count)]
        for c, row in enumerate(table.rows):
            was, place = None, 0
            for stop, owner, _ in row:
                at, until = trace.t0 + r * round_ns + place, trace.t0 + r * round_ns + stop
                place = stop
                if owner not in (was, rows.NOBODY):
                    got = lateness(trace.states.get(table.names[owner], []), at, until, FIRST + c)
                    late += [got] if got is not None and got >= 0 else []
                    lost += [(table.names[owner], c, at)] if got == -1 else []
                was = owner
    return sorted(late), lost


def lateness(states, at, until, cpu):
    """How long after at the vCPU runs on the CPU; -1: not until the slot's end; None: it is asleep."""
    i = bisect.bisect_right(states, at + 1000, key=lambda state: state[0]) - 1
    if i < 0 or states[i][1] == "block":
        return None
    if states[i][1:] == ("run", cpu):
        return max(0, states[i][0] - at)
    for time, state, where in states[i + 1:]:
        if time >= until:
            return -1
        if state == "run" and where == cpu:
            return time - at
        if state == "block":
            return None
    return None


def wants(states, times, t):
    i = bisect.bisect_right(times, t) - 1
    return i >= 0 and states[i][1] != "block"


def kind_of(who, owner, may, wanted, names, ready):
    if who == KERNEL:
        return "kernel"
    if owner >= 0 and who == names[owner]:
        return "owner"
    if wanted:
        return "late"  # the owner wants to run, and another does, or nobody
    if who == IDLE:
        return "late" if any(may >> v & 1 and ready(name) for v, name in enumerate(names)) else "idle"
    return "shared" if may >> names.index(who) & 1 else "late"


def follow(trace, tables, c):
    """Of a core: how much of its time each kind has, in percent."""
    row = trace.cpus[FIRST + c]
    times, count, round_ns = [time for time, _ in row], {}, tables[0].number["round"]
    state_times = {name: [state[0] for state in states] for name, states in trace.states.items()}
    ends = [[end for end, _, _ in table.rows[c]] for table in tables]
    for t in range(max(cpu[0][0] for cpu in trace.cpus.values()), min(cpu[-1][0] for cpu in trace.cpus.values()), STEP):
        r, place = divmod(t - trace.t0, round_ns)
        plan = sum(1 for after in trace.counts if r >= after)
        names = tables[plan].names
        _, owner, may = tables[plan].rows[c][bisect.bisect_right(ends[plan], place)]

        def ready(name):
            return wants(trace.states.get(name, []), state_times.get(name, []), t)

        who = row[bisect.bisect_right(times, t) - 1][1]
        kind = kind_of(who, owner, may, owner >= 0 and ready(names[owner]), names, ready)
        count[kind] = count.get(kind, 0) + 1
    return {kind: 100 * n / sum(count.values()) for kind, n in count.items()}


def main():
    room = sys.argv[1]
    trace = Trace(f"{room}/out")
    with open(f"{room}/lines.csv", "w", encoding="ascii") as f:
        for time, name, state, cpu in trace.lines:
            f.write(f"{time},{name},{state}" + ("" if cpu is None else f",{cpu}") + "\n")
    if trace.stopped:
        print("the trace isn't whole: " + "; ".join(trace.stopped))
    if len(sys.argv) > 2:
        return
    tables = [rows.Tables(f"{room}/{name}") for name in ("tables", "tables2") if os.path.exists(f"{room}/{name}")]
    late, lost = borders(trace, tables)
    us = [late[min(len(late) - 1, int(part * len(late)))] / 1000 for part in (0.5, 0.9, 0.99, 1)]
    print(f"borders {len(late)} late by us {us[0]:.0f} {us[1]:.0f} {us[2]:.0f} {us[3]:.0f}, lost {len(lost)}")
    for name, c, at in lost[:5]:
        print(f"lost: {name} on core {c} at {at / 1e6:.3f} ms")
    for c in range(len(tables[0].rows)):
        part = follow(trace, tables, c)
        print(f"core {c}: other than the table {part.get('late', 0) + part.get('kernel', 0):.3f} %: "
              + ", ".join(f"{kind} {part[kind]:.3f}" for kind in sorted(part)))


if __name__ == "__main__":
    main()
