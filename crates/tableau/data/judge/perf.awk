# Turns `perf script --ns` of sched_switch, sched_waking and sched_wakeup into a trace for tableau-tools judge:
#   awk -f perf.awk THREADS PERF
# A line of THREADS is a thread's number and the vCPU that it runs, as `1991 vm.0`.

# the number after KEY= in a line, or nothing
function number_of(key, line) {
    if (!match(line, "[ :]" key "=[0-9]+")) return ""
    return substr(line, RSTART + length(key) + 2, RLENGTH - length(key) - 2)
}

FNR == NR { vcpu[$1] = $2; next }

{
    # a time is SECONDS.NS: and the CPU is before it in brackets; the command before them may have spaces
    if (!match($0, / \[[0-9]+\] +[0-9]+\.[0-9]+: /)) next
    where = substr($0, RSTART, RLENGTH)
    split(where, part, /[][ .:]+/)
    cpu = part[2] + 0
    time = part[3] part[4]
    sub(/^0+/, "", time)
}

/ sched:sched_switch: / {
    from = number_of("prev_pid", $0)
    to = number_of("next_pid", $0)
    if (from in vcpu) {
        print time "," vcpu[from] "," ($0 ~ / prev_state=R/ ? "wait" : "block") "," cpu
        delete running[from]
    }
    if (to in vcpu) {
        print time "," vcpu[to] ",run," cpu
        running[to] = 1
    }
}

# (one that is woken before it has left its CPU runs on)
/ sched:sched_(waking|wakeup|wakeup_new): / {
    woken = number_of("pid", $0)
    if (woken in vcpu && !(woken in running)) print time "," vcpu[woken] ",wait"
}
