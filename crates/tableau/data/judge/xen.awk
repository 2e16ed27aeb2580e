# Turns the runstate changes of `xentrace_format formats` into a trace for tableau-tools judge:
#   awk -v mhz=MHZ -f xen.awk VCPUS XENTRACE
# MHZ is the frequency of the time stamp counter, which counts from the first line. A line of VCPUS is a domain and a
# vCPU as Xen writes the two, in eight digits, and the name of the vCPU, as `0x00010000 vm.0`.

BEGIN { state["running"] = "run"; state["runnable"] = "wait"; state["blocked"] = state["offline"] = "block" }

FNR == NR { vcpu[$1] = $2; next }

match($0, /(running|runnable|blocked|offline)_to_(running|runnable|blocked|offline)/) {
    change = substr($0, RSTART, RLENGTH)
    match($0, /dom:vcpu = 0x[0-9a-f]+/)
    name = vcpu[substr($0, RSTART + 11, RLENGTH - 11)]
    if (name == "") next
    match($0, /CPU[0-9]+ +[0-9]+/)
    split(substr($0, RSTART + 3, RLENGTH - 3), part, / +/)
    if (first == "") first = part[2]
    # (a vCPU that was blocked is woken by another CPU than its own)
    cpu = change ~ /running/ ? "," part[1] : ""
    sub(/.*_to_/, "", change)
    printf "%.0f,%s,%s%s\n", (part[2] - first) * 1000 / mhz, name, state[change], cpu
}
