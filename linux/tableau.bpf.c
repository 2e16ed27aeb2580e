/* SPDX-License-Identifier: MIT OR GPL-2.0
 * A table-driven scheduler for sched_ext: it follows the tables of `tableau-tools export scx`.
 *
 * Only threads of the policy SCHED_EXT are here (SCX_OPS_SWITCH_PARTIAL): all others keep the kernel's
 * own schedulers. A thread in the map `tags` is a vCPU; each vCPU has a queue of its own (DSQ), whose
 * number is the vCPU's id. `dispatch` looks up the span of the core's row at the clock, and takes the
 * vCPU that `decide` names. A timer on each core comes where a span ends, and makes the core dispatch
 * again. */
#include "vmlinux.h"
#include <bpf/bpf_helpers.h>
#include <bpf/bpf_tracing.h>
#include <bpf/bpf_core_read.h>
#include "table.h"

char _license[] SEC("license") = "Dual MIT/GPL";

#define OPS(name, args...) SEC("struct_ops/" #name) BPF_PROG(name, ##args)
#define OPS_SLEEPABLE(name, args...) SEC("struct_ops.s/" #name) BPF_PROG(name, ##args)
#define CLOCK_MONOTONIC 1
#define ENXIO 6
#define EBUSY 16
#define TIMER_FLAGS 3	/* BPF_F_TIMER_ABS | BPF_F_TIMER_CPU_PIN */
#define STRANGERS MAXID /* the queue of threads that are no vCPU */
#define BEFORE 1000000	/* ns after which the timer looks again where no span counts */

const volatile struct tab_settings set SEC(".rodata.set");
struct tab_state state SEC(".bss.state");

struct {
	__uint(type, BPF_MAP_TYPE_ARRAY);
	__uint(map_flags, BPF_F_MMAPABLE);
	__uint(max_entries, 1); /* set by tableau-linux: two plans */
	__type(key, u32);
	__type(value, struct tab_span);
} spans SEC(".maps");

struct {
	__uint(type, BPF_MAP_TYPE_HASH);
	__uint(max_entries, 4 * MAXID);
	__type(key, u32);
	__type(value, s32);
} tags SEC(".maps");

struct pulse {
	struct bpf_timer timer;
};
struct {
	__uint(type, BPF_MAP_TYPE_ARRAY);
	__uint(max_entries, MAXCORE);
	__type(key, u32);
	__type(value, struct pulse);
} pulses SEC(".maps");

static u32 key_of(u32 plan, u32 c, u32 at)
{
	return plan * set.room + state.first[plan & 1][c & (MAXCORE - 1)] + at;
}

static struct tab_span *span_of(u32 key)
{
	return bpf_map_lookup_elem(&spans, &key);
}

/* The first span of a row that ends after place, by halving. */
__noinline u32 find(u32 plan, u32 c, u64 place)
{
	u32 low = 0, n = state.spans[plan & 1][c & (MAXCORE - 1)], i;

	bpf_for(i, 0, SPANBITS)
	{
		u32 next = low + (1 << (SPANBITS - 1) >> i);
		struct tab_span *span = next < n ? span_of(key_of(plan, c, next - 1)) : NULL;

		if (span && span->end <= place)
			low = next;
	}
	return low;
}

static u32 plan_at(u64 now)
{
	u64 word = state.word;

	return now >= word / 2 ? word & 1 : !(word & 1);
}

/* The core enters the round that began at round: by the plan that counts there, and with the last pick's
 * number in it. */
static void enter(struct tab_core *core, u64 round)
{
	u32 plan = plan_at(round);

	core->round = round;
	if (plan != core->plan && core->last >= 0)
		core->last =
			state.number_of[plan & 1][state.id_of[!plan][core->last & (MAXV - 1)] & (MAXID - 1)];
	core->plan = plan;
}

/* Gives core the span at the clock now, which mostly is the next one. */
static __noinline bool move(struct tab_core *core, u32 c, u64 now)
{
	struct tab_span *span, *before;
	u64 place, begin = core->end - core->round;
	u32 at = core->at + 1, plan, key;

	if (now < set.t0)
		return false;
	if (now - core->round >= set.round_ns) {
		enter(core, now - (now - set.t0) % set.round_ns);
		at = begin = 0;
	}
	plan = core->plan;
	place = now - core->round;
	key = key_of(plan, c, at);
	span = span_of(key);
	if (!span || at >= state.spans[plan & 1][c & (MAXCORE - 1)] || place < begin || place >= span->end) {
		at = find(plan, c, place);
		key = key_of(plan, c, at);
		span = span_of(key);
		before = span_of(key - 1);
		begin = at && before ? before->end : 0;
	}
	if (!span || place >= span->end)
		return false;
	core->end = 0; /* whoever reads it from elsewhere sees no span meanwhile */
	barrier();
	core->at = at;
	core->key = key;
	core->begin = core->round + begin;
	core->owner = span->owner;
	core->sharers = (span->may[0] | span->may[1] | span->may[2] | span->may[3]) != 0;
	barrier();
	core->end = core->round + span->end;
	return true;
}

/* Sees to it that core has the span at the clock now. Mostly it has, and that costs no call. */
static __always_inline bool look(struct tab_core *core, u32 c, u64 now)
{
	return (now >= core->begin && now < core->end) || move(core, c, now);
}

/* The vCPU's id of a thread. `enable` writes it into the thread, since its queue, first in first out,
 * has no use for the time there; so nobody looks it up at each switch. */
static s32 id_of(const struct task_struct *p)
{
	u64 id = p->scx.dsq_vtime - 1;

	return id < MAXID ? id : NOBODY;
}

static void write_id(struct task_struct *p, s32 id)
{
	if (bpf_ksym_exists(scx_bpf_task_set_dsq_vtime))
		scx_bpf_task_set_dsq_vtime(p, id + 1);
	else
		p->scx.dsq_vtime = id + 1;
}

static void grant(struct task_struct *p, u64 ns)
{
	if (bpf_ksym_exists(scx_bpf_task_set_slice))
		scx_bpf_task_set_slice(p, ns);
	else
		p->scx.slice = ns;
}

static struct tab_core *core_on(s32 cpu, u32 *c)
{
	u32 core = set.core_of[cpu & (MAXCPU - 1)];

	*c = core;
	if (core >= MAXCORE)
		return NULL;
	barrier_var(core); /* what the compiler knows of it, the verifier doesn't */
	return &state.cores[core & (MAXCORE - 1)];
}

static s32 home_of(s32 id)
{
	return state.home[plan_at(bpf_ktime_get_ns()) & 1][id & (MAXID - 1)];
}

/* The CPU of the core whose slot the vCPU is in, or else that of its home. */
s32 OPS(tab_select_cpu, struct task_struct *p, s32 prev_cpu, u64 flags)
{
	s32 id = id_of(p), core;

	core = id < 0 ? NOBODY : state.where[id & (MAXID - 1)];
	if (id >= 0 && core < 0)
		core = home_of(id);
	return core < 0 ? prev_cpu : set.cpu_of[core & (MAXCORE - 1)];
}

static void mark(u32 plan, s32 id)
{
	s32 v = state.number_of[plan][id & (MAXID - 1)];

	if (v >= 0)
		__sync_fetch_and_or(&state.queued[plan][v >> 6 & (WORDS - 1)], 1ULL << (v & 63));
}

/* The end of the span at the clock now, if the vCPU is its owner; 0 otherwise. */
static u64 slot_end(const volatile struct tab_core *core, s32 id)
{
	u64 end = core->end, begin = core->begin, now = bpf_ktime_get_ns();
	s32 owner = core->owner;

	if (owner < 0 || state.id_of[core->plan & 1][owner & (MAXV - 1)] != id || now < begin || now >= end)
		return 0;
	return core->end == end ? end : 0;
}

/* The owner wakes in its slot, on the slot's CPU: it goes before whatever runs there, without a kick and
 * a dispatch. */
static bool wakes_in_slot(struct tab_core *core, struct task_struct *p, s32 id, u64 flags)
{
	u64 end = flags & SCX_ENQ_WAKEUP ? slot_end(core, id) : 0;

	if (!end)
		return false;
	core->pick = id;
	core->shared = 0;
	core->direct = end;
	core->slots++;
	scx_bpf_dsq_insert(p, SCX_DSQ_LOCAL, set.round_ns, flags | SCX_ENQ_PREEMPT);
	return true;
}

void OPS(tab_enqueue, struct task_struct *p, u64 flags)
{
	s32 id = id_of(p), core, cpu = p->thread_info.cpu;
	struct tab_core *here;
	u32 c;

	if (id < 0) {
		scx_bpf_dsq_insert(p, STRANGERS, BEFORE, flags);
		scx_bpf_kick_cpu(cpu, SCX_KICK_IDLE);
		return;
	}
	here = core_on(cpu, &c);
	if (here && wakes_in_slot(here, p, id, flags))
		return;
	mark(0, id);
	mark(1, id);
	scx_bpf_dsq_insert(p, id, set.round_ns, flags);
	core = state.where[id & (MAXID - 1)];
	/* without flags it ran here up to now, and this CPU is about to dispatch */
	if (!(flags & ~SCX_ENQ_LAST) && here) {
		if (core == c || (core < 0 && state.home[here->plan & 1][id & (MAXID - 1)] == c))
			return;
	}
	if (core >= 0)
		scx_bpf_kick_cpu(set.cpu_of[core & (MAXCORE - 1)], SCX_KICK_PREEMPT);
	else if ((core = home_of(id)) >= 0)
		scx_bpf_kick_cpu(set.cpu_of[core & (MAXCORE - 1)], SCX_KICK_IDLE);
}

/* What the thread ran since it was seen last goes to the kind of that stint, and a stint of kind begins. */
static void account(const struct task_struct *p, s32 id, int kind)
{
	struct tab_vcpu *vcpu = &state.vcpus[id & (MAXID - 1)];
	u64 ran = p->se.sum_exec_runtime;

	vcpu->ran[vcpu->kind & 1] += ran - vcpu->seen;
	vcpu->seen = ran;
	vcpu->kind = kind;
}

/* Lets the vCPU of this number run next, if it is what runs or is in its queue. */
static bool run(struct tab_core *core, s32 v, struct task_struct *prev, s32 prev_id)
{
	u32 plan = core->plan & 1;
	s32 id = state.id_of[plan][v & (MAXV - 1)];

	if (prev && id == prev_id) {
		account(prev, id, v != core->owner);
		grant(prev, set.round_ns);
	} else if (!scx_bpf_dsq_move_to_local(id)) {
		return false;
	}
	__sync_fetch_and_and(&state.queued[plan][v >> 6 & (WORDS - 1)], ~(1ULL << (v & 63)));
	core->pick = id;
	core->shared = v != core->owner;
	if (!core->shared) {
		core->slots++;
	} else {
		core->shares++;
		core->last = v;
	}
	return true;
}

/* Runs whom the table names; one that isn't in its queue after all is struck off, so it is the choice of
 * all that are. */
static bool choose(struct tab_core *core, struct task_struct *prev, s32 prev_id)
{
	u32 plan = core->plan & 1, i;
	struct tab_span *span = span_of(core->key);
	u64 runnable[WORDS];
	s32 v;

	if (!span)
		return false;
	if (prev)
		mark(plan, prev_id); /* it is runnable, and in its queue soon if another runs */
	v = decide(span->owner, span->may, state.queued[plan], core->last);
	if (v < 0 || run(core, v, prev, prev_id))
		return v >= 0;
	for (i = 0; i < WORDS; i++)
		runnable[i] = state.queued[plan][i];
	bpf_for(i, 0, MAXV)
	{
		runnable[v >> 6 & (WORDS - 1)] &= ~(1ULL << (v & 63));
		v = decide(span->owner, span->may, runnable, core->last);
		if (v < 0 || run(core, v, prev, prev_id))
			break;
	}
	return v >= 0;
}

void OPS(tab_dispatch, s32 cpu, struct task_struct *prev)
{
	s32 prev_id = NOBODY;
	struct tab_core *core;
	u32 c;

	core = core_on(cpu, &c);
	if (!core || !look(core, c, bpf_ktime_get_ns())) {
		scx_bpf_dsq_move_to_local(STRANGERS);
		return;
	}
	if (prev && (prev->scx.flags & SCX_TASK_QUEUED))
		prev_id = id_of(prev);
	if (prev_id < 0)
		prev = NULL;
	core->pick = NOBODY;
	core->direct = 0;
	if (choose(core, prev, prev_id))
		return;
	core->shared = 0;
	if (scx_bpf_dsq_move_to_local(STRANGERS))
		core->strangers++;
	else
		core->idle++;
}

/* A thread begins to run. One that waited in the CPU's own queue while a thread of a higher class ran
 * comes here without a dispatch, and kicks meanwhile did nothing: so see that it is the pick. A shared
 * pick's slice is the quantum where the timer doesn't come at each quantum. */
void OPS(tab_running, struct task_struct *p)
{
	s32 id = id_of(p), cpu = p->thread_info.cpu;
	struct tab_core *core;
	bool late;
	u32 c;

	core = core_on(cpu, &c);
	if (id < 0 || !core)
		return;
	late = core->direct && core->direct != core->end;
	core->direct = 0;
	account(p, id, core->shared);
	if (id != core->pick || late) {
		core->strays++;
		scx_bpf_kick_cpu(cpu, SCX_KICK_PREEMPT);
	} else if (core->shared && !core->polls) {
		grant(p, state.quantum_ns[core->plan & 1]);
	}
}

/* The core comes to a new span: says for wakings whose slot it is, and lets the core dispatch, unless
 * the owner runs. */
static void border(struct tab_core *core, u32 c, u64 now)
{
	u64 late = core->pulsed == core->begin ? now - core->begin : 0;
	s32 id = core->owner < 0 ? NOBODY : state.id_of[core->plan & 1][core->owner & (MAXV - 1)],
	    old = core->slot_id;

	core->borders++;
	core->late_sum += late;
	if (late > core->late_max)
		core->late_max = late;
	core->pulsed = core->end;
	if (old >= 0 && old != id && state.where[old & (MAXID - 1)] == c)
		state.where[old & (MAXID - 1)] = NOBODY;
	if (id >= 0)
		state.where[id & (MAXID - 1)] = c;
	core->slot_id = id;
	if (id >= 0 && id == core->pick && !core->shared)
		return;
	core->pick = NOBODY;
	scx_bpf_kick_cpu(set.cpu_of[c & (MAXCORE - 1)], SCX_KICK_PREEMPT);
}

/* Where a span of the core ends, and at each quantum of a shared pick. */
static int pulse(void *map, u32 *key, struct pulse *pulse)
{
	u64 now = bpf_ktime_get_ns(), next = now + BEFORE;
	struct tab_core *core;
	bool polls = true;
	u32 c = *key;

	if (c >= MAXCORE)
		return 0;
	core = &state.cores[c];
	if (look(core, c, now)) {
		if (core->pulsed != core->end) {
			border(core, c, now);
			polls = core->sharers;
		} else if (core->shared) {
			core->quanta++;
			scx_bpf_kick_cpu(set.cpu_of[c], SCX_KICK_PREEMPT);
		} else {
			polls = false;
		}
		next = now + state.quantum_ns[core->plan & 1];
		if (!polls || next > core->end)
			next = core->end;
	} else if (now < set.t0) {
		next = set.t0;
	}
	core->polls = polls;
	bpf_timer_start(&pulse->timer, next, TIMER_FLAGS);
	return 0;
}

/* Run by tableau-linux on each CPU with a table, so that its timer is pinned there. */
SEC("syscall")
int arm(void *ctx)
{
	u32 c = set.core_of[bpf_get_smp_processor_id() & (MAXCPU - 1)];
	struct pulse *p = bpf_map_lookup_elem(&pulses, &c);
	int err;

	if (!p || c >= set.ncores)
		return -ENXIO;
	err = bpf_timer_init(&p->timer, &pulses, CLOCK_MONOTONIC);
	if (err && err != -EBUSY)
		return err;
	err = bpf_timer_set_callback(&p->timer, pulse);
	return err ? err : bpf_timer_start(&p->timer, bpf_ktime_get_ns(), TIMER_FLAGS);
}

s32 OPS_SLEEPABLE(tab_init)
{
	s32 id, err;

	for (id = 0; id <= STRANGERS; id++) {
		err = scx_bpf_create_dsq(id, -1);
		if (err)
			return err;
	}
	return 0;
}

/* A thread comes to SCHED_EXT, and leaves it. */
void OPS(tab_enable, struct task_struct *p)
{
	u32 pid = p->pid;
	s32 *id = bpf_map_lookup_elem(&tags, &pid);

	if (id)
		state.vcpus[*id & (MAXID - 1)].seen = p->se.sum_exec_runtime;
	write_id(p, id && *id >= 0 && *id < MAXID ? *id : NOBODY);
}

void OPS(tab_disable, struct task_struct *p)
{
	u32 pid = p->pid;

	write_id(p, NOBODY);
	bpf_map_delete_elem(&tags, &pid);
}

void OPS(tab_exit, struct scx_exit_info *info)
{
	bpf_probe_read_kernel_str(state.exit_reason, sizeof(state.exit_reason), BPF_CORE_READ(info, reason));
	bpf_probe_read_kernel_str(state.exit_msg, sizeof(state.exit_msg), BPF_CORE_READ(info, msg));
	state.exit_kind = BPF_CORE_READ(info, kind);
}

SEC(".struct_ops.link")
struct sched_ext_ops tableau_ops = {
	.select_cpu = (void *)tab_select_cpu,
	.enqueue = (void *)tab_enqueue,
	.dispatch = (void *)tab_dispatch,
	.running = (void *)tab_running,
	.init = (void *)tab_init,
	.enable = (void *)tab_enable,
	.disable = (void *)tab_disable,
	.exit = (void *)tab_exit,
	.flags = SCX_OPS_ENQ_LAST | SCX_OPS_SWITCH_PARTIAL,
	.timeout_ms = 5000,
	.name = "tableau",
};
