/* SPDX-License-Identifier: MIT OR GPL-2.0
 * What the scheduler in the kernel, tableau-linux and the tests share. */
#ifndef TABLE_H
#define TABLE_H
#define MAXCORE 32 /* cores with a row */
#define MAXV 256   /* vCPUs of a plan */
#define WORDS (MAXV / 64)
#define MAXSPAN 102600 /* spans of a row: one for each tick */
#define SPANBITS 17
#define MAXID (2 * MAXV) /* vCPUs of the plan in force and of the one that follows it */
#define MAXCPU 8192
#define NOBODY (-1)

typedef unsigned long long word_t;

/* Up to end (ns in the round) the slot is owner's (a number, or NOBODY), and the second level may take
 * the vCPUs of may. */
struct tab_span {
	word_t end, may[WORDS];
	int owner, pad;
};

/* What tableau-linux sets before it loads. */
struct tab_settings {
	word_t t0, round_ns;	   /* rounds begin at t0 of CLOCK_MONOTONIC */
	unsigned int ncores, room; /* room: spans of a plan, in all rows together */
	int cpu_of[MAXCORE];
	unsigned char core_of[MAXCPU]; /* 255: no core of the tables */
};

/* What one core does, and what it has counted. All of it is written on that CPU alone. */
struct tab_core {
	word_t begin, end; /* the span that it looked up last, absolute; none where both are 0 */
	word_t round;	   /* when the round of that span began */
	word_t pulsed;	   /* the end of the span for which the timer came last */
	int at, plan;	   /* the span's place in the row, and the row's plan */
	int owner;	   /* whose slot it is, a number of the plan */
	int sharers;	   /* whether the second level may take anybody */
	int slot_id;	   /* the vCPU for which where[] names this core */
	int pick;	   /* the vCPU that dispatch chose last, or NOBODY once a border is past */
	int shared;	   /* whether that was a shared pick */
	int polls;	   /* whether the timer comes at the next quantum, if the span lasts so long */
	word_t direct;	   /* the end of the slot in which the pick woke, if it did; 0 otherwise */
	int last;	   /* the last shared pick, a number of the plan */
	unsigned int key;  /* the span's place in the map of both plans' spans */
	word_t slots, shares, strangers, idle, borders, quanta, strays, late_sum, late_max;
} __attribute__((aligned(64)));

/* What a vCPU's thread got up to its present stint: in its slots, and beside them. */
struct tab_vcpu {
	word_t seen, ran[2];
	int kind, pad; /* which of the two the stint is */
};

/* Both plans have numbers of their own; a vCPU's id is what its name keeps from plan to plan. */
struct tab_state {
	/* From time word / 2 on plan word % 2 counts, and before it the other one: one store switches all cores. */
	volatile word_t word;
	word_t quantum_ns[2];
	word_t queued
		[2]
		[WORDS]; /* a bit for each number that may be in its queue; none that is there is missing */
	unsigned int first[2][MAXCORE],
		spans[2][MAXCORE]; /* where a row begins in the plan's spans, and how many it has */
	short id_of[2][MAXV];
	short number_of[2][MAXID];  /* NOBODY: the plan doesn't have it */
	signed char home[2][MAXID]; /* a core, or NOBODY */
	signed char where[MAXID];   /* the core in whose slot it is, or NOBODY */
	struct tab_vcpu vcpus[MAXID];
	struct tab_core cores[MAXCORE];
	volatile int exit_kind;
	int loader; /* the process that holds the link */
	char exit_reason[128], exit_msg[256];
	char from[2][24]; /* which host and plan the tables are of */
	char name[MAXID][40];
};

#ifdef __clang__
#define UNROLL _Pragma("unroll") /* the verifier wants no loop here */
#else
#define UNROLL
#endif

/* The least number of words from from on, or NOBODY. */
static inline int least(const word_t words[WORDS], unsigned int from)
{
	UNROLL
	for (unsigned int i = 0; i < WORDS; i++) {
		word_t all = words[i];

		if (from >= 64 * (i + 1))
			continue;
		if (from > 64 * i)
			all &= ~0ULL << (from & 63);
		if (all)
			return 64 * i + __builtin_ctzll(all);
	}
	return NOBODY;
}

/* The rule of the tables: the owner of the slot if it is runnable, else the least eligible number above
 * the last shared pick, else the least eligible number, else NOBODY. */
#ifdef PROVED
/* That of the crate choice_words, which is proved; 256 or more is nobody. */
extern unsigned int tableau_choice(
	unsigned int owner, const word_t *sharers, const word_t *runnable, unsigned int last);
static inline int decide(int owner, const word_t may[WORDS], const word_t runnable[WORDS], int last)
{
	unsigned int v = tableau_choice(owner < 0 ? MAXV : owner, may, runnable, last < 0 ? MAXV : last);

	return v < MAXV ? (int)v : NOBODY;
}
#else
static inline int decide(int owner, const word_t may[WORDS], const word_t runnable[WORDS], int last)
{
	word_t all[WORDS];
	int v;

	if (owner >= 0 && (runnable[owner >> 6 & (WORDS - 1)] >> (owner & 63) & 1))
		return owner;
	UNROLL
	for (int i = 0; i < WORDS; i++)
		all[i] = may[i] & runnable[i];
	v = least(all, last + 1);
	return v >= 0 ? v : least(all, 0);
}
#endif
#endif
