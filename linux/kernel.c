/* SPDX-License-Identifier: MIT OR GPL-2.0
 * The loaded scheduler as other calls see it, by its pinned maps; and how tables come into it. */
#define _GNU_SOURCE
#include <dirent.h>
#include <errno.h>
#include <fcntl.h>
#include <signal.h>
#include <stdlib.h>
#include <string.h>
#include <time.h>
#include <unistd.h>
#include <sys/file.h>
#include <sys/mman.h>
#include <bpf/bpf.h>
#include "linux.h"

word_t now_ns(void)
{
	struct timespec t;

	clock_gettime(CLOCK_MONOTONIC, &t);
	return t.tv_sec * 1000000000ULL + t.tv_nsec;
}

static void *map_all(int fd, size_t size)
{
	void *at = mmap(NULL, (size + 4095) & ~4095UL, PROT_READ | PROT_WRITE, MAP_SHARED, fd, 0);

	return at == MAP_FAILED ? NULL : at;
}

static size_t spans_size(const struct tab_settings *set)
{
	return sizeof(struct tab_span) * 2 * set->room;
}

bool kernel_map(struct kernel *kernel, int spans, int state)
{
	kernel->state = map_all(state, sizeof(*kernel->state));
	kernel->spans = map_all(spans, spans_size(&kernel->set));
	return kernel->state && kernel->spans;
}

static int pinned(const char *name)
{
	char path[128];

	snprintf(path, sizeof(path), PINS "/%s", name);
	return bpf_obj_get(path);
}

int kernel_open(struct kernel *kernel)
{
	int spans, state, set;
	unsigned int zero = 0;
	bool ok;

	memset(kernel, 0, sizeof(*kernel));
	kernel->lock = open(PINS, O_RDONLY | O_DIRECTORY | O_CLOEXEC);
	if (kernel->lock < 0)
		return refuse(INPUT, "no tables are loaded",
			"start with: tableau-linux load TABLES --cpus LIST, as root");
	flock(kernel->lock, LOCK_EX);
	spans = pinned("spans");
	state = pinned("state");
	set = pinned("set");
	kernel->tags = pinned("tags");
	ok = set >= 0 && kernel->tags >= 0 && !bpf_map_lookup_elem(set, &zero, &kernel->set) &&
	     kernel_map(kernel, spans, state);
	close(spans);
	close(state);
	close(set);
	if (ok)
		return DONE;
	kernel_close(kernel);
	return refuse(INPUT, "no tables are loaded", "what is pinned in " PINS " can't be read: %s",
		strerror(errno));
}

void kernel_close(struct kernel *kernel)
{
	if (kernel->state)
		munmap(kernel->state, (sizeof(*kernel->state) + 4095) & ~4095UL);
	if (kernel->spans)
		munmap(kernel->spans, spans_size(&kernel->set));
	if (kernel->tags > 0)
		close(kernel->tags);
	if (kernel->lock > 0)
		close(kernel->lock);
}

bool kernel_runs(const struct kernel *kernel)
{
	return !kernel->state->exit_kind && !kill(kernel->state->loader, 0);
}

void kernel_unpin(void)
{
	static const char *const names[] = {"spans", "state", "set", "tags"};
	char path[128];

	for (unsigned int i = 0; i < sizeof(names) / sizeof(*names); i++) {
		snprintf(path, sizeof(path), PINS "/%s", names[i]);
		unlink(path);
	}
	rmdir(PINS);
}

/* The id of a name: its own, or one that the other plan doesn't have; NOBODY if there is none. */
static int id_for(const struct tab_state *state, unsigned int other, const char *name)
{
	int unused = NOBODY;

	for (int id = 0; id < MAXID; id++) {
		bool kept = state->number_of[other][id] >= 0;

		if (kept && !strcmp(state->name[id], name))
			return id;
		if (!kept && unused < 0 && state->number_of[!other][id] < 0)
			unused = id;
	}
	return unused;
}

static bool is_in(const struct tables *tables, const char *name)
{
	int v = tables_vcpu(tables, name);

	return v >= 0 && tables->vcpu[v].home >= 0;
}

/* The threads of vCPUs without a row in the tables become ordinary ones before these count. */
static bool give_back_others(struct kernel *kernel, const struct tables *tables)
{
	for (int id = 0; id < MAXID; id++) {
		pid_t tid = is_in(tables, kernel->state->name[id]) ? 0 : thread_of(kernel, id);
		int err = tid ? thread_give_back(kernel, tid) : 0;

		if (err && err != ESRCH)
			return false;
		if (tid)
			printf("back %s %d\n", kernel->state->name[id], tid);
	}
	return true;
}

/* Writes the tables as the plan, which may not count now. */
bool plan_put(struct kernel *kernel, unsigned int plan, const struct tables *tables)
{
	struct tab_state *state = kernel->state;

	if (!give_back_others(kernel, tables))
		return false;
	for (int id = 0; id < MAXID; id++)
		state->number_of[plan][id] = state->home[plan][id] = NOBODY;
	for (unsigned int v = 0; v < tables->vcpus; v++) {
		int id = id_for(state, !plan, tables->vcpu[v].name);

		if (id < 0)
			return false;
		strcpy(state->name[id], tables->vcpu[v].name);
		state->id_of[plan][v] = id;
		state->number_of[plan][id] = v;
		state->home[plan][id] = tables->vcpu[v].home;
	}
	for (unsigned int c = 0, first = 0; c < tables->cores; first += tables->spans[c++]) {
		memcpy(kernel->spans + plan * kernel->set.room + first, tables->row[c],
			tables->spans[c] * sizeof(struct tab_span));
		state->first[plan][c] = first;
		state->spans[plan][c] = tables->spans[c];
	}
	state->quantum_ns[plan] = tables->quantum_ns;
	strcpy(state->from[plan], tables->from);
	__sync_synchronize();
	memset(state->queued[plan], -1, sizeof(state->queued[plan]));
	return true;
}

int vcpu_id(const struct kernel *kernel, const char *name)
{
	unsigned int plan = kernel->state->word & 1;

	for (int id = 0; id < MAXID; id++)
		if (kernel->state->home[plan][id] >= 0 && !strcmp(kernel->state->name[id], name))
			return id;
	return NOBODY;
}

static int put_and_store(struct kernel *kernel, const struct tables *tables)
{
	struct tab_state *state = kernel->state;
	word_t t0 = kernel->set.t0, round = kernel->set.round_ns, counts = state->word / 2, now = now_ns(),
	       from;
	unsigned int plan = !(state->word & 1);

	if (now < counts)
		return refuse(MACHINE, "a switch is under way",
			"the tables of the last switch count from round %llu, in"
			" %llu ms: switch after that",
			(counts - t0) / round, (counts - now) / 1000000 + 1);
	if (tables->cores != kernel->set.ncores || tables->round_ns != round)
		return refuse(MACHINE, "the tables are of another machine",
			"they are for %u cores and rounds of %llu ns; those"
			" in force for %u and %llu. Unload, and load these",
			tables->cores, tables->round_ns, kernel->set.ncores, round);
	if (tables_spans(tables) > kernel->set.room)
		return refuse(MACHINE, "the tables are too large",
			"they have %u spans, and there is room for %u: unload, and load"
			" these",
			tables_spans(tables), kernel->set.room);
	if (!plan_put(kernel, plan, tables))
		return refuse(MACHINE, "a thread can't be given back", "the tables in force stay: %s",
			strerror(errno));
	from = t0 + ((now_ns() - t0) / round + 2) * round;
	state->word = from * 2 + plan;
	printf("tables %s count from round %llu\n", tables->from, (from - t0) / round);
	return now_ns() < from ? DONE
			       : refuse(ENDED, "the switch came late",
					 "this process was held up for two rounds:"
					 " the cores may have switched one after the other");
}

int switch_to(const char *file)
{
	static struct tables tables;
	struct kernel kernel;
	int status = tables_of_file(file, &tables);

	if (status)
		return status;
	status = kernel_open(&kernel);
	if (!status) {
		status = kernel_runs(&kernel)
				 ? put_and_store(&kernel, &tables)
				 : refuse(ENDED, "the tables were ended", "tableau-linux status says why");
		kernel_close(&kernel);
	}
	tables_free(&tables);
	return status;
}
