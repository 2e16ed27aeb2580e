/* SPDX-License-Identifier: MIT OR GPL-2.0
 * status: what counts, and what each core and each vCPU did; and trace: lines for `tableau-tools judge`. */
#define _GNU_SOURCE
#include <errno.h>
#include <fcntl.h>
#include <poll.h>
#include <stdarg.h>
#include <stdlib.h>
#include <string.h>
#include <unistd.h>
#include <sys/stat.h>
#include <bpf/bpf.h>
#include "linux.h"

#define TRACE "/sys/kernel/tracing/instances/tableau"

static void print_tables(const struct kernel *kernel)
{
	const struct tab_state *state = kernel->state;
	word_t now = now_ns(), counts = state->word / 2, t0 = kernel->set.t0, round = kernel->set.round_ns;
	unsigned int plan = state->word & 1;

	printf("tables %s, round %llu of %llu ns\n", state->from[now < counts ? !plan : plan],
		(now - t0) / round, round);
	if (now < counts)
		printf("tables %s count from round %llu\n", state->from[plan], (counts - t0) / round);
	if (kernel_runs(kernel))
		printf("in force, held by process %d\n", state->loader);
	else
		printf("ended: %s %s\n", state->exit_kind ? state->exit_reason : "its process is gone",
			state->exit_msg);
}

static void print_cores(const struct kernel *kernel)
{
	printf("core  cpu      slots     shared       idle   borders    quanta  strays  strangers  late us  "
	       "most us\n");
	for (unsigned int c = 0; c < kernel->set.ncores; c++) {
		const struct tab_core *k = &kernel->state->cores[c];
		double late = k->borders ? k->late_sum / 1e3 / k->borders : 0;

		printf("%4u %4d %10llu %10llu %10llu %9llu %9llu %7llu %10llu %8.1f %8.1f\n", c,
			kernel->set.cpu_of[c], k->slots, k->shares, k->idle, k->borders, k->quanta, k->strays,
			k->strangers, late, k->late_max / 1e3);
	}
}

static void print_vcpus(const struct kernel *kernel)
{
	const struct tab_state *state = kernel->state;

	printf("vcpu                              home   thread  in slots ms    beside ms\n");
	for (int id = 0; id < MAXID; id++) {
		int home = state->home[state->word & 1][id];

		if (home >= 0)
			printf("%-32s %5d %8d %12.3f %12.3f\n", state->name[id], home, thread_of(kernel, id),
				state->vcpus[id].ran[0] / 1e6, state->vcpus[id].ran[1] / 1e6);
	}
}

int status(void)
{
	struct kernel kernel;
	int status = kernel_open(&kernel);

	if (status)
		return status;
	print_tables(&kernel);
	print_cores(&kernel);
	print_vcpus(&kernel);
	status = kernel_runs(&kernel) ? DONE : ENDED;
	kernel_close(&kernel);
	return status;
}

static bool put(const char *file, const char *format, ...) __attribute__((format(printf, 2, 3)));
static bool put(const char *file, const char *format, ...)
{
	char path[256], text[64];
	va_list args;
	int fd, n;
	bool ok;

	va_start(args, format);
	n = vsnprintf(text, sizeof(text), format, args);
	va_end(args);
	snprintf(path, sizeof(path), TRACE "/%s", file);
	fd = open(path, O_WRONLY | (strchr(format, '\n') ? O_APPEND : O_TRUNC));
	ok = fd >= 0 && write(fd, text, n) == n;
	if (fd >= 0)
		close(fd);
	return ok;
}

static const char *name_of(const struct kernel *kernel, const char *pid)
{
	unsigned int tid = atoi(pid);
	int id;

	return bpf_map_lookup_elem(kernel->tags, &tid, &id) ? NULL : kernel->state->name[id & (MAXID - 1)];
}

/* The lines of one event: who stops and who begins, or who wants to. */
static void print_event(const struct kernel *kernel, const char *line)
{
	const char *cpu = strstr(line, " ["), *event = strstr(line, ": sched_"), *name, *at;
	unsigned long long s, us;

	if (!cpu || !event)
		return;
	for (at = event; at > line && at[-1] != ' '; at--)
		;
	if (sscanf(at, "%llu.%6llu", &s, &us) != 2)
		return;
	us = (s * 1000000 + us) * 1000;
	if (!strncmp(event, ": sched_waking", 14)) {
		at = strstr(event, " pid=");
		name = at ? name_of(kernel, at + 5) : NULL;
		if (name)
			printf("%llu,%s,wait\n", us, name);
		return;
	}
	at = strstr(event, " prev_pid=");
	name = at ? name_of(kernel, at + 10) : NULL;
	if (name)
		printf("%llu,%s,%s,%d\n", us, name, strstr(at, " prev_state=R") ? "wait" : "block",
			atoi(cpu + 2));
	at = strstr(event, " next_pid=");
	name = at ? name_of(kernel, at + 10) : NULL;
	if (name)
		printf("%llu,%s,run,%d\n", us, name, atoi(cpu + 2));
}

static bool trace_start(const struct kernel *kernel)
{
	unsigned int tid, *before = NULL;

	if (mkdir(TRACE, 0700) && errno != EEXIST)
		return false;
	put("set_event_pid", " ");
	while (!bpf_map_get_next_key(kernel->tags, before, &tid)) {
		if (!put("set_event_pid", "%u\n", tid))
			return false;
		before = &tid;
	}
	return put("trace_clock", "mono") && put("buffer_size_kb", "4096") &&
	       put("events/sched/sched_switch/enable", "1") && put("events/sched/sched_waking/enable", "1");
}

/* Prints the lines up to a time: false if the kernel says that it lost events. */
static bool trace_read(const struct kernel *kernel, word_t until)
{
	struct pollfd in = {.fd = open(TRACE "/trace_pipe", O_RDONLY | O_NONBLOCK), .events = POLLIN};
	static char text[1 << 16];
	size_t have = 0;
	bool whole = true;
	ssize_t n;

	while (in.fd >= 0 && now_ns() < until && !ferror(stdout)) {
		char *line = text, *feed;

		poll(&in, 1, 100);
		n = read(in.fd, text + have, sizeof(text) - 1 - have);
		if (n <= 0)
			continue;
		text[have += n] = 0;
		for (; (feed = strchr(line, '\n')); line = feed + 1) {
			*feed = 0;
			whole = whole && !(strstr(line, "[LOST ") && strstr(line, " EVENTS]"));
			print_event(kernel, line);
		}
		have -= line - text;
		memmove(text, line, have);
	}
	if (in.fd >= 0)
		close(in.fd);
	return whole && in.fd >= 0;
}

int trace(const char *seconds)
{
	struct kernel kernel;
	char *end;
	double s = strtod(seconds, &end);
	int status;

	if (*end || !(s > 0 && s <= 1e6))
		return refuse(USAGE, "usage: trace SECONDS", "%s is no number of seconds", seconds);
	status = kernel_open(&kernel);
	if (status)
		return status;
	close(kernel.lock); /* others may go on meanwhile */
	kernel.lock = 0;
	if (!trace_start(&kernel))
		status = refuse(MACHINE, "no tracefs",
			TRACE ": %s. mount -t tracefs tracing /sys/kernel/tracing", strerror(errno));
	else if (!trace_read(&kernel, now_ns() + (word_t)(s * 1e9)))
		status = refuse(MACHINE, "events are lost",
			"the kernel's buffer ran over, so the lines aren't whole:"
			" run it again when less goes on");
	rmdir(TRACE);
	kernel_close(&kernel);
	return status;
}
