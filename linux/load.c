/* SPDX-License-Identifier: MIT OR GPL-2.0
 * load: puts tables into the kernel, holds them there until a signal or the scheduler's end, and unload. */
#define _GNU_SOURCE
#include <errno.h>
#include <sched.h>
#include <signal.h>
#include <stdarg.h>
#include <stdlib.h>
#include <string.h>
#include <time.h>
#include <unistd.h>
#include <sys/stat.h>
#include <sys/wait.h>
#include <bpf/bpf.h>
#include <bpf/libbpf.h>
#include "linux.h"

__asm__(".section .rodata\n.balign 16\nobject:\n.incbin \"tableau.bpf.o\"\nobject_end:\n.previous\n");
#define LEAST_ROOM 8192 /* spans for each core */

extern const char object[], object_end[];

static int print_bad(enum libbpf_print_level level, const char *format, va_list args)
{
	return level == LIBBPF_WARN || getenv("TABLEAU_LIBBPF") ? vfprintf(stderr, format, args) : 0;
}

static struct bpf_map *map_of(struct bpf_object *obj, const char *name)
{
	return bpf_object__find_map_by_name(obj, name);
}

static struct bpf_object *load_object(
	struct kernel *kernel, const struct tables *tables, const struct cpus *cpus)
{
	LIBBPF_OPTS(bpf_object_open_opts, opts, .object_name = "tableau",
		.kernel_log_level = getenv("TABLEAU_LIBBPF") ? 4 : 0);
	struct tab_settings *set = &kernel->set;
	struct bpf_object *obj;

	libbpf_set_print(print_bad);
	obj = bpf_object__open_mem(object, object_end - object, &opts);
	if (!obj)
		return NULL;
	set->t0 = now_ns();
	set->round_ns = tables->round_ns;
	set->ncores = cpus->n;
	set->room = 2 * tables_spans(tables); /* later tables may be larger */
	if (set->room < cpus->n * LEAST_ROOM)
		set->room = cpus->n * LEAST_ROOM;
	memset(set->core_of, 255, sizeof(set->core_of));
	for (unsigned int c = 0; c < cpus->n; c++) {
		set->cpu_of[c] = cpus->cpu[c];
		set->core_of[cpus->cpu[c]] = c;
	}
	if (bpf_map__set_initial_value(map_of(obj, ".rodata.set"), set, sizeof(*set)) ||
		bpf_map__set_max_entries(map_of(obj, "spans"), 2 * set->room) || bpf_object__load(obj)) {
		bpf_object__close(obj);
		return NULL;
	}
	return obj;
}

static void clear(struct tab_state *state)
{
	for (int plan = 0; plan < 2; plan++) {
		memset(state->number_of[plan], -1, sizeof(state->number_of[plan]));
		memset(state->home[plan], -1, sizeof(state->home[plan]));
	}
	memset(state->where, -1, sizeof(state->where));
	for (int c = 0; c < MAXCORE; c++)
		state->cores[c].last = state->cores[c].slot_id = state->cores[c].pick = NOBODY;
	state->loader = getpid();
}

static bool pin_all(struct bpf_object *obj)
{
	kernel_unpin();
	return !mkdir(PINS, 0700) && !bpf_map__pin(map_of(obj, "spans"), PINS "/spans") &&
	       !bpf_map__pin(map_of(obj, "tags"), PINS "/tags") &&
	       !bpf_map__pin(map_of(obj, ".bss.state"), PINS "/state") &&
	       !bpf_map__pin(map_of(obj, ".rodata.set"), PINS "/set");
}

static int run_on(int cpu, const char *group, int fd)
{
	LIBBPF_OPTS(bpf_test_run_opts, opts);
	char path[500];
	cpu_set_t set;
	FILE *f;

	snprintf(path, sizeof(path), "%s/cgroup.procs", group);
	f = fopen(path, "w");
	if (!f || fputs("0", f) < 0 || fclose(f))
		return errno;
	CPU_ZERO(&set);
	CPU_SET(cpu, &set);
	if (sched_setaffinity(0, sizeof(set), &set))
		return errno;
	return bpf_prog_test_run_opts(fd, &opts) ? errno : -(int)opts.retval;
}

/* Runs `arm` on the CPU, from a process in its partition, since no other may run there: 0, or errno. */
static int arm_on(int cpu, int fd)
{
	char group[450];
	int status = -1, child;

	snprintf(group, sizeof(group), "%s/tableau-linux", host_partition(cpu));
	if (mkdir(group, 0755) && errno != EEXIST)
		return errno;
	child = fork();
	if (!child)
		_exit(run_on(cpu, group, fd));
	if (child > 0)
		waitpid(child, &status, 0);
	rmdir(group);
	return WIFEXITED(status) ? WEXITSTATUS(status) : ECHILD;
}

/* Attaches, and starts each core's timer. */
static struct bpf_link *attach(struct bpf_object *obj, const struct cpus *cpus)
{
	int fd = bpf_program__fd(bpf_object__find_program_by_name(obj, "arm")), err;
	struct bpf_link *link = bpf_map__attach_struct_ops(map_of(obj, "tableau_ops"));

	for (unsigned int c = 0; link && c < cpus->n; c++) {
		err = arm_on(cpus->cpu[c], fd);
		if (err) {
			fprintf(stderr, "CPU %d takes no timer: %s\n", cpus->cpu[c], strerror(err));
			bpf_link__destroy(link);
			return NULL;
		}
	}
	return link;
}

/* Until somebody ends this process, or the kernel ends the scheduler: its status. */
static int hold(const struct tab_state *state, const sigset_t *signals)
{
	struct timespec nap = {0, 200000000};

	while (sigtimedwait(signals, NULL, &nap) < 0)
		if (state->exit_kind)
			return refuse(ENDED, "the kernel ended the tables",
				"%s: %s. The threads go on under the kernel's own"
				" scheduler",
				state->exit_reason, state->exit_msg);
	return DONE;
}

static int load_and_hold(const struct tables *tables, const struct cpus *cpus)
{
	struct kernel kernel = {0};
	struct bpf_object *obj = load_object(&kernel, tables, cpus);
	struct bpf_link *link = NULL;
	sigset_t signals;
	int status;

	sigemptyset(&signals);
	sigaddset(&signals, SIGINT);
	sigaddset(&signals, SIGTERM);
	sigprocmask(SIG_BLOCK, &signals, NULL);
	if (!obj || !kernel_map(&kernel, bpf_map__fd(map_of(obj, "spans")),
			    bpf_map__fd(map_of(obj, ".bss.state"))))
		return refuse(MACHINE, "the kernel took no tables", "libbpf says above what failed: %s",
			strerror(errno));
	kernel.tags = bpf_map__fd(map_of(obj, "tags"));
	clear(kernel.state);
	if (plan_put(&kernel, 0, tables) && pin_all(obj))
		link = attach(obj, cpus);
	if (!link) {
		kernel_unpin();
		return refuse(MACHINE, "the kernel took no tables", "attaching failed: %s", strerror(errno));
	}
	printf("loaded t0 %llu round_ns %llu tables %s\n", kernel.set.t0, kernel.set.round_ns, tables->from);
	fflush(stdout);
	status = hold(kernel.state, &signals);
	bpf_link__destroy(link);
	if (!status)
		kernel_unpin();
	bpf_object__close(obj);
	return status;
}

int load(const char *file, const char *list)
{
	static struct tables tables;
	struct cpus cpus;
	int status = tables_of_file(file, &tables);

	if (!status && !cpus_parse(list, &cpus))
		status = refuse(
			USAGE, "usage: --cpus LIST", "LIST is such as 2-5,8: at most 32 CPUs, none twice");
	if (!status)
		status = host_check(&tables, &cpus);
	if (!status)
		status = load_and_hold(&tables, &cpus);
	tables_free(&tables);
	return status;
}

int unload(void)
{
	struct kernel kernel;
	struct timespec nap = {0, 20000000};
	int status = kernel_open(&kernel), pid;

	if (status)
		return status;
	pid = kernel.state->loader;
	if (kernel_runs(&kernel) && kill(pid, SIGTERM))
		status = refuse(MACHINE, "the loader can't be ended", "process %d: %s", pid, strerror(errno));
	for (int i = 0; !status && i < 500 && !kill(pid, 0) && !access(PINS, F_OK); i++)
		nanosleep(&nap, NULL);
	if (!status && kill(pid, 0))
		kernel_unpin();
	kernel_close(&kernel);
	return status;
}
