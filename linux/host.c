/* SPDX-License-Identifier: MIT OR GPL-2.0
 * Whether this machine can run tables on these CPUs: what can be seen before anything is loaded. */
#define _GNU_SOURCE
#include <dirent.h>
#include <ftw.h>
#include <sched.h>
#include <stdlib.h>
#include <string.h>
#include <unistd.h>
#include <sys/statfs.h>
#include <sys/utsname.h>
#include <linux/magic.h>
#include <bpf/btf.h>
#include "linux.h"

#define CPUS "/sys/devices/system/cpu"
#define LATE_WAKE 50 /* us: a CPU that wakes later than that is late at borders */

/* Numbers of a list such as 1-3,6 one after the other: the next one, or -1 at its end, or -2 where it is
 * no list. */
static int next_cpu(const char **at, int *upto)
{
	static int value;
	char *end;

	if (*upto > value)
		return ++value;
	if (!**at || **at == '\n')
		return -1;
	value = strtol(*at, &end, 10);
	*upto = value;
	if (end == *at || value < 0 || value >= MAXCPU)
		return -2;
	if (*end == '-')
		*upto = strtol(end + 1, &end, 10);
	if (*upto < value || *upto >= MAXCPU || (*end && *end != ',' && *end != '\n'))
		return -2;
	*at = end + (*end == ',');
	return value;
}

bool cpus_parse(const char *list, struct cpus *cpus)
{
	int upto = -1, cpu;

	cpus->n = 0;
	while ((cpu = next_cpu(&list, &upto)) >= 0) {
		for (unsigned int c = 0; c < cpus->n; c++)
			if (cpus->cpu[c] == cpu)
				return false;
		if (cpus->n == MAXCORE)
			return false;
		cpus->cpu[cpus->n++] = cpu;
	}
	return cpu == -1 && cpus->n;
}

/* The CPUs of a list that a file has. */
static void cpus_of_file(const char *file, bool has[MAXCPU])
{
	char text[4096] = "";
	const char *at = text;
	int upto = -1, cpu;

	if (read_text(file, text, sizeof(text)))
		while ((cpu = next_cpu(&at, &upto)) >= 0)
			has[cpu] = true;
}

static int kernel_check(void)
{
	struct utsname name;
	struct statfs fs;
	struct btf *btf;
	bool has;
	char state[64];

	uname(&name);
	if (geteuid())
		return refuse(MACHINE, "not root", "load has to run as root");
	if (!read_text("/sys/kernel/sched_ext/state", state, sizeof(state)))
		return refuse(MACHINE, "no sched_ext",
			"kernel %s has no sched_ext (CONFIG_SCHED_CLASS_EXT). On Debian 13:"
			" apt-get install -t trixie-backports linux-image-amd64",
			name.release);
	if (strcmp(state, "disabled"))
		return refuse(MACHINE, "sched_ext is in use",
			"its state is %s: end the other scheduler,"
			" or tableau-linux unload",
			state);
	if (access("/sys/kernel/btf/vmlinux", R_OK))
		return refuse(MACHINE, "no BTF",
			"kernel %s has no /sys/kernel/btf/vmlinux (CONFIG_DEBUG_INFO_BTF)", name.release);
	btf = btf__load_vmlinux_btf();
	has = btf && btf__find_by_name_kind(btf, "scx_bpf_dsq_move_to_local", BTF_KIND_FUNC) > 0;
	btf__free(btf);
	if (!has)
		return refuse(MACHINE, "sched_ext is too old",
			"kernel %s has the sched_ext of before Linux 6.13", name.release);
	if (statfs("/sys/fs/bpf", &fs) || fs.f_type != BPF_FS_MAGIC)
		return refuse(MACHINE, "no bpffs", "mount -t bpf bpf /sys/fs/bpf");
	return DONE;
}

static int sought;
static char found[400];

/* Whether this is the file of a partition that has the CPU sought. */
static int is_partition(const char *file, const struct stat *stat, int type, struct FTW *at)
{
	static bool has[MAXCPU];
	char text[64], path[500];

	(void)stat;
	if (type != FTW_F || strcmp(file + at->base, "cpuset.cpus.partition") ||
		!read_text(file, text, sizeof(text)) || (strcmp(text, "root") && strcmp(text, "isolated")))
		return 0;
	snprintf(path, sizeof(path), "%.*s/cpuset.cpus.effective", at->base - 1, file);
	memset(has, 0, sizeof(has));
	cpus_of_file(path, has);
	if (!has[sought])
		return 0;
	snprintf(found, sizeof(found), "%.*s", at->base - 1, file);
	return 1;
}

const char *host_partition(int cpu)
{
	sought = cpu;
	return nftw("/sys/fs/cgroup", is_partition, 16, FTW_PHYS) == 1 ? found : NULL;
}

static int cpus_check(const struct tables *tables, const struct cpus *cpus)
{
	static bool online[MAXCPU], open[MAXCPU], ours[MAXCPU];
	bool left = false;
	char isolated[64] = "";

	cpus_of_file(CPUS "/online", online);
	cpus_of_file("/sys/fs/cgroup/cpuset.cpus.effective", open);
	if (read_text(CPUS "/isolated", isolated, sizeof(isolated)) && *isolated)
		return refuse(MACHINE, "isolcpus",
			"sched_ext doesn't run where isolcpus= takes CPUs out of the domains (%s):"
			" take it off the kernel's command line, and make a cpuset partition",
			isolated);
	if (cpus->n != tables->cores)
		return refuse(MACHINE, "another number of CPUs",
			"the tables are for %u cores, and --cpus has %u CPUs", tables->cores, cpus->n);
	for (unsigned int c = 0; c < cpus->n; c++)
		ours[cpus->cpu[c]] = true;
	for (int cpu = 0; cpu < MAXCPU; cpu++) {
		if (ours[cpu] && !online[cpu])
			return refuse(MACHINE, "a CPU is offline", "CPU %d isn't online", cpu);
		if (ours[cpu] && (open[cpu] || !host_partition(cpu)))
			return refuse(MACHINE, "a CPU is in no partition",
				"ordinary threads on CPU %d would go before the tables:"
				" put it into a group of the guests' own, by cpuset.cpus, with "
				"cpuset.cpus.partition"
				" root (cgroups of version 2)",
				cpu);
		left |= online[cpu] && !ours[cpu];
	}
	return left ? DONE
		    : refuse(MACHINE, "no CPU is left over",
			      "the host's own threads want a CPU that no table has:"
			      " plan for a core less");
}

/* How late a CPU may wake from its deepest sleep. */
static void warn_of_sleep(int cpu)
{
	char file[128], text[64];
	long latency;

	for (int state = 9; state > 0; state--) {
		snprintf(file, sizeof(file), CPUS "/cpu%d/cpuidle/state%d/disable", cpu, state);
		if (!read_text(file, text, sizeof(text)) || atoi(text))
			continue;
		snprintf(file, sizeof(file), CPUS "/cpu%d/cpuidle/state%d/latency", cpu, state);
		latency = read_text(file, text, sizeof(text)) ? atol(text) : 0;
		if (latency > LATE_WAKE)
			fprintf(stderr,
				"warning: CPU %d may take %ld us to wake from idle: cpupower -c %d idle-set "
				"-D %d\n",
				cpu, latency, cpu, LATE_WAKE);
		return;
	}
}

static bool is_kernels(const char *task)
{
	char file[400], text[512], *at;
	unsigned int flags = 0;

	snprintf(file, sizeof(file), "%s/stat", task);
	if (!read_text(file, text, sizeof(text)) || !(at = strrchr(text, ')')))
		return true;
	sscanf(at + 1, " %*c %*d %*d %*d %*d %*d %u", &flags);
	return flags & 0x00200000; /* PF_KTHREAD */
}

/* Whether a thread is an ordinary one that may run on these CPUs, and isn't one that watch will take. */
static bool is_in_the_way(const char *task, pid_t tid, const cpu_set_t *ours, char comm[64])
{
	char file[400];
	cpu_set_t may, both;

	if (sched_getaffinity(tid, sizeof(may), &may))
		return false;
	CPU_AND(&both, &may, ours);
	snprintf(file, sizeof(file), "%s/comm", task);
	return CPU_COUNT(&both) && !is_kernels(task) && read_text(file, comm, 64) && strncmp(comm, "CPU ", 4);
}

static void warn_of_threads(const struct cpus *cpus)
{
	struct dirent *process, *thread;
	DIR *all = opendir("/proc"), *tasks;
	unsigned int count = 0;
	cpu_set_t ours;
	char path[300], comm[64];

	CPU_ZERO(&ours);
	for (unsigned int c = 0; c < cpus->n; c++)
		CPU_SET(cpus->cpu[c], &ours);
	while (all && (process = readdir(all))) {
		snprintf(path, sizeof(path), "/proc/%.16s/task", process->d_name);
		tasks = atoi(process->d_name) > 0 ? opendir(path) : NULL;
		while (tasks && (thread = readdir(tasks))) {
			pid_t tid = atoi(thread->d_name);

			snprintf(path, sizeof(path), "/proc/%.16s/task/%d", process->d_name, tid);
			if (tid > 0 && is_in_the_way(path, tid, &ours, comm) && count++ < 3)
				fprintf(stderr,
					"warning: thread %d (%s) may run on these CPUs, and goes before the "
					"tables\n",
					tid, comm);
		}
		if (tasks)
			closedir(tasks);
	}
	if (all)
		closedir(all);
	if (count > 3)
		fprintf(stderr, "warning: so may %u other threads\n", count - 3);
}

int host_check(const struct tables *tables, const struct cpus *cpus)
{
	int status = kernel_check();

	if (!status)
		status = cpus_check(tables, cpus);
	if (status)
		return status;
	for (unsigned int c = 0; c < cpus->n; c++)
		warn_of_sleep(cpus->cpu[c]);
	warn_of_threads(cpus);
	return DONE;
}
