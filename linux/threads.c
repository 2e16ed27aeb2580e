/* SPDX-License-Identifier: MIT OR GPL-2.0
 * Which thread is which vCPU's: by `tag`, and by `watch`, which finds QEMU's. */
#define _GNU_SOURCE
#include <dirent.h>
#include <errno.h>
#include <sched.h>
#include <stdlib.h>
#include <string.h>
#include <time.h>
#include <unistd.h>
#include <sys/syscall.h>
#include <bpf/bpf.h>
#include "linux.h"

#define LIBVIRT "/run/libvirt/qemu"
#define MAXFOUND 4096

static int set_policy(pid_t tid, int policy)
{
	struct sched_param param = {0};

	return syscall(SYS_sched_setscheduler, tid, policy, &param) ? errno : 0;
}

/* On the tables' CPUs, or on all others. */
static int set_cpus(const struct kernel *kernel, pid_t tid, bool ours)
{
	static cpu_set_t cpus[MAXCPU / CPU_SETSIZE];
	size_t size = sizeof(cpus);

	memset(cpus, ours ? 0 : -1, size);
	for (unsigned int c = 0; c < kernel->set.ncores; c++) {
		if (ours)
			CPU_SET_S(kernel->set.cpu_of[c], size, cpus);
		else
			CPU_CLR_S(kernel->set.cpu_of[c], size, cpus);
	}
	return sched_setaffinity(tid, size, cpus) ? errno : 0;
}

pid_t thread_of(const struct kernel *kernel, int id)
{
	unsigned int tid, *before = NULL;
	int has;

	while (!bpf_map_get_next_key(kernel->tags, before, &tid)) {
		if (!bpf_map_lookup_elem(kernel->tags, &tid, &has) && has == id)
			return tid;
		before = &tid;
	}
	return 0;
}

int thread_give_back(struct kernel *kernel, pid_t tid)
{
	int err = set_policy(tid, SCHED_OTHER);

	if (!err || err == ESRCH)
		bpf_map_delete_elem(kernel->tags, &tid);
	return err ? err : set_cpus(kernel, tid, false);
}

int thread_take(struct kernel *kernel, int id, pid_t tid)
{
	pid_t old = thread_of(kernel, id);
	int err = old && old != tid ? thread_give_back(kernel, old) : 0;

	if (err && err != ESRCH)
		return err;
	/* the kernel reads the tag as the thread comes to SCHED_EXT, so it must come anew */
	err = set_policy(tid, SCHED_OTHER);
	if (!err && bpf_map_update_elem(kernel->tags, &tid, &id, 0))
		err = errno;
	if (!err)
		err = set_cpus(kernel, tid, true);
	if (!err)
		err = set_policy(tid, SCHED_EXT);
	if (err)
		bpf_map_delete_elem(kernel->tags, &tid);
	return err;
}

static int take_by_name(struct kernel *kernel, const char *name, pid_t tid)
{
	int id = vcpu_id(kernel, name), err;

	if (!kernel_runs(kernel))
		return refuse(ENDED, "the tables were ended", "tableau-linux status says why");
	if (id < 0)
		return refuse(TABLES, "no such vCPU", "the tables have no row for %s", name);
	err = thread_take(kernel, id, tid);
	if (err == EINVAL)
		return refuse(MACHINE, "the thread may not run there",
			"thread %d's cpuset doesn't have the tables' CPUs:"
			" put it into a cgroup that has them, and take vcpupin lines out of the guest",
			tid);
	return err ? refuse(MACHINE, "the thread isn't taken", "thread %d: %s", tid, strerror(err)) : DONE;
}

int tag(const char *name, const char *tid)
{
	struct kernel kernel;
	char *end;
	long n = strtol(tid, &end, 10);
	int status;

	if (*end || n <= 0 || n > 1 << 30)
		return refuse(USAGE, "usage: tag VCPU TID", "%s is no thread's number", tid);
	status = kernel_open(&kernel);
	if (status)
		return status;
	status = take_by_name(&kernel, name, n);
	kernel_close(&kernel);
	return status;
}

struct thread {
	pid_t tid;
	char guest[64], name[NAMESIZE];
	unsigned int number;
};

static struct thread found[MAXFOUND];
static unsigned int nfound;

/* The guest of a process: libvirt's pid file has its name, or else QEMU's -name. */
static bool guest_of(pid_t process, char guest[64])
{
	static char line[1 << 16];
	char path[400], text[32];
	struct dirent *entry;
	DIR *all = opendir(LIBVIRT);
	FILE *f;
	size_t n;
	bool has = false;

	while (all && !has && (entry = readdir(all))) {
		char *dot = strstr(entry->d_name, ".pid");

		snprintf(path, sizeof(path), LIBVIRT "/%s", entry->d_name);
		has = dot && !dot[4] && read_text(path, text, sizeof(text)) && atoi(text) == process;
		if (has)
			snprintf(guest, 64, "%.*s", (int)(dot - entry->d_name), entry->d_name);
	}
	if (all)
		closedir(all);
	snprintf(path, sizeof(path), "/proc/%d/cmdline", process);
	f = has ? NULL : fopen(path, "r");
	n = f ? fread(line, 1, sizeof(line) - 1, f) : 0;
	line[n] = 0;
	if (f)
		fclose(f);
	for (char *word = line; !has && word < line + n; word += strlen(word) + 1)
		if (!strcmp(word, "-name") || !strcmp(word, "--name")) {
			word += strlen(word) + 1;
			has = sscanf(strstr(word, "guest=") ? strstr(word, "guest=") + 6 : word, "%63[^,]",
				      guest) == 1;
		}
	return has;
}

/* The threads of a process that are named as QEMU names those of vCPUs. */
static void find_in(pid_t process)
{
	char path[300], comm[32], guest[64] = "", kind[8];
	struct dirent *entry;
	unsigned int number;
	DIR *tasks;

	snprintf(path, sizeof(path), "/proc/%d/task", process);
	tasks = opendir(path);
	while (tasks && (entry = readdir(tasks)) && nfound < MAXFOUND) {
		snprintf(path, sizeof(path), "/proc/%d/task/%.16s/comm", process, entry->d_name);
		if (!read_text(path, comm, sizeof(comm)) || sscanf(comm, "CPU %u/%7s", &number, kind) != 2 ||
			(strcmp(kind, "KVM") && strcmp(kind, "TCG")))
			continue;
		if (!*guest && !guest_of(process, guest))
			break;
		found[nfound].tid = atoi(entry->d_name);
		found[nfound].number = number;
		snprintf(found[nfound].guest, sizeof(guest), "%s", guest);
		snprintf(found[nfound].name, NAMESIZE, "%.24s.%u", guest, number);
		nfound++;
	}
	if (tasks)
		closedir(tasks);
}

/* A line NAME GUEST N of the file says what the tables call vCPU N of a guest. */
static int name_by(const char *map)
{
	char line[256], name[NAMESIZE], guest[64], more[2];
	unsigned int number, n = 0;
	FILE *f = map ? fopen(map, "r") : NULL;

	if (map && !f)
		return refuse(INPUT, "the map can't be read", "%s: %s", map, strerror(errno));
	while (f && fgets(line, sizeof(line), f)) {
		n++;
		if (sscanf(line, "%32s %63s %u %1s", name, guest, &number, more) != 3) {
			fclose(f);
			return refuse(
				INPUT, "the map can't be read", "line %u of %s isn't NAME GUEST N", n, map);
		}
		for (unsigned int i = 0; i < nfound; i++)
			if (!strcmp(found[i].guest, guest) && found[i].number == number)
				strcpy(found[i].name, name);
	}
	if (f)
		fclose(f);
	return DONE;
}

static int find_all(const char *map)
{
	struct dirent *entry;
	DIR *all = opendir("/proc");

	nfound = 0;
	while (all && (entry = readdir(all)))
		if (atoi(entry->d_name) > 0)
			find_in(atoi(entry->d_name));
	if (all)
		closedir(all);
	return name_by(map);
}

/* Takes what was found and has a row, and isn't taken yet. */
static void take_found(struct kernel *kernel)
{
	for (unsigned int i = 0; i < nfound; i++) {
		int id = vcpu_id(kernel, found[i].name);

		if (id < 0 || thread_of(kernel, id) == found[i].tid)
			continue;
		if (!take_by_name(kernel, found[i].name, found[i].tid))
			printf("tag %s %d\n", found[i].name, found[i].tid);
	}
	fflush(stdout);
}

int watch(bool list, const char *map)
{
	struct timespec nap = {1, 0};
	struct kernel kernel;
	int status = find_all(map);

	if (list && !status)
		for (unsigned int i = 0; i < nfound; i++)
			printf("%s %d\n", found[i].name, found[i].tid);
	while (!list && !status) {
		if (!access(PINS, F_OK) && !kernel_open(&kernel)) {
			if (kernel_runs(&kernel))
				take_found(&kernel);
			kernel_close(&kernel);
		}
		nanosleep(&nap, NULL);
		status = find_all(map);
	}
	return status;
}
