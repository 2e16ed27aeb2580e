/* SPDX-License-Identifier: MIT OR GPL-2.0
 * drive loads FILE CPUS NAME=KIND..: makes a process for each vCPU, writes its `PID NAME` into FILE, and
 * waits for its end. KIND is spin, ext (it spins as a SCHED_EXT thread), or RUN:SLEEP in microseconds (of its
 * own CPU time, then asleep). CPUS is 1-N.
 * drive metro US: wakes each US microseconds. By instruction count QEMU lets a CPU run up to the next timer
 * before the next CPU comes, so this bounds how far the guest's CPUs are apart.
 */
#define _GNU_SOURCE
#include <sched.h>
#include <signal.h>
#include <stdio.h>
#include <stdlib.h>
#include <string.h>
#include <time.h>
#include <unistd.h>
#include <sys/prctl.h>
#include <sys/syscall.h>
#include <sys/wait.h>

static long long clock_ns(clockid_t id)
{
	struct timespec t;

	clock_gettime(id, &t);
	return t.tv_sec * 1000000000LL + t.tv_nsec;
}

static void metro(long us)
{
	struct timespec t;
	long long next = clock_ns(CLOCK_MONOTONIC);

	for (;;) {
		next += us * 1000;
		t.tv_sec = next / 1000000000;
		t.tv_nsec = next % 1000000000;
		clock_nanosleep(CLOCK_MONOTONIC, TIMER_ABSTIME, &t, NULL);
	}
}

static void work(long run, long nap)
{
	volatile unsigned long long n = 0;

	for (;;) {
		long long until = clock_ns(CLOCK_PROCESS_CPUTIME_ID) + run * 1000LL;

		while (!nap)
			n++;
		while (clock_ns(CLOCK_PROCESS_CPUTIME_ID) < until)
			n++;
		usleep(nap);
	}
}

int main(int argc, char **argv)
{
	FILE *f;
	int last = 0;

	if (argc == 3 && !strcmp(argv[1], "metro"))
		metro(atol(argv[2]));
	f = fopen(argv[2], "w");
	sscanf(argv[3], "1-%d", &last);
	for (int i = 4; i < argc; i++) {
		char *kind = strchr(argv[i], '=');
		long run = 0, nap = 0;
		int child;

		*kind++ = 0;
		sscanf(kind, "%ld:%ld", &run, &nap);
		child = fork();
		if (!child) {
			cpu_set_t set;

			prctl(PR_SET_PDEATHSIG, SIGKILL);
			prctl(PR_SET_NAME, argv[i]);
			CPU_ZERO(&set);
			for (int c = 1; c <= last; c++)
				CPU_SET(c, &set);
			sched_setaffinity(0, sizeof(set), &set);
			if (!strcmp(kind, "ext"))
				syscall(SYS_sched_setscheduler, 0, 7, &(struct sched_param){0});
			work(run, nap);
		}
		fprintf(f, "%d %s\n", child, argv[i]);
	}
	fclose(f);
	while (wait(NULL) > 0)
		;
	return 0;
}
