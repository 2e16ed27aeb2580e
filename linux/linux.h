/* SPDX-License-Identifier: MIT OR GPL-2.0
 * What the parts of tableau-linux share. */
#ifndef LINUX_H
#define LINUX_H
#include <stdio.h>
#include <sys/types.h>
#include "tables.h"

#ifndef SCHED_EXT
#define SCHED_EXT 7
#endif
#define PINS "/sys/fs/bpf/tableau"

enum status { DONE, USAGE, TABLES, MACHINE, INPUT, OUTPUT, MEMORY, ENDED };

/* The loaded scheduler, by what is pinned of it. */
struct kernel {
	int tags, lock;
	struct tab_state *state;
	struct tab_span *spans;
	struct tab_settings set;
};

struct cpus {
	unsigned int n;
	int cpu[MAXCORE];
};

/* Prints `refused: LINE` on standard output, and on standard error what to do; the answer is the status. */
int refuse(int status, const char *line, const char *advice, ...) __attribute__((format(printf, 3, 4)));
word_t now_ns(void);
bool read_text(const char *file, char *into, size_t size); /* the first line of a small file */
int tables_of_file(const char *file, struct tables *tables);

int host_check(const struct tables *tables, const struct cpus *cpus);
const char *host_partition(int cpu); /* the group whose partition has the CPU, or NULL */
bool cpus_parse(const char *list, struct cpus *cpus);

/* Opens what is pinned, and waits until no other call has it. */
int kernel_open(struct kernel *kernel);
void kernel_close(struct kernel *kernel);
bool kernel_runs(const struct kernel *kernel);
bool kernel_map(struct kernel *kernel, int spans, int state);
void kernel_unpin(void);

bool plan_put(struct kernel *kernel, unsigned int plan, const struct tables *tables);

int thread_take(struct kernel *kernel, int id, pid_t tid); /* it is the vCPU's from now on: 0, or errno */
int thread_give_back(struct kernel *kernel, pid_t tid);
pid_t thread_of(const struct kernel *kernel, int id);	    /* 0: none */
int vcpu_id(const struct kernel *kernel, const char *name); /* in the newest tables, or NOBODY */

int load(const char *file, const char *list);
int switch_to(const char *file);
int tag(const char *name, const char *tid);
int watch(bool list, const char *map);
int status(void);
int trace(const char *seconds);
int unload(void);
#endif
