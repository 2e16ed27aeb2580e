/* SPDX-License-Identifier: MIT OR GPL-2.0
 * The text of `tableau-tools export scx`, as it is read. */
#ifndef TABLES_H
#define TABLES_H
#include <stdbool.h>
#include <stddef.h>
#include "table.h"
#define NAMESIZE 33

struct tables {
	unsigned int cores, vcpus;
	word_t tick_ns, round_ns, quantum_ns;
	char from[17];
	struct {
		char name[NAMESIZE];
		int home; /* NOBODY: not admitted */
		bool capped;
		word_t slots_ns; /* of a round */
	} vcpu[MAXV];
	unsigned int spans[MAXCORE];
	struct tab_span *row[MAXCORE];
};

/* Reads a text. Where it isn't one, the answer is the first line at fault, and *why says what is wrong
 * there. The rows of what was read are freed by tables_free, whatever the answer was. */
unsigned int tables_read(const char *text, size_t size, struct tables *tables, const char **why);
void tables_free(struct tables *tables);
unsigned int tables_spans(const struct tables *tables);		/* of all rows */
int tables_vcpu(const struct tables *tables, const char *name); /* NOBODY: there is none */
#endif
