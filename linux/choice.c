/* SPDX-License-Identifier: MIT OR GPL-2.0
 * The scheduler's choice and the loader's reader as a library for `check`: the very code of table.h and
 * tables.c. */
#include "tables.h"

#define MAXTABLES 16 /* a host's, and those after 15 changes at most */

static struct tables tables[MAXTABLES];

/* 0, or the line at fault. */
unsigned int tab_read(int i, const char *text, size_t size)
{
	const char *why;

	tables_free(&tables[i]);
	return tables_read(text, size, &tables[i], &why);
}

/* Whom core c runs at a place of the round, and where the span ends. */
int tab_choose(int i, unsigned int c, word_t place, const word_t *runnable, int last, word_t *end, int *owner)
{
	const struct tab_span *span = tables[i].row[c];

	while (span->end <= place)
		span++;
	*end = span->end;
	*owner = span->owner;
	return decide(span->owner, span->may, runnable, last);
}
