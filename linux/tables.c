/* SPDX-License-Identifier: MIT OR GPL-2.0
 * Reads the text of `tableau-tools export scx`, and takes no other: docs/FORMATS.md has its grammar. */
#include <stdio.h>
#include <stdlib.h>
#include <string.h>
#include "tables.h"

#define TICKS 102600 /* of a round */
#define LINESIZE 100 /* longer than any line of the text */

struct reader {
	const char *next, *end;
	unsigned int line;
	const char *why;
	word_t sum, sum_before; /* of all bytes up to the line's end, and up to its begin */
	char buffer[LINESIZE];
	const char *at; /* in buffer */
	struct tables *tables;
};

static bool fault(struct reader *r, const char *why)
{
	if (!r->why)
		r->why = why;
	return false;
}

static bool next_line(struct reader *r)
{
	const char *feed = r->next < r->end ? memchr(r->next, '\n', r->end - r->next) : NULL;
	size_t n;

	r->line++;
	if (r->next == r->end)
		return fault(r, "the text stops before this line");
	if (!feed)
		return fault(r, "the line has no line feed");
	n = feed - r->next;
	if (n >= LINESIZE || memchr(r->next, 0, n))
		return fault(r, "it is no line of such a text");
	r->sum_before = r->sum;
	for (size_t i = 0; i <= n; i++)
		r->sum = (r->sum ^ (unsigned char)r->next[i]) * 1099511628211ULL;
	memcpy(r->buffer, r->next, n);
	r->buffer[n] = 0;
	r->at = r->buffer;
	r->next = feed + 1;
	return true;
}

static bool word(struct reader *r, const char *text)
{
	size_t n = strlen(text);

	if (strncmp(r->at, text, n))
		return fault(r, "another line is due here");
	r->at += n;
	return true;
}

/* A number up to most, with no leading zero. */
static bool number(struct reader *r, word_t *value, word_t most)
{
	const char *begin = r->at;

	for (*value = 0; *r->at >= '0' && *r->at <= '9'; r->at++) {
		*value = *value * 10 + (*r->at - '0');
		if (*value > most)
			return fault(r, "a number is too large");
	}
	if (r->at == begin || (*begin == '0' && r->at > begin + 1))
		return fault(r, "a number is missing, or has a leading zero");
	return true;
}

/* A number below limit, or `-` for NOBODY. */
static bool number_or_none(struct reader *r, int *value, unsigned int limit)
{
	word_t n;

	*value = NOBODY;
	if (*r->at == '-') {
		r->at++;
		return true;
	}
	if (!number(r, &n, 1 << 20))
		return false;
	*value = n;
	return n < limit ? true : fault(r, "a vCPU or core is named that the text doesn't have");
}

static bool hex16(struct reader *r, word_t *value)
{
	*value = 0;
	for (int i = 0; i < 16; i++, r->at++) {
		const char *digit = *r->at ? strchr("0123456789abcdef", *r->at) : NULL;

		if (!digit)
			return fault(r, "sixteen digits 0-9a-f are due");
		*value = *value << 4 | (word_t)(digit - "0123456789abcdef");
	}
	return true;
}

static bool ends(struct reader *r)
{
	return *r->at ? fault(r, "the line goes on where it should end") : true;
}

static bool line_of(struct reader *r, const char *key, word_t *value, word_t least, word_t most)
{
	if (!next_line(r) || !word(r, key) || !number(r, value, ~0ULL >> 5) || !ends(r))
		return false;
	return *value >= least && *value <= most ? true : fault(r, "its number is out of range");
}

static bool read_head(struct reader *r)
{
	struct tables *t = r->tables;
	word_t from, cores, vcpus;

	if (!next_line(r) || !word(r, "tableau scx 1") || !ends(r) || !next_line(r) || !word(r, "from ") ||
		!hex16(r, &from) || !ends(r))
		return false;
	snprintf(t->from, sizeof(t->from), "%016llx", from);
	if (!line_of(r, "tick ", &t->tick_ns, 500, 2002) ||
		!line_of(r, "round ", &t->round_ns, TICKS * t->tick_ns, TICKS * t->tick_ns) ||
		!line_of(r, "quantum ", &t->quantum_ns, t->tick_ns, TICKS * t->tick_ns))
		return false;
	if (t->quantum_ns % t->tick_ns)
		return fault(r, "the quantum is no multiple of the tick");
	if (!line_of(r, "cores ", &cores, 1, MAXCORE) || !line_of(r, "vcpus ", &vcpus, 0, MAXV))
		return false;
	t->cores = cores;
	t->vcpus = vcpus;
	return true;
}

static bool name(struct reader *r, char *into)
{
	size_t n = strspn(r->at, "abcdefghijklmnopqrstuvwxyzABCDEFGHIJKLMNOPQRSTUVWXYZ0123456789_-.");

	if (!n || n >= NAMESIZE || (n == 1 && *r->at == '-'))
		return fault(r, "a name has 1 to 32 of a-z A-Z 0-9 _ - . and isn't - alone");
	memcpy(into, r->at, n);
	into[n] = 0;
	r->at += n;
	return true;
}

static bool read_vcpu(struct reader *r, unsigned int v)
{
	struct tables *t = r->tables;
	word_t n;

	if (!next_line(r) || !word(r, "vcpu ") || !number(r, &n, MAXV) || !word(r, " ") ||
		!name(r, t->vcpu[v].name) || !word(r, " ") ||
		!number_or_none(r, &t->vcpu[v].home, t->cores) || !word(r, " "))
		return false;
	if (n != v)
		return fault(r, "the vCPUs aren't numbered in order");
	if (tables_vcpu(t, t->vcpu[v].name) != (int)v)
		return fault(r, "the name stands twice");
	t->vcpu[v].capped = *r->at == 'c';
	return word(r, t->vcpu[v].capped ? "capped" : "shares") && ends(r);
}

/* END of a line: above the one before it, and the round's only on the row's last line. */
static bool read_end(struct reader *r, word_t *end, word_t before, bool last)
{
	struct tables *t = r->tables;

	if (!next_line(r) || !number(r, end, t->round_ns) || !word(r, " "))
		return false;
	if (*end <= before || *end % t->tick_ns)
		return fault(r, "END doesn't rise, or is no multiple of the tick");
	return (*end == t->round_ns) == last ? true : fault(r, "a row ends with the round, on its last line");
}

static bool read_may(struct reader *r, unsigned int c, struct tab_span *span)
{
	struct tables *t = r->tables;

	for (unsigned int i = 0; i < (t->vcpus + 63) / 64; i++) {
		if (!word(r, " ") || !hex16(r, &span->may[i]))
			return false;
		for (word_t left = span->may[i]; left; left &= left - 1) {
			unsigned int v = 64 * i + __builtin_ctzll(left);

			if (v >= t->vcpus || t->vcpu[v].home != (int)c || t->vcpu[v].capped ||
				(int)v == span->owner)
				return fault(r, "MAY has a vCPU that this core's second level can't take");
		}
	}
	return ends(r);
}

static bool read_core(struct reader *r, unsigned int c)
{
	struct tables *t = r->tables;
	word_t n, before = 0;

	if (!next_line(r) || !word(r, "core ") || !number(r, &n, MAXCORE) || !word(r, " "))
		return false;
	if (n != c)
		return fault(r, "the cores aren't numbered in order");
	if (!number(r, &n, MAXSPAN) || !ends(r))
		return false;
	if (!n)
		return fault(r, "a row has a span at least");
	t->spans[c] = n;
	t->row[c] = calloc(n, sizeof(struct tab_span));
	if (!t->row[c])
		return fault(r, "out of memory");
	for (unsigned int i = 0; i < n; i++) {
		struct tab_span *span = &t->row[c][i];

		if (!read_end(r, &span->end, before, i + 1 == n) ||
			!number_or_none(r, &span->owner, t->vcpus))
			return false;
		if (span->owner >= 0 && t->vcpu[span->owner].home < 0)
			return fault(r, "the slot is that of a vCPU without a home");
		if (!read_may(r, c, span))
			return false;
		if (span->owner >= 0)
			t->vcpu[span->owner].slots_ns += span->end - before;
		before = span->end;
	}
	return true;
}

/* From begin to end each span of core c is v's. */
static bool is_slot(const struct tables *t, unsigned int c, int v, word_t begin, word_t end)
{
	unsigned int low = 0, high = t->spans[c] - 1;

	while (low < high) {
		unsigned int middle = (low + high) / 2;

		if (t->row[c][middle].end <= begin)
			low = middle + 1;
		else
			high = middle;
	}
	for (; t->row[c][low].end < end; low++)
		if (t->row[c][low].owner != v)
			return false;
	return t->row[c][low].owner == v;
}

static bool read_where(struct reader *r, unsigned int v)
{
	struct tables *t = r->tables;
	word_t n, stretches, end, before = 0, slots = 0;
	int c;

	if (!next_line(r) || !word(r, "where ") || !number(r, &n, MAXV) || !word(r, " ") ||
		!number(r, &stretches, 2 * TICKS) || !ends(r))
		return false;
	if (n != v || !stretches)
		return fault(r, "the vCPUs aren't numbered in order, or one has no row");
	for (word_t i = 0; i < stretches; i++) {
		if (!read_end(r, &end, before, i + 1 == stretches) || !number_or_none(r, &c, t->cores) ||
			!ends(r))
			return false;
		if (c >= 0 && !is_slot(t, c, v, before, end))
			return fault(r, "the vCPU is in no slot there by that core's row");
		slots += c >= 0 ? end - before : 0;
		before = end;
	}
	return slots == t->vcpu[v].slots_ns ? true : fault(r, "the vCPU has more slots by the cores' rows");
}

static bool read_all(struct reader *r)
{
	struct tables *t = r->tables;
	word_t sum;

	if (!read_head(r))
		return false;
	for (unsigned int v = 0; v < t->vcpus; v++)
		if (!read_vcpu(r, v))
			return false;
	for (unsigned int c = 0; c < t->cores; c++)
		if (!read_core(r, c))
			return false;
	for (unsigned int v = 0; v < t->vcpus; v++)
		if (!read_where(r, v))
			return false;
	if (!next_line(r) || !word(r, "sum ") || !hex16(r, &sum) || !ends(r))
		return false;
	if (sum != r->sum_before)
		return fault(r, "the text was changed: its sum is another");
	r->line++;
	return r->next == r->end ? true : fault(r, "nothing may follow the sum");
}

unsigned int tables_read(const char *text, size_t size, struct tables *tables, const char **why)
{
	struct reader r = {
		.next = text, .end = text + size, .sum = 14695981039346656037ULL, .tables = tables};

	memset(tables, 0, sizeof(*tables));
	if (read_all(&r))
		return 0;
	*why = r.why;
	return r.line;
}

void tables_free(struct tables *tables)
{
	for (unsigned int c = 0; c < MAXCORE; c++)
		free(tables->row[c]);
	memset(tables->row, 0, sizeof(tables->row));
}

unsigned int tables_spans(const struct tables *tables)
{
	unsigned int n = 0;

	for (unsigned int c = 0; c < tables->cores; c++)
		n += tables->spans[c];
	return n;
}

int tables_vcpu(const struct tables *tables, const char *name)
{
	for (unsigned int v = 0; v < tables->vcpus; v++)
		if (!strcmp(tables->vcpu[v].name, name))
			return v;
	return NOBODY;
}
