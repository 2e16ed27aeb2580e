/* SPDX-License-Identifier: MIT OR GPL-2.0
 * tableau-linux: the tables of tableau on a Linux kernel with sched_ext. */
#include <errno.h>
#include <stdarg.h>
#include <stdlib.h>
#include <string.h>
#include "linux.h"

static const char usage[] =
	"tableau-linux load TABLES --cpus LIST  put tables into the kernel, and hold them there\n"
	"tableau-linux switch TABLES            let other tables count from a round's start on\n"
	"tableau-linux tag VCPU TID             the thread is the vCPU's from now on\n"
	"tableau-linux watch [--map FILE]       find QEMU's vCPU threads, and tag them as they come\n"
	"tableau-linux watch --list             print what it finds, and end\n"
	"tableau-linux status                   what counts, and what cores and vCPUs did\n"
	"tableau-linux trace SECONDS            what ran, as lines for tableau-tools judge\n"
	"tableau-linux unload                   end it: the kernel's own scheduler goes on\n"
	"tableau-linux check TABLES             read tables, and load nothing\n";

int refuse(int status, const char *line, const char *advice, ...)
{
	va_list args;

	printf("refused: %s\n", line);
	fflush(stdout);
	va_start(args, advice);
	vfprintf(stderr, advice, args);
	va_end(args);
	fputc('\n', stderr);
	return status;
}

bool read_text(const char *file, char *into, size_t size)
{
	FILE *f = fopen(file, "r");
	size_t n;

	if (!f)
		return false;
	n = fread(into, 1, size - 1, f);
	fclose(f);
	into[n] = 0;
	into[strcspn(into, "\n")] = 0;
	return true;
}

/* All of a file, or NULL. */
static char *whole(const char *file, size_t *size)
{
	FILE *f = fopen(file, "r");
	char *text = NULL, *more;
	size_t room = 0;

	*size = 0;
	while (f && !ferror(f) && !feof(f)) {
		if (*size == room) {
			room = 2 * room + 65536;
			more = realloc(text, room);
			if (!more)
				break;
			text = more;
		}
		*size += fread(text + *size, 1, room - *size, f);
	}
	if (f && feof(f) && !ferror(f)) {
		fclose(f);
		return text;
	}
	if (f)
		fclose(f);
	free(text);
	return NULL;
}

int tables_of_file(const char *file, struct tables *tables)
{
	const char *why;
	char *text, line[40];
	unsigned int fault;
	size_t size;

	errno = 0;
	text = whole(file, &size);
	if (!text)
		return refuse(INPUT, "the tables can't be read", "%s: %s", file, strerror(errno));
	fault = tables_read(text, size, tables, &why);
	free(text);
	if (!fault)
		return DONE;
	tables_free(tables);
	snprintf(line, sizeof(line), "tables line %u", fault);
	return refuse(TABLES, line, "%s: %s. Make the text anew by: tableau-tools export scx", file, why);
}

static int check(const char *file)
{
	static struct tables tables;
	int status = tables_of_file(file, &tables);

	if (!status)
		printf("ok %s\n", tables.from);
	tables_free(&tables);
	return status;
}

static int call(int n, char **word)
{
	const char *what = n ? word[0] : "";

	if (n == 4 && !strcmp(what, "load") && !strcmp(word[2], "--cpus"))
		return load(word[1], word[3]);
	if (n == 2 && !strcmp(what, "switch"))
		return switch_to(word[1]);
	if (n == 3 && !strcmp(what, "tag"))
		return tag(word[1], word[2]);
	if (!strcmp(what, "watch")) {
		bool list = n > 1 && !strcmp(word[1], "--list");
		int at = 1 + list;

		if (n == at)
			return watch(list, NULL);
		if (n == at + 2 && !strcmp(word[at], "--map"))
			return watch(list, word[at + 1]);
	}
	if (n == 1 && !strcmp(what, "status"))
		return status();
	if (n == 2 && !strcmp(what, "trace"))
		return trace(word[1]);
	if (n == 1 && !strcmp(what, "unload"))
		return unload();
	if (n == 2 && !strcmp(what, "check"))
		return check(word[1]);
	return refuse(USAGE, "usage", "%s", usage);
}

int main(int argc, char **argv)
{
	int status;

	if (argc == 2 && !strcmp(argv[1], "--help")) {
		fputs(usage, stdout);
		status = DONE;
	} else if (argc == 2 && !strcmp(argv[1], "--version")) {
		puts("tableau-linux 0.1.0");
		status = DONE;
	} else {
		status = call(argc - 1, argv + 1);
	}
	return fflush(stdout) || ferror(stdout) ? OUTPUT : status;
}
