# Builds by the launcher, checks, and copies. PREFIX and DESTDIR work as usual; BASE is what `touched` compares with.
.POSIX:
PREFIX = /usr/local
DESTDIR =
BASE = main
VERSION = 0.1.0

to = $(DESTDIR)$(PREFIX)
program = crates/tableau/out/tableau
tools = crates/tableau_tools/out/tableau_tools

all:
	@test "$$TABLEAU_BUILD" != try || { echo "TABLEAU_BUILD=try builds nothing to install" >&2; exit 1; }
	./tableau --version
	./tableau-tools --version

# the whole gate: every proof, wrong body, test and program, and the quick checks
check:
	.ci/check

# what needs no prover, on the built programs
quick:
	.ci/quick

# the crates that differ from BASE, and those above them
touched:
	.ci/touched $(BASE)

install: all
	install -d "$(to)/bin" "$(to)/share/man/man1" "$(to)/share/man/man5"
	install -d "$(to)/share/bash-completion/completions" "$(to)/share/zsh/site-functions"
	install -d "$(to)/share/fish/vendor_completions.d"
	install -m 755 $(program) "$(to)/bin/tableau"
	install -m 755 $(tools) "$(to)/bin/tableau-tools"
	install -m 644 docs/tableau.1 "$(to)/share/man/man1/tableau.1"
	install -m 644 docs/tableau-tools.1 "$(to)/share/man/man1/tableau-tools.1"
	install -m 644 docs/tableau-host.5 "$(to)/share/man/man5/tableau-host.5"
	install -m 644 completions/tableau.bash "$(to)/share/bash-completion/completions/tableau"
	install -m 644 completions/tableau-tools.bash "$(to)/share/bash-completion/completions/tableau-tools"
	install -m 644 completions/_tableau "$(to)/share/zsh/site-functions/_tableau"
	install -m 644 completions/_tableau-tools "$(to)/share/zsh/site-functions/_tableau-tools"
	install -m 644 completions/tableau.fish "$(to)/share/fish/vendor_completions.d/tableau.fish"
	install -m 644 completions/tableau-tools.fish "$(to)/share/fish/vendor_completions.d/tableau-tools.fish"
	docs/copy "$(to)/share/doc/tableau"
	.ci/record $(program) $(tools) > "$(to)/share/doc/tableau/BUILD"
	chmod 644 "$(to)/share/doc/tableau/BUILD"

uninstall:
	rm -f "$(to)/bin/tableau" "$(to)/bin/tableau-tools" "$(to)/share/man/man5/tableau-host.5"
	rm -f "$(to)/share/man/man1/tableau.1" "$(to)/share/man/man1/tableau-tools.1"
	rm -f "$(to)/share/bash-completion/completions/tableau" "$(to)/share/zsh/site-functions/_tableau"
	rm -f "$(to)/share/fish/vendor_completions.d/tableau.fish"
	rm -f "$(to)/share/bash-completion/completions/tableau-tools" "$(to)/share/zsh/site-functions/_tableau-tools"
	rm -f "$(to)/share/fish/vendor_completions.d/tableau-tools.fish"
	rm -rf "$(to)/share/doc/tableau"

# tableau-linux, which puts tables into a Linux kernel (linux/README.md), and its test on a kernel in QEMU
linux:
	$(MAKE) -C linux

linux-vm:
	linux/vm/all

install-linux uninstall-linux: linux
	$(MAKE) -C linux $(@:-linux=) PREFIX="$(PREFIX)" DESTDIR="$(DESTDIR)"

.PHONY: linux linux-vm install-linux uninstall-linux

# what is installed, packed for hosts without the kit, with a checksum
dist: all
	packaging/dist $(VERSION)

# the same as a Debian package
deb: all
	packaging/deb $(VERSION)
