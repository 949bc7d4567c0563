.PHONY: help demo try program play play-test build install install-libs uninstall dist test gate-cases toolchain check \
	examples bench bindings refuse mutants crash disk wires broker service service-setup service-test service-page \
	service-mutants

help:
	@echo 'At once:'
	@echo '  make demo          the stored run, drawn, each command beside its reply; a minute'
	@echo '  make try FILE=examples/scripts/stale_token.jsonl'
	@echo '                     a script, histories or a migration (NAME.migration.jsonl), by the built program; if none'
	@echo '                     is built from these sources, with no proof: the first file waits a minute for it'
	@echo
	@echo 'With time (on four processors; on two it takes about twice as long):'
	@echo '  make build         proves and builds the program; less than an hour the first time'
	@echo '  make play          a page in the browser on which a bank is played with, after make build;'
	@echo '                     OPEN=stale_token begins with this run of examples/'
	@echo '  make install PREFIX=/usr/local'
	@echo '                     copies the program, the manual pages rbbank(1), rbbank(5), rbbank-running(7) and'
	@echo '                     rbbank-periods(7), completions for three shells, and the tools rbbank-draw,'
	@echo '                     rbbank-explain, rbbank-wire, rbbank-close and rbbank-rebuild, after make build'
	@echo '  make install-libs PREFIX=/usr/local'
	@echo '                     copies the library for C with its headers and a file for pkg-config, after make bindings'
	@echo '  make uninstall PREFIX=/usr/local'
	@echo '                     removes what these two copied'
	@echo '  make dist          all of it in one file, out/$(RELEASE).tar.gz, after make bindings;'
	@echo '                     ARCHIVE=FILE tests/install.py PROGRAM runs what is in it'
	@echo '  make examples      every example, and every case of tests/cases, through the program, after make build'
	@echo '  make test          the gate; about an hour; some minutes if nothing changed since'
	@echo '                     (docs/CHANGING.md)'
	@echo '  make bindings      the library for C, Rust and Python (bindings/), their tests and the shop of examples/shop;'
	@echo '                     wants gcc or clang, and cargo; after make test the library is there, and it takes a minute'
	@echo
	@echo 'While you change something:'
	@echo '  make check         proves every crate, over what earlier checks kept'
	@echo '  make mutants CRATE=rb_ledger'
	@echo '                     the mutants of a crate that the gate leaves out; without CRATE all of them, some two hours'
	@echo '  make refuse        each allocation of the program and of five tests refused in turn; wants a C compiler, cc'
	@echo '  make bench         the measurements of bench/README.md, some ten minutes'
	@echo '  make crash         sites ended at random moments, over and over, and started again; books closed between, and'
	@echo '                     a disk lost in the end; some minutes'
	@echo '  make disk          each call of a site on its file, its input and its output at fault in turn; wants cc'
	@echo '  make wires         sites over pipes, 20,000 deposits each at once, one of them stopped for a while; and'
	@echo '                     mutants of wire.py'
	@echo '  make broker        three sites over the message broker mosquitto, if it is installed'
	@echo '  make play-test     the page of make play, used in a browser, and its mutants; wants chromium (play/README.md)'
	@echo
	@echo 'As a service (service/README.md):'
	@echo '  make service-setup installs what it wants, by apt-get: RabbitMQ, aiohttp, aio-pika, uvloop'
	@echo '  make service       three nodes of the broker and three sites with HTTP on this machine'
	@echo '  make service-test  its parts killed for SECONDS=60, SEEDS=1 times; SEED=7 makes the same choices again'
	@echo '  make service-page  its console used in a browser, mutants of the page, and the files of service/deploy'
	@echo '  make service-mutants'
	@echo '                     changes of the service that its checks have to catch; a quarter of an hour'

# The stored run, drawn, each command beside its reply.
demo:
	@examples/tools/demo.py --draw

# A file through the program that is built from the sources as they are, else through the sources with no proof.
try:
	@test -n "$(FILE)" || { echo 'usage: make try FILE=examples/scripts/stale_token.jsonl'; exit 2; }
	@examples/tools/bank.py --try "$(FILE)"

# Without what proves and builds, one line says so.
WITH_RT = command -v rt > /dev/null || { echo "rt isn't on PATH: the Rattle toolchain (README.md, Start)"; exit 1; }

# Proves and builds the program, and prints its path.
build:
	@$(WITH_RT)
	@echo 'Proving and building: less than an hour the first time, seconds if nothing changed since (four processors).'
	@cd crates/rbbank && rt run -- script < stdin > /dev/null
	@echo $(CURDIR)/crates/rbbank/out/rbbank

PROGRAM ?= crates/rbbank/out/rbbank
program:
	@test -x "$(PROGRAM)" || { echo 'there is no program yet: make build'; exit 1; }

# A page in the browser over the built program. It builds nothing.
play:
	@exec play/play.py $(if $(OPEN),--open "$(OPEN)")

# The same page used in a browser as a person does, and the mutants of page and server. Without a browser it says what
# to install, and ends in a status.
PYTHON ?= python3
play-test: program
	@$(PYTHON) play/browse.py $(PROGRAM)
	@$(PYTHON) play/mutants.py $(PROGRAM)
	@if command -v eslint > /dev/null; then eslint play/page/*.js; \
		else echo 'no eslint on PATH (Debian: apt-get install eslint): its rules were not checked'; fi

# Below PREFIX: the program; the manual page and completions that are made from its help, and those that are made from
# pages of docs/; and the tools, with what they import.
PREFIX ?= /usr/local
UNDER = $(DESTDIR)$(PREFIX)
TOOLS = draw explain wire close rebuild
MODULES = bank journals picture saying world
install: program
	@install -D -m 755 "$(PROGRAM)" "$(UNDER)/bin/rbbank"
	@examples/tools/from_help.py "$(UNDER)/bin/rbbank" "$(UNDER)"
	@examples/tools/from_format.py "$(UNDER)"
	@install -d "$(UNDER)/share/rbbank"
	@install -m 644 docs/FORMAT.md examples/tools/commands.json $(MODULES:%=examples/tools/%.py) "$(UNDER)/share/rbbank"
	@install -m 755 $(TOOLS:%=examples/tools/%.py) "$(UNDER)/share/rbbank"
	@for tool in $(TOOLS); do ln -sf "../share/rbbank/$$tool.py" "$(UNDER)/bin/rbbank-$$tool" || exit 1; done
	@echo 'installed below $(UNDER)'

# The library for C, its headers and what pkg-config says of it, below PREFIX. The one version is the library's; the
# program's is the same.
VERSION := $(shell sed -n 's/.*VERSION: &str = "\(.*\)";/\1/p' crates/rb_capi/src/version.rt)
SHARED := librbbank.so.$(firstword $(subst ., ,$(VERSION)))
HEADERS = rbbank.h rbbank_file.h
ARCHIVES = librbbank.a librbbank_file.a
FOUND_AT ?= $(PREFIX)
install-libs:
	@test -f bindings/out/librbbank_file.a || { echo 'there is no library yet: make bindings'; exit 1; }
	@install -d "$(UNDER)/include" "$(UNDER)/lib/pkgconfig"
	@install -m 644 $(HEADERS:%=bindings/c/%) "$(UNDER)/include"
	@install -m 644 $(ARCHIVES:%=bindings/out/%) "$(UNDER)/lib"
	@install -m 755 bindings/out/librbbank.so "$(UNDER)/lib/$(SHARED)"
	@ln -sf $(SHARED) "$(UNDER)/lib/librbbank.so"
	@sed -e 's|@PREFIX@|$(FOUND_AT)|' -e 's|@VERSION@|$(VERSION)|' bindings/c/rbbank.pc.in \
		> "$(UNDER)/lib/pkgconfig/rbbank.pc"

# What both put below PREFIX, and folders that are empty then; tests/help has the manual page and the completions that
# are made from the program's help.
FOLDERS = bin include lib/pkgconfig lib share/man/man5 share/man/man7 \
	$(shell cd tests/help && find share -mindepth 1 -type d)
uninstall:
	@find tests/help/share -type f -printf 'share/%P\n' | while read -r path; do rm -f "$(UNDER)/$$path"; done
	@rm -f "$(UNDER)/bin/rbbank" $(TOOLS:%="$(UNDER)/bin/rbbank-%") "$(UNDER)"/share/man/man[57]/rbbank*
	@rm -rf "$(UNDER)/share/rbbank"
	@rm -f $(HEADERS:%="$(UNDER)/include/%") $(ARCHIVES:%="$(UNDER)/lib/%") "$(UNDER)"/lib/librbbank.so* \
		"$(UNDER)/lib/pkgconfig/rbbank.pc"
	@cd "$(UNDER)" && rmdir -p --ignore-fail-on-non-empty $(FOLDERS) 2> /dev/null || true

# What both copy, in one file that is unpacked anywhere.
RELEASE = rbbank-$(VERSION)-linux-x86-64
PARTS ?= install install-libs
OUT ?= $(CURDIR)/out
dist:
	@rm -rf "$(OUT)/$(RELEASE)"
	@$(MAKE) --no-print-directory $(PARTS) DESTDIR= PREFIX="$(OUT)/$(RELEASE)" FOUND_AT='$$$${pcfiledir}/../..' \
		> /dev/null
	@install -m 644 LICENSE CHANGELOG.md SECURITY.md "$(OUT)/$(RELEASE)"
	@tar -C "$(OUT)" --owner=0 --group=0 --sort=name -czf "$(OUT)/$(RELEASE).tar.gz" $(RELEASE)
	@rm -r "$(OUT)/$(RELEASE)"
	@echo "$(OUT)/$(RELEASE).tar.gz"

# Every script, all histories and migrations of examples/, and the cases of tests/cases, through the program.
CASES = examples/tools/check.py examples/tools/check_drawings.py tests/cases.py tests/sites.py tests/banks.py \
	tests/closings.py tests/older.py tests/tools.py tests/files.py tests/install.py
examples: build
	@for cases in $(CASES); do $$cases crates/rbbank/out/rbbank || exit 1; done
	@examples/tools/from_help.py --check crates/rbbank/out/rbbank

# The library in bindings/out, its tests in each language, the same answers by each of them, and the shop. What is
# missing is said, and ends it in a status. If the gate built the program of these sources, it isn't built again.
bindings:
	@test "$$(examples/tools/bank.py 2> /dev/null)" = 'the proved program' || $(MAKE) --no-print-directory build
	@bindings/build.py
	@bindings/check.py crates/rbbank/out/rbbank

# The gate. The last line is 'N passed, 0 failed', or an example or a case that is answered otherwise. It wants cc and
# strace.
test: toolchain
	examples/tools/from_rows.py --check
	tests/closure.py --check
	tests/mutants.py --check
	tests/plain_words.py --check
	bindings/declarations.py --check
	rt ci
	@bindings/build.py --of-gate & library=$$!; $(MAKE) --no-print-directory gate-cases; cases=$$?; \
		wait $$library && exit $$cases

# What the gate does with the program that it proved, while the library for C is built beside it.
gate-cases:
	@tests/refuse.py --gate crates/rbbank/out/rbbank crates/rb_tests/out/rb_tests_tests \
		crates/rb_tests_runs/out/rb_tests_runs_tests
	@examples/tools/bank.py --record crates/rbbank/out/rbbank
	@for cases in $(CASES) play/check.py; do $$cases --quiet crates/rbbank/out/rbbank || exit 1; done
	@examples/tools/from_help.py --check crates/rbbank/out/rbbank
	@tests/crash.py --quiet crates/rbbank/out/rbbank --kills 20 --seed 1
	@tests/disk.py --gate --quiet crates/rbbank/out/rbbank
	@tests/wires.py --gate --quiet crates/rbbank/out/rbbank

# Whether README.md names this machine's toolchain, as one that every crate was proved with.
toolchain:
	@$(WITH_RT)
	@grep -qF "\`$$(rt version)\`" README.md || { echo "README.md names no toolchain '$$(rt version)'"; exit 1; }

# Every crate, over what earlier checks kept.
check:
	@$(WITH_RT)
	rt all check

# The measurements of bench/README.md.
bench: build
	@bench/run.py crates/rbbank/out/rbbank

# Sites ended at random moments and started again: three, four and five of them at first, for three periods.
crash: build
	@for sites in 3 4 5; do tests/crash.py crates/rbbank/out/rbbank --kills 200 --sites $$sites || exit 1; done

# Each call of a site on its file, its input and its output at fault in turn (docs/CHANGING.md, "Beside the gate").
disk: build
	@tests/disk.py crates/rbbank/out/rbbank

# Two and three sites over pipes and examples/tools/wire.py, and mutants of it.
wires: build
	@tests/wires.py crates/rbbank/out/rbbank
	@tests/wire_mutants.py crates/rbbank/out/rbbank

# Three sites over mosquitto.
broker:
	@examples/broker/three_sites.sh --look
	@$(MAKE) --no-print-directory build
	@examples/broker/three_sites.sh crates/rbbank/out/rbbank

# The bank as a service. Debian's packages are those of its own Python, if no other is given. What is missing is said,
# and ends it in a status.
SERVICE_PYTHON = $(if $(filter file,$(origin PYTHON)),/usr/bin/python3,$(PYTHON))
SECONDS ?= 60
SEEDS ?= 1
service-setup:
	apt-get update
	apt-get install -y rabbitmq-server python3-aiohttp python3-aio-pika python3-prometheus-client \
		python3-uvloop python3-jsonschema python3-yaml

service: program
	@$(SERVICE_PYTHON) service/cluster.py $(PROGRAM)

service-test: program
	@$(SERVICE_PYTHON) service/check.py $(PROGRAM) --broker
	@$(SERVICE_PYTHON) service/chaos.py $(PROGRAM) --seconds $(SECONDS) --seeds $(SEEDS) \
		$(if $(SEED),--seed $(SEED))

# The console in a browser, over sites that answer from recorded states, and over real services.
service-page: program
	@$(SERVICE_PYTHON) service/browse.py
	@$(SERVICE_PYTHON) service/browse.py --services $(PROGRAM)
	@$(SERVICE_PYTHON) service/browse.py --mutants
	@$(SERVICE_PYTHON) service/deploy/check_deploy.py

service-mutants: program
	@$(SERVICE_PYTHON) service/mutants.py $(PROGRAM)

# Each allocation of the program and of five tests refused in turn (docs/CHANGING.md, "Beside the gate"); it wants cc.
refuse: build
	@cd crates/rb_tests && rt test
	@cd crates/rb_tests_runs && rt test
	@tests/refuse.py crates/rbbank/out/rbbank crates/rb_tests/out/rb_tests_tests \
		crates/rb_tests_runs/out/rb_tests_runs_tests

# The mutants that the gate leaves out for its time.
mutants:
	@$(WITH_RT)
	@tests/mutants.py $(or $(CRATE),--all)
