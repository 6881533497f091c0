# Builds the programs into bin/, tests and installs them. Only a proved program is built: the first build proves each
# crate below it, which takes 15 to 38 minutes on four processors; later ones prove only what changed.
#
#   make                    the programs, in bin/, for the processor level of this machine; -j proves crates side by side
#   make CPU=x86-64-v2      the same for any processor of the last fifteen years
#   make VERBOSE=1          the programs, with the prover's output as it comes
#   make check              proves and tests everything, the first time from nothing, then runs the tests of the programs
#                           that this built, in out/check/
#   make test               the programs' tests alone, over what `make` builds
#   make dist               packs the programs into dist/ for machines without the kit; it needs a processor of level x86-64-v3
#   make check-deploy       tries what is in clients/, tools/ and deploy/, with Debian's packages and the C library, on this
#                           machine
#   make check-dist         makes dist/, installs the package in a bare Debian, uses it and purges it; as root
#   make sweep              refuses each growth, read, write and thread of the programs, and growths of the crates' tests;
#                           `make test` draws a sample of them
#   make mutants            tries every wrong body that the contracts are to refuse, for more than an hour
#   make soak MINUTES=..    the scan server under load, hostile connections among it, for some minutes
#   make bench              the programs that measure, in bin/
#   make examples           the programs to copy from, in bin/
#   make library            the C library, in lib/ and include/; `make install` installs it if it is there
#   make install PREFIX=..  installs programs, manuals, completions, clients, systemd units and documents below PREFIX; BINDIR,
#                           UNITDIR, DOCDIR and DESTDIR are as usual, and INSTALL_STRIP= keeps the programs' symbols
#   make installcheck ..    the programs' tests over the installed programs, without the kit
#   make uninstall ..       removes what was installed

PROGRAMS = litgrep litplan scand
MEASURES = bench_check bench_lanes bench_scan
PROBES = plan_probe
EXAMPLES = example_scan example_check
PREFIX = /usr/local
# The folder of the programs that are installed.
BIN = bin

# What a processor of level x86-64-v3 says of itself.
V3_FLAGS = avx2 bmi1 bmi2 f16c fma abm movbe
CPU := $(if $(filter-out $(shell grep -m1 '^flags' /proc/cpuinfo),$(V3_FLAGS)),x86-64-v2,x86-64-v3)

# tools/build.py proves crates side by side and says why that needs copies of the tree. Its processors are those of -j, or
# all. It proves again only what changed. No two targets are made at once, since they build the same crates.
.NOTPARALLEL:
JOBS = $(filter-out -j,$(filter -j%,$(MAKEFLAGS)))
build_for = tools/build.py --cpu $(1) $(JOBS) $(if $(VERBOSE),--verbose) $(2)
build = $(call build_for,$(CPU),$(1))

all:
	@$(call build,$(PROGRAMS))

# A probe is a program that only the tests ask. The tests run the examples too.
TRIED = $(PROGRAMS) $(PROBES) $(EXAMPLES)

# The programs as the gate proved and built them, and the C library over what it proved: another build would prove each
# crate once more. They are for any processor, so bin/ and lib/ keep what `make` built for this one.
CHECKED = out/check
check:
	rt ci
	@rm -rf $(CHECKED) && mkdir -p $(CHECKED)/bin
	cp $(foreach program,$(TRIED),crates/$(program)/out/$(program)) $(CHECKED)/bin/
	tools/gate_archive.py fiolargu
	tools/library.py --v2 crates/fiolargu/out --v3 crates/fiolargu/out --into $(CHECKED)
	python3 tests/run.py --programs $(CHECKED)/bin

test: library
	@$(call build,$(TRIED))
	python3 tests/run.py

check-deploy: all library
	python3 tests/deploy.py

# The crates with tests; `rt test` leaves their programs of tests.
TESTED = base_tests byte_io filter_tests fiolargu flow_scan grep_tests line_pick plan_tests search_tests serve_tests text_search

sweep:
	@$(call build,$(PROGRAMS))
	for crate in $(TESTED); do (cd crates/$$crate && rt test) || exit 1; done
	python3 tests/refused_crates.py $(TESTED)
	python3 tests/refused_calls.py

# The gate tries the wrong bodies that tell most, in crates/*/must-fail/; this tries those of mutants/ too, on a copy.
mutants:
	python3 tools/mutants.py

# A report of the server under load.
MINUTES = 1
soak:
	@$(call build,scand)
	python3 tests/soak.py $(MINUTES)

# The programs that measure, and the probe that is measured; bench/README.md says how they are run.
bench:
	@$(call build,$(MEASURES) $(PROBES))

# The C library for both processor levels. tools/library.py makes the archive, the shared objects and what pkg-config reads.
library:
	@$(call build_for,x86-64-v2,--into out/library/v2 fiolargu)
	@$(call build_for,x86-64-v3,--into out/library/v3 fiolargu)
	tools/library.py --v2 out/library/v2 --v3 out/library/v3

# Programs that use the libraries, to copy from; docs/LIBRARY.md goes through them.
examples:
	@$(call build,$(EXAMPLES))

# tools/install.py has the table of what is installed.
INSTALL_STRIP = -s
BINDIR = $(PREFIX)/bin
LIBDIR = $(PREFIX)/lib
UNITDIR = $(PREFIX)/lib/systemd/system
PYTHONDIR = $(PREFIX)/share/fiolargu/clients/python
DOCDIR = $(PREFIX)/share/doc/fiolargu
install_to = tools/install.py --prefix '$(PREFIX)' --destdir '$(DESTDIR)' --bindir '$(BINDIR)' --libdir '$(LIBDIR)' \
	--unitdir '$(UNITDIR)' --pythondir '$(PYTHONDIR)' --docdir '$(DOCDIR)' --programs '$(BIN)'

# What was built is taken as it is, for whatever processor; what was not is built.
install:
	$(if $(filter-out $(wildcard $(BIN)/*),$(PROGRAMS:%=$(BIN)/%)),@$(call build,--into '$(BIN)' $(PROGRAMS)))
	$(install_to) $(if $(INSTALL_STRIP),--strip)

installcheck:
	python3 tests/run.py --programs '$(DESTDIR)$(BINDIR)'

uninstall:
	$(install_to) --uninstall

# A release has the programs for both processor levels. Each program is run once it is linked, so this processor needs to be
# of level x86-64-v3. BUILDINFO has the last line of dist/gate.txt, where that is the output of the gate.
dist: library
	@$(call build_for,x86-64-v2,--into dist/programs/v2 $(PROGRAMS))
	@$(call build_for,x86-64-v3,--into dist/programs/v3 $(PROGRAMS))
	@tools/dist.py --programs-v2 dist/programs/v2 --programs-v3 dist/programs/v3

check-dist: dist
	python3 tests/dist.py

clean:
	rm -rf bin lib include out dist/programs crates/*/out

.PHONY: all check test check-deploy sweep mutants soak bench examples library install installcheck uninstall dist check-dist clean
