# The targets that build from dist/ or by the toolchain are in dist/Makefile: `make help` lists all.
# How long `fuzz` tries messages.
SECONDS ?= 60
QUIET = test rust lint dev fmt check costs edits tables dist dist-tests archive deb rust-tests \
    linkdump-tests sums
OF_exhaustive = link_c linkwire linkstate linkshow
OF_c-tests = link_c linkdiff linkdump
OF_fuzz = link_c
OF_c-bench = link_c
OF_compare = link_c linkdump
OF_python-tests = link_c linkdiff linkdump

include dist/Makefile

NEEDS_RT := $(firstword $(filter check dist edits compare bench dev fmt,$(MAKECMDGOALS)))
$(if $(NEEDS_RT),$(if $(call is_here,rt),,$(error make $(NEEDS_RT) proves the crates by the command rt, which is not \
    on the path: make self-test, make test and make dist-tests need none)))

.PHONY: dist sums archive deb dist-tests test rust lint check edits tables bench compare show-tests c-tests
.PHONY: costs linkdump-tests python-tests linkwatch-tests dev fmt rust-tests fuzz c-bench exhaustive

##@ Tests and checks, without rt

test: ## runs all tests and stored runs by cargo, the contracts erased, in a minute; it proves nothing
	@scripts/test/erased_tests.sh

rust-tests: ## runs the tests of rust/, and compares it with the built program linkwire
	@scripts/test/rust_tests.sh

c-tests: $(LIBRARIES) out/linkdiff out/linkdump ## runs the tests of the library for C, and examples on the kernel
	@scripts/test/c_tests.sh $(CURDIR)/out/liblinkwire.a

python-tests: $(LIBRARIES) out/linkdiff out/linkdump ## tests the package in python/, for each Python that is here
	@scripts/test/python_tests.sh

linkwatch-tests: $(LIBRARIES) build ## tests the command linkwatch, and completion by shells
	@scripts/test/linkwatch_tests.sh

linkdump-tests: ## runs linkdump on the running kernel and on captures, with sanitizers too
	@scripts/test/linkdump_tests.sh

show-tests: build ## compares what linkshow says of the running kernel's links with what ip, sysfs and /proc say
	@python3 scripts/test/kernel_truth.py --live

tables: ## prints the tables as JSON, after they were compared with the kernel's files: make -s tables >tables.json
	@python3 scripts/test/kernel_tables.py >&2
	@python3 scripts/test/kernel_tables.py --json

dist-tests: ## runs what is built of dist/ with the toolchain out of reach: here, under qemu, with musl, from packages
	@scripts/test/dist_tests.sh
	@scripts/test/test_dist.sh

exhaustive: build $(LIBRARIES) ## compares what is built with the second reader of tests/second, on 5,000,000 lines
	@JOBS=$(shell nproc) scripts/test/second.sh out out/liblinkwire.a
	@JOBS=$(shell nproc) scripts/test/second.sh out out/liblinkwire.a wide

fuzz: $(LIBRARIES) ## tries the laws of the library on generated messages, and by AFL++: make fuzz SECONDS=600
	@scripts/test/laws.sh $(CURDIR)/out/liblinkwire.a --seconds $(SECONDS)
	@scripts/test/fuzz.sh $(SECONDS)

lint: ## long lines, edits that no longer fit, shellcheck, pyflakes, and of rust/ rustfmt, clippy and rustdoc
	@scripts/test/lint.sh

##@ Counts and times, without rt

costs: ## counts what a line takes of the texts in dist/, and compares with tests/costs.txt
	@python3 scripts/measure/costs.py

c-bench: $(LIBRARIES) ## times the library for C
	@for it in link_bench dump_bench; do $(CC) -std=gnu11 -O2 -Wall -Wextra -Werror -Iinclude -o out/$$it \
	    bench/$$it.c out/liblinkwire.a && out/$$it || exit; done

##@ Makes what is released, without rt

rust: ## makes the crates in rust/ and rust/capi anew, of the sources and scripts/erase
	@python3 scripts/erase/borrowed.py
	@python3 scripts/erase/erase.py crate rust
	@python3 scripts/erase/erase.py capi rust/capi

archive: ## packs the archive of a release of what dist/ has
	@scripts/release/archive.sh

deb: ## makes Debian's packages in out/deb, by debhelper, of debian/ and what the archive of a release has
	@scripts/release/archive.sh >/dev/null
	@rm -rf out/deb && mkdir out/deb && tar -xf out/linkwire-$(VERSION).tar.gz -C out/deb
	@cp -r debian out/deb/linkwire-$(VERSION)
	@cd out/deb/linkwire-$(VERSION) && dpkg-buildpackage -b -us -uc >../log 2>&1 || { cat ../log >&2; exit 1; }
	@rm -r out/deb/linkwire-$(VERSION)
	@ls $(CURDIR)/out/deb/*.deb

sums: ## writes the sums of the files written by hand, as dist/heap.c, to dist/SUMS; those of texts and crates stay
	@scripts/make/sums.sh written >dist/SUMS.new
	@mv dist/SUMS.new dist/SUMS

##@ With rt, which proves

dev: ## checks one crate: make dev CRATE=link_vf
	@$(if $(wildcard crates/$(CRATE)/src),,echo 'make dev CRATE=NAME: no crates/$(CRATE)' >&2; exit 2;) \
	    cd 'crates/$(CRATE)' && rt check

fmt: ## lays out each crate by rt
	@for it in crates/*/; do (cd "$$it" && rt fmt) || exit; done

check: ## runs the gate and the scripts beside it; its last line is the gate's
	@scripts/check.sh

edits: ## tries the edits that the gate has no time for; it takes more than an hour
	@scripts/test/more_edits.sh
	@scripts/test/tested_edits.sh

dist: ## proves, and makes dist/ and the archive of a release anew; its sums say what it was made of
	@scripts/make/dist.sh
	@scripts/release/archive.sh

bench: build c-bench compare ## times the programs and the library
	@bench/run programs
	@bench/run lines

compare: $(LIBRARIES) out/linkdump ## times the calls beside libnl-route-3 and Debian's netlink-packet-route
	@bench/compare.sh $(CURDIR)/out/liblinkwire.a
