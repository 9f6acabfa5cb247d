# make: proves and builds the programs, target/hdr and target/hdrstat, and the library for C. make check: the gate.
# make install: installs them below PREFIX, with manual pages, completions and the library for C. make dist: an archive of the
# same and of Python's wheel, in dist; of one commit it has the same bytes each time. make install-c: installs the library for C alone.
# make install-compat: the library that programs of HdrHistogram_c take in place of theirs (capi/compat).
# make test: all rows and cases; make test ROW=NAME or CASE=NAME: one of them. docs/TESTING.md says more.
# make edits: all wrong bodies, which the prover has to refuse: those of crates/*/edits and of crates/*/further-edits. The gate
# tries a part of the first (docs/TESTING.md).
# make quick: proves what has changed since the last commit, over the work that earlier checks kept, and plays the tests.
# make docs: lists all definitions that contracts cite, in target/docs/DEFINITIONS.md.
# make bench: times beside the Rust crate hdrhistogram (compare/run says where that comes from).
# make bench-shapes: instructions and times of each operation on the data that users have, beside the same.
PREFIX ?= /usr/local
PROGRAMS = hdr hdrstat
VERSION = $(shell sed -n 's/.*have version \(.*\)\.$$/\1/p' crates.txt)
DIST = deckapricot-$(VERSION)-x86_64-linux
TO = $(DESTDIR)$(PREFIX)
# The time of the files of an archive
COMMIT_TIME = $(or $(SOURCE_DATE_EPOCH),$(shell git log -1 --format=%ct 2>/dev/null),0)

all:
	./build.sh $(PROGRAMS)
	capi/build.sh

install: all install-c
	for program in $(PROGRAMS); do \
		install -Dm755 target/$$program "$(TO)/bin/$$program" || exit; \
	done
	for page in man/*.1; do \
		install -Dm644 $$page "$(TO)/share/man/man1/$${page#man/}" || exit; \
	done
	install -Dm644 completions/hdrstat.bash "$(TO)/share/bash-completion/completions/hdrstat"
	install -Dm644 completions/_hdrstat "$(TO)/share/zsh/site-functions/_hdrstat"
	install -Dm644 completions/hdrstat.fish "$(TO)/share/fish/vendor_completions.d/hdrstat.fish"

install-c:
	capi/build.sh
	for header in dkap.h dkap_check.h; do \
		install -Dm644 capi/$$header "$(TO)/include/$$header" || exit; \
	done
	install -Dm644 capi/recorder.h "$(TO)/include/dkap_recorder.h"
	for library in dkap dkap_recorder; do \
		install -Dm644 capi/target/lib$$library.a "$(TO)/lib/lib$$library.a" && \
		install -Dm755 capi/target/lib$$library.so.1 "$(TO)/lib/lib$$library.so.1" && \
		ln -sf lib$$library.so.1 "$(TO)/lib/lib$$library.so" && \
		install -Dm644 capi/target/$$library.pc "$(TO)/lib/pkgconfig/$$library.pc" || exit; \
	done

# The calls of HdrHistogram_c over the library for C, for its programs: capi/README.md.
install-compat:
	capi/build.sh
	capi/compat/build.sh
	install -Dm644 capi/target/compat/libhdr_histogram.a "$(TO)/lib/libhdr_histogram.a"
	install -Dm755 capi/target/compat/libhdr_histogram.so.6 "$(TO)/lib/libhdr_histogram.so.6"
	ln -sf libhdr_histogram.so.6 "$(TO)/lib/libhdr_histogram.so"

dist: all docs
	rm -rf target/$(DIST)
	$(MAKE) --no-print-directory install DESTDIR= PREFIX=target/$(DIST)
	install -m644 LICENSE-MIT LICENSE-APACHE target/docs/DEFINITIONS.md target/$(DIST)
	sed 's/VERSION/$(VERSION)/' tools/dist-readme >target/$(DIST)/README
	cd python && python3 -c 'import backend, sys; backend.build_wheel(sys.argv[1])' ../target/$(DIST)
	mkdir -p dist
	tar -C target --sort=name --owner=0 --group=0 --numeric-owner --mode=go=rX,u+rw --mtime=@$(COMMIT_TIME) -cf - $(DIST) | gzip -9n \
		>dist/$(DIST).tar.gz
	rm -rf target/$(DIST)

# The last line has the processor minutes of all of it.
check:
	tools/minutes "make check" $(MAKE) --no-print-directory gate

# What follows rt ci is run side by side, over the programs and libraries that it leaves.
gate:
	tools/language
	tools/imports
	rt ci
	tools/test --keep
	$(MAKE) --no-print-directory -j4 failed-allocations cases capi trials

failed-allocations:
	tools/refused.sh
	tools/refused_main.sh

cases:
	tools/test --proved
	tools/documents crates/hdr/out/hdr

# (rt ci proves the library for C, and does not build it)
capi:
	-tools/rattle_words.py --static hdr_c
	tools/capi

trials:
	tools/edits --control
	tools/edits --part

# On the proved builds where they are fresh; else what is stale is built unproved.
test:
	tools/test $(if $(ROW),--row "$(ROW)") $(if $(CASE),--case "$(CASE)")

# All edits alone, the further ones too: before a release.
edits:
	tools/edits --further

# The first two read crates/*/out: a crate that has not changed costs a few seconds, and the edits of changed crates alone are
# tried. It proves no test, and is no gate.
quick:
	rt all check
	tools/edits --further --changed
	tools/test

docs:
	tools/generate

bench:
	compare/run

bench-shapes:
	compare/run shapes

.PHONY: all install install-c install-compat dist check gate failed-allocations cases capi trials test edits quick docs bench bench-shapes
