# For people: build, test, install. The gate is .ci/run.
PREFIX ?= /usr/local
# How many crates are proved side by side: as many as there are processors, and 6 GB of free memory for each.
JOBS ?= $(shell awk -v most=$$(nproc) '/^MemAvailable/ { jobs = int($$2 / 6000000); \
    print (jobs < 1 ? 1 : jobs < most ? jobs : most) }' /proc/meminfo)
MAKEFLAGS += --jobs=$(JOBS)

# The crates that the program stands on, lowest first, and those that a crate stands on itself, from crates.txt.
BELOW := $(shell awk -F: '/^[a-z]/ { needs[$$1] = $$2; names[++count] = $$1 } \
    END { below["mlr"]; do { more = 0; for (name in below) { split(needs[name], list, " "); \
    for (place in list) if (list[place] in needs && !(list[place] in below)) { below[list[place]]; more = 1 } } } while (more); \
    for (place = 1; place <= count; place++) if (names[place] in below && names[place] != "mlr") print names[place] }' crates.txt)
needs = $(filter $(BELOW),$(shell sed -n 's/^$(1)://p' crates.txt))
sources = $(shell find crates/$(1) \( -name out -prune \) -o \( -name '*.rt' -o -name '*.antt' \) -print)
number = $(shell printf '%s\n' $(BELOW) | grep -nx $(1) | cut -d: -f1)

bin/mlr: crates.txt $(call sources,mlr) $(BELOW:%=crates/%/out/proved)
	@echo "$(words $(BELOW) mlr) of $(words $(BELOW) mlr): mlr"
	@cd crates/mlr && rt run -- --ojson cat < /dev/null > /dev/null
	@mkdir -p bin
	@cp crates/mlr/out/mlr bin/mlr

# A crate is proved after those that it stands on. What rt prints goes to out/log, and is shown where it fails.
define crate
crates/$(1)/out/proved: $(call sources,$(1)) $(patsubst %,crates/%/out/proved,$(call needs,$(1)))
	@echo "$(call number,$(1)) of $(words $(BELOW) mlr): $(1)"
	@mkdir -p crates/$(1)/out
	@cd crates/$(1) && rt lib > out/log 2>&1 || { cat out/log; exit 1; }
	@touch crates/$(1)/out/proved
endef
$(foreach name,$(BELOW),$(eval $(call crate,$(name))))

.PHONY: test check install help

test:  ## prove everything from nothing, and run all tests (rt ci)
	rt ci

check: bin/mlr  ## run the built program on real files, pipes and devices, lines of words, cases of each verb, and the examples of the documents
	tests/program bin/mlr
	tests/words bin/mlr
	tests/verbs bin/mlr
	tests/generated
	tests/documents bin/mlr

install: bin/mlr  ## copy the program to PREFIX/bin, and its manual page and completions to PREFIX/share
	install -D -m 755 bin/mlr $(DESTDIR)$(PREFIX)/bin/mlr
	install -D -m 644 man/mlr.1 $(DESTDIR)$(PREFIX)/share/man/man1/mlr.1
	install -D -m 644 completions/mlr.bash $(DESTDIR)$(PREFIX)/share/bash-completion/completions/mlr
	install -D -m 644 completions/_mlr $(DESTDIR)$(PREFIX)/share/zsh/site-functions/_mlr
	install -D -m 644 completions/mlr.fish $(DESTDIR)$(PREFIX)/share/fish/vendor_completions.d/mlr.fish

help:  ## list the targets
	@echo 'make: prove and build bin/mlr, if a source has changed'
	@sed -n 's/^\([a-z]*\):.*## \(.*\)/make \1: \2/p' Makefile
