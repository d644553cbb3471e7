PREFIX ?= /usr/local

# The crates that the programs don't stand on: callers, and tests and what they are made of.
BESIDE := uses test_values test_rows test_hearings test_reports
SOURCES := $(shell find crates crates.txt -path '*/out' -prune $(BESIDE:%=-o -path crates/% -prune) -o -type f -print)

# The programs, their crates, and for each a file that says that it is proved. Two are proved side by side where neither
# stands on the other; crates.txt says on which each stands.
PROGRAMS := mdnsmerge mdnswhy
CRATES := mdns_capture memory dns_name mdns_message join_map people_text mdns_join mdns_cache mdns_lives mdns_browse \
	mdns_survey mdns_listeners mdns_trace mdns_page command_line $(PROGRAMS)
PROVED := $(CRATES:%=out/%.proved)
SIDE_BY_SIDE ?= 2

define NEED_RT
@command -v rt > /dev/null || { \
	echo "mdnsmerge: rt is not on the PATH. It proves and builds the programs, and comes with the Rattle toolchain" >&2; \
	echo "(rattle-kit-13b or 13f), in its folder bin." >&2; \
	exit 1; }
endef

.PHONY: all check try run test trials bench fuzz install dist clean

all: $(PROGRAMS)

# Proves the programs and all below them, builds them, and leaves them here. The first time takes 25 to 45 minutes.
$(PROGRAMS) &: $(SOURCES)
	$(NEED_RT)
	@mkdir -p out && rm -f $(PROVED)
	@echo "Seventeen crates are proved now; the first time that takes 25 to 45 minutes. What the prover says is in out/*.log."
	@$(MAKE) --no-print-directory --jobs=$(SIDE_BY_SIDE) $(PROGRAMS:%=out/%.proved)
	@cp $(foreach program,$(PROGRAMS),crates/$(program)/out/$(program)) .

out/mdnsmerge.proved: PROVE = rt run -- check $(CURDIR)/examples/west.pcap
out/mdnswhy.proved: PROVE = rt run -- hearings $(CURDIR)/examples/west.pcap
out/%.proved: PROVE = rt lib
$(PROVED): out/%.proved:
	@(cd crates/$* && $(PROVE)) > out/$*.log 2>&1 || { \
		tail -n 20 out/$*.log >&2; \
		echo "mdnsmerge: $* is not proved, or not built; all that was said is in out/$*.log" >&2; \
		exit 1; }
	@touch $@
	@set -- out/*.proved; echo "$$# of 17: $*"

# What a crate waits for: the crates that its line of crates.txt names.
below = $(filter $(CRATES),$(shell sed -n 's/^$(1)://p' crates.txt))
$(foreach crate,$(CRATES),$(eval out/$(crate).proved: $$(patsubst %,out/%.proved,$$(call below,$(crate)))))

# Some minutes of what a change most likely breaks: the rows, and the trials of the program as it was built last; with
# CRATE=mdns_cache, say, the proof of that crate before them.
check:
	$(NEED_RT)
	$(if $(CRATE),cd crates/$(CRATE) && rt check)
	trials/run --quick

# Lists the services that the two examples give together. `try` compiles mdnsmerge without proofs and keeps no program, and
# takes about two minutes; `run` proves it first.
try:
	$(NEED_RT)
	@echo "mdnsmerge is compiled without proofs, which takes about two minutes; make run proves it" >&2
	@cd crates/mdnsmerge && rt try --data "west.pcap=$(CURDIR)/examples/west.pcap" \
		--data "east.pcap=$(CURDIR)/examples/east.pcap" -- instances --pretty west.pcap east.pcap < /dev/null

run: mdnsmerge
	./mdnsmerge instances --pretty examples/west.pcap examples/east.pcap

# The merge gate: the made pages of the documents, every proof from nothing and every test, then the planted bugs, and the example
# captures and the trials on what was built. Its last line is that of `rt ci`, `N passed, M failed`, and its status speaks for all.
test:
	$(NEED_RT)
	trials/gate

# The trials alone, with each allocation refused (trials/README.md). The first time the proofs of the tests take minutes.
trials: $(PROGRAMS)
	cd crates/test_values && rt lib
	for tests in crates/*/src/allocations.rt; do (cd "$${tests%/src/*}" && rt test) || exit 1; done
	trials/run --program mdnsmerge

# How fast and how frugal the program is, beside a plain Rust program of the same job (bench/README.md).
bench: mdnsmerge
	bench/run

# Runs the program on damaged captures, and looks whether its answers are what they must be (trials/README.md).
fuzz: mdnsmerge
	fuzz/run $(FUZZ)

# Packages, in out/packages: a tar, and where dpkg-deb is there a Debian package (packages/try tries them).
dist: $(PROGRAMS)
	packages/build

install: $(PROGRAMS)
	set -e; for program in $(PROGRAMS); do \
		install -D -m 755 $$program "$(DESTDIR)$(PREFIX)/bin/$$program"; \
		install -D -m 644 man/$$program.1 "$(DESTDIR)$(PREFIX)/share/man/man1/$$program.1"; \
		install -D -m 644 completions/mdnsmerge.bash "$(DESTDIR)$(PREFIX)/share/bash-completion/completions/$$program"; \
		install -D -m 644 completions/mdnsmerge.fish "$(DESTDIR)$(PREFIX)/share/fish/vendor_completions.d/$$program.fish"; \
	done
	install -D -m 644 completions/_mdnsmerge "$(DESTDIR)$(PREFIX)/share/zsh/site-functions/_mdnsmerge"
	@echo 'Where they are not set so already:'
	@echo '  export PATH=$(PREFIX)/bin:$$PATH'
	@echo '  export MANPATH=$(PREFIX)/share/man:'
	@echo '  export XDG_DATA_DIRS=$(PREFIX)/share:$${XDG_DATA_DIRS:-/usr/local/share:/usr/share}   # completions of bash and fish'
	@echo '  fpath=($(PREFIX)/share/zsh/site-functions $$fpath)   # in .zshrc, before compinit'

clean:
	rm -rf $(PROGRAMS) out crates/*/out bench/out fuzz/out
