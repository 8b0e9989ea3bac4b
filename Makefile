# To build takes Rattle's toolchain, its command rt in the PATH or named as in make RT=..

VERSION = 0.1.0
RT = rt
PREFIX = /usr/local
DESTDIR =
# the time of all files in an archive or a package: that of the commit
SOURCE_DATE_EPOCH ?= $(shell git log -1 --format=%ct 2> /dev/null)
export SOURCE_DATE_EPOCH
# how many libraries are built at a time
JOBS := $(shell nproc 2> /dev/null || echo 1)
# where archives and packages are made
DIST = dist
PROGRAM = bin/flashback
BINLOG = bin/binlog
LAYERS = bin/bench_layers
LOG = examples/mysql/multi_table.binlog
UNDO = bin/multi_table.undo
SUMMED = examples/mysql/crc32_closed.binlog
# shapes and sizes in MB of the logs to measure with; bench/README.md has the shapes
BENCH =
# which servers to try: mysql, mariadb, or both if it is empty
SERVERS =

# what the program is built from
SOURCES := $(shell find crates -path '*/out' -prune -o -type f \
	\( -name '*.rt' -o -name '*.antt' \) -print) crates.txt HANDLES

.PHONY: all demo test try_servers bench bench_layers install uninstall dist deb check_package clean

all: $(PROGRAM) $(BINLOG)

# Where there is no toolchain, programs that are there are taken as they are. Else the libraries of both are built first, as
# many at a time as there are processors, each once those that it uses are there: package/libraries.awk has the rules
ifneq ($(shell command -v $(RT) 2> /dev/null),)
$(PROGRAM) $(BINLOG): $(SOURCES) | libraries

.PHONY: libraries
libraries:
	@mkdir -p bin/libraries && awk -v rt="$(RT)" -f package/libraries.awk crates.txt > bin/libraries/rules \
		&& $(MAKE) --no-print-directory -s $(if $(findstring jobserver,$(MAKEFLAGS)),,-j $(JOBS)) -f bin/libraries/rules
endif

# rt proves a program before it builds it, and then runs it: here for its help
$(PROGRAM) $(BINLOG):
	@mkdir -p $(@D)
	@echo "Proving and building $@, some minutes the first time; the lines of rt go to $@.txt"
	@cd crates/$(@F) && $(RT) run -- --help > ../../$@.txt 2>&1 \
		|| { tail -n 20 ../../$@.txt; exit 1; }
	@cp crates/$(@F)/out/$(@F) $@
	@if command -v strip > /dev/null; then strip $@; fi

demo: $(PROGRAM) $(BINLOG)
	@sh examples/demo.sh $(PROGRAM) $(LOG) $(UNDO) $(BINLOG) $(SUMMED)

# a lane for each processor: by itself rt holds lanes back for more memory than these checks take. Behind it the
# packages' check, with the programs that it built
test:
	@RT_JOBS=$${RT_JOBS:-$$(nproc)} MAKE="$(MAKE)" sh package/gate.sh $(VERSION) $(RT) ci

# starts real servers on this machine, as root: examples/servers/README.md says what it tries. No gate does
try_servers: $(PROGRAM) $(BINLOG)
	@FLASHBACK=$(PROGRAM) BINLOG=$(BINLOG) python3 examples/servers/try.py $(SERVERS)

# the program that measures the layers; rt runs it on a small log
$(LAYERS): $(SOURCES)
	@mkdir -p $(@D)
	@echo "Proving and building $@, some minutes the first time; the lines of rt go to $(@D)/build_layers.txt"
	@cd crates/bench_layers && $(RT) run -- all data/multi_table.binlog > ../../$(@D)/build_layers.txt 2>&1 \
		|| { tail -n 20 ../../$(@D)/build_layers.txt; exit 1; }
	@cp crates/bench_layers/out/bench_layers $@

# measures each program that is there; with words in BENCH the first alone
bench:
	@FLASHBACK=$(PROGRAM) sh bench/run.sh $(BENCH)
	@[ -n "$(BENCH)" ] || BINLOG=$(BINLOG) FLASHBACK=$(PROGRAM) sh bench/sums.sh
	@[ -n "$(BENCH)" ] || BINLOG=$(BINLOG) FLASHBACK=$(PROGRAM) sh bench/commands.sh
	@[ -n "$(BENCH)" ] || BINLOG=$(BINLOG) FLASHBACK=$(PROGRAM) sh bench/later.sh
	@[ -n "$(BENCH)" ] || LAYERS=$(LAYERS) sh bench/layers.sh

bench_layers: $(LAYERS)
	@LAYERS=$(LAYERS) sh bench/layers.sh

BIN = $(DESTDIR)$(PREFIX)/bin
MAN = $(DESTDIR)$(PREFIX)/share/man/man1
COMPLETION = $(DESTDIR)$(PREFIX)/share/bash-completion/completions

install: $(PROGRAM) $(BINLOG)
	install -d "$(BIN)" "$(MAN)" "$(COMPLETION)"
	install -m 755 $(PROGRAM) "$(BIN)/flashback"
	install -m 755 $(BINLOG) "$(BIN)/binlog"
	install -m 644 man/flashback.1 man/binlog.1 "$(MAN)"
	install -m 644 completion/flashback completion/binlog "$(COMPLETION)"

uninstall:
	rm -f "$(BIN)/flashback" "$(BIN)/binlog"
	rm -f "$(MAN)/flashback.1" "$(MAN)/binlog.1"
	rm -f "$(COMPLETION)/flashback" "$(COMPLETION)/binlog"

dist deb: $(PROGRAM) $(BINLOG)
	@[ -n "$$SOURCE_DATE_EPOCH" ] || { echo "No commit is known here: set SOURCE_DATE_EPOCH" >&2; exit 1; }
	@MAKE="$(MAKE)" sh package/$@.sh $(VERSION) "$(DIST)"

# what is installed and packed, and that each example of the helps and man pages does what it should
check_package: $(PROGRAM) $(BINLOG)
	@MAKE="$(MAKE)" sh package/check.sh $(PROGRAM) $(BINLOG) $(VERSION)

clean:
	rm -rf bin dist bench/out bench/plain/target
