# The block engine. `rt`, the Rattle toolchain, proves and builds it; it has to be on the path.
#
# make             the library for C, the run program and the Rust programs
# make run         assembles a program's text, runs it and prints the result:
#                    make run JOB=examples/f/f.tpal OPTIONS='--places 1' BUDGET=5000000
#                  JOB is a path, OPTIONS are those of `tpasm job`, BUDGET the most picks (1,000,000).
#                  It ends with 'Error n' unless the job halts: 1 refused, 2 a fault, 3 spent, 4 not run.
# make trace       what the same job does, pick by pick; make picture and make profile likewise:
#                    make trace JOB=examples/sum/sum.tpal OPTIONS='--summary'
#                    make picture JOB=examples/sum/sum.tpal OPTIONS='-o sum.svg'
# make test        the whole gate, as .ci/run
# make rust-test   the model's tests, and the engine compared with the model
# make c-test      the engine called from C, the installation, header and exports
# make bench       the engine's speed beside the peer's and the model's
# make counts      the same in machine instructions, by valgrind: make counts LINES='dispatch job-small'
# make soak        the long comparison of images: make soak IMAGES=.. SEED=..
# make soak-jobs   the long comparison of jobs: make soak-jobs JOBS=.. SEED=..
# make soak-steps  the long comparison of jobs pick by pick: make soak-steps JOBS=.. SEED=..
# make soak-orders jobs on the model, every order against its plain evaluation: JOBS=.. SEED=..
# make soak-replay jobs with orders of picks on both: make soak-replay JOBS=.. SEED=..
# make soak-dispatch jobs on lanes on both: make soak-dispatch JOBS=.. SEED=..
# make limit       the work limit of 4,294,967,295 reached on the engine, about half a minute
# make lanes       docs/lanes.md's table of the examples' rounds on 1 to 8 lanes, and docs/lanes.svg
# make traces      the stored traces of the examples, and the pictures of docs/, anew
# make mutants     wrong definitions with code to match: which check catches each; minutes for each, hours for
#                  all: make mutants MUTANTS='28 work_limit' AT_ONCE=2
# make install     tpal.h, libtpal.a, libtpal.so, tpal.pc, tpal_run, tpasm and tpasm-trace below PREFIX, /usr/local:
#                    make install PREFIX=/opt/tpal DESTDIR=/tmp/stage
# make uninstall   removes them again, with the same PREFIX and DESTDIR
# make tools       installs gcc and cargo where they are missing, from Debian's packages
# make clean       removes what was built, but for what has been proved; make distclean that too: crates/*/out
# make help        this list

JOB = examples/f/f.tpal
OPTIONS =
BUDGET =

IMAGES = 10000000
JOBS = 1000000
SEED = 1

MUTANTS =
AT_ONCE = 1

PREFIX = /usr/local
DESTDIR =

CC = gcc
CFLAGS = -O2

export PATH := $(PATH):$(HOME)/.cargo/bin

version := $(shell sed -n 's/^.define TPAL_VERSION_STRING "\(.*\)"/\1/p' c/tpal.h)
soname := libtpal.so.$(firstword $(subst ., ,$(version)))

program = target/bin/tpal_run
archive = target/staticlib/libjob.a
static = target/lib/libtpal.a
shared = target/lib/libtpal.so.$(version)
budgeted = target/c/run
on_lanes = target/c/lanes
assembler = rust/target/release/tpasm
sources = crates.txt $(shell find crates -name out -prune -o -type f -not -path '*/must-fail/*' -print)
tracer = rust/target/release/tpasm-trace
rust_sources = rust/Cargo.toml rust/Cargo.lock $(shell find rust/tpasm rust/model -type f)
all_rust_sources = $(shell find rust -name target -prune -o -type f -print)
in_rust = --release --offline --manifest-path rust/Cargo.toml

# Each of rt's checks takes all processors: one at a time.
.NOTPARALLEL:
.DELETE_ON_ERROR:
.PHONY: all run lib test rust-test c-test bench counts soak soak-jobs soak-steps soak-orders soak-replay soak-dispatch limit \
        lanes traces trace picture profile mutants install uninstall tools clean distclean help

all: tools $(program) lib
	cargo build $(in_rust)

run: tools $(program) $(assembler) $(if $(BUDGET),$(budgeted)) $(if $(LANES),$(on_lanes))
	@sh scripts/run.sh $(if $(LANES),-l '$(LANES)') $(if $(BUDGET),-b '$(BUDGET)') "$$JOB" $(OPTIONS)
run: export JOB := $(JOB)

trace picture profile: tools $(assembler) $(tracer)
	@$(assembler) $@ "$$JOB" $(OPTIONS)
trace picture profile: export JOB := $(JOB)

lib: $(static) $(shared)

test:
	bash .ci/run

rust-test: tools $(program) $(archive)
	cargo test $(in_rust)

c-test: tools $(program) $(archive)
	sh c/test.sh

bench: tools $(archive)
	cargo run $(in_rust) --bin bench

counts: tools $(archive)
	sh scripts/tools.sh valgrind
	cargo build $(in_rust) --bin bench
	sh scripts/counts.sh rust/target/release/bench $(LINES)

soak: tools $(archive)
	cargo run $(in_rust) --bin soak -- $(IMAGES) $(SEED)

soak-jobs: tools $(archive)
	cargo run $(in_rust) --bin soak_jobs -- $(JOBS) $(SEED)

soak-steps: JOBS = 100000
soak-steps: tools $(archive)
	cargo run $(in_rust) --bin soak_steps -- $(JOBS) $(SEED)

soak-orders: tools $(archive)
	cargo run $(in_rust) --bin soak_orders -- $(JOBS) $(SEED)

soak-replay: JOBS = 100000
soak-replay: tools $(archive)
	cargo run $(in_rust) --bin soak_replay -- $(JOBS) $(SEED)

soak-dispatch: JOBS = 100000
soak-dispatch: tools $(archive)
	cargo run $(in_rust) --bin soak_dispatch -- $(JOBS) $(SEED)

limit: tools $(archive)
	cargo run $(in_rust) --bin limit

# The page first: where a job breaks the bound, the plot is left as it was.
lanes: tools $(archive)
	cargo run $(in_rust) --bin lanes -- page docs/lanes.md
	cargo run $(in_rust) --bin lanes -- plot >docs/lanes.svg

traces: tools $(assembler) $(tracer)
	@sh scripts/traces.sh

mutants: tools $(archive)
	@sh scripts/mutants.sh -j $(AT_ONCE) $(MUTANTS)

tools:
	@sh scripts/tools.sh gcc cargo

help:
	@sed -n '/^#/!q; s/^# \{0,1\}//p' $(firstword $(MAKEFILE_LIST))

# ---- Proved

$(program): $(sources)
	@sh scripts/prove.sh tpal_run
	@touch -c $@

$(archive): $(program)
	@sh scripts/prove.sh --archive
	@touch -c $@

# ---- Built of that

$(static): $(archive)
	@mkdir -p $(@D)
	cp $< $@

# The archive is position-independent. The library's own calls are bound when it is loaded, so that
# none of them takes stack for the loader. Its other names are copies: rt ci refuses links in the tree.
$(shared): $(archive) c/libtpal.map
	@mkdir -p $(@D)
	$(CC) -shared -Wl,-soname,$(soname) -Wl,--version-script=c/libtpal.map -Wl,--no-undefined \
	    -Wl,-z,now -Wl,--whole-archive $< -Wl,--no-whole-archive -o $@
	cp -f $@ $(@D)/$(soname)
	cp -f $@ $(@D)/libtpal.so

$(budgeted): c/run.c c/tpal.h $(static)
	@mkdir -p $(@D)
	$(CC) -std=c11 -Wall -Wextra $(CFLAGS) -Ic c/run.c $(static) -o $@

$(on_lanes): c/lanes.c c/tpal.h $(static)
	@mkdir -p $(@D)
	$(CC) -std=c11 -Wall -Wextra $(CFLAGS) -Ic c/lanes.c $(static) -o $@

$(assembler): $(rust_sources)
	@cargo build --quiet $(in_rust) -p tpasm
	@touch $@

$(tracer): $(archive) $(all_rust_sources)
	@cargo build --quiet $(in_rust) -p trace
	@touch $@

# ---- Installed

to = $(DESTDIR)$(PREFIX)
installed = include/tpal.h lib/libtpal.a lib/libtpal.so lib/$(soname) lib/libtpal.so.$(version) \
            lib/pkgconfig/tpal.pc bin/tpal_run bin/tpasm bin/tpasm-trace

install: lib $(program) $(assembler) $(tracer)
	@case '$(PREFIX)' in *[[:space:]]*|[!/]*|'') echo 'PREFIX is a path from / on, without spaces'; exit 1;; esac
	install -d '$(to)/include' '$(to)/lib/pkgconfig' '$(to)/bin'
	install -m 644 c/tpal.h '$(to)/include'
	install -m 644 $(static) $(shared) '$(to)/lib'
	ln -sf libtpal.so.$(version) '$(to)/lib/$(soname)'
	ln -sf $(soname) '$(to)/lib/libtpal.so'
	sed -e 's|@PREFIX@|$(PREFIX)|' -e 's|@VERSION@|$(version)|' c/tpal.pc.in >'$(to)/lib/pkgconfig/tpal.pc'
	chmod 644 '$(to)/lib/pkgconfig/tpal.pc'
	install -m 755 $(program) $(assembler) $(tracer) '$(to)/bin'

uninstall:
	rm -f $(foreach file,$(installed),'$(to)/$(file)')

clean:
	rm -rf target/c target/lib rust/target

distclean: clean
	rm -rf target crates/*/out
