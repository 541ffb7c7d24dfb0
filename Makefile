# `make run` builds the program and runs its main job; `make check CONF=FILE` checks a configuration, `make advise
# CONF=FILE` says what is wrong with each of its lines; `make test` is the whole gate; `make bench` measures, and `make
# bench-edge` the sockets beside haproxy; `make man` shows the manual pages. `make program` builds the programs, and `make
# install PREFIX=.. DESTDIR=..` lays them down with the manual pages and the samples; `make uninstall` takes them away.
.PHONY: run check advise test bench bench-edge man program install uninstall

CONF = examples/lloadd.conf
PREFIX = /usr/local
DESTDIR =

SAMPLES = lloadd.conf one_backend.conf two_tiers.conf one_delete.script
PROGRAMS = $(DESTDIR)$(PREFIX)/sbin
MANUAL = $(DESTDIR)$(PREFIX)/share/man
DOCS = $(DESTDIR)$(PREFIX)/share/doc/lloadd

# The name goes to the shell as it is, with its spaces.
export CONF

run:
	@cd crates/lloadd && rt run -- replay plain < ../../examples/one_delete.script

# Of `plain` and of no name no file is meant; any other name is one from here.
check:
	@case $$CONF in '' | plain | /*) conf=$$CONF ;; *) conf=$$(pwd)/$$CONF ;; esac && \
	cd crates/lloadd && rt run -- check "$$conf"

# The name is one from here, also that of a file `plain`; of no name the program says what it takes.
advise:
	@case $$CONF in '' | /*) conf=$$CONF ;; *) conf=$$(pwd)/$$CONF ;; esac && \
	cd crates/lloadd_advise && rt run -- "$$conf"

test:
	rt ci

bench:
	@cd crates/envelope_bench && rt run -- measure
	@cd crates/lock_bench && rt run -- measure
	@cd crates/tier_bench && rt run -- measure
	@cd crates/tables_bench && rt run -- measure
	@cd crates/script_bench && rt run -- measure
	@cd crates/conf_bench && rt run -- measure
	@cd crates/controls_bench && rt run -- measure

# The toolchain builds the forwarder by running it, which without words ends at once.
bench-edge:
	@cd crates/edge_bench && rt run
	@bench/bench-edge

man:
	@man -l man/lloadd.8
	@man -l man/lloadd.conf.5
	@man -l man/lloadd-advise.8

# The toolchain builds a program by running it.
program:
	@cd crates/lloadd && rt run -- check plain
	@cd crates/lloadd_advise && rt run -- ../../examples/one_backend.conf

install: program
	mkdir -p "$(PROGRAMS)" "$(MANUAL)/man5" "$(MANUAL)/man8" "$(DOCS)/examples"
	install -m 755 crates/lloadd/out/lloadd "$(PROGRAMS)/lloadd"
	install -m 755 crates/lloadd_advise/out/lloadd_advise "$(PROGRAMS)/lloadd-advise"
	install -m 644 man/lloadd.conf.5 "$(MANUAL)/man5/lloadd.conf.5"
	install -m 644 man/lloadd.8 man/lloadd-advise.8 "$(MANUAL)/man8"
	install -m 644 $(SAMPLES:%=examples/%) "$(DOCS)/examples"

# Folders that others use too stay, and so do the samples' own where something else was put there.
uninstall:
	rm -f "$(PROGRAMS)/lloadd" "$(PROGRAMS)/lloadd-advise"
	rm -f "$(MANUAL)/man5/lloadd.conf.5" "$(MANUAL)/man8/lloadd.8" "$(MANUAL)/man8/lloadd-advise.8"
	@for name in $(SAMPLES); do echo "rm -f $(DOCS)/examples/$$name"; rm -f "$(DOCS)/examples/$$name" || exit; done
	@rmdir "$(DOCS)/examples" "$(DOCS)" 2>/dev/null || :
