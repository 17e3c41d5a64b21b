# All that is needed is the Rattle toolchain, whose command is `rt`, and the python3 that it runs on; for the whole gate also a C compiler, `cc`.

.PHONY: run help try demo demo-live try-live install test replay histories plans check memory refusals compare clients live soak soak-jobs
.PHONY: connections bench bench-net bench-solver check-solver
.PHONY: given given-server given-driver given-checker given-demo given-sessions given-requests given-groups given-moves given-streams
.PHONY: given-room given-refused given-tests given-histories given-refusals given-plans given-live given-hub hub

# The programs, where a proof leaves them, and a make that does two things at a time.
SERVER = crates/sr_server/out/sr_server
DRIVER = crates/book_driver/out/book_driver
HUB = crates/hub_driver/out/hub_driver
CHECKER = crates/plan_check/out/plan_check
RECOVER = crates/sr_recover/out/sr_recover
TESTS = crates/sr_server/out/sr_server_tests
TWO = $(MAKE) --no-print-directory --output-sync -j2

# How many checks `rt ci` makes at a time: one a processor, if there are 5 GB of memory for each. None took more than 4, but it would allow for
# up to 10, and so leave processors idle.
JOBS = $(shell awk -v most=$$(nproc) '/^MemAvailable/ { jobs = int($$2 / 5000000) } END { print jobs < 1 ? 1 : jobs < most ? jobs : most }' \
    /proc/meminfo)

# Where `make install` puts the programs, the pages and the units.
PREFIX = /usr/local
PAGES = $(DESTDIR)$(PREFIX)/share/doc/sr_server
MANUALS = $(DESTDIR)$(PREFIX)/share/man/man1
UNITS = $(DESTDIR)$(PREFIX)/lib/systemd/system

# The sessions of the commands whose names begin with T, in either case.
NAMED = $(wildcard tests/commands/$(shell echo '$(T)' | tr A-Z a-z)*.session)

# The histories of which each allocation is refused in turn.
REFUSED = examples/histories/*.history tests/histories/runs.history tests/histories/waiting.history tests/histories/adding.history \
    tests/histories/commands.history tests/histories/carried-out.history tests/histories/refused-serving.history

# The parts of tests/connections.py that measure no time.
STEADY = readers_of_a_group readers_that_leave beyond_limit come_again few_descriptors half_closed long_pipelines cut unread \
    kept_pings kept_bytes kept_by_default kept_put_off kept_later given_back waiting_reads share adds_first letters_between \
    left_before_planned

# Proves and builds the server, and sends it the commands of examples/first.session as a client spells them.
run:
	@cd crates/sr_server && rt run -- --stdio < stdin

# Lists the rules, each with the first sentence of the comment above it.
help:
	@awk '/^# / { text = text substr($$0, 2); next } \
	    /^[a-z-]+:/ && !/^given/ && text != "" { sub(/:.*/, ""); sub(/\. .*/, ".", text); printf "  make %-14s%s\n", $$0, text } { text = "" }' Makefile

# Builds the server without any proof in a minute or two, and serves by one loop until it is interrupted. Nothing of it is kept, and only the
# proved program of the other rules counts: make try, or make try ADDR=127.0.0.1:7000
try:
	@scripts/try $(ADDR)

# Shows a recovery on one screen: a worker dies with twelve jobs, and others finish them at the least cost.
demo:
	@cd crates/sr_server && rt run -- --stdio < /dev/null
	@cd crates/plan_check && rt run < stdin > /dev/null
	@scripts/demo $(SERVER) $(CHECKER)

# Shows a recovery in a Redis that already runs. A worker dies with ten jobs, sr_recover has Redis move them, and other workers finish them
# (Debian: redis-server).
demo-live:
	@cd crates/sr_recover && rt run -- --help > /dev/null
	@scripts/demo-live $(RECOVER)

# The same with a program without proofs, which is built in a minute or two and kept as crates/sr_recover/out/tried/sr_recover.
try-live:
	@scripts/demo-live

# Installs the proved server, plan_check, sr_recover with its man page, units of systemd, policies and pages. `make demo` and `make demo-live` build the programs;
# then: make install, or make install PREFIX=/opt/sr DESTDIR=/tmp/package
install:
	@for program in $(SERVER) $(CHECKER) $(RECOVER); do \
	    test -x $$program || { echo "$$program is missing: make demo and make demo-live prove and build it"; exit 1; }; done
	install -D -t $(DESTDIR)$(PREFIX)/bin $(SERVER) $(CHECKER) $(RECOVER)
	for page in README.md CHANGELOG.md docs/* crates/*/*.md examples/*.session examples/*/*; do \
	    install -D -m 644 $$page $(PAGES)/$$page || exit 1; done
	install -d $(UNITS) $(MANUALS)
	for unit in sr_server.service sr_recover.service sr_recover.timer; do \
	    sed 's|/usr/local/|$(PREFIX)/|' examples/operations/$$unit > $(UNITS)/$$unit || exit 1; done
	scripts/manual $(RECOVER) > $(MANUALS)/sr_recover.1

# The whole gate: every proof from nothing, the must-fail edits, the tests and the program's stored run. Then the programs that
# were proved are given the sessions, histories and plans of the README, of examples/ and of tests/, two runs at a time, and the
# demo has to print what the README shows.
test:
	@scripts/links
	@scripts/guide
	@scripts/lines
	@scripts/numbers
	@command -v cc > /dev/null || { echo 'test: FAILED, since there is no C compiler, cc, with which memory is refused'; exit 1; }
	RT_JOBS=$(JOBS) rt ci
	@$(TWO) given
	@tests/listening.py $(SERVER)
	@tests/faults.py $(SERVER)
	@tests/waiting.py $(SERVER)
	@tests/connections.py $(SERVER) $(STEADY)
	@if command -v redis-server > /dev/null; then $(MAKE) --no-print-directory given-live; \
	    else echo 'test: there is no redis-server, so sr_recover was not tried with one (make live)'; fi

# What the programs are given, each by itself, and first what takes longest. They have to be proved and built before.
given: given-driver given-hub given-server given-checker given-demo
given-server: given-sessions given-requests given-groups given-moves given-streams given-room given-refused given-tests
given-driver: given-refusals given-histories
given-checker: given-plans

given-sessions:
	@scripts/replay $(SERVER) $(DRIVER) README.md examples/*.session tests/commands/*.session
	@scripts/policies $(SERVER) examples/policies/*.toml
	@tests/policies.py $(SERVER)
	@tests/program.py $(SERVER)

given-requests:
	@tests/requests.py $(SERVER)
	@tests/fuzz.py $(SERVER)
	@tests/long_reply.py $(SERVER)
	@tests/writes.py $(SERVER) 31
	@tests/many_stranded.py $(SERVER)
	@tests/many_entries.py $(SERVER)
	@tests/limits.py $(SERVER)
	@tests/bytes.py $(SERVER)

given-groups:
	@tests/random_groups.py $(SERVER)
	@tests/random_groups.py $(SERVER) 16000 2 4000

given-moves:
	@tests/bulk_move.py $(SERVER)

given-streams:
	@tests/long_stream.py $(SERVER)
	@tests/random_streams.py $(SERVER)

given-room:
	@tests/room.py $(SERVER)

given-refused:
	@tests/refused_memory.py $(SERVER)
	@tests/refused_tick.py $(SERVER)
	@tests/refused_runs.py $(SERVER)

given-tests:
	@scripts/memory $(TESTS) 600 run::records
	@scripts/memory $(TESTS) 600 run::closing
	@scripts/memory $(TESTS) 400 run::workers::two_scripts

given-histories:
	@scripts/histories $(DRIVER) examples/histories/*.history tests/histories/*.history
	@tests/heavy_entry.py $(DRIVER)

given-refusals:
	@scripts/refusals $(DRIVER) $(REFUSED)
	@tests/refused_serving.py $(DRIVER)

given-hub:
	@scripts/schedules $(HUB) tests/hub/*.schedule
	@scripts/hub_refusals $(HUB) $(DRIVER) tests/hub/*.schedule
	@tests/hub.py $(HUB) $(DRIVER)

given-plans:
	@scripts/plans $(CHECKER) examples/plans/*.plan
	@tests/plan_check.py $(CHECKER)
	@tests/plans.py $(DRIVER) $(CHECKER)

given-demo:
	@scripts/demo $(SERVER) $(CHECKER) README.md

# The sessions, and all else that the server is given. By name the sessions of a command alone, as of XCLAIM: make replay T=xclaim
replay:
	@$(if $(T),$(if $(NAMED),,echo 'replay: there is no tests/commands/$(T)*.session'; exit 2))
	@cd crates/sr_server && rt run -- --stdio < /dev/null
	@$(if $(T),,cd crates/sr_server && rt test)
	@cd crates/book_driver && rt run -- < /dev/null
	@$(if $(T),scripts/replay $(SERVER) $(DRIVER) $(NAMED),$(TWO) given-server)
	@$(if $(T),,tests/listening.py $(SERVER))
	@$(if $(T),,tests/faults.py $(SERVER))
	@$(if $(T),,tests/waiting.py $(SERVER))
	@$(if $(T),,tests/connections.py $(SERVER) $(STEADY))

# The histories alone: events handed to a book, with their answers.
histories:
	@cd crates/book_driver && rt run -- < /dev/null
	@$(TWO) given-histories

# The schedules alone: what a network does to the connections of one hub, with what each is to be sent, also if memory is refused.
hub:
	@cd crates/book_driver && rt run -- < /dev/null
	@cd crates/hub_driver && rt run -- < /dev/null
	@$(TWO) given-hub

# The plans alone: replies checked against the problems beside them.
plans:
	@cd crates/plan_check && rt run < stdin
	@$(TWO) given-plans

# One crate while it is written: make check C=sr_ids
check:
	cd crates/$(C) && rt check

# Runs the tests of a crate with each of their allocations refused in turn. Prints each test that then fails for any other reason:
# make memory C=sr_server, or with at most 500 runs of each test make memory C=sr_server N=500
memory:
	@cd crates/$(C) && rt test
	@scripts/memory crates/$(C)/out/$(C)_tests $(N)

# Replays histories once for each allocation of book_driver, which is refused. An event that is refused so leaves the book as it was, and
# succeeds at the second try. It needs cc.
refusals:
	@cd crates/book_driver && rt run -- < /dev/null
	@$(TWO) given-refusals

# Sends the server and a Redis server the same random commands, and prints replies that differ. Some go over sockets, with readers that
# block (Debian: redis-server).
compare:
	@cd crates/sr_server && rt run -- --stdio < /dev/null
	@python3 bench/compare.py $(SERVER)
	@python3 bench/compare_net.py $(SERVER)

# Has real clients use the server over a socket. They are redis-cli and libraries of Python, Node.js, Ruby and PHP, as far as they are
# installed (docs/CLIENTS.md).
clients:
	@cd crates/sr_server && rt run -- --stdio < /dev/null
	@scripts/clients $(SERVER)

# Has sr_recover plan for Redis servers of its own while other clients act. What it prints and does is judged by the state that the script
# saw, and its plans are compared with those of the server (docs/LIVE.md; Debian: redis-server redis-tools).
live:
	@cd crates/sr_server && rt run -- --stdio < /dev/null
	@cd crates/sr_recover && rt run -- --help > /dev/null
	@$(MAKE) --no-print-directory given-live

given-live:
	@tests/live_script.py
	@tests/live_wrong.py
	@tests/live.py
	@tests/server_live.py

# Has thousands of clients use one loop: readers that wait, clients that come and go, slow and greedy ones, recoveries of a busy group.
connections:
	@cd crates/sr_server && rt run -- --stdio < /dev/null
	@tests/connections.py $(SERVER)

# Misuses the server over sockets for a minute in each way of serving, beside two honest workers who may lose nothing. By hand for longer,
# or again with the seed that was printed: make soak SECONDS=3600 SEED=7
soak:
	@cd crates/sr_server && rt run -- --stdio < /dev/null
	@scripts/soak $(SERVER) $(or $(SECONDS),60) $(SEED)

# Has workers that die, recoveries and idle clients use the server for 20 minutes. It serves as the README recommends. No job may be
# lost, and memory at the end is to be what it was in the fifth minute. For less: make soak-jobs SECONDS=60
soak-jobs:
	@cd crates/sr_server && rt run -- --stdio < /dev/null
	@scripts/soak $(SERVER) $(or $(SECONDS),1200) $(or $(SEED),1) jobs

# Times the server on streams of requests over a pipe, and under load over sockets, beside a Redis server (Debian: redis-server). It also
# tells what memory a client can claim, as docs/BENCH.md describes.
bench:
	@cd crates/sr_server && rt run -- --stdio < /dev/null
	@python3 bench/streams.py $(SERVER)
	@python3 bench/claims.py $(SERVER)
	@python3 bench/groups.py $(SERVER)
	@bench/hostile.py $(SERVER)
	@python3 bench/keeping.py $(SERVER)
	@python3 bench/trims.py $(SERVER)
	@python3 bench/records.py $(SERVER)
	@cd crates/book_driver && rt run -- < /dev/null
	@python3 bench/recovery.py $(SERVER) $(DRIVER)
	@cd crates/sr_recover && rt run -- --help > /dev/null
	@bench/live.py $(RECOVER)
	@bench/load.py $(SERVER)

# Times the server over sockets, by turns with a Redis server. (Debian: redis-server redis-tools; alone if there is none. It needs cc.)
bench-net:
	@cd crates/sr_server && rt run -- --stdio < /dev/null
	@python3 bench/net.py $(SERVER)

# Times the solver on the families of problems of bench/families.py, without and with tiers. It goes by turns with LEMON's network simplex if its
# headers are installed (Debian: liblemon-dev), and alone if not.
bench-solver:
	@cd crates/bench_solver && rt run -- < stdin > /dev/null
	@if echo "#include <lemon/network_simplex.h>" | $(CXX) -E -x c++ - > /dev/null 2>&1; then \
	    $(CXX) -O3 -o crates/bench_solver/out/lemon bench/lemon.cpp \
	        && for tiers in '' 0 37 40; do \
	            python3 bench/turns.py crates/bench_solver/out/bench_solver crates/bench_solver/out/lemon 5 $$tiers || exit 1; done; \
	else echo 'LEMON is not installed (Debian: liblemon-dev)'; \
	    python3 bench/families.py | crates/bench_solver/out/bench_solver; fi

# Compares the solver's answers to 20,000 random small problems, half of them with tiers, with those of scipy (Debian: python3-scipy).
check-solver:
	@cd crates/bench_solver && rt run -- < stdin > /dev/null
	@/usr/bin/python3 bench/check_solver.py crates/bench_solver/out/bench_solver
