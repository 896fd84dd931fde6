# pcommit: see README.md. `rt` is the command of the Rattle kit.
SCRIPT ?= examples/plain-commit.script
PREFIX ?= /usr/local
# the program of a node that the targets of the Java client run, and how long their soak is
NODE ?= bin/pcommit_node
MINUTES ?= 20

.PHONY: run build try test golden scripts pictures wrong-rules wrong-bodies cluster demo-postgresql demo-xa test-xa bench-xa soak docs install clean proof-tools test-tools

# builds the program and runs it on a script
run: build
	@bin/pcommit run $(SCRIPT)

# proves and builds the program, and leaves it at bin/pcommit; says how far it is. The first time it shows a run with no proofs before
build: bin/pcommit

bin/pcommit: crates.txt $(shell find crates -name out -prune -o -name must-fail -prune -o -type f -print) | proof-tools
	@[ -e bin/build.log ] || $(MAKE) --no-print-directory try
	@tools/progress.py pcommit bin/build.log run data/first-branch.script
	@cp crates/pcommit/out/pcommit bin/pcommit

# interprets a script, with no proof, for a first look
try: proof-tools
	@echo "Interpreting $(SCRIPT), with no proofs: about a minute." >&2
	@cd crates/pcommit && rt try --data script=$(abspath $(SCRIPT)) -- run script

# everything: a sentence above each definition, who needs each file of proofs, figures and links on the pages, that wrong bodies and rules
# can be applied, each proof from nothing, the must-fail edits, the tests, the programs as two compilers build them, the cases of single
# parts and of processes among them; then, of what was built so, the golden scripts, runs and cases with each block of memory refused in
# turn, runs of many transactions, and names that collide
test: test-tools
	tools/definitions.py --check
	tools/needed.py --check
	tools/pages.py --check
	tests/wrong-bodies/run.py --check
	tests/wrong-rules/run.py --check
	tools/ci.py
	@mkdir -p bin
	@cp crates/pcommit/out/pcommit bin/pcommit
	$(MAKE) scripts
	tests/refused.py crates/cases/out/cases crates/cases/stdin
	tests/refused.py crates/process_cases/out/process_cases crates/process_cases/stdin
	tests/many.py bin/pcommit crates/cases/out/cases
	tests/collisions.py bin/pcommit crates/pcommit_node/out/pcommit_node

golden: test-tools build scripts

# proves and builds the program of a node of a cluster, and leaves it at bin/pcommit_node
bin/pcommit_node: bin/pcommit | proof-tools
	@tools/progress.py pcommit_node bin/node-build.log --help
	@cp crates/pcommit_node/out/pcommit_node bin/pcommit_node

# proves and builds the program that draws traces, and leaves it at bin/pcommit_picture
bin/pcommit_picture: bin/pcommit | proof-tools
	@tools/progress.py pcommit_picture bin/picture-build.log data/torn-vote.trace
	@cp crates/pcommit_picture/out/pcommit_picture bin/pcommit_picture

# draws the pictures of the pages anew: each is of the golden trace of its name
pictures: bin/pcommit_picture
	cd docs/pictures && for picture in *.svg; do \
	    ../../bin/pcommit_picture ../../tests/golden/$${picture%.svg}.out >$$picture || exit 1; \
	done

# seven processes on this host, a transaction, and a leader that is killed in the middle of one: docs/DEPLOY.md
cluster: bin/pcommit_node
	@examples/cluster/demo.py bin/pcommit_node

# two PostgreSQL servers and a transaction over both whose coordinator dies, with and without pcommit
demo-postgresql: bin/pcommit_node
	@[ -x /usr/bin/python3 ] && /usr/bin/python3 -c 'import psycopg2' 2>/dev/null && ls /usr/lib/postgresql/*/bin/postgres >/dev/null 2>&1 || \
	    { echo 'not installed: apt-get install postgresql python3-psycopg2' >&2; exit 1; }
	@/usr/bin/python3 examples/postgresql/demo.py bin/pcommit_node

# an order over PostgreSQL, MariaDB and ActiveMQ whose application is killed, with pcommit and with BTM: docs/XA.md
demo-xa: xa-tools $(NODE)
	@clients/java/run.sh Demo $(NODE)

# the Java client: its tests, alone and with real servers, each cell of docs/XA.md, and a soak
test-xa: xa-tools $(NODE)
	@clients/java/test.sh $(NODE) $(MINUTES)

# the Java client beside BTM
bench-xa: xa-tools $(NODE)
	@clients/java/run.sh BesideBtm $(NODE)

xa-tools:
	@clients/java/needs.sh

# a cluster of processes on this host for two hours: a thousand kills, a network that fails, strangers, what is lost, years of transactions
soak: test-tools bin/pcommit_node
	tests/cluster/soak.sh bin/pcommit_node

scripts:
	tests/run.sh bin/pcommit
	[ ! -e crates/pcommit_node/out/pcommit_node ] || tests/cluster/run.sh crates/pcommit_node/out/pcommit_node
	[ ! -e crates/pcommit_picture/out/pcommit_picture ] || tests/pictures.py crates/pcommit_picture/out/pcommit_picture
	tests/sweeps.py bin/pcommit
	tests/memory.py bin/pcommit

# tries the wrong bodies for which the gate has no time, for hours
wrong-bodies: proof-tools
	tests/wrong-bodies/run.py

# tries each wrong rule of the protocol on a copy of the definitions, outside the gate: the six that are safe take minutes each
wrong-rules: proof-tools
	tests/wrong-rules/run.py

# writes every definition with its sentence to docs/DEFINITIONS.md, which isn't kept, and in files of proofs who needs them
docs:
	tools/definitions.py
	tools/needed.py

install: build
	install -D bin/pcommit $(DESTDIR)$(PREFIX)/bin/pcommit

clean:
	rm -rf bin crates/*/out

# what has to be installed, asked for before anything starts
proof-tools:
	@tools/needs.sh rt python3

test-tools:
	@tools/needs.sh rt python3 cc
