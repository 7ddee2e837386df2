# demo: runs the script of examples/ without waiting for a proof.
# programs: proves and builds both programs. What this machine has proved before is not proved again.
# sim: the same for the script program, and runs it on standard input.
# try: runs the script program on a script, without proof: make try < SCRIPT
# server: starts the server on the file berymohi.log, without waiting for a proof: make server ARGS="--listen 127.0.0.1:9200"
# install: proves and installs both programs with their manual pages and a unit file: make install PREFIX=/usr/local
# check [CRATE ..]: proves crates and what they use, with their tests and edits.
# test: the gate. fresh: the gate, which proves again what this machine has proved before.
# mutants [CRATE ..]: tries every edit that the prover must refuse, or some of them: make mutants SAMPLE=20
# dear [CRATE ..]: prints the functions over which the last rt check took longest.
# prose: looks for phrases that docs and comments do not use.
# bench [PART ..]: measures the built programs: machine, server, load, compact (all by default); options as in
# make bench server ARGS="--slow 1"
PREFIX ?= /usr/local
.PHONY: demo programs sim try server install check test fresh mutants dear prose bench

.DEFAULT_GOAL := demo
first := $(firstword $(MAKECMDGOALS))

check:
	@python3 scripts/gate check $(words)

mutants:
	@python3 scripts/gate mutants $(if $(SAMPLE),--sample $(SAMPLE)) $(words)

dear:
	@python3 scripts/gate dear $(words)

bench:
	@python3 -B -m bench $(words) $(ARGS)

ifneq (,$(filter check mutants dear bench,$(first)))
# The words after these targets are names of crates, or of parts of the benchmark, and no targets.
words := $(wordlist 2,$(words $(MAKECMDGOALS)),$(MAKECMDGOALS))
.PHONY: $(words)
$(words):
	@:
else
demo:
	@bash scripts/demo.sh

programs:
	@python3 scripts/gate build cg_sim cg_server

sim:
	@python3 scripts/gate build cg_sim && crates/cg_sim/out/cg_sim

try:
	@bash scripts/try.sh

server:
	@exec bash scripts/server.sh "$(PWD)" $(ARGS)

install:
	@bash scripts/install.sh "$(PREFIX)"

test:
	@python3 scripts/gate test

fresh:
	@python3 scripts/gate test --anew

prose:
	@python3 scripts/gate prose
endif
