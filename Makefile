# The entry points of the README.
SHELL := bash
.SHELLFLAGS := -eu -o pipefail -c
.PHONY: run try build test gate edits names vectors outside dist install java

PREFIX = /usr/local

# A first look, within three minutes: the program, built without proof where no proved one is there, makes a store and serves it; one
# conversation is shown, the server is killed and served again, and the rows are there.
run:
	@program=$$(tools/ready_program); tests/people/serve_shown "$$program"

try: run

# Proves and builds out/drdad, on all processors, with a line of progress a crate.
build:
	@tools/built_program

# Every proof from nothing, every test, and the program. SINCE=COMMIT, whose gate passed: with the edits of the crates that were touched
# since, and without the crates of tests that nothing since can touch.
test:
	@tools/tested tools/run_gate $(SINCE)

# The same with the edits under must-fail/, by the toolchain's own gate.
gate:
	@rt ci

# Every edit there is, under must-fail/ and edits/ of the crates; EDITS names crates, CRATE/EDIT, or --since COMMIT.
edits:
	@tools/try_edits $(EDITS)

# Whether what the documents name is there, each refusal that is made is a listed one, and the gate runs the kept conversations and random lists.
names:
	@tools/check_map
	@tools/check_pages
	@bench/draw_figures --check
	@tools/draw_layers --check
	@tools/check_refusals
	@tests/gate/planted_refusals
	@tests/gate/planted_pages
	@tests/gate/planted_changes
	@tests/gate/gate_conversations --check
	@tests/gate/core_stories --check

# Conversations kept as event records, through the built program, and its statuses.
vectors:
	@program=$$(tools/built_program); tests/wire/run_vectors "$$program"

# Every check that is not in the gate, with one line of result each.
outside:
	@tools/outside

# A release of the proved program, behind the gate: out/dist/drdad-VERSION-x86_64.tar.gz and a package for Debian, each with a receipt.
dist:
	@tools/make_dist

# The proved program, the client and its shell, manuals, units and documents below PREFIX, or below DESTDIR and PREFIX.
install:
	@tools/install_files $(PREFIX)

# The JDBC driver, clients/java/out/drdad-jdbc.jar, by javac and jar alone.
java:
	@clients/java/build
