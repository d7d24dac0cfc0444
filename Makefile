# make run: the main job. make test: the gate. The others are for daily work.
.PHONY: run test check lib dist install gridctl host bench pictures availability relay-bench

# $(call needs,TOOL,HOW TO GET IT): stops with a sentence if the tool is not on the PATH.
needs = $(if $(shell command -v $(1) 2>/dev/null),,$(error $(1) is not on the PATH: $(2), and run this again))
needs-rt = $(call needs,rt,install the Rattle toolchain (the kit's bin folder holds rt) and add its folder to the PATH)
needs-rust = $(call needs,cargo,install Rust)
needs-c = $(call needs,gcc,install a C compiler)$(call needs,g++,install a C++ compiler)

# Proves every crate, then walks: seven calls on four machines.
run: check
	@echo "The walk (step, call, refusal number, value):"
	@cd crates/walk && rt run

# Proofs (from nothing where this machine has not passed them yet), edits that must be refused, programs, and the host's tests.
test:
	bash .ci/run

check:
	$(needs-rt)rt all check

# target/staticlib/libdyngrid.a, declared in host/include/dyngrid.h
lib:
	$(needs-rt)cd crates/dyngrid && rt lib
	mkdir -p target/staticlib
	cp crates/dyngrid/out/libdyngrid.a target/staticlib/

# target/dist/dyngrid-VERSION.tar.gz: archive, header, pkg-config file, pages, wrapper crate, examples, SHA-256 of each, commit.
dist: lib
	host/dist tarball target/dist

# Archive, header, pkg-config file and pages: make install PREFIX=/usr/local
PREFIX ?= /usr/local
install: lib
	host/dist install "$(PREFIX)"

# host/target/release/gridctl; its man page is host/gridctl/gridctl.1
gridctl: lib
	$(needs-rust)cargo build --release --offline --quiet --manifest-path host/Cargo.toml -p gridctl

# The host's tests alone: header, examples, wrapper, differential test.
host: lib
	$(needs-rust)$(needs-c)host/run-tests

# Times of each call against the second implementation, to docs/BENCHMARKS.md. Let the machine be quiet.
bench: lib
	$(needs-rust)cargo run --release --offline --quiet --manifest-path host/Cargo.toml -p bench -- docs/BENCHMARKS.md

# How many machines a read and a write call, to docs/QUORUMS.md and docs/quorums.svg; which losses machines of several counties bear, to
# docs/COUNTIES.md and docs/counties.svg; the wall chart, to docs/CHART.md and docs/chart.svg; the notices, to docs/NOTICES.md; the crates, to
# docs/rooms.svg.
pictures: lib
	$(needs-rust)cargo run --release --offline --quiet --manifest-path host/Cargo.toml -p pictures -- .

# How often the file can be written and read in the paper's model, to docs/AVAILABILITY.md and docs/availability.svg.
availability: lib
	$(needs-rust)cargo run --release --offline --quiet --manifest-path host/Cargo.toml -p availability -- .

# The relay's calls a second over loopback, to docs/RELAY-BENCH.md. Let the machine, and its disk, be quiet.
relay-bench: lib
	$(needs-rust)cargo run --release --offline --quiet --manifest-path host/Cargo.toml -p relay --bin relay-bench -- docs/RELAY-BENCH.md
