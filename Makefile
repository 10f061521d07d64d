# `make help` lists what can be made. Nothing is proved again that has not changed.
cargo := PATH="$$PATH:$$HOME/.cargo/bin" cargo
run := $(cargo) run --release --offline --manifest-path rust/Cargo.toml
designers := target/staticlib/libapproach.a
tests := target/staticlib/libwide_calls.a
# What an archive is made of: its crate and those it rests on; with the folders, whose times tell that a file has gone.
crates = $(addprefix crates/,$(subst :,,$(subst staticlib,,$(shell grep '^$(1) staticlib:' crates.txt))))
sources = crates.txt $(shell find $(call crates,$(1)) \( -name must-fail -o -name out \) -prune -o -print)

help: ## this list
	@awk -F ':.*## ' '/^[a-z]+:.*## / { printf "make %-10s %s\n", $$1, $$2 }' Makefile

example: ## proves what has changed and prints the approach speeds of document 01's sheet
	cd crates/approach_sheet && rt run < stdin

distances: $(designers) ## prints distances, ceilings and ways past a signal of one train
	$(run) --example distances

walk: $(designers) ## prints a walk along a line from a signal back to a train's tail
	$(run) --example walk

curves: $(designers) ## draws its braking curves: target/curves.svg
	$(run) --example curves > target/curves.svg

grades: $(designers) ## draws a line's gradients and marks those that govern an approach: target/grades.svg
	$(run) --example grades > target/grades.svg

bench: archives ## times the calls beside two peers in Rust
	$(run) --bin bench

archives: $(designers) $(tests) ## proves what has changed and gives target/staticlib/libapproach.a

test: archives ## the calls from C and the Rust tests, over what is proved
	cd crates/approach_sheet && rt run < stdin
	mkdir -p target/bin && cp crates/approach_sheet/out/approach_sheet target/bin/
	cc -std=c11 -Wall -Wextra -Werror -Iinclude c/calls.c $(designers) -o target/calls && target/calls
	$(cargo) test --release --offline --manifest-path rust/Cargo.toml

gate: ## everything, as CI does: proofs, wrong programs, programs, calls from C, Rust tests
	bash .ci/run

ceilings: ## writes the table of crates/ceilings_stored anew, from the reference
	$(run) --bin ceilings > crates/ceilings_stored/src/table.rt

tables: ## writes the stored output of crates/tables anew, from the reference
	$(run) --bin tables > crates/tables/stdout

clean: ## removes what the others make
	rm -rf target rust/target

$(designers): $(call sources,approach)
	cd crates/approach && rt lib
	mkdir -p $(@D) && cp crates/approach/out/libapproach.a $@

$(tests): $(call sources,wide_calls)
	cd crates/wide_calls && rt lib
	mkdir -p $(@D) && cp crates/wide_calls/out/libwide_calls.a $@

.NOTPARALLEL:
.PHONY: help example distances walk curves grades bench archives test gate ceilings tables clean
