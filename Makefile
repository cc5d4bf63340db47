# The main job: a program of crates/, banklist or bankcause, and a bank for its standard input.
PROGRAM = banklist
SAMPLE = samples/bank.bin
PREFIX = /usr/local

.DEFAULT_GOAL = help
.NOTPARALLEL:
.PHONY: help run test lib install differ bench clean

help:
	@echo 'make run               lists the bank of samples/; SAMPLE=file lists another, PROGRAM=bankcause says what spoils it'
	@echo 'make test              proves every function, tries the must-fail edits, compares with the Rust'
	@echo 'make lib               dist/: the library, its header, banklist and bankcause'
	@echo 'make install           puts dist/ below PREFIX ($(PREFIX)), and below DESTDIR where that is set'
	@echo 'make differ            compares with the Rust on many more inputs; SEED=N repeats a run'
	@echo 'make bench             times the library and the Rust side by side'
	@echo 'make clean             removes what was built, dist/ too'
	@echo 'V=1 with any of them shows all that the prover says; else target/log has it'

run:
	@scripts/run $(PROGRAM) $(SAMPLE)

test:
	@scripts/test

lib:
	@scripts/library dist

install:
	@scripts/install dist $(DESTDIR)$(PREFIX)

# SEED=N repeats an earlier run.
differ:
	@scripts/judge differ --long $(if $(SEED),--seed $(SEED))
	@scripts/memcheck

bench:
	@scripts/judge bench --long

clean:
	rm -rf target dist host/target host/Cargo.lock crates/*/out
