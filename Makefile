# `make` alone says what there is to make.
.PHONY: help run test host bench clean

help:
	@echo 'make run     proves and builds the clerk'"'"'s program and runs a day at the desk through it: minutes, from nothing'
	@echo 'make host    proves the library for C and builds the programs box and desk over it: minutes, from nothing'
	@echo 'make test    the whole gate: 7 minutes where nothing changed, less than an hour from nothing'
	@echo 'make bench   times the proved code beside libgcrypt and nettle (docs/SPEED.md)'
	@echo 'make clean   removes what they built'
	@echo 'README.md says what it is, CONTRIBUTING.md how to change it. Times are of four x86-64 processors.'

run:
	@tools/alone 'make run' sh -c 'tools/prove clerk && tools/show samples/day.trace'
	@echo 'samples/README.md explains each line; crates/clerk/out/clerk is the program, started by: tools/run clerk <TRACE'

test:
	@.ci/run

host:
	@tools/alone 'make host' tools/build-host
	@echo 'tools/run box --help and tools/run desk --help list their commands'

bench:
	@bench/run

clean:
	@tools/alone 'make clean' sh -c 'rm -rf target crates/*/out'
