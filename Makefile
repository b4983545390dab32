# make test: prove everything and run every test. make run: the program on the shipped example.
# make bench: how fast bundles are read and joined (wants a C compiler and python3).
BUNDLE := target/examples.bundle
PROGRAM := crates/tethersecond/out/tethersecond

.PHONY: test run bench
test:
	.ci/run

run:
	mkdir -p target
	cd crates/tethersecond && rt run -- --help >/dev/null
	$(PROGRAM) pack $(BUNDLE) examples/*.hdl
	$(PROGRAM) list $(BUNDLE)
	$(PROGRAM) outline $(BUNDLE)
	$(PROGRAM) check $(BUNDLE)

bench:
	mkdir -p target
	cd crates/exports && rt lib
	cc -O2 -o target/bench_bundles bench/bundles.c crates/exports/out/libexports.a
	tools/reference.py large target/large.bundle
	tools/reference.py full target/full.bundle
	tools/reference.py full1 target/full1.bundle
	target/bench_bundles target/large.bundle
	target/bench_bundles target/full.bundle
	target/bench_bundles target/full1.bundle
	target/bench_bundles crates/tethersecond/data/examples.bundle 20000
