# make test: the gate (what .ci/run calls).         make demo: document 01's example, run, proved, and run again.
# make bench: the proved code against plain Rust.   make fuzz N=30: comparisons with new seeds for 30 minutes.
# make picture: docs/map.svg, docs/crates.svg and docs/bench.svg.
.PHONY: test demo bench fuzz picture

N ?= 10

test:
	@tools/gate

demo:
	@tools/demo

bench:
	tools/archive road_search_c hailtrellis_c
	cd rust && cargo run --release --quiet -p bench -- all
	$(MAKE) picture

fuzz:
	tools/archive hailtrellis_c
	$(MAKE) -C rust fuzz N=$(N)

picture:
	$(MAKE) -C rust picture
