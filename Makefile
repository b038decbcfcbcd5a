# `make test` proves everything and runs every test; `make tool` builds the command line tool; `make demo` squares a
# card with it; `make bench` times the product beside the original.
.PHONY: test tool demo bench clean

test:
	@tools/gate

tool:
	@tools/tool

demo:
	@tools/demo

bench:
	@tools/bench

clean:
	rm -rf target
