# make demo: run the program on a sample page.   make test: prove everything and run all tests.
PAGE ?= samples/grain.pgm
OUT ?=

demo: crates/demo/out/demo
	crates/demo/out/demo $(OUT) < $(PAGE)

# Proves, compiles and links the program; rt runs it once, on the page of the gate.
crates/demo/out/demo:
	cd crates/demo && rt run < stdin > /dev/null

test:
	.ci/run

.PHONY: demo test crates/demo/out/demo
