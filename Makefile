# Two doors: `make run` shows a worked day, `make test` is the gate. They need the kit's rt, make and git, and nothing else.
.PHONY: run test

run:
	@examples/run

test:
	@.ci/run
