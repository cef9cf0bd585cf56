# Builds the rule checker, which proves it and what it stands on, and runs it on an example.
run:
	cd crates/rulecheck && rt run -- ../../examples/survey.rules

# The gate.
test:
	.ci/run

# A small survey flight on the whole library. It is built by a first run, which ends at once, since its rule file is not there.
flight:
	cd crates/flight && rt check >/dev/null && { rt run >/dev/null 2>&1; cd data && ../out/flight; }

# The benchmark beside a plain Rust program that does the same work.
bench:
	bench/run

.PHONY: run test flight bench
