# The two commands of README.md, and what else there is to run.
.PHONY: run test programs

# Proves and builds the library, and runs the driver on it.
run:
	.ci/archive chirpsteeple_c
	mkdir -p target/c
	.ci/x86-64 gcc -std=c11 -O2 -Iinclude examples/driver.c target/staticlib/libchirpsteeple.a -o target/c/driver
	.ci/x86-64 target/c/driver

# The gate.
test:
	.ci/run

# Proves and builds the programs, and runs them.
programs:
	cd crates/named_numbers && rt run
	cd crates/word_vectors && rt run < stdin
	cd crates/scenario && rt run < stdin
