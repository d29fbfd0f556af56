.PHONY: demo test numbers bench

# The main job, proved and run; then what the box handed out, as the journal has it. The listing has a line for each of
# thousands of records, so its first and last lines are shown.
demo:
	tests/program.sh demo journal
	@mkdir -p target
	@rm -f target/demo.journal
	./crates/demo/out/demo target/demo.journal
	./crates/journal/out/journal < target/demo.journal > target/demo.listing
	@sed -e '8s/.*/../' -e 8q target/demo.listing
	@tail -n 3 target/demo.listing
	@echo "all of it: ./crates/journal/out/journal < target/demo.journal"

# The gate, and nothing else.
test:
	.ci/run

# Each number and value of 01's tables of causes, changed: the prover must refuse every change. It begins with what `rt all check` keeps.
numbers:
	rt all check
	python3 tests/numbers.py

# Speed, beside powerlink-rs and beside printf: ratios of one run, on this machine.
bench:
	@rm -f target/staticlib/libpowerlink.a
	tests/archive.sh
	tests/program.sh journal
	bench/run.sh
	bench/journal.sh
