# make           answer the sample session within a minute, unproved, and then prove and build bin/pgnode
# make test      the gate: every proof, must-fail edit, test and stored run
# make demo      answer the sample session by bin/pgnode, shown as hexadecimal
# make clean     what make has made

SAMPLE = crates/pgnode/stdin
WORDS = $(shell cat crates/pgnode/args)
SHOW = od -A d -t x1z -v

all: bin/.tried bin/pgnode
	@echo 'bin/pgnode is ready: make demo answers the sample session by it, docs/OPERATING.md shows its other commands, make test runs the gate.'

# A first look: rt try builds the program without its proofs.
bin/.tried:
	@mkdir -p bin
	@echo 'The sample session, answered by a build without proofs (this takes about a minute):'
	@cd crates/pgnode && rt try -- $(WORDS) < stdin 2> ../../bin/.tried.log > ../../bin/.answer || { cat ../../bin/.tried.log; exit 1; }
	@$(SHOW) bin/.answer
	@echo 'Next every crate below the program is proved, which takes some minutes:'
	@touch $@

bin/pgnode: $(shell scripts/build --files pgnode)
	@scripts/build pgnode

demo: bin/pgnode
	bin/pgnode $(WORDS) < $(SAMPLE) | $(SHOW)

test:
	rt ci

clean:
	rm -rf bin crates/*/out

.PHONY: all demo test clean
