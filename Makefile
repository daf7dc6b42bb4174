# `make run` judges a sample of examples/, another by `make run IN=..`, and `make try` does so with nothing proved; `make test`
# proves and tests everything; `make wrong-bodies` tries the wrong bodies that the gate doesn't.

IN ?= examples/retried-test.txt
PROGRAM := crates/test_runner/out/test_runner

# `make wrong-bodies` tries those of the crates that changed since this commit, changes that aren't committed included; or those of
# the crates of `CRATES="a b"`, or all by `CRATES=--all`.
SINCE ?= HEAD~1

.PHONY: run try test wrong-bodies kit

kit:
	@command -v rt > /dev/null || { echo "The command rt of the Rattle kit is missing: put the kit's folder bin on the PATH."; exit 1; }

# The libraries are proved side by side. `rt run` proves and builds the program where something changed, and runs it once on nothing.
run: kit
	@test -f "$(IN)" || { echo "There is no file $(IN)."; exit 1; }
	@python3 scripts/prove_below.py test_runner
	@cd crates/test_runner && { rt run < /dev/null > out.log 2>&1 || test -x out/test_runner; } || { cat out.log; rm -f out.log; exit 1; }
	@rm -f crates/test_runner/out.log
	@status=0; $(PROGRAM) < "$(IN)" || status=$$?; echo "(status $$status)"

# `rt try` compiles all sources in one go, and keeps nothing. Where the program ended, the last line of what `rt try` says has the
# program's status.
try: kit
	@test -f "$(IN)" || { echo "There is no file $(IN)."; exit 1; }
	@echo "Nothing is proved here: the sources are compiled as they stand, with checks, and run. That takes about two minutes."
	@log=$$(mktemp) && trap 'rm -f "$$log"' EXIT && \
	{ (cd crates/test_runner && rt try 2> "$$log") < "$(IN)" || true; } && \
	status=$$(sed -n '$$s/^run=ended status=\([0-9]*\) .*/\1/p' "$$log") && \
	if test -n "$$status"; then echo "(status $$status)"; else cat "$$log"; exit 1; fi

# A proof that gets several processors is done sooner and takes more of their time, by two fifths with four: so each gets one.
test: kit
	@RT_JOBS=$${RT_JOBS:-$$(nproc)} rt ci

wrong-bodies: kit
	@python3 scripts/wrong_bodies.py $(if $(CRATES),$(CRATES),--since $(SINCE))
