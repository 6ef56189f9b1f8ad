# The safety case: clauses traced to proofs and tests, and the evidence in one folder. Included by the Makefile.
#
# trace         docs/TRACE.md again, from the marks beside definitions, statements, contracts, wrong programs and tests
# trace-check   fails where it differs, and on a clause, call or answer that nothing stands for; part of make test
# evidence      target/evidence, after make test: verdict, trace, axioms, wrong programs, validator's report and wrong edits, worst cases, stack, coverage of
#               dist/kagutin.c, versions and hashes; a page, and rows as JSON

.PHONY: trace trace-check evidence evidence-coverage evidence-stack

trace:
	@python3 scripts/trace.py

trace-check:
	@python3 scripts/trace.py --check

# The comparison with the reference implementation and the tests of the object, on a build of the C file that counts what it runs. One branch a condition: no optimiser.
EVIDENCE_OUT = target/evidence
COVERED = $(EVIDENCE_OUT)/build
COVERING = many_check units_check rights_check reserve_check worn_check round_check store_check misuse_check runner_check

evidence-coverage: $(COMPARE)
	@rm -rf $(COVERED) $(EVIDENCE_OUT)/c && mkdir -p $(COVERED)
	gcc -std=c99 -Iinclude -fPIC -O0 --coverage -c $(DIST_C) -o $(COVERED)/kagutin.o
	gcc -shared --coverage $(COVERED)/kagutin.o -o $(COVERED)/covered.so
	ar rcs $(COVERED)/libkagutin.a $(COVERED)/kagutin.o
	$(COMPARE) --seed 1 --calls 200000 --damaged 20000 --large 60 --histories 600 --torn 100 --build $(COVERED)/covered.so | tail -n 1
	@$(MAKE) --no-print-directory --silent LIB=$(COVERED)/libkagutin.a C_LIBS=--coverage C_OUT=$(EVIDENCE_OUT)/c $(COVERING:%=$(EVIDENCE_OUT)/c/%)
	for program in $(COVERING); do $(EVIDENCE_OUT)/c/$$program > $(COVERED)/$$program.log || { cat $(COVERED)/$$program.log; exit 1; }; done
	cd $(COVERED) && gcov --json-format --stdout --branch-probabilities kagutin.gcda > ../coverage.json

# Stack of the library's and the object's calls, here and on the emulated board where it is installed.
evidence-stack: $(LIB) $(C_OUT)/object_stack
	@mkdir -p $(EVIDENCE_OUT)
	$(CC) -std=c99 -D_GNU_SOURCE -O2 -Iinclude tests/stack/stack.c $(LIB) $(C_LIBS) -o $(EVIDENCE_OUT)/stack
	$(EVIDENCE_OUT)/stack > $(EVIDENCE_OUT)/stack.txt && $(C_OUT)/object_stack >> $(EVIDENCE_OUT)/stack.txt
	@if [ -n "$(BOARDS_THERE)" ]; then $(MAKE) --no-print-directory -s object-stack | sed 's/^m4: //; s/^/m4: /' >> $(EVIDENCE_OUT)/stack.txt; fi

evidence: evidence-coverage evidence-stack trace-check
	@python3 scripts/evidence.py
