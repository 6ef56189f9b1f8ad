# The files of dist/ proved equal to the proved program, function by function and for all inputs: validate/README.md. Included by the Makefile.
#
# validate        every file, both preprocessor forms, all widths and byte orders; SOLVER=cvc5 asks cvc5 instead of z3
# validate-check  tests of the validator: wrong C and a wrong generator must be refused; some twenty minutes of one processor, and it goes on where
#                 it was stopped (target/validate-check.done). validate-quick-check is the gate's part of it, a minute and a half of one. Each leaves a
#                 row for each wrong edit in target/, as JSON

SOLVER ?= z3
# A Python that has Debian's python3-z3 and python3-pycparser.
VALIDATE_PYTHON ?= $(shell for p in python3 /usr/bin/python3; do $$p -c 'import z3, pycparser' 2> /dev/null && echo $$p && break; done)
# Each file with the words that the generator got for it, without the command itself.
VALIDATED = --include include --joined dist/kagutin_all.c --file $(DIST_C) $(GENERATE_WORDS) \
    $(foreach b,$(STANDALONE),--file dist/kagutin_$(b).c $(wordlist 3,99,$(GENERATE_$(b)))) \
    $(foreach u,$(UNITS),--file dist/kagutin_$(u).c $(wordlist 3,99,$(GENERATE_$(u))))

.PHONY: validate

validate:
	@[ -n "$(VALIDATE_PYTHON)" ] || { echo "validate: apt-get install python3-z3 python3-pycparser" >&2; exit 1; }
	@scripts/built.sh $(PROVED_PROGRAMS)
	$(VALIDATE_PYTHON) validate/validate.py --solver $(SOLVER) $(VALIDATED)

.PHONY: validate-check validate-quick-check

validate-check:
	$(VALIDATE_PYTHON) tests/validator/check.py --done target/validate-check.done --rows target/validate-check.json $(VALIDATED)

validate-quick-check:
	$(VALIDATE_PYTHON) tests/validator/check.py --quick --rows target/validate-quick-check.json $(VALIDATED)
