# One C file and one header to drop into a project. Included by make/c.mk.
#
# all-in-one         makes dist/kagutin_all.c and dist/kagutin_all.h again, from dist/, c/store, c/drivers and include
# all-in-one-check   they are what these give, compile alone in all choices of drivers, and pass the object's tests
# sizes              code, memory by shape and stack on a Cortex-M4

ALL_OUT = target/all_in_one

.PHONY: all-in-one all-in-one-check sizes
all-in-one:
	@python3 scripts/all_in_one.py dist

all-in-one-check:
	@mkdir -p $(ALL_OUT)
	@if command -v python3 > /dev/null; then python3 scripts/all_in_one.py $(ALL_OUT); \
	else cp dist/kagutin_all.c dist/kagutin_all.h $(ALL_OUT) && echo "skipped making the one file again: python3 is not installed"; fi
	@CC="$(CC)" sh tests/programs/all-in-one-check.sh $(ALL_OUT)

sizes:
	@sh scripts/sizes.sh
	@$(MAKE) --no-print-directory -s object-stack
