# Fuzzers of all readers, by clang's libFuzzer with sanitizers. Included by make/c.mk.
#
# fuzz         each for FUZZ_SECONDS; what they find is kept in target/fuzz, and so are the inputs that reach new places
# fuzz-quick   some thousand inputs each, from the seeds alone; part of c-check where clang is there

FUZZ_SECONDS ?= 1800
FUZZ_OUT = target/fuzz
FUZZ_CC = $(shell command -v clang-14 || command -v clang)
FUZZ_FLAGS = -O1 -g -fno-omit-frame-pointer -fsanitize=fuzzer,address,undefined -fno-sanitize-recover=all -D_DEFAULT_SOURCE
FUZZERS = image text sheet

FUZZ_image = c/inspect/fate c/inspect/image c/inspect/json c/inspect/missing c/inspect/rights c/inspect/text c/inspect/units \
    $(addprefix c/common/,command copy homes image_file records rule) $(C_STORE) dist/kagutin
FUZZ_text = c/bands/table c/carry/blocks c/carry/blocks_json c/gauges/readings c/gauges/times c/rights/list_file c/store/rights \
    $(addprefix c/common/,csv day text_file text_line) $(C_STORE) dist/kagutin

FUZZ_sheet = $(addprefix c/wear/,csv last page page_parts remarks services text words) $(addprefix c/common/,csv day text_line)

$(FUZZERS:%=$(FUZZ_OUT)/%_fuzz): $(FUZZ_OUT)/%_fuzz: tests/fuzz/fuzz_file.c $(C_HEADERS) $(wildcard c/*/*.c tests/fuzz/*.c) dist/kagutin.c
	@mkdir -p $(@D)
	$(FUZZ_CC) $(C_FLAGS) $(FUZZ_FLAGS) tests/fuzz/$*_fuzz.c tests/fuzz/fuzz_file.c $(addsuffix .c,$(sort $(FUZZ_$*))) -o $@

.PHONY: fuzz fuzz-quick fuzz-seeds
fuzz-seeds: $(C_OUT)/kagutin
	@rm -rf $(FUZZ_OUT)/seeds && sh tests/fuzz/seeds.sh $(C_OUT)/kagutin $(FUZZ_OUT)/seeds

fuzz: fuzz-seeds $(FUZZERS:%=$(FUZZ_OUT)/%_fuzz)
	@for name in $(FUZZERS); do mkdir -p $(FUZZ_OUT)/found/$$name && \
	    $(FUZZ_OUT)/$${name}_fuzz -max_len=20000 -max_total_time=$(FUZZ_SECONDS) -artifact_prefix=$(FUZZ_OUT)/ $(FUZZ_OUT)/found/$$name $(FUZZ_OUT)/seeds/$$name \
	    || exit 1; done

# In a folder of its own that goes again: the run does not depend on those before.
fuzz-quick:
	@if [ -z "$(FUZZ_CC)" ]; then echo "skipped the fuzzers: no clang"; else $(MAKE) --no-print-directory fuzz-quick-run; fi

.PHONY: fuzz-quick-run
fuzz-quick-run: fuzz-seeds $(FUZZERS:%=$(FUZZ_OUT)/%_fuzz)
	@for name in $(FUZZERS); do rm -rf $(FUZZ_OUT)/quick && mkdir -p $(FUZZ_OUT)/quick && \
	    if [ $$name = text ]; then runs=15000; else runs=6000; fi; \
	    $(FUZZ_OUT)/$${name}_fuzz -seed=$(SEED) -max_len=20000 -runs=$$runs -artifact_prefix=$(FUZZ_OUT)/ $(FUZZ_OUT)/quick $(FUZZ_OUT)/seeds/$$name \
	        > $(FUZZ_OUT)/$$name.log 2>&1 || { tail -n 40 $(FUZZ_OUT)/$$name.log; exit 1; }; \
	    echo "fuzz: $$name, $$(sed -n 's/^Done \([0-9]*\) runs.*/\1/p' $(FUZZ_OUT)/$$name.log) inputs, nothing found"; done

c-check: fuzz-quick
