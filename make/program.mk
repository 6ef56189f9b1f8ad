# The program kagutin and its subcommands. Included by make/c.mk.
#
# program         target/c/kagutin, and links to it by the names of the older programs; the same with sanitizers
# station, inspect, wear, bands, gauges, inflow   that link alone
# program-check   tests of the program: its subcommands, manual pages, completion, and every command line of the documents
# install-program, uninstall-program   program, links, manual pages and bash completion, under DESTDIR and PREFIX

C_STATION = main options power tasks wear rights calls event_calls refusals report station events book driver driver_file
C_COMMON = alarms/main bands/main bands/table carry/blocks carry/blocks_json carry/export carry/import \
    common/command common/copy common/homes common/image_file common/nameless common/new_file common/page_file common/records common/rule \
    common/text_file common/text_line common/work convert/main gauges/levels_plot gauges/main gauges/readings gauges/times inflow/main \
    inspect/fate inspect/image inspect/json inspect/main inspect/missing inspect/rights inspect/text inspect/units kagutin/main make/main rights/list_file rights/main
C_KAGUTIN = $(sort $(C_COMMON:%=c/%) $(C_STATION:%=c/station/%) $(C_WEAR) c/store/units $(C_STORE))
C_KAGUTIN_LIBS = $(UNITS_LIBS) $(LIB) $(GAUGES_LIB) $(INFLOW_LIB)

# Subcommands that were programs of their own.
C_LINKS = inspect wear bands gauges inflow station
C_COMMANDS = make inspect wear bands alarms rights gauges inflow convert export import station

$(eval $(call C_PROGRAM,kagutin,$(C_KAGUTIN),$(C_KAGUTIN_LIBS)))

.PHONY: program kagutin $(C_LINKS)

program: $(foreach f,kagutin $(C_LINKS),$(C_OUT)/$(f) $(C_OUT)/sanitize/$(f))
kagutin: $(C_OUT)/kagutin $(C_LINKS:%=$(C_OUT)/%)
$(C_LINKS): %: $(C_OUT)/%
c-sanitize: $(C_OUT)/sanitize/kagutin $(C_LINKS:%=$(C_OUT)/sanitize/%)
c-check: program

$(C_LINKS:%=$(C_OUT)/%): $(C_OUT)/kagutin
	ln -sf kagutin $@

$(C_LINKS:%=$(C_OUT)/sanitize/%): $(C_OUT)/sanitize/kagutin
	ln -sf kagutin $@

# ---- installing ----

BIN = $(DESTDIR)$(PREFIX_HERE)/bin
MAN = $(DESTDIR)$(PREFIX_HERE)/share/man/man1
COMPLETION = $(DESTDIR)$(PREFIX_HERE)/share/bash-completion/completions
MAN_PAGES = $(wildcard man/*.1)

.PHONY: install-program uninstall-program program-check

install-program: $(C_OUT)/kagutin $(MAN_PAGES) completion/kagutin.bash
	install -d "$(BIN)" "$(MAN)" "$(COMPLETION)"
	install -m 755 $(C_OUT)/kagutin "$(BIN)/kagutin"
	install -m 644 $(MAN_PAGES) "$(MAN)"
	install -m 644 completion/kagutin.bash "$(COMPLETION)/kagutin"
	for name in $(C_LINKS); do for folder in "$(BIN)" "$(COMPLETION)"; do \
	    if [ ! -e "$$folder/$$name" ] && [ ! -L "$$folder/$$name" ]; then ln -s kagutin "$$folder/$$name"; \
	    elif [ "$$(readlink "$$folder/$$name")" != kagutin ]; then echo "$$folder/$$name is another program and stays"; fi; done; done

# A link of ours is one to kagutin; another program of that name stays.
uninstall-program:
	rm -f "$(BIN)/kagutin" "$(COMPLETION)/kagutin"
	for page in $(notdir $(MAN_PAGES)); do rm -f "$(MAN)/$$page"; done
	for name in $(C_LINKS); do for folder in "$(BIN)" "$(COMPLETION)"; do \
	    if [ "$$(readlink "$$folder/$$name")" = kagutin ]; then rm "$$folder/$$name"; fi; done; done

install: install-program
uninstall: uninstall-program

program-check: program $(C_OUT)/sanitize/seal_check
	CC="$(CC)" LIB="$(LIB)" sh tests/programs/program-check.sh $(C_OUT)

c-check: program-check
