# Layout and lint, as far as the tools are installed. Included by the Makefile.
#
# lint   cargo fmt, cargo clippy of rust/kagutin, shellcheck, cppcheck, clang-format; Debian: shellcheck cppcheck clang-format, and cargo's rustfmt and clippy

LINT_SHELL = $(shell git ls-files '*.sh' .ci/run)
LINT_C = c/store c/drivers c/powerloss c/common c/station c/inspect c/bands c/wear c/gauges c/inflow c/examples c/kagutin c/make c/alarms c/rights c/convert c/carry
LINT_LAYOUT = $(shell git ls-files 'c/*.[ch]' 'include/*.h' 'tests/*.[ch]' 'port/*.[ch]' 'page/*.[ch]' 'rust/kagutin/*.[ch]' 'zephyr/*.[ch]')

.PHONY: lint
lint:
	@sh tests/lint.sh "$(LINT_SHELL)" "$(LINT_C)" "$(LINT_LAYOUT)"
