# The page that opens an image and lets anyone cut the power: one HTML file. Included by the Makefile.
#
# page            makes docs/page/index.html; needs clang and wasm-ld alone
# page-check      tests it in headless Chromium, and that the kept file is the one that is made; page/packages.sh installs what that needs

PAGE = docs/page/index.html
# The proved program's C, and the inspector's own sources: what they say is what the page says.
PAGE_PROVED = dist/kagutin.c dist/kagutin_bands.c dist/kagutin_hours.c dist/kagutin_alarms.c
PAGE_INSPECTOR = $(sort $(wildcard c/inspect/*.c)) $(addprefix c/common/,command.c image_file.c records.c rule.c) c/drivers/fram.c

.PHONY: page page-check

page:
	@sh page/build.sh "$(PAGE_PROVED) $(PAGE_INSPECTOR)" $(PAGE)

# The gate runs it with the other tests of the C side.
test-c: page-check

page-check: inspect station wear
	@sh page/test/check.sh "$(PAGE_PROVED) $(PAGE_INSPECTOR)" $(PAGE) $(C_OUT)
