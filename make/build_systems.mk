# Kagutin in other build systems. Included by make/c.mk.
#
# build-check   a tiny project with each of them, built and run where the tool is installed; docs/BUILDING.md
# arduino       an Arduino library, target/arduino/Kagutin
# debian-check  the Debian packages built, judged by lintian, unpacked and used; long, not in the gate; they stay in target/debian
# chroot-check  README's and docs/USING.md's steps on a bare Debian 12 and 13, as root; long, not in the gate; CHROOT_CHECK=--full runs make test there

.PHONY: build-check arduino debian-check chroot-check
build-check:
	@CC="$(CC)" sh tests/programs/build-check.sh

debian-check:
	@sh tests/build/debian.sh $(DEBIAN_CHECK)

chroot-check:
	@sh tests/build/chroot.sh $(CHROOT_CHECK)

ARDUINO = target/arduino/Kagutin
arduino:
	@rm -rf $(ARDUINO) && mkdir -p $(ARDUINO)/src $(ARDUINO)/examples
	@cp arduino/library.properties LICENSE $(ARDUINO) && cp -r arduino/Counter $(ARDUINO)/examples
	@cp dist/kagutin_all.h $(ARDUINO)/src && { echo '#define KAGUTIN_FRAM'; cat dist/kagutin_all.c; } > $(ARDUINO)/src/kagutin_all.c
