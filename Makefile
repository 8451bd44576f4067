# The two commands of README.md, the comparison with the Rust (docs/RUNS.md), the benchmark (docs/PERFORMANCE.md), the
# player on a real kernel (docs/KERNEL.md), and the library for C: `make lib` proves it and builds it in build/, `make
# install` puts it and its header below DESTDIR and PREFIX.
.PHONY: run test compare bench kernel lib install

# On a simulated loudspeaker, or with DEVICE=BUS:DEV (of `build/player --list`) and maybe WAV= on a real one.
DEVICE =
WAV =

run: build/player
	@examples/run '$(DEVICE)' '$(WAV)'

test:
	@tests/all

RUNS = 1000
SEED = 1

compare: build/libusbfs_iso.a
	@tests/beside_rust '$(RUNS)' '$(SEED)'

# With BEFORE=COMMIT stop is measured beside that commit's too.
BEFORE =

bench: build/libusbfs_iso.a
	@tests/bench '$(BEFORE)'

kernel:
	@tests/kernel/run

lib: build/libusbfs_iso.a

# Proved again when a source is newer.
build/libusbfs_iso.a: crates.txt usbfs_iso.pc.in $(shell find crates -name out -prune -o -name '*.rt' -print -o -name '*.antt' -print)
	@tools/lib

build/replay: $(wildcard examples/replay/*) include/usbfs_iso.h build/libusbfs_iso.a
	@$(CC) -std=c11 -O2 -Wall -Wextra -I include examples/replay/*.c build/libusbfs_iso.a -o build/replay

build/player: $(wildcard examples/*.c examples/*.h) include/usbfs_iso.h build/libusbfs_iso.a
	@$(CC) -std=gnu11 -O2 -Wall -Wextra -I include examples/*.c build/libusbfs_iso.a -o build/player

PREFIX = /usr/local
DESTDIR =
ROOT = $(DESTDIR)$(PREFIX)

install: build/libusbfs_iso.a
	@install -d '$(ROOT)/include' '$(ROOT)/lib/pkgconfig'
	@install -m 644 include/usbfs_iso.h '$(ROOT)/include/usbfs_iso.h'
	@install -m 644 build/libusbfs_iso.a '$(ROOT)/lib/libusbfs_iso.a'
	@sed 's|@PREFIX@|$(PREFIX)|' usbfs_iso.pc.in >'$(ROOT)/lib/pkgconfig/usbfs_iso.pc'
	@chmod 644 '$(ROOT)/lib/pkgconfig/usbfs_iso.pc'
