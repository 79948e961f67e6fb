# Everything made goes to target/, and what the checks keep to the out/ of each crate.
LIB = target/staticlib/libengine.a
CFLAGS = -std=c99 -O2 -Wall -Wextra -Wpedantic
CALLS = examples/worked.csv
PREFIX = /usr/local
SECONDS = 60

# the header's version, as three numbers with dots
VERSION = $(shell sed -n 's/^.define CKPT_VERSION_[A-Z]* \([0-9][0-9]*\)$$/\1/p' include/ckpt.h | paste -s -d . -)

# where things are installed; DESTDIR is a folder to collect them in, for a package
ifneq ($(word 2,$(PREFIX)),)
$(error PREFIX is to be one path without spaces)
endif
into = $(DESTDIR)$(abspath $(PREFIX))

# what is proved, and by what: the archive and the program are made anew when any of it is newer
sources = $(shell find crates.txt crates \( -name must-fail -o -name out \) -prune -o -type f -print) $(shell command -v rt)

.PHONY: run program run-c run-host run-storage lib install uninstall fuzz sizes bench test clean

# runs the text program on a file of calls and prints calls and answers side by side; CALLS=FILE names another file
run: program
	@./target/bin/ckpt < $(CALLS) > target/answers.csv
	@tr -d '\r' < $(CALLS) > target/calls.csv
	@tr -d '\r' < target/answers.csv | paste target/calls.csv - | awk -F '\t' '{ printf "%-20s %s\n", $$1, $$2 }'

# proves the text program and writes target/bin/ckpt; the first time this takes some minutes
program: target/bin/ckpt

target/bin/ckpt: $(sources)
	@mkdir -p target/bin
	@(cd crates/ckpt && rt run --cpu x86-64 < /dev/null) > target/program.log 2>&1 || { cat target/program.log; exit 1; }
	@cp crates/ckpt/out/ckpt.o target/ckpt.o
	@cp crates/ckpt/out/ckpt $@

# runs the worked controller of document 01 from C
run-c: target/worked
	@./target/worked

# runs the example host through a thousand restarts
run-host: target/host
	@./target/host

# runs the host that keeps its table in a file: begun, gone on with, with its newer slot torn, and with a table that is refused
run-storage: target/storage
	@rm -f target/storage.bin
	@./target/storage target/storage.bin
	@./target/storage target/storage.bin
	@echo 'part of the last save is lost:'
	@printf torn | dd of=target/storage.bin bs=1 seek=4200 conv=notrunc status=none
	@./target/storage target/storage.bin
	@./target/storage target/storage.bin --invent
	@! ./target/storage target/storage.bin

# proves the engine and writes its archive
lib: $(LIB)

$(LIB): $(sources)
	@mkdir -p target/staticlib
	@(cd crates/engine_c && rt lib --cpu x86-64) > target/lib.log 2>&1 || { cat target/lib.log; exit 1; }
	@cp crates/engine_c/out/libengine_c.a $@

target/worked target/host target/storage: target/%: examples/%.c include/ckpt.h $(LIB)
	@$(CC) $(CFLAGS) -Iinclude -o $@ $< $(LIB)

# installs header, archive and pkg-config file below PREFIX
install: lib
	@install -d '$(into)/include' '$(into)/lib/pkgconfig'
	@install -m 644 include/ckpt.h '$(into)/include/ckpt.h'
	@install -m 644 $(LIB) '$(into)/lib/libckpt.a'
	@sed -e 's|@PREFIX@|$(abspath $(PREFIX))|' -e 's|@VERSION@|$(VERSION)|' ckpt.pc.in > target/ckpt.pc
	@install -m 644 target/ckpt.pc '$(into)/lib/pkgconfig/ckpt.pc'

uninstall:
	@rm -f '$(into)/include/ckpt.h' '$(into)/lib/libckpt.a' '$(into)/lib/pkgconfig/ckpt.pc'

# random calls beside the reference engine, for SECONDS=N seconds; SEED=N and CASE=N make those of an earlier run again
fuzz: lib
	@tests/fuzz.sh $(SECONDS) $(SEED) $(CASE)

# what the archive takes of a controller's memory, and the text program's code and constants
sizes: lib program
	@tests/sizes.sh

# times each call beside the same call in plain C, prints the tables and writes bench/RESULTS.md
bench: lib
	@tests/bench.sh

# proves every crate, tries the must-fail edits, and runs the tests from outside
test:
	tests/all.sh

clean:
	rm -rf target crates/*/out
