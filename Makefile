# What a user of the engine gets: the program ttpa, the archive, its header, the manual page.
#
#   make                                 proves the engine, makes its archive, in target/staticlib, and the program, in target/package
#   make install PREFIX=/usr/local DESTDIR=
#   make dist                            the same as a tar file with SHA256SUMS, in target/dist
#
#   ENGINE=c          makes the archive of portable/ttpa.c with CC, where the Rattle toolchain is not at hand
#   TTPA_LIB_DIR=..   takes the archive from this folder, which is told by its full path, without blanks
#
# Two builds of one state of the files are the same bytes, in whatever folder.

PREFIX = /usr/local
DESTDIR =
ENGINE = rattle
CC = cc
CFLAGS = -std=c99 -O2

version := $(shell sed -n 's/^.define TTPA_VERSION_[A-Z]* //p' include/ttpa.h | paste -sd.)
# the package over the C file is told from that of the proved archive
name := ttpa-$(version)-$(if $(filter c,$(ENGINE)),from-c-)$(shell uname -m)-linux
here := $(CURDIR)
built := target/package
program := $(built)/bin/ttpa
# of all files of the tar file: 1980-01-01, the earliest that every file system has
time := 315532800

ifeq ($(filter $(ENGINE),rattle c),)
$(error ENGINE is rattle or c, not '$(ENGINE)')
endif

ifdef TTPA_LIB_DIR
archive := $(TTPA_LIB_DIR)/libttpa.a
else ifeq ($(ENGINE),c)
archive := $(built)/c/libttpa.a
else
archive := target/staticlib/libttpa.a
proved := crates.txt $(shell find crates -name out -prune -o -type f -print)
endif

# nothing that is for a debugger is left in the program, and no folder's name, which would come with that or with a crate from elsewhere;
# between two flags cargo wants the sign 037, so that a folder's name may have blanks
flags = $$(printf -- '--remap-path-prefix=%s=.\037-Cstrip=symbols' '$(here)')

# what the program is made of beside the archive
sources := rust/Cargo.toml rust/Cargo.lock $(shell find rust/program rust/ttpa -name '*.rs' -o -name Cargo.toml)

.PHONY: all install dist FORCE
all: $(program)

target/staticlib/libttpa.a: $(proved)
	.ci/build archive

$(built)/c/libttpa.a: portable/ttpa.c include/ttpa.h $(built)/compiler
	mkdir -p $(built)/c
	$(CC) $(CFLAGS) -Iinclude -c portable/ttpa.c -o $(built)/c/ttpa.o
	rm -f $@ && ar rcsD $@ $(built)/c/ttpa.o

# what was last made with: another compiler makes the archive of the C file anew, another archive the program, whatever their times
$(built)/compiler: FORCE
	@mkdir -p $(built)
	@echo '$(CC) $(CFLAGS)' | cmp -s - $@ || echo '$(CC) $(CFLAGS)' >$@

$(built)/archive: $(archive) FORCE
	@mkdir -p $(built)
	@sha256sum '$(archive)' | cmp -s - $@ || sha256sum '$(archive)' >$@

# where nothing has changed cargo is not asked, so that who installs need not have it
$(program): $(built)/archive $(sources)
	cd rust && TTPA_LIB_DIR='$(abspath $(dir $(archive)))' CARGO_ENCODED_RUSTFLAGS="$(flags)" CARGO_TARGET_DIR='$(here)/$(built)/cargo' \
		cargo build --quiet --offline --release -p program
	install -D -m 755 $(built)/cargo/release/ttpa $(program)

# PREFIX and DESTDIR may have blanks
root = '$(DESTDIR)$(PREFIX)'

$(built)/ttpa.pc: package/ttpa.pc.in include/ttpa.h
	mkdir -p $(built)
	sed 's/@VERSION@/$(version)/' package/ttpa.pc.in >$@

install: all $(built)/ttpa.pc
	install -D -m 755 $(program) $(root)/bin/ttpa
	install -D -m 644 $(archive) $(root)/lib/libttpa.a
	install -D -m 644 include/ttpa.h $(root)/include/ttpa.h
	install -D -m 644 package/ttpa.1 $(root)/share/man/man1/ttpa.1
	install -D -m 644 package/ttpa.bash $(root)/share/bash-completion/completions/ttpa
	install -D -m 644 $(built)/ttpa.pc $(root)/lib/pkgconfig/ttpa.pc

dist:
	rm -rf target/dist
	umask 022 && $(MAKE) --no-print-directory install PREFIX=/$(name) DESTDIR='$(here)/target/dist'
	tar --directory target/dist --format=ustar --sort=name --mtime=@$(time) --owner=0 --group=0 --numeric-owner -cf - $(name) | \
		gzip -9n >target/dist/$(name).tar.gz
	cd target/dist && sha256sum $(name).tar.gz >SHA256SUMS && rm -rf $(name) && cat SHA256SUMS
