# The kit for C and C++ hosts: headers, one archive, a file for pkg-config.
#
#   make                        target/kit/libyolluvek.a
#   make install PREFIX=/opt/y  into /opt/y/include and /opt/y/lib, behind DESTDIR if that is set
#   make dist                   target/kit/yolluvek-VERSION-x86_64-linux.tar.gz, for any place on any machine
#   make archives               the archives of the proved code, target/staticlib/lib*.a, as Rust links them
#   make check                  compiles and runs tests/c and the examples, and tries install and dist
#
# The archives are used as they stand in target/staticlib; a missing one is made by `rt lib` in crates/NAME_c, which proves what it holds
# where that isn't done yet.

PREFIX ?= /usr/local
KIT := target/kit
HEADERS := include/yolluvek.h include/yolluvek_job.h
ARCHIVES := $(patsubst %,target/staticlib/lib%.a,graph_export stg_export engine_export preview_export windows_export weak_export)
VERSION := $(shell sed -n 's/^.define YOLLUVEK_VERSION "\(.*\)"/\1/p' include/yolluvek_job.h)
NAME := yolluvek-$(VERSION)-x86_64-linux

# where the .pc file says that the kit is
PC_PREFIX = $(abspath $(PREFIX))
INTO = $(DESTDIR)$(abspath $(PREFIX))

# what tests link beside the kit's
BESIDE := target/staticlib/libref_export.a

.PHONY: all archives install dist check clean
.DELETE_ON_ERROR:

all: $(KIT)/libyolluvek.a

archives: $(ARCHIVES) $(BESIDE)

# one after the other: each builds the libraries below it that aren't built yet
.NOTPARALLEL:

$(ARCHIVES) $(BESIDE): target/staticlib/lib%.a:
	cd crates/$*_c && rt lib
	mkdir -p target/staticlib
	cp crates/$*_c/out/lib$*_c.a $@

$(KIT)/libyolluvek.a: $(ARCHIVES)
	rm -rf $(KIT)/objects $@
	mkdir -p $(KIT)/objects
	cd $(KIT)/objects && for archive in $(abspath $(ARCHIVES)); do $(AR) x "$$archive" || exit 1; done
	$(AR) rcsD $@ $(KIT)/objects/*.o

install: all
	install -d "$(INTO)/include" "$(INTO)/lib/pkgconfig"
	install -m 644 $(HEADERS) "$(INTO)/include"
	install -m 644 $(KIT)/libyolluvek.a "$(INTO)/lib"
	sed -e 's|@prefix@|$(PC_PREFIX)|' -e 's|@version@|$(VERSION)|' yolluvek.pc.in >"$(INTO)/lib/pkgconfig/yolluvek.pc"
	chmod 644 "$(INTO)/lib/pkgconfig/yolluvek.pc"

# unpacked anywhere, the .pc file finds the kit from its own place
dist:
	rm -rf $(KIT)/$(NAME)
	$(MAKE) --no-print-directory install DESTDIR= PREFIX=$(KIT)/$(NAME) PC_PREFIX='$$$${pcfiledir}/../..'
	install -d $(KIT)/$(NAME)/examples $(KIT)/$(NAME)/docs
	install -m 644 examples/*.c examples/*.stg $(KIT)/$(NAME)/examples
	install -m 644 docs/REFUSALS.md docs/RULE.md $(KIT)/$(NAME)/docs
	tar -C $(KIT) --sort=name --owner=0 --group=0 --numeric-owner --mtime=@0 -c $(NAME) | gzip -n >$(KIT)/$(NAME).tar.gz
	rm -rf $(KIT)/$(NAME)

check: all dist
	tests/c/check $(KIT)/$(NAME).tar.gz

clean:
	rm -rf $(KIT)
