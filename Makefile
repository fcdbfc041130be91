# Builds the program and the C library: `make`. Both are proved first; what that prints goes to a file under target/ and is shown only
# where it fails. `make install` and `make uninstall`: docs/INSTALLING.md.
.PHONY: all values library stages install uninstall full-path always

# Where rt leaves a program and an archive. They are copied to target/bin/values and target/staticlib/libNAME.a, by which all else goes.
program = crates/$(1)/out/$(1)
archive = crates/$(1)/out/lib$(1).a

# Two of rt would only wait for each other: both prove the same crates first.
.NOTPARALLEL:
.DELETE_ON_ERROR:

all: values library
values: target/bin/values
library: target/staticlib/libcetv.a
# For bench/run.
stages: target/staticlib/libstages.a

# quietly COMMAND, NAME: the command, its output in target/NAME.log
define quietly
@{ $(1); } > target/$(2).log 2>&1 || { cat target/$(2).log >&2; exit 1; }
endef

# The kit, and the files that proofs are made from with their checksums: written anew only where one of them is another.
target/sources: always
	@mkdir -p target/bin target/staticlib
	@rt version > $@.now
	@find crates/*/src crates/*/specs crates/*/proofs crates.txt -type f -exec sha256sum {} + | LC_ALL=C sort -k 2 >> $@.now
	@if cmp -s $@.now $@; then rm $@.now; else mv $@.now $@; fi

# rt starts what it built, so it is asked for no more than its version.
target/bin/values: target/sources
	$(call quietly,(cd crates/values && rt run -- --version < /dev/null),values)
	@install -m 755 $(call program,values) $@

target/staticlib/lib%.a: target/sources
	$(call quietly,(cd crates/$* && rt lib),$*)
	@install -m 644 $(call archive,$*) $@

PREFIX ?= /usr/local
export PREFIX DESTDIR

# As a word of the shell, which takes the two out of its environment: a path with spaces stays one word.
root = "$$DESTDIR$$PREFIX"
pages = man1/values.1 man1/values-report.1 man3/cetv.3 man3/cetv_value_block.3 man3/cetv_version.3
installed = bin/values bin/values-report lib/libcetv.a lib/pkgconfig/cetv.pc include/cetv.h $(addprefix share/man/,$(pages))

version = $(or $(shell sed -n 's/^.define CETV_VERSION_TEXT "\(.*\)"$$/\1/p' include/cetv.h), \
    $(error include/cetv.h has no CETV_VERSION_TEXT))
# stamped FILE: its text with the version in it
stamped = sed 's/@VERSION@/$(version)/' $(1)

full-path:
	@case $$PREFIX in /*) ;; *) echo 'PREFIX must be a full path, such as PREFIX="$$HOME/.local"' >&2; exit 1;; esac

# The pages and cetv.pc are made under target/ first, so that a failure leaves no half of one installed.
install: full-path values library
	@mkdir -p target/install
	@$(foreach page,$(notdir $(pages)),$(call stamped,man/$(page)) > target/install/$(page) &&) true
	@{ printf 'prefix=%s\n' "$$PREFIX"; $(call stamped,cetv.pc.in); } > target/install/cetv.pc
	@install -d $(foreach file,$(installed),$(root)/$(dir $(file)))
	@install -m 755 target/bin/values $(root)/bin/values
	@install -m 755 bin/report $(root)/bin/values-report
	@install -m 644 target/staticlib/libcetv.a $(root)/lib/libcetv.a
	@install -m 644 target/install/cetv.pc $(root)/lib/pkgconfig/cetv.pc
	@install -m 644 include/cetv.h $(root)/include/cetv.h
	@$(foreach page,$(pages),install -m 644 target/install/$(notdir $(page)) $(root)/share/man/$(page) &&) true

uninstall: full-path
	@rm -f $(foreach file,$(installed),$(root)/$(file))
