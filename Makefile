.PHONY: draws host install library recipe rows run shared test uninstall

# The recipe that `make run` and `make host` load: any file name, also one with a space.
RECIPE = examples/one-bay.recipe
unexport RECIPE
export RECIPE_FILE = $(value RECIPE)

PREFIX = /usr/local
INSTALLED = $(DESTDIR)$(PREFIX)
VERSION := $(shell sed -n 's/^.define FIKAREHU_VERSION "\(.*\)"$$/\1/p' include/fikarehu.h)

# rt names the library after its crate.
STATIC = target/staticlib/libfikarehu.a
LIB = target/lib
# programs that are linked with the shared library ask for this name
SONAME = libfikarehu.so.0
SHARED = $(LIB)/libfikarehu.so.$(VERSION)
# a folder of its own, so that a build of model/ without the library does not come here
TOOL = target/tool/release/recipe

# What rt's command $(1) makes of the crate $(2), the file $(3), kept in the folder $(4): a line for each crate as it is proved, and all that rt said if it fails; target/$(2).log has
# everything. A program runs once, on nothing.
make_of = mkdir -p target $(4) && { (cd crates/$(2) && rt $(1)) </dev/null 2>&1; printf '\nrt: status %s\n' $$?; } | { \
	: >target/$(2).log; \
	while IFS= read -r line; do \
		case $$line in \
		'rt: status 0') exit 0 ;; \
		'rt: status '*) cat target/$(2).log >&2; exit 1 ;; \
		'crate '*': modules '*) crate=$${line%%:*} ;; \
		'logic=proved '*) printf '%s is proved\n' "$$crate" >&2 ;; \
		esac; \
		printf '%s\n' "$$line" >>target/$(2).log; \
	done; \
	exit 1; } && { cmp -s crates/$(2)/out/$(3) $(4)/$(3) || cp crates/$(2)/out/$(3) $(4)/$(3); }

recipe_is_file = [ -f "$$RECIPE_FILE" ] || { printf 'make %s: %s is no file\n' $@ "$$RECIPE_FILE" >&2; exit 1; }

first_time = [ -e $(1) ] || echo "proving what $(1) needs: some minutes the first time, and a line for each crate" >&2

# Builds the program and runs it on a recipe: its verdict and, if accepted, its starting image. A refused recipe is an error.
run:
	@$(recipe_is_file)
	@$(call first_time,target/bin/recipe_image)
	@$(call make_of,run,recipe_image,recipe_image,target/bin)
	@lines=$$(target/bin/recipe_image <"$$RECIPE_FILE") && printf '%s\n' "$$lines" && \
	case $$lines in 'verdict 0'*) ;; *) exit 1 ;; esac

# The test load's seed and number of draws for `make draws`.
SEED = 1
DRAWS = 20

# Builds the test load and runs it on a recipe: a line for each draw. A refusal is an error.
draws:
	@$(recipe_is_file)
	@$(call first_time,target/bin/test_load)
	@$(call make_of,run,test_load,test_load,target/bin)
	@byte() { printf "$$(printf '\\%03o' $$(($$1 & 255)))"; }; \
	lines=$$({ for n in 0 8 16 24; do byte $$(($(SEED) >> n)); done; for n in 0 8; do byte $$(($(DRAWS) >> n)); done; cat "$$RECIPE_FILE"; } | target/bin/test_load) && \
	{ [ -z "$$lines" ] || printf '%s\n' "$$lines"; } && case $$lines in verdict*) exit 1 ;; esac

# Proves what the static library needs, and builds it.
library:
	@$(call first_time,$(STATIC))
	@$(call make_of,lib,fikarehu,libfikarehu.a,target/staticlib)

# The same as a shared library.
shared: library
	@mkdir -p $(LIB)
	@$(CC) -shared -Wl,--whole-archive $(STATIC) -Wl,--no-whole-archive -Wl,-soname,$(SONAME) -Wl,-z,defs -o $(SHARED)
	@ln -sf $(notdir $(SHARED)) $(LIB)/$(SONAME) && ln -sf $(SONAME) $(LIB)/libfikarehu.so

# The tool `recipe` (docs/RECIPES.md), with the proved library in it.
recipe: library
	@RATTLE_LIB='$(CURDIR)/target/staticlib' cargo build --release --offline --quiet --features library \
	--manifest-path model/Cargo.toml --target-dir target/tool --bin recipe
	@$(TOOL) run examples/one-bay.recipe | grep -q 'stepped by the proved library' || \
	{ echo '$(TOOL) is without the proved library' >&2; exit 1; }
	@echo $(TOOL)

# Builds the example host in C and runs it on a recipe.
host: library
	@$(recipe_is_file)
	@$(CC) -std=c11 -O2 -Wall -Wextra -Iinclude examples/host.c $(STATIC) -o target/host
	@target/host "$$RECIPE_FILE"

# The header, the library, static and shared, a pkg-config file, the tool and its help as text.
install: shared recipe
	install -d '$(INSTALLED)/bin' '$(INSTALLED)/include' '$(INSTALLED)/lib/pkgconfig' '$(INSTALLED)/share/doc/fikarehu'
	install -m 644 include/fikarehu.h '$(INSTALLED)/include/fikarehu.h'
	install -m 644 $(STATIC) '$(INSTALLED)/lib/libfikarehu.a'
	install -m 755 $(SHARED) '$(INSTALLED)/lib/$(notdir $(SHARED))'
	ln -sf $(notdir $(SHARED)) '$(INSTALLED)/lib/$(SONAME)'
	ln -sf $(SONAME) '$(INSTALLED)/lib/libfikarehu.so'
	sed 's|@PREFIX@|$(PREFIX)|' include/fikarehu.pc.in >'$(INSTALLED)/lib/pkgconfig/fikarehu.pc'
	install -m 755 $(TOOL) '$(INSTALLED)/bin/recipe'
	for command in '' show write run draws compare; do $(TOOL) help $$command && echo; done >'$(INSTALLED)/share/doc/fikarehu/recipe.txt'

# Takes away what `make install` with the same PREFIX and DESTDIR has put there.
uninstall:
	rm -f '$(INSTALLED)/bin/recipe' '$(INSTALLED)/include/fikarehu.h' '$(INSTALLED)/lib/pkgconfig/fikarehu.pc'
	rm -f '$(INSTALLED)/lib/libfikarehu.a' '$(INSTALLED)/lib/$(notdir $(SHARED))' '$(INSTALLED)/lib/$(SONAME)' '$(INSTALLED)/lib/libfikarehu.so'
	rm -rf '$(INSTALLED)/share/doc/fikarehu'

# Writes the drawn rows again, as the model answers them.
rows:
	@cargo run --release --offline --quiet --manifest-path model/Cargo.toml --bin write_rows crates/drawn_cases/specs

# The gate.
test:
	.ci/run
