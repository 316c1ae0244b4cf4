# The outside tests and the benchmark of the library's archive; they write to target/outside only.
#
# The archive is x86-64 code, and so is the kit. What links the archive is compiled, linked and run by
# the kit's own tools; what judges it is Rust, and asks over a pipe.

ARCHIVE ?= target/staticlib/libtempletbark.a

OUTSIDE := target/outside
KIT_HERE = $(patsubst %/START-HERE.md,%,$(shell rt doc))
KIT_TOOLS = $(KIT_HERE)/toolchain

# Warnings are shown and refuse nothing: a later rustc has others.
RUST := rustc -O --edition 2021
X86_CLANG = $(KIT_TOOLS)/bin/clang
X86_CC = $(X86_CLANG) --target=x86_64-unknown-linux-gnu -O2 -fPIC -std=c99 -Wall -Wextra -Wpedantic -Werror \
	-nostdinc -isystem $(shell cc -print-file-name=include) -Iinclude
X86_LIBC = $(addprefix -isystem ,$(wildcard /usr/include/$(shell uname -m)-linux-gnu) /usr/include)
X86_LINK = $(KIT_HERE)/bin/rattle-link --target x86_64-unknown-linux-gnu --toolchain $(KIT_TOOLS) -o
X86_RUN = $(KIT_TOOLS)/lib/ld-linux-x86-64.so.2 --library-path $(KIT_TOOLS)/lib

.PHONY: outside-test outside-wrong bench archive-is-there tools-are-there

tools-are-there:
	@for tool in rt rustc cc nm; do \
		command -v $$tool >/dev/null || { echo "outside: $$tool is not installed" >&2; exit 1; }; \
	done

# What the archive is made by, where the same run makes it, is a prerequisite of this; what links it
# is linked anew each time.
archive-is-there:
	@[ -f $(ARCHIVE) ] || { echo "outside: there is no $(ARCHIVE); make lib writes it" >&2; exit 1; }

$(OUTSIDE): | tools-are-there
	@mkdir -p $@

# Rust for the machine itself.

$(OUTSIDE)/libsecond.rlib: $(wildcard outside/second/*.rs) | $(OUTSIDE)
	$(RUST) --crate-type rlib --crate-name second outside/second/lib.rs -o $@

$(OUTSIDE)/libcommon.rlib: $(wildcard outside/common/*.rs) | $(OUTSIDE)
	$(RUST) --crate-type rlib --crate-name common outside/common/lib.rs -o $@

$(OUTSIDE)/compare: $(wildcard outside/compare/*.rs) $(OUTSIDE)/libsecond.rlib $(OUTSIDE)/libcommon.rlib
	$(RUST) --crate-name compare outside/compare/main.rs -L $(OUTSIDE) --extern second --extern common -o $@

$(OUTSIDE)/bench: $(wildcard outside/bench/*.rs) $(OUTSIDE)/libcommon.rlib
	$(RUST) --crate-name bench outside/bench/main.rs -L $(OUTSIDE) --extern common -o $@

# x86-64: the bridge over the product, the two hand-written versions and the literal search; the example.

$(OUTSIDE)/bridge.o $(OUTSIDE)/shifted.o: outside/bridge/bridge.c include/templetbark.h | $(OUTSIDE)
	$(X86_CC) -ffreestanding $(if $(findstring shifted,$@),-DSHIFTED) -c $< -o $@

VERSION_FILES := $(wildcard $(foreach folder,surface by_hand by_marks literal,outside/$(folder)/*.rs))
$(OUTSIDE)/%.o: outside/%/lib.rs $(VERSION_FILES) outside/to_x86_64.sh | $(OUTSIDE)
	outside/to_x86_64.sh $< $@ $(X86_CLANG)

.PRECIOUS: $(OUTSIDE)/%.o

$(OUTSIDE)/%-product: archive-is-there $(OUTSIDE)/%.o
	$(X86_LINK) $@ $(OUTSIDE)/$*.o $(ARCHIVE)

$(OUTSIDE)/bridge-%: $(OUTSIDE)/bridge.o $(OUTSIDE)/%.o
	$(X86_LINK) $@ $^

$(OUTSIDE)/shifted-%: $(OUTSIDE)/shifted.o $(OUTSIDE)/%.o
	$(X86_LINK) $@ $^

$(OUTSIDE)/plan_and_play: archive-is-there examples/plan_and_play.c include/templetbark.h | $(OUTSIDE)
	$(X86_CC) $(X86_LIBC) -c examples/plan_and_play.c -o $@.o
	$(X86_CLANG) --target=x86_64-unknown-linux-gnu -nostdinc -isystem $(shell cc -print-file-name=include) -Iinclude \
		-ffreestanding -x c++ -std=c++11 -Wall -Wextra -Wpedantic -Werror -fsyntax-only include/templetbark.h
	$(X86_LINK) $@ $@.o $(ARCHIVE)

# The archive's symbols against the header, the library against the second planner, the example
# against its expected output, and as a licensee builds it.
outside-test: tools-are-there $(OUTSIDE)/plan_and_play $(OUTSIDE)/compare $(OUTSIDE)/bridge-product
	outside/archive.sh $(ARCHIVE) include/templetbark.h
	$(X86_RUN) $(OUTSIDE)/plan_and_play >$(OUTSIDE)/plan_and_play.wrote
	diff examples/plan_and_play.expected $(OUTSIDE)/plan_and_play.wrote
	outside/licensee.sh $(ARCHIVE) $(OUTSIDE)/licensee
	$(OUTSIDE)/compare $(X86_RUN) $(OUTSIDE)/bridge-product

# The comparison itself: the hand-written version passes it, and each wrong version of it is caught.
outside-wrong: tools-are-there $(OUTSIDE)/compare $(OUTSIDE)/bridge-by_hand
	$(OUTSIDE)/compare $(X86_RUN) $(OUTSIDE)/bridge-by_hand
	outside/wrong.sh $(OUTSIDE) $(X86_CLANG) '$(X86_LINK)' '$(X86_RUN)'

# The library beside the two hand-written versions and the literal search, for docs/PERFORMANCE.md.
MEASURED := product by_hand by_marks
bench: tools-are-there $(OUTSIDE)/bench $(OUTSIDE)/bridge-literal \
		$(foreach version,$(MEASURED),$(OUTSIDE)/bridge-$(version) $(OUTSIDE)/shifted-$(version))
	$(OUTSIDE)/bench '$(X86_RUN)' $(OUTSIDE)
