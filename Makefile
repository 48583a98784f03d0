# make: prove and build the program, and fold an example graph. make library: the static library. make test: the gate.

# The crates of the entries for other languages. The library has each as a member of its own, so that a program gets the code
# of those that it calls, and none changes how another is compiled.
ENTRIES = folding_c swept_c root_c

LIBRARIES = target/staticlib
SOURCES := crates.txt $(shell find crates -name out -prune -o \( -name '*.rt' -o -name '*.antt' \) -print)

.PHONY: all library built test
all: target/bin/fold
	@tools/example

library: $(LIBRARIES)/libmezburiko.a

# What the tests of .ci/run call.
built: library target/bin/fold target/bin/replay $(LIBRARIES)/libgate_cases.a

test:
	@.ci/run

$(LIBRARIES)/libmezburiko.a: $(ENTRIES:%_c=$(LIBRARIES)/lib%.a)
	@{ echo create $@; printf 'addlib %s\n' $^; echo save; } | ar -M

# The static library of the crate NAME_c, and a program.
$(LIBRARIES)/lib%.a: $(SOURCES)
	@tools/build $*_c $@

target/bin/%: $(SOURCES)
	@tools/build $* $@
