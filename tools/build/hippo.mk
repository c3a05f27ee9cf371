# Builds a program from the text that hippo repaired. Set before the include:
#   HIPPO_SOURCES   the C files of the program, driver included
#   HIPPO_PARTS     those of them whose functions go into the object file (if empty, all of them)
#   HIPPO_INPUTS    a file with an input in each line (if empty, one input without numbers)
#   HIPPO_BASELINE  a file with known groups of reports, of `hippo-c check --write-baseline`
#   HIPPO_FLAGS     more words for hippo-c, such as -O2 or --clflush; HIPPO_CLANG arguments for clang
# `repaired.o` is the object file; `make hippo-check` fails on reports that the baseline does not list. Both are made again after a change of
# a header, by `hippo.checked.d`.
.DELETE_ON_ERROR:

HIPPO_C ?= hippo-c
hippo_words = $(HIPPO_SOURCES) $(if $(HIPPO_INPUTS),--inputs $(HIPPO_INPUTS)) $(HIPPO_FLAGS)
hippo_clang = $(if $(HIPPO_CLANG),-- $(HIPPO_CLANG))

hippo.checked: $(HIPPO_SOURCES) $(HIPPO_INPUTS) $(HIPPO_BASELINE)
	$(HIPPO_C) check $(filter-out --clflush,$(hippo_words)) $(if $(HIPPO_BASELINE),--baseline $(HIPPO_BASELINE)) --depfile $@.d $(hippo_clang)
	touch $@

repaired.o: hippo.checked
	$(HIPPO_C) repair $(hippo_words) $(addprefix --for ,$(HIPPO_PARTS)) -o $@ $(hippo_clang)

-include hippo.checked.d

.PHONY: hippo-check
hippo-check: hippo.checked
