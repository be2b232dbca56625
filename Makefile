# The static library, its header and the three programs, proved and then built into a folder.
FOLDER = build
PROGRAMS = list_moves split_moves check_moves

.PHONY: all library test clean

all: library
	for program in $(PROGRAMS); do \
		(cd crates/$$program && rt run < stdin > /dev/null) || exit 1; \
		cp crates/$$program/out/$$program $(FOLDER)/ || exit 1; \
	done

# The C calls and the lent calls, each crate an object of one library.
library:
	cd crates/services_c && rt lib
	cd crates/lent && rt lib
	mkdir -p $(FOLDER)/objects
	rm -f $(FOLDER)/libsukoreta.a
	cd $(FOLDER)/objects && ar x $(CURDIR)/crates/services_c/out/libservices_c.a && ar x $(CURDIR)/crates/lent/out/liblent.a
	ar rcs $(FOLDER)/libsukoreta.a $(FOLDER)/objects/services_c.o $(FOLDER)/objects/lent.o
	cp include/sukoreta.h $(FOLDER)/

test:
	.ci/run

clean:
	rm -rf crates/*/out target $(FOLDER)
