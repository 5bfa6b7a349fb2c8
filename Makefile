# For a newcomer: `make demo` and `make test`. They need the Rattle kit (the command `rt`).
.PHONY: demo command install test bench bench-search bench-prove fuzz promises trust reading figure
PREFIX ?= /usr/local
VERSION = $(shell sed -n 's/^\#define MARRUBIGAI_VERSION "\(.*\)"/\1/p' include/marrubigai.h)

demo:
	@bash scripts/demo.sh

# the command marrubigai, in target/command; it proves the library first where that is not of these sources
command:
	@bash -c '. scripts/install.sh && install_missing g++ g++ awk mawk /usr/include/cadical.hpp libcadical-dev yosys yosys'
	@bash scripts/build.sh library
	@$(MAKE) --no-print-directory -C command

# programs, library, header, pkg-config file and man page, under DESTDIR where that is given
install: command
	@bash scripts/build.sh programs
	install -d $(addprefix "$(DESTDIR)$(PREFIX)"/,bin include lib/pkgconfig share/man/man1)
	install target/command/marrubigai target/bin/frames target/bin/replay target/bin/import_aag target/bin/one_port target/bin/export_aig "$(DESTDIR)$(PREFIX)/bin"
	install -m 644 include/marrubigai.h "$(DESTDIR)$(PREFIX)/include"
	install -m 644 target/staticlib/libmarrubigai.a "$(DESTDIR)$(PREFIX)/lib"
	sed 's|@PREFIX@|$(PREFIX)|; s|@VERSION@|$(VERSION)|' command/marrubigai.pc.in > "$(DESTDIR)$(PREFIX)/lib/pkgconfig/marrubigai.pc"
	install -m 644 command/marrubigai.1 "$(DESTDIR)$(PREFIX)/share/man/man1"

test:
	@bash tests/run.sh

# after `make demo` or `make test`, which build the program
bench:
	@bash bench/run.sh

# proofs for every frame, beside other tools; after `make command`
bench-prove:
	@bash bench/prove.sh $(LIMIT)

# the search of the command beside that of abc's bmc3; it takes some minutes
bench-search: command
	@bash -c '. scripts/install.sh && install_missing berkeley-abc berkeley-abc'
	@bash bench/search.sh

# as many hostile inputs as asked for: make fuzz N=100000
N ?= 100000
fuzz:
	@bash tests/fuzz.sh $(N) $(SEED)

# after `make test`: the public functions, the definitions that they promise, what is assumed, wrong programs and definitions; `trust` writes
# them into docs/TRUST.md
promises: target/test/promises
	@$< print .
trust: target/test/promises
	@$< write .

# what there is to read for one promise, in its order: make reading OF=certify; docs/TRUST.md has the paths
reading: target/test/promises
	@$< read "$(OF)" .
target/test/promises: $(wildcard tests/promises/*.rs)
	@mkdir -p $(@D) && rustc -O --edition 2021 -o $@ tests/promises/main.rs

# the figure and the table of families in docs/ARCHITECTURE.md, from crates.txt
figure:
	@bash scripts/figure.sh
