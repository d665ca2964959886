# make render: proves and builds what is not built yet, plays the example score and renders the example sheet to the folder rendered.
# make install PREFIX=/usr/local: the tool, its man page and completions, and the header, library and pkg-config file for C; DESTDIR is put in front.
# make test: the whole gate, whose last line is 'N passed, 0 failed'.
# make bench: the speed of the leaves, of both voices, of the exported calls and of whole notes beside the Rust's, of the wrapper's guard beside none, and of sheets beside their renders, as ratios; PARTS="keyboard" times that alone.
# make compare: two million blocks of random and extreme lists, in the exported bank and in the Rust, and 200,000 random sheets beside the same renders one by one.
# make replay: the recorded answers of the Rust, asked of the exported functions again.
# make record: the oracle's answers for the program replay, written anew.
# make mutants: two wrong programs for every function that has a contract, made by chance, each of which must be refused; some 40 minutes.

.PHONY: ready render install test bench compare replay record mutants

SHELL := bash
.SHELLFLAGS := -o pipefail -c

libraries := target/staticlib
sources := crates.txt $(wildcard HANDLES) $(shell find crates \( -path '*/must-fail' -o -path '*/out' \) -prune -o \( -name '*.rt' -o -name '*.antt' \) -print)

# A library is proved and built again only where a source has changed. It is kept apart from the crate's folder out/, which rt ci clears.
$(libraries)/lib%.a: $(sources)
	@tools/prove $*

# What the commands need is looked for before anything is proved.
ready:
	@tools/ready

render: ready $(libraries)/libbank_abi.a
	@host/cargo build --quiet --release -p renderer
	@host/target/release/bleidhvan play examples/small-hours.csv -o "rendered/Small hours.wav" --title "Small hours" --tempo 66 --tail 6 --gain -6
	@host/target/release/bleidhvan render examples/sheet.csv -o rendered --piece "Small hours.wav" --jobs "$$(nproc)"

PREFIX := /usr/local
root = $(DESTDIR)$(PREFIX)
share := host/renderer/share

install: ready $(libraries)/libbank_abi.a
	@host/cargo build --quiet --release -p renderer
	@install -D -m 755 host/target/release/bleidhvan "$(root)/bin/bleidhvan"
	@install -D -m 644 $(share)/bleidhvan.1 "$(root)/share/man/man1/bleidhvan.1"
	@install -D -m 644 $(share)/bleidhvan.bash "$(root)/share/bash-completion/completions/bleidhvan"
	@install -D -m 644 $(share)/_bleidhvan "$(root)/share/zsh/site-functions/_bleidhvan"
	@install -D -m 644 $(share)/bleidhvan.fish "$(root)/share/fish/vendor_completions.d/bleidhvan.fish"
	@install -D -m 644 crates/bank_abi/include/bleidhvan.h "$(root)/include/bleidhvan.h"
	@install -D -m 644 $(libraries)/libbank_abi.a "$(root)/lib/libbank_abi.a"
	@mkdir -p "$(root)/lib/pkgconfig"
	@sed 's|@PREFIX@|$(PREFIX)|' $(share)/bleidhvan.pc.in >"$(root)/lib/pkgconfig/bleidhvan.pc"
	@echo "installed to $(root)"

test:
	@tests/gate

bench: $(libraries)/libleaves_abi.a $(libraries)/libvoices_abi.a $(libraries)/libbank_abi.a
	@host/cargo run --quiet --profile speed -p bench -- $(PARTS)

compare: $(libraries)/libbank_abi.a
	@host/cargo run --quiet --release -p compare -- --seed 2026 --blocks 2000000 --sheets 200000

replay: $(libraries)/libbank_abi.a $(libraries)/libleaves_abi.a
	@host/cargo run --quiet --release -p replay

record:
	@host/cargo run --quiet --release -p record

mutants:
	@tests/mutants
