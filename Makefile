# The whole set-up on a machine with the kit: `make run` runs the main job on the shipped sample, `make test` is the gate.
PREFIX ?= /usr/local
CRATE := crates/outlook_cli
PROGRAM := $(CRATE)/out/outlook_cli

.PHONY: run build test examples install

# Compiled without its proofs, for a first look.
run:
	@mkdir -p $(CRATE)/out
	cd $(CRATE) && rt try -- to-tnef < stdin > out/sample
	cmp $(CRATE)/out/sample $(CRATE)/stdout
	@echo "to-tnef wrote the $$(wc -c < $(CRATE)/stdout) bytes of $(CRATE)/stdout"

build:
	cd $(CRATE) && rt run -- to-tnef < stdin > /dev/null

test:
	.ci/run

# The examples of README.md and docs/AT_SCALE.md on the shipped sample, with the built program.
examples:
	bench/examples.sh $(PROGRAM)

install: build
	install -D -m 755 $(PROGRAM) $(DESTDIR)$(PREFIX)/bin/outlook_cli
	install -D -m 644 docs/outlook_cli.1 $(DESTDIR)$(PREFIX)/share/man/man1/outlook_cli.1
