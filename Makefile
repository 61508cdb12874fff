# `make` alone lists the targets.
SHELL := bash
.SHELLFLAGS := -o pipefail -c
.PHONY: help try look run verdicts serve clients load refusals cases examples growth beside statuses around test-packages tools warrenctl install uninstall package release manual warren test

# where `make install` puts the programs; DESTDIR comes before it
PREFIX ?= /usr/local

help:
	@echo "without a proof, for a look:"
	@echo "  make try       checks the guarantees of examples/shop, or of your files: DEFS=.. GUARANTEES=..     2 to 4 minutes, then a second"
	@echo "  make look      serves the shop, or your files, at 127.0.0.1:5672 or LISTEN=.. for ten minutes      the same build"
	@echo "with all proofs, which the first of these makes:                                           up to an hour, then seconds"
	@echo "  make run       replays examples/first_publish: a publish and its ack"
	@echo "  make verdicts  checks the guarantees of examples/shop; then one binding is changed, and a key breaks one"
	@echo "  make serve     serves the shop, or your files, under their guarantees: DEFS=.. GUARANTEES=.. LISTEN=.."
	@echo "  make clients   serves the shop, and has pika and six other client libraries publish to it and take from it"
	@echo "  make load      loads a server over sockets, and prints what a message costs it         several minutes"
	@echo "  make refusals  refuses each growth of memory of the proved programs in turn, and compares          15 minutes"
	@echo "  make cases     runs the cases of crates/cases, and prints those that its list lacks"
	@echo "  make examples  replays the examples, and compares them with their outputs and with the cases"
	@echo "  make statuses  compares each exit status of the proved program"
	@echo "  make growth    checks that a server doesn't grow while messages and consumers come and go            half a minute"
	@echo "  make beside    compares what warrenctl says of files with what the program says                      half a minute"
	@echo "  make around    tries warren with a RabbitMQ of its own and with other programs of Debian     10 minutes"
	@echo "                 some of it: make around ONLY='ci takeover', of $(AROUND);"
	@echo "                 by installed programs, which are taken as they are: make around WARREN=/usr/bin/warren WARRENCTL=/usr/bin/warrenctl"
	@echo "  make manual    makes the manual pages, the completions and the shop's pictures anew"
	@echo "  make install   puts the proved program and warrenctl below $(PREFIX), with manual pages and completions; make uninstall removes them"
	@echo "  make package   makes a Debian package of the proved program, and prints its SHA-256"
	@echo "  make release   makes a folder in out/release: the package, a tar.gz, warrenctl, an image, and their sums, signed if KEY=.. is given"
	@echo "  make test      proves every crate, tries the must-fail edits, runs the tests and the program    one to two hours"
	@echo "without rt, with Python 3 alone:"
	@echo "  make warrenctl makes one file of warrenctl, out/warrenctl"
	@echo "  make tools     checks the repository's pages and names, and runs the tests of warrenctl and dev       5 minutes"
	@echo "  make test-packages names the packages of Debian that clients, around and the tests use"

# one's own files: make try DEFS=definitions.json GUARANTEES=guarantees.json, and another address: LISTEN=127.0.0.1:5673. Names may have blanks.
export DEFS GUARANTEES LISTEN KEY
OWN_FILES = $${DEFS:+"$$DEFS"} $${GUARANTEES:+"$$GUARANTEES"}
OWN_ADDRESS = $${LISTEN:+--listen "$$LISTEN"}

# a guarantee that does not hold fails nothing here
try:
	@python3 -m dev.try $(OWN_FILES) || [ $$? -le 2 ]

look:
	@python3 -m dev.look $(OWN_FILES) $(OWN_ADDRESS)

# the proved program of a crate, made by `rt run` if its sources are newer: what one target proved, the others take; `make test` leaves it too
PROVED = python3 -m dev.program proved
WARREN = crates/warren/out/warren
# one that is installed is taken as it is, and nothing is made: make around WARREN=/usr/bin/warren
GIVEN = $(if $(findstring command line,$(origin WARREN)),"$(WARREN)")
# `make test` takes the program that its gate leaves
MAKEOVERRIDES =

warren:
	@$(if $(GIVEN),python3 -m dev.program given $(GIVEN),$(PROVED)) > /dev/null
	@mkdir -p $(OUT)

run: warren
	@"$(WARREN)" replay /dev/stdin < examples/first_publish/script

SHOP = examples/shop
SHOP_FILES = $(SHOP)/definitions.json $(SHOP)/guarantees.json
BRANCHES = examples/branches
BRANCHES_FILES = $(BRANCHES)/definitions.json $(BRANCHES)/guarantees.json
OUT = crates/warren/out
CHANGED = $(OUT)/changed.json
BROKEN = --guarantees $(SHOP)/guarantees.json --verdicts $(OUT)/verdicts
UNDER = --definitions $(SHOP)/definitions.json --guarantees $(SHOP)/guarantees.json --certificates $(OUT)/certificates.json

# checks, writes the certificates, verifies them and replays under them; then one binding leads elsewhere, and a key breaks
verdicts: warren
	@"$(WARREN)" check $(SHOP_FILES) --out $(OUT)/certificates.json
	@"$(WARREN)" verify $(SHOP_FILES) $(OUT)/certificates.json
	@"$(WARREN)" replay $(SHOP)/script $(UNDER)
	@echo "a topology with 71 binding keys:"
	@"$(WARREN)" check $(BRANCHES_FILES) --out $(OUT)/branches.json
	@"$(WARREN)" verify $(BRANCHES_FILES) $(OUT)/branches.json
	@echo "the shop with one binding key changed, from orders.# to orders.*.#:"
	@sed 's/"orders\.#"/"orders.*.#"/' $(SHOP)/definitions.json > $(CHANGED)
	@"$(WARREN)" check $(CHANGED) $(SHOP)/guarantees.json; [ $$? -eq 1 ]

serve:
	@python3 -m dev.look $(if $(GIVEN),--by $(GIVEN),--proved) $(OWN_FILES) $(OWN_ADDRESS)

clients: warren
	@examples/clients/run "$(WARREN)"
	@examples/clients/libraries/run "$(WARREN)"

load: warren
	@examples/load/run "$(WARREN)"

refusals: warren
	@$(PROVED) memory_refusals > /dev/null
	@cd crates/memory_refusals && out/memory_refusals < stdin | diff stdout -
	@examples/refusals/run "$(WARREN)" crates/memory_refusals/out/memory_refusals

cases:
	@$(PROVED) cases > /dev/null
	@cd crates/cases && out/cases data < stdin | diff stdout -
	@cd crates/cases/data && find . -name '*.words' | sed 's|^\./||; s|\.words$$||' | LC_ALL=C sort | diff ../stdin -

CASES = crates/cases/data/examples
CASES_OF_FILES = crates/cases/data/definitions

# the checks of pages and names; the examples' texts are cases, which the gate runs, and so are the calls of a queue that a script makes; the unit tests
tools:
	@python3 -m dev.checks promise edits widths map names
	@cmp examples/first_publish/script $(CASES)/first_publish.script
	@cmp examples/first_publish/output $(CASES)/first_publish.expected
	@cmp examples/first_publish/script crates/warren/stdin
	@cmp examples/first_publish/output crates/warren/stdout
	@cmp examples/shop/script $(CASES)/shop.script
	@cmp examples/shop/output $(CASES)/shop.expected
	@cmp examples/shop/definitions.json $(CASES)/shop.json
	@python3 -m warrenctl draw examples/shop/definitions.json | cmp - examples/shop/topology.dot
	@python3 -m dev.stores | cmp - crates/line_cases/data/stores.lines
	@python3 -m dev.unit

examples: warren
	@"$(WARREN)" replay examples/first_publish/script | diff examples/first_publish/output -
	@"$(WARREN)" replay $(SHOP)/script --definitions $(SHOP)/definitions.json | diff $(SHOP)/output -
	@"$(WARREN)" check $(SHOP_FILES) --out $(OUT)/certificates.json | diff $(SHOP)/verdicts -
	@cmp $(OUT)/certificates.json $(SHOP)/certificates.json
	@"$(WARREN)" verify $(SHOP_FILES) $(OUT)/certificates.json | diff $(SHOP)/verified -
	@"$(WARREN)" replay $(SHOP)/script $(UNDER) | diff $(SHOP)/output -
	@"$(WARREN)" check $(BRANCHES_FILES) --out $(OUT)/branches.json | diff $(BRANCHES)/verdicts -
	@cmp $(OUT)/branches.json $(BRANCHES)/certificates.json
	@"$(WARREN)" verify $(BRANCHES_FILES) $(OUT)/branches.json | diff $(BRANCHES)/verified -
	@sed 's/"orders\.#"/"orders.*.#"/' $(SHOP)/definitions.json > $(CHANGED)
	@"$(WARREN)" check $(CHANGED) $(SHOP)/guarantees.json > $(OUT)/verdicts; [ $$? -eq 1 ]
	@python3 -m warrenctl draw $(CHANGED) $(BROKEN) | cmp - $(SHOP)/broken.dot
	@python3 -m dev.manual --check --program "$(WARREN)"

# Each part needs a RabbitMQ or other packages of Debian, which `make test-packages` names: one that lacks them says so in one line, and passes.
DEBIAN = gcc man-db zsh rabbitmq-server haproxy stunnel4 openssl prometheus python3-yaml python3-pika python3-aio-pika celery ruby-bunny
DEBIAN += php-amqplib php-cli librabbitmq-client-java default-jdk-headless golang-go golang-github-rabbitmq-amqp091-go-dev
AROUND = clean pages reload deploy metrics parts shovel rabbit agree exports ci takeover unmodified
ONLY = $(AROUND)
WARRENCTL = out/warrenctl

test-packages:
	@echo "apt-get install --no-install-recommends $(DEBIAN)"

# by the one file of warrenctl, in a folder that has no part of it
around: warren warrenctl
	@python3 -m dev.around "$(WARREN)" "$(WARRENCTL)" $(ONLY)

# one file, which Python 3.9 or later runs anywhere
warrenctl:
	@python3 -m dev.archive out/warrenctl

MADE = dev/manual/made
# what is installed, each with its place below PREFIX
BOTH = warren warrenctl
INSTALLED = $(foreach it,$(BOTH),$(MADE)/$(it).1:share/man/man1/$(it).1 $(MADE)/$(it).bash:share/bash-completion/completions/$(it))
INSTALLED += $(foreach it,$(BOTH),$(MADE)/_$(it):share/zsh/site-functions/_$(it))
PROGRAMS = $(BOTH:%=bin/%)

install: warren warrenctl
	@install -D "$(WARREN)" "$(DESTDIR)$(PREFIX)/bin/warren"
	@install -D out/warrenctl "$(DESTDIR)$(PREFIX)/bin/warrenctl"
	@install -D examples/deploy/files "$(DESTDIR)$(PREFIX)/lib/warren/files"
	@for it in $(INSTALLED); do install -D -m 644 "$${it%:*}" "$(DESTDIR)$(PREFIX)/$${it#*:}" || exit; done

uninstall:
	@for it in $(PROGRAMS) lib/warren/files $(INSTALLED); do rm -f "$(DESTDIR)$(PREFIX)/$${it#*:}" || exit; done

# a server doesn't grow while messages and consumers come and go
growth: warren
	@python3 -m examples.load.growth "$(WARREN)"

# what warrenctl says of files beside what the program says
beside: warren
	@for command in audit convert why split; do echo "$$command:"; python3 -m warrenctl.tests.with_warren.$$command "$(WARREN)" || exit 1; done

package: warren
	@python3 -m dev.package "$(WARREN)" $(OUT)

# docs/inside/RELEASING.md has what comes before and behind it; KEY signs the sums
release: warren
	@python3 -m dev.release "$(WARREN)" out/release $${KEY:+--key "$$KEY"}

manual: warren
	@python3 -m dev.manual --program "$(WARREN)"
	@if command -v dot > /dev/null; then $(MAKE) -s $(SHOP)/topology.svg; else echo "the shop's pictures stay: Graphviz is not here"; fi

# the shop, whole and broken, drawn by Graphviz
$(SHOP)/topology.svg: FORCE
	@sed 's/"orders\.#"/"orders.*.#"/' $(SHOP)/definitions.json > $(CHANGED)
	@python3 -m warrenctl draw $(SHOP)/definitions.json > $(SHOP)/topology.dot
	@python3 -m warrenctl draw $(SHOP)/definitions.json --svg $(SHOP)/topology.svg
	@"$(WARREN)" check $(CHANGED) $(SHOP)/guarantees.json > $(OUT)/verdicts; [ $$? -eq 1 ]
	@python3 -m warrenctl draw $(CHANGED) $(BROKEN) > $(SHOP)/broken.dot
	@python3 -m warrenctl draw $(CHANGED) $(BROKEN) --svg $(SHOP)/broken.svg

FORCE:

# each exit status, as the system has it: 0 to 4 (docs/OPERATIONS.md, "Statuses and messages")
statuses: warren
	@"$(WARREN)" check $(SHOP_FILES) > $(OUT)/verdicts; [ $$? -eq 0 ]
	@"$(WARREN)" check $(CASES_OF_FILES)/one_key.json crates/cases/data/guarantees/orders_to_audit.json > $(OUT)/verdicts; [ $$? -eq 1 ]
	@"$(WARREN)" check $(CASES_OF_FILES)/no_binding.json crates/cases/data/guarantees/long_to_q.json > $(OUT)/verdicts; [ $$? -eq 2 ]
	@"$(WARREN)" check $(SHOP)/guarantees.json $(SHOP)/guarantees.json > $(OUT)/verdicts 2> $(OUT)/refused; [ $$? -eq 3 ]
	@"$(WARREN)" check $(OUT)/nowhere.json $(SHOP)/guarantees.json > $(OUT)/verdicts 2> $(OUT)/refused; [ $$? -eq 4 ]

# the program that the gate leaves is the one that the later targets run
test: tools
	@python3 -m dev.gate
	@$(MAKE) -s statuses
	@$(MAKE) -s growth beside > $(OUT)/behind || { cat $(OUT)/behind; exit 1; }
