# The one entry to this repository. `make help` lists what there is; README.md has the time that each takes.
# The kit's command `rt` must be on the path for most: README.md, 'What it needs'.

RT ?= rt
BENCH ?= as_exchange
FAULTS ?= refused_growths hostile login_faults downgrades lost_files accounts_tool listener_attacks kpasswdd_faults
PORT ?= 8888
PREFIX ?= /usr/local
# The limit of a run without proof: on a busy machine it takes several times its processor seconds.
TRY := $(RT) try --seconds 3600
CRATES := $(sort $(notdir $(patsubst %/src,%,$(wildcard crates/*/src))))
REALM := out/realm

.DEFAULT_GOAL := help
.PHONY: help try encodings test listener imports programs check gate faults settings build install uninstall run clients passwords move logins pkinit gss initiator services delegation bench plant fmt docs definitions budget crate-named kit-there port-free

help: ## list the targets
	@sed -n 's/^\([a-z]*\):[^#]*## /\1\t/p' Makefile | expand -t 14

try: kit-there ## run a recorded request, and logins by password and by certificate, without proof: some minutes
	cd crates/example_login && $(TRY) $(foreach file,$(notdir $(wildcard crates/example_login/data/*.pem crates/example_login/data/*.key)),--data $(file)=data/$(file)) </dev/null

encodings: kit-there ## read, change and write messages through picky_krb, and read a certificate, without proof: two minutes
	cd crates/example_encodings && $(TRY) --data certificate.der=data/certificate.der </dev/null

test: kit-there $(if $(CRATE),crate-named,listener imports programs) ## run every test and program without proof, or those of one crate: make test CRATE=test_encodings; slow rows too: ROWS=all
	RT="$(RT)" ROWS="$(ROWS)" tools/test $(CRATE)

listener: ## test krb_listen and krb_connect of bridges/, over stubs: a minute
	python3 -B bridges/test_krb_listen.py

imports: ## test examples/mit_accounts, which reads keytabs of MIT's realms: ten seconds
	python3 -B examples/test_mit_accounts.py

programs: ## test the start scripts, make install, make run and the manual pages over programs that are stubs: ten seconds
	python3 -B tools/test_programs.py

check: kit-there crate-named ## prove one crate and what it stands on: make check CRATE=krb_kdc_exchanges
	cd crates/$(CRATE) && $(RT) check

gate: kit-there ## prove what hasn't passed on this machine, try the wrong bodies, run each test and program
	$(RT) ci

faults: kit-there ## refuse memory to the built programs, fail them at system calls, and send them damage: make faults FAULTS=hostile (of faults/)
	for script in $(FAULTS); do faults/$$script.sh || exit 1; done

settings: kit-there ## say what is wrong with a settings file, without proof: make settings FILE=examples/settings.toml
	@test -f "$$FILE" || { echo "make: name a file, as in make settings FILE=examples/settings.toml" >&2; exit 2; }
	file=$$(realpath -- "$$FILE") && name=$$(basename -- "$$FILE") && cd crates/krb_realm_check && \
		$(TRY) --data "$$name=$$file" -- "$$name" </dev/null

build: ## prove and build the programs that are installed, or one, where they aren't built: make build PROGRAM=krb_login
	@RT="$(RT)" tools/build $(PROGRAM)

install: build ## install the programs, the bridges with their units, manual pages and documents: make install PREFIX=/usr/local DESTDIR=
	@tools/install "$(PREFIX)" "$(DESTDIR)"

uninstall: ## take away what make install installed: make uninstall PREFIX=/usr/local DESTDIR=
	@tools/install --remove "$(PREFIX)" "$(DESTDIR)"

run: port-free $(REALM)/accounts ## serve a realm to stock clients on 127.0.0.1 over TCP and UDP (PORT=8888); proves the programs first
	printf '%s\n' '[libdefaults]' 'default_realm = EXAMPLE.COM' 'dns_lookup_kdc = false' 'dns_canonicalize_hostname = false' \
		'[realms]' 'EXAMPLE.COM = {' 'kdc = 127.0.0.1:$(PORT)' '}' >$(REALM)/krb5.conf
	@RT="$(RT)" tools/build krb_accounts krb_kdcd
	./krb_accounts make $(REALM)/accounts $(REALM)/accounts.cdb
	@echo "Then, in another terminal: export KRB5_CONFIG='$(CURDIR)/$(REALM)/krb5.conf'; kinit user"
	bridges/krb_listen --listen 127.0.0.1:$(PORT) -- crates/krb_kdcd/out/krb_kdcd $(REALM)/accounts.cdb /dev/urandom --log

clients: ## log in to the realm with stock clients of MIT and Heimdal, step by step
	examples/real_clients.sh

passwords: ## change passwords at krb_kpasswdd with stock kpasswd of MIT and Heimdal, step by step
	examples/password_changes.sh

move: ## move a realm from MIT's krb5kdc to krb_kdcd, and log in there with stock clients, step by step
	examples/move_realm.sh

logins: ## log in with krb_login at MIT's krb5kdc and Heimdal's kdc, step by step
	examples/stock_kdcs.sh

pkinit: ## log in with krb_login by certificate at MIT's krb5kdc, step by step
	examples/certificate_logins.sh

gss: ## log in to the example acceptor with MIT's gss-client, step by step
	examples/gss_clients.sh

services: ## log in to sshd, Samba, OpenLDAP, PostgreSQL, Apache, Dovecot, SSSD and Java by tickets of krb_kdcd, as root, step by step
	examples/stock_services.sh

delegation: ## delegate logins to sshd and Apache by tickets of krb_kdcd, MIT's krb5kdc and Heimdal's kdc, as root, step by step
	examples/delegation.sh

initiator: ## log in with the example initiator at stock acceptors of MIT and Heimdal, and at Apache, step by step
	examples/gss_servers.sh

bench: ## time the program: make bench BENCH=as_exchange (a script of bench/)
	bench/$(BENCH).sh

plant: kit-there crate-named ## list wrong bodies that a crate's contracts let through: make plant CRATE=krb_kdc_exchanges
	cd crates/$(CRATE) && $(RT) plant

fmt: kit-there $(if $(CRATE),crate-named) ## lay out the files of each crate, or of one: make fmt CRATE=krb_kdc_exchanges
	for crate in $(or $(CRATE),$(CRATES)); do (cd crates/$$crate && $(RT) fmt) || exit 1; done

docs: ## check that the documents name what exists, that no number of a standard stands bare, and that written pages, identifiers and records are what their sources say
	tools/items.sh >/dev/null
	tools/docpaths
	tools/pages --check
	tools/numbers
	tools/oids --check
	tools/record --check
	python3 -B bench/gate.py --budget

definitions: ## print the definitions that contracts of public calls cite, each with its file: make definitions | less
	@tools/pages --definitions

budget: kit-there ## the gate in a clean clone, with its minutes crate by crate
	bench/gate.sh

crate-named:
	@test -n "$(CRATE)" || { echo "make: name a crate, as in make check CRATE=krb_kdc_exchanges" >&2; exit 2; }
	@test -d "crates/$(CRATE)/src" || { echo "make: there is no crate $(CRATE): crates.txt lists them" >&2; exit 2; }

kit-there:
	@tools/build --kit $(firstword $(RT))

port-free:
	@tools/free_port "$(PORT)"

$(REALM)/accounts: | examples/accounts
	mkdir -p $(REALM)
	install -m 600 examples/accounts $@
