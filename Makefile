# The program ftmb, and what to do with it.

# The command of the kit that proves and builds.
RT ?= rt

# Where the programs go, and all else: PREFIX/bin and PREFIX/share. DESTDIR stands in front where a package is made.
PREFIX ?= /usr/local
BIN = $(PREFIX)/bin
SHARE = $(PREFIX)/share

SOURCES := crates.txt scripts/build $(shell find crates -name out -prune -o -type f -print)

.PHONY: all try first test plants promises manual example bench plots pictures soak interop peers install clean distclean

# The program, proved and built.
all: build/ftmb

# All crates that the program stands on are proved, side by side, and its stored run is run. What is said goes to build/proof.log.
build/ftmb: $(SOURCES)
	scripts/build $(RT) ftmb

# The benchmark likewise.
build/bench: $(SOURCES)
	scripts/build $(RT) bench

# The program compiled by the kit's unproved run, in two to three minutes: nothing is proved.
build/unproved/ftmb: $(SOURCES) scripts/unproved
	scripts/unproved $(RT) build/unproved

# The example with it.
try: build/unproved/ftmb
	scripts/try build/unproved/ftmb build/try

# The first minute of README with it: the NAT of examples/ is drilled.
first: build/unproved/ftmb
	scripts/first build/unproved/ftmb build/first

# Every proof, edit that must fail, test and stored run.
test:
	$(RT) ci

# Tries the wrong bodies of plants, in a copy, and writes into docs/PLANTS.md what refuses each; no part of the gate.
plants:
	scripts/plants $(RT) --all

# Compares docs/PROMISES.md, with each answer of each public call, with the calls and the clauses of the sources; no part of the gate.
promises:
	scripts/promises

# Runs a box on a packet, the one of the program's stored run, and checks what it wrote; and runs a box on two threads by a script of single
# events, and the NAT on packets of two hosts. Shows what was written. Last, the NAT crashes when a host's first packet has left: both its
# packets are to have left from one port. And two threads of the monitor race, with a crash between their rounds. Another middlebox is judged.
# At the end the NAT is drilled: a crash behind each packet of the two hosts. And it is handed over between two packets of one host. A NAT that
# looks through VLAN tags has frames with one tag, with two, and with none.
example: build/ftmb
	scripts/example build/ftmb build/example $(addprefix crates/ftmb/data/,box capture script)
	scripts/example_check build/ftmb build/example
	scripts/example build/ftmb build/example/two_threads $(addprefix crates/ftmb_runs/data/,box_two_threads capture_two_packets script_two_threads)
	scripts/example build/ftmb build/example/nat $(addprefix crates/ftmb_runs/data/,box_nat capture_two_hosts script_nat)
	scripts/example build/ftmb build/example/nat_crash $(addprefix crates/ftmb_runs/data/,box_nat_crash capture_one_host script_nat_crash)
	scripts/example_port build/ftmb build/example/nat_crash
	scripts/example_live build/ftmb build/example/live $(addprefix crates/ftmb_runs/data/,box_monitor_two_threads capture_two_packets)
	scripts/example_other build/ftmb build/example/other
	scripts/example_drill build/ftmb build/example/drill $(addprefix crates/ftmb_runs/data/,box_nat capture_two_hosts)
	scripts/example_hand build/ftmb build/example/hand $(addprefix crates/ftmb_runs/data/,box_nat_crash capture_one_host)
	scripts/example build/ftmb build/example/vlan $(addprefix crates/ftmb_runs/data/,box_vlan_nat capture_vlan_nat script_nat)

# The bytes summed and the packets rewritten in a second; the packets made and run in a second; the moves that a master makes in a
# second, beside those of the plain player; the frames written and read, the log entries held, the outputs released, the touches that
# threads make under numbered locks, beside those of a master alone, the lines of a script read, and the packets settled and the events
# performed by the recovering system. And the program at each of its limits, and one past it.
bench: build/ftmb build/bench
	scripts/bench build/bench
	scripts/bench_run build/ftmb build/bench build/measured >build/figures; status=$$?; cat build/figures; exit $$status
	scripts/limits build/ftmb build/limits

# Draws what `make bench` printed of the program's speed beside its peers', and how long a replay is and how much memory a run takes by the
# packets between two snapshots, into docs/pictures.
plots: build/ftmb
	scripts/plots build/ftmb build/figures build/plots docs/pictures

# Draws the pictures of README, EXAMPLES and RECOVERY into docs/pictures.
pictures: build/ftmb
	scripts/pictures build/ftmb build/pictures docs/pictures

# Random scripts with crashes from 2,000 seeds, each performed twice and accepted by the check; 500 plans of racing threads, each run again by
# the script that it wrote; runs of which each request for memory is refused in turn; and runs in which reads and writes fail, disks are full,
# pipes are closed, inputs shrink, and signals come.
soak: build/ftmb
	scripts/soak build/ftmb build/soak
	scripts/soak_live build/ftmb build/soak_live
	scripts/soak_memory build/ftmb build/soak_memory
	scripts/soak_faults build/ftmb build/soak_faults

# Runs the program so that it ends with each of its statuses, and compares what it tells. Runs it on captures in all four forms and on
# pcapng captures, and has tcpdump and Wireshark's tools read what was released; and has tshark verify the checksums of generated packets,
# and of those that four racing threads sent through the NAT. Runs the NAT on 32,700 short connections, and has it
# pass on what path MTU discovery needs. Types the first minute of README and what ftmb-run takes, and compares what comes back. Chromium draws
# the pictures, where it is installed.
interop: build/ftmb
	scripts/statuses build/ftmb build/statuses
	scripts/typed build/ftmb build/typed
	scripts/interop build/ftmb build/interop
	scripts/connections build/ftmb build/connections
	scripts/path_mtu build/ftmb build/path_mtu
	scripts/browser build/ftmb build/browser

# Judges Linux's own NAT in network namespaces, where it may (root, nft).
peers: build/ftmb
	scripts/peers build/ftmb build/peers

# The manual page, README and the help, compared with the tables of the code; and the pages, where mandoc is there to read them.
manual:
	scripts/manual
	if command -v mandoc >/dev/null; then mandoc -Tlint -Wwarning docs/ftmb.1 docs/ftmb-run.1; fi

# The program, its wrapper, their manual pages, the documents and examples that these name, and completions for bash and zsh.
install: build/ftmb
	install -d $(DESTDIR)$(BIN) $(DESTDIR)$(SHARE)/man/man1 $(DESTDIR)$(SHARE)/doc/ftmb/examples
	install -d $(DESTDIR)$(SHARE)/bash-completion/completions $(DESTDIR)$(SHARE)/zsh/site-functions
	install -m 755 build/ftmb scripts/ftmb-run $(DESTDIR)$(BIN)
	install -m 644 docs/ftmb.1 docs/ftmb-run.1 $(DESTDIR)$(SHARE)/man/man1
	install -m 644 docs/REPORT.md docs/CHECKING.md docs/GLOSSARY.md $(DESTDIR)$(SHARE)/doc/ftmb
	install -m 644 examples/README.md examples/nat.box examples/crash.script examples/two_hosts.pcap $(DESTDIR)$(SHARE)/doc/ftmb/examples
	for name in ftmb ftmb-run; do \
		scripts/completions bash $$name >$(DESTDIR)$(SHARE)/bash-completion/completions/$$name && \
		scripts/completions zsh $$name >$(DESTDIR)$(SHARE)/zsh/site-functions/_$$name || exit 1; \
	done

clean:
	rm -rf build

# Also what the kit left in the folders of crates. What it keeps beside itself stays.
distclean: clean
	rm -rf crates/*/out
