# Builds, tests and installs the proved programs. `make` proves both first, which takes half an hour to an hour on four
# processors (docs/project/costs.md); README.md says how to get an answer before that.
PREFIX = /usr/local
BIN = $(DESTDIR)$(PREFIX)/bin
MAN = $(DESTDIR)$(PREFIX)/share/man/man1

.PHONY: all test install

# A call of a command that only the whole program has makes the wrapper build it, unless it is built already.
all:
	./autonet gen 1 1 > /dev/null
	./fabric route examples/fabric/updn-cycle/topology > /dev/null

test:
	.ci/run

install: all
	install -d $(BIN) $(MAN)
	install -m 755 out/autonet out/fabric $(BIN)
	install -m 644 docs/man/autonet.1 docs/man/fabric.1 $(MAN)
