# Installs the program, its man page and the scripts of the flow below PREFIX, and takes them away again. Nothing is built:
# bin/proud is the program as the gate has proved and built it.
#
#   make install PREFIX=$HOME/.local
#   make uninstall PREFIX=$HOME/.local

PREFIX ?= /usr/local
DESTDIR ?=
root = $(DESTDIR)$(PREFIX)
share = $(root)/share/proud
scripts = bookshelf.py lef.py netlist.py draw.py to_def.py compare.py place.sh
cells = cells.lef cells.lib
examples = uart.v uart.json cpu.v cpu.json
# Each script that is called as proud-NAME, and its file.
commands = netlist:netlist.py draw:draw.py to-def:to_def.py compare:compare.py place:place.sh

.PHONY: all install uninstall

all:
	@echo "make install PREFIX=..      puts proud, its man page and the flow there"
	@echo "make uninstall PREFIX=..    takes them away again"

install:
	mkdir -p "$(root)/bin" "$(root)/share/man/man1" "$(share)/flow/cells" "$(share)/flow/examples"
	install -m 755 bin/proud "$(root)/bin/proud"
	install -m 644 man/proud.1 "$(root)/share/man/man1/proud.1"
	for file in $(scripts); do install -m 755 "flow/$$file" "$(share)/flow/$$file" || exit; done
	for file in $(cells); do install -m 644 "flow/cells/$$file" "$(share)/flow/cells/$$file" || exit; done
	for file in $(examples); do install -m 644 "flow/examples/$$file" "$(share)/flow/examples/$$file" || exit; done
	for pair in $(commands); do ln -sf "../share/proud/flow/$${pair#*:}" "$(root)/bin/proud-$${pair%%:*}" || exit; done

uninstall:
	rm -f "$(root)/bin/proud" "$(root)/share/man/man1/proud.1"
	for pair in $(commands); do rm -f "$(root)/bin/proud-$${pair%%:*}" || exit; done
	for file in $(scripts); do rm -f "$(share)/flow/$$file" || exit; done
	for file in $(cells); do rm -f "$(share)/flow/cells/$$file" || exit; done
	for file in $(examples); do rm -f "$(share)/flow/examples/$$file" || exit; done
	rm -rf "$(share)/flow/__pycache__"
	-cd "$(root)" 2>/dev/null && rmdir share/proud/flow/cells share/proud/flow/examples share/proud/flow share/proud share/man/man1 share/man share 2>/dev/null || true
