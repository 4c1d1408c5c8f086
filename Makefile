# make              proves and builds the tool, and the program sequences beside it, and prints their sums
# make install      puts the tool into PREFIX/bin (PREFIX=/usr/local where it is not given)
# make uninstall    takes it away again
PREFIX ?= /usr/local
bin = $(DESTDIR)$(PREFIX)/bin
lib = $(DESTDIR)$(PREFIX)/lib/parchfennel
tool = target/tool/parchfennel
# what rt has made of the crates, their out/, is none
sources = KIT crates.txt host/build-tool $(shell find crates -name out -prune -o -type f -print)

all: $(tool)

$(tool): $(sources)
	host/build-tool

# Where the machine is not x86-64, host/parchfennel is installed too: it starts the tool under QEMU.
install: $(tool)
ifeq ($(shell uname -m),x86_64)
	install -D -m 755 $(tool) "$(bin)/parchfennel"
	sha256sum "$(bin)/parchfennel"
else
	install -D -m 755 $(tool) "$(lib)/parchfennel"
	install -D -m 755 host/parchfennel "$(bin)/parchfennel"
	sha256sum "$(lib)/parchfennel"
endif

uninstall:
	rm -f "$(bin)/parchfennel" "$(lib)/parchfennel"
	[ ! -d "$(lib)" ] || rmdir "$(lib)"

.PHONY: all install uninstall
