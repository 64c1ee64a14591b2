# `make boot` builds the proved program, makes a machine in machine/, shows it and boots it twice; it prints what changed.
# `make install` puts the program, its manual and the completion of its words under PREFIX, and `make uninstall` takes them away.
# `make test` runs the gate.

PROGRAM := $(CURDIR)/crates/vboot_tool/out/vboot_tool

# Where the files are put; DESTDIR stands before it, as where a package is made.
PREFIX ?= /usr/local
BIN = $(DESTDIR)$(PREFIX)/bin/vboot_tool
MANUAL = $(DESTDIR)$(PREFIX)/share/man/man1/vboot_tool.1
COMPLETION = $(DESTDIR)$(PREFIX)/share/bash-completion/completions/vboot_tool

# The two pages of nvdata in the flash, and the firmware space.
NVDATA = od -An -v -tx1 -w16 -j 32768 -N 8192 flash.bin | grep -v '^\( ff\)*$$'
SPACES = od -An -v -tx1 -w16 tpm_fw.bin tpm_kernel.bin

.PHONY: boot program install uninstall test clean

boot: program
	rm -rf machine
	mkdir machine
	@cd machine && \
	run() { echo "$$ vboot_tool $$*"; $(PROGRAM) "$$@"; } && \
	run make 1 && run futility show flash && \
	echo 'nvdata and both spaces, before the first boot:' && { $(NVDATA); $(SPACES); } && \
	run boot && echo 'after it:' && { $(NVDATA); $(SPACES); } && \
	run boot && echo 'after the second:' && { $(NVDATA); $(SPACES); }

# The program is linked only where it is proved, and so is each crate that it stands on: the first build takes minutes, and a
# line tells each crate that was checked. Words that are no command make no file.
program:
	rt all check --jobs $$(nproc) 2>&1 | sed -un 's/^crate \([a-z_]*\): modules.*/checked: \1/p;s/^== .*/&/p'
	cd crates/vboot_tool && rt run -- words that are no command 2>&1 | tail -n 1 | grep -qx usage

install: program
	install -D -m 755 $(PROGRAM) $(BIN)
	install -D -m 644 docs/vboot_tool.1 $(MANUAL)
	install -D -m 644 examples/vboot_tool.bash $(COMPLETION)

uninstall:
	rm -f $(BIN) $(MANUAL) $(COMPLETION)

test:
	.ci/run

clean:
	rm -rf machine
