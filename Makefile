# make install PREFIX=/usr/local   the proved program, the commands beside it, manual pages and completions
# make uninstall PREFIX=/usr/local
# make check                       what can be tried without a proof
# Nothing is built: what is installed is the program that bin/pse52 runs (bin/pse52 --prove makes one where there is none).
PREFIX = /usr/local
DESTDIR =

all:
	@echo 'Nothing is to be built: make install PREFIX=/usr/local, or make check'

check:
	bash tools/check_tools.sh
	bash tools/check_tools.sh lab
	python3 tools/documents.py
	bash tools/check_commands.sh

install:
	sh tools/install.sh "$(DESTDIR)" "$(PREFIX)"

uninstall:
	sh tools/install.sh --remove "$(DESTDIR)" "$(PREFIX)"

.PHONY: all check install uninstall
