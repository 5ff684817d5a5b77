# Builds the library for C and C++ and the programs, tests what it built, and installs it. It needs make and gcc or clang.
#
#     make            builds; bindings/Makefile, which does all of this, says what words it takes
#     make run        prints the root and the file hash of three chunks by the program xetroot
#     make check      tests in less than a minute, and ends with `N passed, 0 failed`
#     make install    installs below /usr/local, or where prefix= and DESTDIR= say
#     make clean      removes what was built
all run check install uninstall programs clean:
	@$(MAKE) -s --no-print-directory -C bindings $@ </dev/null

.PHONY: all run check install uninstall programs clean
