# The programs, their man pages and their completion for bash, zsh and fish, under DESTDIR and PREFIX. There they start without a script.
#   make install          proves and builds first what isn't built yet; without the kit, or with CARGO=cargo, has cargo build it, of the erased text in rust/
#   make install-built    takes what stands in crates/*/out, as `rt ci` leaves it, or what cargo built
# With them comes examples/guard, as the program spav-guard, where `make -C capi` has built it.
PREFIX = /usr/local
bindir = $(PREFIX)/bin
mandir = $(PREFIX)/share/man
bashdir = $(PREFIX)/share/bash-completion/completions
# Debian's is $(PREFIX)/share/zsh/vendor-completions.
ZSHDIR = $(PREFIX)/share/zsh/site-functions
fishdir = $(PREFIX)/share/fish/vendor_completions.d
programs = podtool pod
guard = spav-guard
pages = dist/out/pages
# What builds them where `rt` doesn't.
CARGO ?= $(if $(shell command -v rt 2> /dev/null),,cargo)

ifeq ($(CARGO),)
built = $(foreach it,$(programs),crates/$(it)/out/$(it)) $(wildcard capi/out/$(guard))
install:
	for it in $(programs); do crates/podtool/renew $$it || exit; done
	$(MAKE) install-built
else
built = $(programs:%=rust/target/release/%) $(wildcard capi/out/$(guard))
install:
	@command -v $(CARGO) > /dev/null || { echo 'install: there is neither rt, the command of the Rattle kit, nor $(CARGO), which builds without it' >&2; exit 1; }
	$(CARGO) build --release --manifest-path rust/Cargo.toml --package spa-pod-cli --target-dir rust/target
	$(MAKE) install-built
endif

install-built:
	install -d $(addprefix $(DESTDIR),$(bindir) $(mandir)/man1 $(bashdir) $(ZSHDIR) $(fishdir))
	install $(built) $(DESTDIR)$(bindir)/
	dist/pages $(built) $(pages)
	install -m 644 $(patsubst %,$(pages)/man1/%.1,$(notdir $(built))) $(DESTDIR)$(mandir)/man1/
	install -m 644 $(patsubst %,$(pages)/bash/%,$(notdir $(built))) $(DESTDIR)$(bashdir)/
	install -m 644 $(patsubst %,$(pages)/zsh/_%,$(notdir $(built))) $(DESTDIR)$(ZSHDIR)/
	install -m 644 $(patsubst %,$(pages)/fish/%.fish,$(notdir $(built))) $(DESTDIR)$(fishdir)/

uninstall:
	for it in $(programs) $(guard); do rm -f $(DESTDIR)$(bindir)/$$it $(DESTDIR)$(mandir)/man1/$$it.1 $(DESTDIR)$(bashdir)/$$it \
		$(DESTDIR)$(ZSHDIR)/_$$it $(DESTDIR)$(fishdir)/$$it.fish; done

.PHONY: install install-built uninstall
