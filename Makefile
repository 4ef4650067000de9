# Proves and builds the office by bin/office-build, tries it, installs it with what belongs to it,
# and packs it:
#
#     make
#     make check
#     make install [PREFIX=/usr/local] [DESTDIR=]
#     make deb
PREFIX = /usr/local
DESTDIR =
OFFICED = crates/officed/out/officed
VERSION := $(shell cat VERSION)

bin = $(DESTDIR)$(PREFIX)/bin
unit = $(DESTDIR)$(PREFIX)/lib/systemd/system
man = $(DESTDIR)$(PREFIX)/share/man/man8
doc = $(DESTDIR)$(PREFIX)/share/doc/officed
data = $(DESTDIR)$(PREFIX)/share/officed
completions = $(DESTDIR)$(PREFIX)/share/bash-completion/completions
pages = docs/OPERATING.md docs/MESSAGES.md docs/CLERK_API.md docs/openapi.json docs/SIZING.md \
	docs/ALARMS.md docs/UPGRADING.md docs/PAST_ONE_MACHINE.md docs/COMPARISON.md CHANGELOG.md \
	packaging/nginx.conf packaging/prometheus-rules.yml packaging/grafana-dashboard.json
example = examples/first-office
helpers = office-all office-clerk office-copy office-counts office-desk office-modem office-sql \
	office-unit office-watch
units = officed.service officed-counts.service officed-copy.service officed-copy.timer
# What the text of units and pages has in place of these.
filled = sed 's|/usr/local|$(PREFIX)|g; s|@VERSION@|$(VERSION)|g'

build:
	@bin/office-build proved

check:
	@tests/check

deb:
	@packaging/make-deb

install:
	@test -x $(OFFICED) || { echo "make install: there is no $(OFFICED): make it first" >&2; exit 1; }
	install -d $(bin) $(unit) $(man) $(doc) $(data) $(completions)
	install -m 755 $(OFFICED) $(bin)/officed
	install -m 755 $(helpers:%=bin/%) $(bin)
	install -m 644 VERSION docs/MESSAGES.md $(data)
	for each in $(units); do \
	    $(filled) packaging/$$each >$(unit)/$$each && chmod 644 $(unit)/$$each || exit 1; done
	$(filled) packaging/officed.8 >$(man)/officed.8
	for each in $(helpers); do \
	    packaging/man-page bin/$$each >$(man)/$$each.8 || exit 1; done
	chmod 644 $(man)/officed.8 $(helpers:%=$(man)/%.8)
	install -m 644 packaging/completion.bash $(completions)/officed
	for each in $(helpers); do ln -sf officed $(completions)/$$each; done
	packaging/pages $(doc) $(pages)
	install -m 644 LICENSE NOTICE $(doc)
	install -d $(doc)/first-office
	install -m 644 $(example)/*.json $(doc)/first-office
	install -m 755 $(example)/set-up $(doc)/first-office

uninstall:
	rm -f $(bin)/officed $(helpers:%=$(bin)/%)
	rm -f $(units:%=$(unit)/%) $(man)/officed.8 $(helpers:%=$(man)/%.8)
	rm -f $(completions)/officed $(helpers:%=$(completions)/%)
	rm -rf $(doc) $(data)

.PHONY: build check deb install uninstall
