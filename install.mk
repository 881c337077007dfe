# How manual pages and completions are installed, by each of the Makefiles. They set TOP to this folder.

VERSION := $(file < $(TOP)/VERSION)
ROOT := $(DESTDIR)$(PREFIX)

# Where zsh looks depends on who installs: a Debian package has a folder for itself.
ZSH_FUNCTIONS ?= $(PREFIX)/share/zsh/site-functions

# $(call install-page,PAGE): with the release in its foot.
define install-page
install -d $(ROOT)/share/man/man$(subst .,,$(suffix $1))
sed 's/^\.Os asancol$$/& $(VERSION)/' $1 > $(ROOT)/share/man/man$(subst .,,$(suffix $1))/$(notdir $1)
chmod 644 $(ROOT)/share/man/man$(subst .,,$(suffix $1))/$(notdir $1)
endef

# Between the recipes that a loop makes.
define newline


endef

# $(call completions-of,PROGRAM): where its completions are installed.
completions-of = $(ROOT)/share/bash-completion/completions/$1 $(DESTDIR)$(ZSH_FUNCTIONS)/_$1 \
                 $(ROOT)/share/fish/vendor_completions.d/$1.fish

# $(call install-completions,FOLDER,PROGRAM)
define install-completions
install -D -m 644 $1/$2.bash $(ROOT)/share/bash-completion/completions/$2
install -D -m 644 $1/$2.zsh $(DESTDIR)$(ZSH_FUNCTIONS)/_$2
install -D -m 644 $1/$2.fish $(ROOT)/share/fish/vendor_completions.d/$2.fish
endef
