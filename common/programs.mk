# What our own programs in C are built with, and nothing that comes into others': some of what they read is strangers'.
# A Makefile sets TOP and CFLAGS before.

HARDENED := -fPIE -fstack-protector-strong \
            $(if $(filter -O1 -O2 -O3 -Os -Og,$(CFLAGS)),-U_FORTIFY_SOURCE -D_FORTIFY_SOURCE=2)
HARDENED_LINK := -pie -Wl,-z,relro -Wl,-z,now

# No path of the tree stands in what is built: it is the same, byte for byte, wherever the tree lies.
ANYWHERE := -ffile-prefix-map=$(abspath $(TOP))=.
