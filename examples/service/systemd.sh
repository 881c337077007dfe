# Starts the service by systemd, records a program, and shows what came of it. As root.
systemctl enable --now asancol.socket
ASANCOL_SOCKET=/run/asancol.sock ./program
journalctl --identifier asancol --output with-unit
