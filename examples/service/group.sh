# Lets a group of users connect. As root.
mkdir -p /etc/systemd/system/asancol.socket.d
printf '[Socket]\nSocketGroup=users\n' > /etc/systemd/system/asancol.socket.d/group.conf
systemctl daemon-reload
systemctl restart asancol.socket
