# Serves a socket without systemd, records a program, and shows what came of it.
mkdir -p results
asancol-listen asancol.sock results asancol check --live --memory 536870912 - &
server=$!
while [ ! -e asancol.sock ] && kill -0 $server; do sleep 0.1; done
ASANCOL_SOCKET=asancol.sock ./program
kill $server
wait $server
grep -H . results/*
