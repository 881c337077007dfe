# bubblewrap, with nothing shared but the folder of the socket.
make -f simple.mk
mkdir -p sockets
for test in split join child wait vendor; do
    TMPDIR=$PWD/sockets asancol-run -q --timeout 2 --json results/$test.jsonl -- \
        bwrap --ro-bind / / --dev /dev --proc /proc --tmpfs /tmp --unshare-all --die-with-parent \
        --ro-bind "$PWD" "$PWD" --bind "$PWD/sockets" "$PWD/sockets" ./$test
    echo "$test $?" >> statuses.txt
done
asancol-report --html report.html results/*.jsonl
