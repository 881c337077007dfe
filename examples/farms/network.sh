# A network for each test: the socket is a file, and is reached without one.
make -f simple.mk
for test in split join child wait vendor; do
    asancol-run -q --timeout 2 --json results/$test.jsonl -- unshare --map-root-user --net ./$test
    echo "$test $?" >> statuses.txt
done
asancol-report --html report.html results/*.jsonl
