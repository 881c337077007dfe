# A sandbox that reaches nothing: each process leaves its trace in a folder.
make -f simple.mk
mkdir -p traces
for test in split join child wait vendor; do
    timeout --signal=KILL 2 bwrap --ro-bind / / --dev /dev --proc /proc --tmpfs /tmp --unshare-all --die-with-parent \
        --ro-bind "$PWD" "$PWD" --bind "$PWD/traces" "$PWD/traces" \
        --setenv ASANCOL_TRACE "$PWD/traces/$test.%p.trace" --setenv ASANCOL_WHERE 1 \
        --setenv ASANCOL_LEAKS 1 ./$test
    ran=$?
    asancol-report --quiet --json results/$test.jsonl --trace traces/$test.*.trace
    echo "$test $ran $?" >> statuses.txt
done
asancol-report --html report.html results/*.jsonl
