# GNU parallel, on this machine.
make -f simple.mk
parallel --joblog jobs.txt 'asancol-run -q --timeout 2 --json results/{/}.jsonl -- {}' \
    ::: ./split ./join ./child ./wait ./vendor
asancol-report --html report.html results/*.jsonl
