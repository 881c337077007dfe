# GNU parallel over ssh, on the machines that the file `nodes` names. They share the folder.
make -f simple.mk
parallel --sshloginfile nodes --workdir . --joblog jobs.txt \
    'asancol-run -q --timeout 2 --json results/{/}.jsonl -- {}' ::: ./split ./join ./child ./wait ./vendor
asancol-report --html report.html results/*.jsonl
