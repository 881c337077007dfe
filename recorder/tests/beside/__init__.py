"""What suites.py is made of.

- `execute`: runs a program once, and notes its first report. The scripts of compiler-rt's tests run it, too.
- `compare`: the differences between two executions, and the omitted tests.
- `tables`: tests outside the claims, and known differences.
- `fetch`: the sources.
- `compiler_rt`, `gcc`, `units`: the suites.
"""
