"""Tests of hippo-c: `python3 .ci/tools_tests.py -k hippo_c_tests` at the top of the repository."""
