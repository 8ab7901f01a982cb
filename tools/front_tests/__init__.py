"""Parts of test_front_end.py."""
