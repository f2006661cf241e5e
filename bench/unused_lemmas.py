"""This command has moved: `python3 -m dispatch_tools unused_lemmas` at the top of the repository, or `dispatch-tools unused_lemmas`."""
import sys

sys.exit("bench/unused_lemmas.py has moved: python3 -m dispatch_tools unused_lemmas, or dispatch-tools unused_lemmas")
