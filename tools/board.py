"""This command has moved: `python3 -m dispatch_tools board` at the top of the repository, or `dispatch-tools board`."""
import sys

sys.exit("tools/board.py has moved: python3 -m dispatch_tools board, or dispatch-tools board")
