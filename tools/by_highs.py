"""This command has moved: `python3 -m dispatch_tools by_highs` at the top of the repository, or `dispatch-tools by_highs`."""
import sys

sys.exit("tools/by_highs.py has moved: python3 -m dispatch_tools by_highs, or dispatch-tools by_highs")
