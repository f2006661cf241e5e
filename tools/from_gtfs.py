"""This command has moved: `python3 -m dispatch_tools from_gtfs` at the top of the repository, or `dispatch-tools from_gtfs`."""
import sys

sys.exit("tools/from_gtfs.py has moved: python3 -m dispatch_tools from_gtfs, or dispatch-tools from_gtfs")
