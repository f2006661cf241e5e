"""This command has moved: `python3 -m dispatch_tools gtfs_rt_out` at the top of the repository, or `dispatch-tools gtfs_rt_out`."""
import sys

sys.exit("tools/gtfs_rt_out.py has moved: python3 -m dispatch_tools gtfs_rt_out, or dispatch-tools gtfs_rt_out")
