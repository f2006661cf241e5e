"""Files, texts of runs, journals, GTFS and protobuf, read and written."""
