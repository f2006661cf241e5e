"""What stands beside a live server."""
