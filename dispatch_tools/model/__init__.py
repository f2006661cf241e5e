"""What a railway is: networks, rows, times, costs, decisions and their programme."""
