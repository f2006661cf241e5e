"""What measures the program and tries it hard."""
