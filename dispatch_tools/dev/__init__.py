"""What those use who change the project: the program that is built here, and the test without proofs."""
