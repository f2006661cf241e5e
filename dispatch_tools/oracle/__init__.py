"""A second reading of the rules, and what is compared with it."""
