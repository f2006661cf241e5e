"""The tools around the dispatcher's server: what people call, what measures and tests it, and what these share."""
