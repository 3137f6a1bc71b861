"""Other readers of keys and requests, and what they do with the vectors."""
