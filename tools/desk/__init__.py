"""The desk: a club's requests in words, answered in words by the proved library."""
