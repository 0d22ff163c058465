"""What `make oracle` runs: random cases, which the crates and the second reading of the rules have to answer alike."""
