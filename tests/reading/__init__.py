"""The second reading of the rules: of files, claims and checks, apart from the crates, with a reader of its own."""
