"""The command-line tools spanbase-find, -formula, -versions, -fasta, -replace, -follow and -shards."""
