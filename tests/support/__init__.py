"""What several parts use: where the programs are, how they are run, and how tests are played."""
