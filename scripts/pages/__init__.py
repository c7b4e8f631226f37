"""What the pages have that is made from the sources or from results/: tables, and the words that are counted."""
