"""What make says and does: its words, its data base, the graph of one round, and its tasks."""
