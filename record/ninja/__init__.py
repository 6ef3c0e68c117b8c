"""What ninja says and does: its manifest, its log, and the statements that ran, as tasks."""
