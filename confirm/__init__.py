"""Makes a reported race happen: builds a copy of the project with the two recipes held, and compares what comes out."""
