"""What command lines say, and the texts of scripts that they name."""
