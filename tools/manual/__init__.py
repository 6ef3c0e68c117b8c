"""Man pages and completions, made from the help of the program and of its companions."""
