"""What is found in scores beside the compiler's messages: the table of codes, rules, helps,
repairs."""
