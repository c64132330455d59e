"""Tables over many scores: what is searched, an index, and totals."""
