"""The page of `gregorio-chant page`: a score that is written in a browser, and what is made of
it."""
