"""Pictures of scores, as singers read them: what the library draws, and what pages need of it. How
a picture looks is tested, not proved."""
