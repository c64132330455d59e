"""A score as objects, and what is read of them: heights, words and phrases, sounds, edits."""
