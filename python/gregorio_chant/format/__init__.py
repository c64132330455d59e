"""The formatter: it lays a score out anew, and judges that it stays the score that it was."""
