"""The work on files: which are read, how they are written, settings, streams, processes,
signals."""
