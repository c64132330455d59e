"""The tools of this repository: each is a module, and `python3 -m house.believe` in this folder's
parent does what `tools/believe` does."""
