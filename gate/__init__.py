"""The tests and the merge gate of this repository: what `./test`, `.ci/*` and `tools/*` run."""
