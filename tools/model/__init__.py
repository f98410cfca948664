"""The definitions of docs/explanation/definitions.md as Python that can be run; docs/dev/model.md tells how to read and to run it."""
