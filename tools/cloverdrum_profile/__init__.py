"""The parts of tools/profile. "Document 01" is the specification that the project follows."""
