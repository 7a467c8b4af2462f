"""What the tools know of the program's files: its documents, images, signers, scripts and reports."""
