"""An enclave that pages itself, emulated apart from the program: what the reports of the program are compared with."""
