"""Lines of the program that several parts look for."""

OUT_OF_MEMORY = b"epx: fault 1: out of memory\n"
CAN_NOT_WRITE = b"epx: fault 8: the answer can not be written\n"
