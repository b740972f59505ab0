#!/usr/bin/env python3
"""plain.py [run | report | load N]: the plain program (the folder plain beside it). `run` reads a script on standard
input and prints the transcript that the program must print; `report` prints what the program must report of it; and
`load N` what it must print of the load that is made from N."""
import sys

sys.dont_write_bytecode = True
import plain

if __name__ == '__main__':
    sys.exit(plain.main(sys.argv[1:]))
