import sys
sys.stdout.write(" " * 65537 + "\n")
