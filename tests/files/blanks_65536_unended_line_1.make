import sys
sys.stdout.write(" " * 65536 + "")
