"""What an operator needs beside the broker warren, as one command: `python3 -m warrenctl COMMAND`, or the file that `make warrenctl` makes."""

VERSION = "0.1.0"
