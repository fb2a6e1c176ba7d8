"""The command `bivrang`, also `python3 -m bivrang`."""
from ._command import main

if __name__ == "__main__":
    main()
