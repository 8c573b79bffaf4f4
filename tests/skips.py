"""Parts of the tests that are left out where a tool isn't there. Where the variable CI is set nothing may be left
out."""
import os
import sys


def skip(text):
    """Says what is left out; in the gate that ends the tests of this script."""
    print(text)
    if os.environ.get("CI"):
        print("where CI is set nothing may be skipped")
        sys.exit(1)
