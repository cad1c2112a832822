"""What the scripts of the SDK are called by."""
import os
import sys


def name_of(script):
    """The name under bin where the script is installed and was called by it, else that in the repository."""
    name = os.path.basename(sys.argv[0])
    return name if name == f"discount-{script}" else f"sdk/{script}"
