#!/usr/bin/env python3
"""The former name of the client. It will go with the next release: use the package `gadzilk_client` and its command `bayeux`."""
import os
import sys

sys.path.insert(0, os.path.join(os.path.dirname(os.path.realpath(__file__)), "src"))
from gadzilk_client import Client  # noqa: E402, F401
from gadzilk_client import Rejected as Refused  # noqa: E402, F401
from gadzilk_client.__main__ import main  # noqa: E402

if __name__ == "__main__":
    sys.exit(main())
