"""Runs the page: `python3 -m cqld.page`."""
import sys

from .command import main

sys.exit(main())
