"""What the executables of tools/ stand on, each in a module of its name.

Whoever imports this finds the package `ragvismo` of the checkout too.
"""

import sys

from ragvismo_tools.places import TOP

if str(TOP / "python") not in sys.path:
    sys.path.append(str(TOP / "python"))
