"""Where the tests find what they try. Whoever imports this can import the modules of the tools for maintainers."""
import pathlib
import sys

TOP = pathlib.Path(__file__).resolve().parents[2]
TOOLS = TOP / "tools" / "gachuswi_tools"
PAGE = (TOP / "docs" / "MAINTAINERS.md").read_text()
EXAMPLES = TOP / "examples"
# a compose, and the next one
COMPOSE, NEXT = (TOP / "docs" / "maintainers" / name for name in ("compose.repo", "next.repo"))

sys.path.insert(0, str(TOOLS))
