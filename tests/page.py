"""The committed page is made from the sources as they stand."""
import pathlib
import sys

TOP = pathlib.Path(__file__).resolve().parent.parent
sys.path.insert(0, str(TOP / "bindings" / "web"))
import sources  # noqa: E402


def case_the_page_is_made_from_the_sources_as_they_stand(_program):
    others = sources.differing((TOP / "bindings" / "web" / "taprio.html").read_text(encoding="utf-8"))
    assert not others, f"bindings/web/taprio.html is older than {', '.join(others)}: bindings/web/build makes it anew"
