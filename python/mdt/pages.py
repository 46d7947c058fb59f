"""Pages of pictures: all pictures of a report one below the other, and a session frame by frame. Each page is one file
of HTML that loads nothing."""
from __future__ import annotations

from typing import Iterable, Iterator
from xml.sax.saxutils import escape

_STYLE = """
body { font-family: sans-serif; margin: 1em; color: #222222; }
svg { max-width: 100%; height: auto; }
figure { margin: 0 0 2em; }
figcaption, #told { font-family: monospace; padding: 0.4em 0; overflow-wrap: anywhere; }
.frame { display: none; }
.frame.now { display: block; }
button { font-size: 1em; margin-right: 0.3em; }
"""

_SCRIPT = """
const frames = [...document.querySelectorAll(".frame")];
let now = 0;
function show(number) {
  now = Math.max(0, Math.min(frames.length - 1, number));
  frames.forEach((frame, i) => frame.classList.toggle("now", i === now));
  document.getElementById("place").textContent = (now + 1) + " of " + frames.length;
  history.replaceState(null, "", "#" + (now + 1));
}
const all = frames.length;
const steps = {ArrowRight: 1, ArrowLeft: -1, " ": 1, PageDown: 10, PageUp: -10, Home: -all, End: all};
document.addEventListener("keydown", (event) => {
  if (event.key in steps) {
    event.preventDefault();
    show(now + steps[event.key]);
  }
});
for (const button of document.querySelectorAll("button")) {
  button.addEventListener("click", () => { show(now + steps[button.dataset.key]); button.blur(); });
}
show((parseInt(location.hash.slice(1), 10) || 1) - 1);
"""

_BUTTONS = "".join('<button data-key="%s">%s</button>' % pair for pair in (
    ("Home", "first"), ("ArrowLeft", "back"), ("ArrowRight", "on"), ("End", "last")))


def _head(title: str) -> str:
    return ('<!DOCTYPE html>\n<html lang="en"><head><meta charset="utf-8"><title>%s</title><style>%s</style></head>'
            "<body>\n" % (escape(title), _STYLE))


def all_page(title: str, figures: Iterable[tuple[str, str]]) -> Iterator[str]:
    """The parts of a page of figures: pairs of a caption and an SVG picture."""
    yield _head(title)
    for caption, svg in figures:
        yield "<figure><figcaption>%s</figcaption>%s</figure>\n" % (escape(caption), svg)
    yield "</body></html>\n"


def session_page(title: str, frames: Iterable[tuple[str, str]]) -> Iterator[str]:
    """The parts of a page that shows one frame at a time: pairs of a caption and an SVG picture. Its keys are the
    arrows, space, Home, End and the page keys; `#7` behind its address begins with the seventh frame."""
    yield _head(title)
    yield '<p>%s <span id="place"></span></p>\n' % _BUTTONS
    for caption, svg in frames:
        yield '<figure class="frame"><figcaption>%s</figcaption>%s</figure>\n' % (escape(caption), svg)
    yield "<script>%s</script></body></html>\n" % _SCRIPT
