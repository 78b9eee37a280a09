"""What the pictures share: colours for a light and a dark page, and the parts of an SVG."""
from html import escape

LIGHT = {"page": "#ffffff", "ink": "#1f2328", "faint": "#59636e", "no": "#c62828"}
DARK = {"page": "#0d1117", "ink": "#e6edf3", "faint": "#a3abb4", "no": "#ff7b72"}
COLOURS = {"blue": "#6ea8fe", "white": "#ffffff", "gray": "#9aa4af", "black": "#14171a"}
MEANING = {"blue": "free", "white": "not reached", "gray": "reached, not all fields read",
           "black": "reached, all fields read"}
LETTERS = {"blue": "f", "white": "w", "gray": "g", "black": "b"}
LINE, DOT = "#848d97", "#e5534b"
LETTER = 6.7


def style(light, dark, more):
    """The rules of a picture: its own fills by the page, beside those of all, and more rules."""
    def rules(palette):
        return "".join(f" .{name} {{ fill: {colour}; }}" for name, colour in palette.items())

    return (f"text {{ font: 11px Menlo, Consolas, 'DejaVu Sans Mono', monospace; }}\n"
            f".name {{ font-weight: bold; }} .title {{ font-weight: bold; font-size: 14px; }}\n"
            f".onlight {{ fill: #14171a; }} .onblack {{ fill: #ffffff; }} .dot {{ fill: {DOT}; }}\n"
            f"{rules({**LIGHT, **light})}\n{rules(COLOURS)}\n"
            f"@media (prefers-color-scheme: dark) {{{rules({**DARK, **dark})} }}\n"
            f".box {{ stroke: {LINE}; stroke-width: .6; }}\n{more}")


def rect(x, y, wide, high, kind, title=""):
    inside = f"<title>{escape(title)}</title>" if title else ""
    return (f'<rect x="{x:g}" y="{y:g}" width="{wide:g}" height="{high:g}" class="{kind}">'
            f"{inside}</rect>")


def text(x, y, words, kind="ink", upright=False):
    turn = f' transform="rotate(-90 {x:g} {y:g})"' if upright else ""
    return f'<text x="{x:g}" y="{y:g}" class="{kind}"{turn}>{escape(words)}</text>'


def dot(x, y):
    return f'<circle cx="{x:g}" cy="{y:g}" r="2.6" class="dot"/>'


def letter(x, y, colour):
    """A colour's letter in a mark of it, so that the picture says it without colours too."""
    return text(x, y, LETTERS[colour], "onblack" if colour == "black" else "onlight")


def title(name):
    """What stands above a picture: the name of the file that it is of, as words."""
    words = name.replace("_", " ")
    return words[:1].upper() + words[1:]


def colours(y, found, silent=()):
    """The entries of a legend for those colours that are found, the same in every picture. Marks of
    the silent ones have no letter."""
    def mark(colour):
        def drawn(x):
            box = rect(x, y, 13, 13, f"box {colour}")
            return box if colour in silent else box + letter(x + 3, y + 10, colour)
        return drawn

    return [(mark(colour), f"{colour}: {words}", "faint") for colour, words in MEANING.items()
            if colour in found]


def wide_of(entries):
    """How wide a legend of these entries is."""
    return sum(19 + LETTER * len(words) + 18 for _, words, _ in entries)


def legend(x, y, entries):
    """Marks in a row, each with its words: what draws the mark at an x, the words, their kind."""
    parts = []
    for mark, words, kind in entries:
        parts += [*([mark(x)] if mark else []), text(x + 19, y + 11, words, kind)]
        x += 19 + LETTER * len(words) + 18
    return parts


def svg(wide, high, name, rules, parts):
    size = f'viewBox="0 0 {wide:g} {high:g}" width="{wide:g}" height="{high:g}"'
    return "\n".join([f'<svg xmlns="http://www.w3.org/2000/svg" {size} role="img">',
                      f"<title>{escape(name)}</title>", f"<style>{rules}</style>",
                      rect(0, 0, wide, high, "page"), *parts, "</svg>", ""])
