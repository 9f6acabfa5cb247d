"""The faults of a page by the boxes of its drawings' own texts, for tools/page_check where there is no browser.

The lengths are those of style.rt in crates/hdr_page/src. A letter is as wide as in Arial, which most of the style's fonts have
nearly the widths of; a mark that combines adds nothing to the width, and a third of a line to the height. A name at a curve's end is
in a box that reaches to the right side of its drawing, where a browser cuts it.
"""
import html.parser
import re
import typing
import unicodedata

SIZE, ASCENT, DESCENT = 12, 0.905, 0.212
BASELINE = 11.5
NARROW = 700
WIDTHS = {**dict.fromkeys("0123456789_aebdghnopqu$?L\u00b5", 0.556), **dict.fromkeys("ijl'|", 0.222), **dict.fromkeys(" .,:;/!tfI[]\u00a0\\", 0.278),
          **dict.fromkeys("r()-\u2010`{}", 0.333), **dict.fromkeys("cksvxyzJ", 0.5), **dict.fromkeys("mM", 0.833), **dict.fromkeys("wCDHNRU", 0.722),
          **dict.fromkeys("ABEKPSVXY&", 0.667), **dict.fromkeys("GOQ", 0.778), **dict.fromkeys("%\u2026", 1), **dict.fromkeys("<>=+~", 0.584), "W": 0.944}


class Path(typing.NamedTuple):
    """A path: the box of its coordinates, how far that is below the upper side of the drawing, its class and that of its figure."""

    field: list
    above: float
    d: str
    kind: str
    figure: str


class Texts(html.parser.HTMLParser):
    """The drawings of a page: each has its class, its height, its width at the right for names, and its texts and coordinates."""

    def __init__(self):
        super().__init__()
        self.drawings, self.open, self.field, self.text, self.skip, self.above, self.figure = [], 0, None, None, None, 0, ""

    def handle_starttag(self, tag, attrs):
        attrs = {name: value or "" for name, value in attrs}
        if tag == "figure":
            self.figure = attrs.get("class", "")
        if tag == "svg" and (self.open or attrs.get("class", "").startswith("d ")):
            if not self.open:
                right = re.search(r"--r:(\d+)px", attrs.get("style", ""))
                self.drawings.append({"class": attrs["class"], "height": float(attrs["height"]), "right": float(right[1]) if right else 0,
                                      "texts": [], "paths": []})
            self.field, self.above = [float(part) for part in attrs.get("viewbox", "").split()], float(attrs.get("y", 0))
            self.open += 1
        elif self.open and tag in ("title", "desc"):
            self.skip = tag
        elif self.open and tag == "text":
            self.text = {**attrs, "parts": []}
        elif self.open and tag == "foreignobject":
            self.text = {"x": "100%", "dx": "6", "y": self.above + float(attrs["y"]) + BASELINE, "is_cut": True, "parts": []}
        elif tag == "div" and self.text and attrs.get("class") == "o":
            self.text["dx"] = "21"
        elif self.open and tag == "path":
            self.drawings[-1]["paths"].append(Path(self.field, self.above, attrs.get("d", ""), attrs.get("class", ""), self.figure))
        elif self.open and tag == "rect" and attrs.get("x", "").endswith("%"):
            left, wide, top, high = (float(attrs[name].rstrip("%")) for name in ("x", "width", "y", "height"))
            field, outline = [0, 0, 100, self.drawings[-1]["height"]], f"M{left} {top}H{left + wide}V{top + high}H{left}Z"
            self.drawings[-1]["paths"].append(Path(field, 0, outline, attrs.get("class", ""), self.figure))

    def handle_endtag(self, tag):
        if tag == self.skip:
            self.skip = None
        elif tag in ("text", "foreignobject") and self.text:
            self.drawings[-1]["texts"].append(self.text)
            self.text = None
        elif tag == "svg" and self.open:
            self.open -= 1

    def handle_data(self, data):
        if self.text is not None and not self.skip:
            self.text["parts"].append(data)


def width_of(text):
    """The width of a text in pixels, and how many marks stand on one of its letters at most."""
    width, marks, most = 0, 0, 0
    for letter in text:
        is_mark = unicodedata.category(letter) in ("Mn", "Me", "Mc")
        marks = marks + 1 if is_mark else 0
        most = max(most, marks)
        if not is_mark:
            is_wide = unicodedata.east_asian_width(letter) in "WF"
            width += SIZE * (1 if is_wide else WIDTHS.get(letter, 0.611))
    return width, most


def inner_width(drawing, width, page_width):
    """The width of the part of a drawing that has its curves."""
    right = 56 if "tag" in drawing["class"] else min(drawing["right"], 92) if page_width <= NARROW else drawing["right"]
    return width - 60 - right


def boxes(drawing, left, width, page_width):
    """The boxes of the texts that are drawn, with their texts and classes, in pixels of the page and of the drawing."""
    is_narrow = page_width <= NARROW
    inner = inner_width(drawing, width, page_width)
    for text in drawing["texts"]:
        classes = text.get("class", "").split()
        if is_narrow and "n" in classes:
            continue
        shown = "".join(text["parts"])
        wide, marks = width_of(shown)
        x = text["x"]
        at = left + 60 + (inner * float(x[:-1]) / 100 if x.endswith("%") else float(x)) + float(text.get("dx", 0))
        at -= wide if "e" in classes else wide / 2 if "m" in classes else 0
        y = float(text["y"])
        rise = max(0, marks - 2) * SIZE / 3
        end = min(at + wide, left + width) if "is_cut" in text else at + wide
        yield shown, (at, y - ASCENT * SIZE - rise, end, y + DESCENT * SIZE), classes


def points(path):
    """The coordinates of a path: pairs of which either may be None."""
    for letter, words in re.findall(r"([MHVLhvZ])([^MHVLhvZ]*)", path):
        values = [float(word) for word in words.split()]
        if letter in "ML":
            yield values[0], values[1]
        elif letter in "HV":
            yield (values[0], None) if letter == "H" else (None, values[0])


def columns(page, width):
    """The left side and the width of the drawings on a page."""
    margin = 16 if width <= NARROW else 24
    inner = min(width, 1600) - 2 * margin
    if width < 1000:
        return [(margin, inner)]
    if 'class="two one"' in page:
        return [(margin, min(inner, 900))]
    return [(margin, (inner - 36) / 2), (margin + (inner + 36) / 2, (inner - 36) / 2)]


def faults_of(page, width):
    """The faults of a page at a width."""
    texts = Texts()
    texts.feed(page)
    for drawing, (left, wide) in ((one, column) for one in texts.drawings for column in columns(page, width)):
        found = list(boxes(drawing, left, wide, width))
        for text, box, _ in found:
            if box[0] < left - 24.5 or box[2] > left + wide + 36 or box[2] > width + 0.5 or box[0] < -0.5:
                yield f"cut by the window or its column, {box[0]:.0f} to {box[2]:.0f}: {text}"
            if box[1] < -18.5 or box[3] > drawing["height"] + 0.5:
                yield f"above or below its drawing, {box[1]:.0f} to {box[3]:.0f}: {text}"
        for place, (text, one, _) in enumerate(found):
            for other_text, other, _ in found[place + 1:]:
                if min(one[2], other[2]) - max(one[0], other[0]) > 0.5 and min(one[3], other[3]) - max(one[1], other[1]) > 1:
                    yield f"overlap: {text} and {other_text}"
        for field, _, path, kind, _ in drawing["paths"]:
            for x, y in points(path) if field else ():
                if not (x is None or field[0] - 0.1 <= x <= field[0] + field[2] + 0.6) or not (y is None or -0.1 <= y <= field[3] + 0.1):
                    yield f"a point outside its field, {x} {y}: {kind}"


def path_box(path, left, inner):
    """The box of a path of straight lines, in pixels of the page and of its drawing."""
    xs, ys = ([value for value in values if value is not None] for values in zip(*points(path.d)))
    xs, ys = [left + 60 + inner * (x - path.field[0]) / path.field[2] for x in xs], [path.above + y for y in ys]
    return min(xs), min(ys), max(xs), max(ys)


def in_bands(page, width, kinds):
    """The lines and the texts that share something with a band: its class with those of the bands above it, and theirs with that of the figure,
    and a text or None. A band is a path of one of these classes."""
    texts, found = Texts(), []
    texts.feed(page)
    for drawing, (left, wide) in ((one, column) for one in texts.drawings for column in columns(page, width)):
        inner = inner_width(drawing, wide, width)
        paths = [(path, path_box(path._replace(d=part), left, inner)) for path in drawing["paths"] if path.field for part in re.findall("M[^M]*", path.d)]
        parts = [([*path.kind.split(), path.figure], None, box) for path, box in paths]
        parts += [([*classes, "text"], text, box) for text, box, classes in boxes(drawing, left, wide, width)]
        bands = [(path.kind, box) for path, box in paths if path.kind in kinds]
        for place, (kind, one) in enumerate(bands):
            above = [other_kind for other_kind, other in bands[place + 1:] if share_some(one, other)]
            found += [([kind, *above], classes, text) for classes, text, other in parts if share_some(one, other)]
    return found


def share_some(one, other):
    """Whether boxes have some width in common. A line across has no height."""
    return min(one[2], other[2]) - max(one[0], other[0]) > 0.5 and min(one[3], other[3]) >= max(one[1], other[1])
