"""SVG as text: lines, words and documents, numbers for people, and the marks of an axis."""
import html
import math

FONT = "font-family=\"Helvetica, Arial, sans-serif\""


# ---- numbers as text

def plain(value, digits=6):
    return ("%.*g" % (digits, value + 0.0)).replace("-", "−")


def round_step(least):
    """The least of 1, 2 and 5 times a power of ten that isn't below a length."""
    power = 10.0 ** math.floor(math.log10(least))
    return next(m * power for m in (1, 2, 5, 10) if m * power >= least * (1 - 1e-9))


def ticks(low, high, step):
    places = max(0, -math.floor(math.log10(step) + 1e-9))
    for k in range(math.ceil(low / step - 1e-9), math.floor(high / step + 1e-9) + 1):
        text = "%.*f" % (places, k * step) if abs(k * step) < 1e6 else plain(k * step)
        yield k * step, ("0" if k == 0 else text.replace("-", "−"))


# ---- drawing

def coordinate(value):
    return "%g" % (round(value, 1) + 0.0)


def text(x, y, content, size=12, anchor="start", more=""):
    return f'<text x="{coordinate(x)}" y="{coordinate(y)}" font-size="{size}" text-anchor="{anchor}"{more}>{html.escape(content)}</text>'


def line(x0, y0, x1, y1, style):
    return '<path d="M%s %sL%s %s" %s/>' % (*map(coordinate, (x0, y0, x1, y1)), style)


def polyline(points, style, closed=False):
    places = ["%s %s" % (coordinate(x), coordinate(y)) for x, y in points]
    kept = [p for i, p in enumerate(places) if i == 0 or p != places[i - 1]]
    return '<path d="M%s%s" %s/>' % ("L".join(kept), "Z" if closed else "", style)


def convex_hull(points):
    """Andrew's monotone chain."""
    points = sorted(set(points))
    if len(points) < 3:
        return points

    def chain(ordered):
        kept = []
        for p in ordered:
            while len(kept) > 1 and ((kept[-1][0] - kept[-2][0]) * (p[1] - kept[-2][1]) <= (kept[-1][1] - kept[-2][1]) * (p[0] - kept[-2][0])):
                kept.pop()
            kept.append(p)
        return kept[:-1]
    return chain(points) + chain(points[::-1])


def document(width, height, title, parts):
    head = f'<svg xmlns="http://www.w3.org/2000/svg" width="{width:.0f}" height="{height:.0f}" viewBox="0 0 {width:.0f} {height:.0f}" {FONT} fill="#000000">'
    return "\n".join([head, f"<title>{html.escape(title)}</title>", '<rect width="100%" height="100%" fill="#ffffff"/>', *parts, "</svg>", ""])
