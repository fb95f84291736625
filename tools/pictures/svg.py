"""A little SVG: boxes, text and arrows on a page, as text of the same bytes every time."""

from html import escape

INK, PALE, LINE = "#1b2a38", "#eef3f7", "#5b7288"
COLOURS = {"blue": "#d6e6f5", "green": "#dcefd9", "sand": "#f6ead2", "rose": "#f5dada", "grey": "#e6e9ec", "white": "#ffffff"}


class Page:
    def __init__(self, width, height, title):
        self.width, self.height, self.title, self.parts = width, height, title, []

    def box(self, x, y, width, height, text="", colour="blue", size=14, dashed=False):
        dash = ' stroke-dasharray="5 4"' if dashed else ""
        self.parts.append(f'<rect x="{x:g}" y="{y:g}" width="{width:g}" height="{height:g}" rx="4" fill="{COLOURS[colour]}" stroke="{LINE}"{dash}/>')
        lines = text.split("\n") if text else []
        for k, line in enumerate(lines):
            self.text(x + width / 2, y + height / 2 + size * 0.36 + (k - (len(lines) - 1) / 2) * size * 1.25, line, size=size, anchor="middle")

    def text(self, x, y, text, size=14, anchor="start", bold=False, italic=False):
        style = (' font-weight="bold"' if bold else "") + (' font-style="italic"' if italic else "")
        self.parts.append(f'<text x="{x:g}" y="{y:g}" font-size="{size:g}" text-anchor="{anchor}"{style}>{escape(text)}</text>')

    def line(self, *points, arrow=False, dashed=False):
        path = " ".join(f"{x:g},{y:g}" for x, y in points)
        head = ' marker-end="url(#head)"' if arrow else ""
        dash = ' stroke-dasharray="5 4"' if dashed else ""
        self.parts.append(f'<polyline points="{path}" fill="none" stroke="{LINE}" stroke-width="1.5"{head}{dash}/>')

    def svg(self):
        return "\n".join([
            f'<svg xmlns="http://www.w3.org/2000/svg" width="{self.width:g}" height="{self.height:g}" viewBox="0 0 {self.width:g} {self.height:g}" font-family="DejaVu Sans, Verdana, sans-serif" fill="{INK}" role="img">',
            f"<title>{escape(self.title)}</title>",
            f'<defs><marker id="head" viewBox="0 0 10 10" refX="9" refY="5" markerWidth="7" markerHeight="7" orient="auto"><path d="M0,0 L10,5 L0,10 z" fill="{LINE}"/></marker></defs>',
            f'<rect width="{self.width:g}" height="{self.height:g}" fill="#ffffff"/>',
            *self.parts, "</svg>", ""])
