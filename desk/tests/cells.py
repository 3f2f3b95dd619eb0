"""The tables of a page as rows of texts."""
import html.parser


class Cells(html.parser.HTMLParser):
    """The parser also sees that every element is one of a table or known."""

    known = set("html head meta title style body h1 h2 h3 p b i small span bdi br div section table thead tbody tr "
                "th td header nav a ol ul li dl dt dd svg rect code pre".split())

    def __init__(self, page):
        super().__init__()
        self.tables, self.strange = [], set()
        self.feed(page)

    @property
    def rows(self):
        return [row for table in self.tables for row in table]

    def handle_starttag(self, tag, attrs):
        self.strange |= {tag} - self.known
        if tag == "table":
            self.tables.append([])
        elif tag == "tr":
            self.tables[-1].append([])
        elif tag in ("td", "th"):
            self.tables[-1][-1].append("")
        elif tag == "br" and self.tables and self.tables[-1] and self.tables[-1][-1]:
            self.tables[-1][-1][-1] += "|"

    def handle_data(self, data):
        if self.tables and self.tables[-1] and self.tables[-1][-1]:
            self.tables[-1][-1][-1] += data.strip("\n")
