"""What a reader of HTML sees of the page that `manifest_check graph --html` writes."""
import html.parser

TAGS = {"html", "head", "meta", "title", "style", "body", "h1", "h2", "p", "div", "table", "thead", "tbody", "tr", "th",
        "td", "code", "em", "strong", "details", "summary", "caption", "a"}
ATTRIBUTES = {"lang", "charset", "name", "content", "class", "scope", "id", "href", "title"}


class Seen(html.parser.HTMLParser):
    """What a reader of HTML sees of a page: its tags, their attributes, the cells of the rows of its tables, the links
    with their tooltips, and the places that have a name."""

    def __init__(self, page):
        super().__init__()
        self.tags, self.attributes, self.tables, self.in_cell = set(), set(), [], False
        self.links, self.ids = [], []
        self.feed(page)
        self.close()

    def handle_starttag(self, tag, attributes):
        self.tags.add(tag)
        self.attributes |= {name for name, _ in attributes}
        found = dict(attributes)
        self.links += [(found["href"], found.get("title"))] if "href" in found else []
        self.ids += [found["id"]] if "id" in found else []
        if tag == "table":
            self.tables.append([])
        elif tag == "tr":
            self.tables[-1].append([])
        elif tag in ("td", "th"):
            self.tables[-1][-1].append("")
            self.in_cell = True

    def handle_endtag(self, tag):
        if tag in ("td", "th"):
            self.in_cell = False

    def handle_data(self, text):
        if self.in_cell:
            self.tables[-1][-1][-1] += text
