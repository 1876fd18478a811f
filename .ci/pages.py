"""The page of `mls report`, read: its tags, which must be balanced, and the rows of its tables."""
import html.parser
import re

# All that a page may have: its elements, those of them that have no end, and their attributes.
ELEMENTS = set("""html head meta title style body header h1 p code nav ul li a main section h2 table caption thead tbody tr th td
    svg path text div details summary b span pre""".split())
VOID = {"meta"}
ATTRIBUTES = set("""lang charset name content http-equiv href id class style aria-label aria-labelledby aria-hidden role tabindex scope
    colspan viewbox preserveaspectratio d transform""".split())
HEADINGS = ["In short", "Denied entries", "Trust", "Use of permissions", "Held", "Powers", "What could come about",
            "Entries", "Lattice", "Verified"]
# The parts that stand in an appendix, which isn't printed.
APPENDIX = "appendix"


class Element:
    def __init__(self, name, attributes):
        self.name, self.attributes, self.children = name, attributes, []

    def all(self, *names):
        """The elements of these names within it, in their order."""
        found = []
        for it in self.children:
            if isinstance(it, Element):
                found += ([it] if it.name in names else []) + it.all(*names)
        return found

    def one(self, name):
        (found,) = self.all(name)
        return found

    def text(self):
        return "".join(it if isinstance(it, str) else it.text() for it in self.children)

    def texts(self, *names):
        return [it.text() for it in self.all(*names)]


class Reader(html.parser.HTMLParser):
    """Reads a page whose tags are balanced, and that has nothing but what a page may have."""

    def __init__(self):
        super().__init__(convert_charrefs=True)
        self.page = Element("", {})
        self.open = [self.page]

    def begun(self, name, attributes):
        assert name in ELEMENTS, f"element {name}"
        assert {key for key, _ in attributes} <= ATTRIBUTES, f"attributes {attributes} of {name}"
        assert len(dict(attributes)) == len(attributes), f"{attributes} of {name}"
        element = Element(name, dict(attributes))
        self.open[-1].children.append(element)
        return element

    def handle_starttag(self, name, attributes):
        element = self.begun(name, attributes)
        if name not in VOID:
            self.open.append(element)

    def handle_startendtag(self, name, attributes):
        self.begun(name, attributes)

    def handle_endtag(self, name):
        assert self.open.pop().name == name, f"end of {name}"

    def handle_data(self, text):
        self.open[-1].children.append(text)

    def handle_decl(self, text):
        assert text == "DOCTYPE html" and not self.page.children, text

    def handle_comment(self, text):
        raise AssertionError(f"comment {text}")

    handle_pi = unknown_decl = handle_comment


def has_no_link(text):
    """Nothing is fetched: there is no script, and no address but within the page."""
    low = text.lower()
    for it in ("<script", "://", "http:", "https:", "url(", "@import", "javascript:", "data:", "srcdoc"):
        assert it not in low, f"{it} in the page"
    return text


def table_is_told(table):
    """A table has a caption first, and each heading of it a scope."""
    elements = [it for it in table.children if isinstance(it, Element)]
    assert elements[0].name == "caption", f"a table begins with {elements[0].name}"
    for it in table.all("th"):
        assert it.attributes.get("scope") in ("col", "row"), f"th with {it.attributes}"
    bodies, heads = table.all("tbody"), table.all("thead")
    columns = {sum(int(it.attributes.get("colspan", 1)) for it in row.all("th", "td")) for row in [*heads, *bodies[0].all("tr")]}
    assert len(columns) <= 1, f"rows of {columns} columns"


def page_of(output):
    """The page of what the program prints."""
    text = output.decode()
    assert text.startswith("<!DOCTYPE html>\n") and text.endswith("</html>\n"), text[:80]
    reader = Reader()
    reader.feed(has_no_link(text))
    reader.close()
    page = reader.page
    assert reader.open == [page], f"{[it.name for it in reader.open]} are open"
    assert page.one("html").attributes == {"lang": "en"}
    assert page.texts("h2") == HEADINGS, page.texts("h2")
    ids = [it.attributes["id"] for it in page.all(*ELEMENTS) if "id" in it.attributes]
    assert len(set(ids)) == len(ids) == len(HEADINGS), ids
    assert [it.attributes["href"] for it in page.all("a")] == [f"#{it}" for it in ids]
    for it in page.all("table"):
        table_is_told(it)
    return page


def section(page, title):
    (found,) = [it for it in page.all("section") if it.one("h2").text() == title]
    return found


def tables(part):
    """The tables by their captions: of each the rows of its bodies, with the texts of the cells."""
    return {it.one("caption").text(): [row.texts("th", "td") for body in it.all("tbody") for row in body.all("tr")]
             for it in part.all("table")}


def more(part):
    """How many more rows there are than the table that is printed has, by the line that tells it."""
    found = [it.text() for it in part.all("p") if it.attributes.get("class") == "more"]
    return int(re.match(r"(\d+) more, ", found[0])[1]) if found else 0


def has_class(element, name):
    return name in element.attributes.get("class", "").split()


def appendix(part):
    """What a section has in its appendix, where it has one."""
    found = [it for it in part.all("details") if has_class(it, APPENDIX)]
    assert len(found) <= 1
    return found[0] if found else Element("", {})


def rows_of(part):
    """The rows of the table that is printed, and those of the appendix: of each the texts of its cells. Without a table none."""
    behind = appendix(part).all("tr")
    rows = [row for body in part.all("tbody") for row in body.all("tr")]
    texts = lambda found: [it.texts("th", "td") for it in found]
    return texts(it for it in rows if it not in behind), texts(it for it in rows if it in behind)


def titles_of(part):
    """The titles of the columns of a section's first table."""
    return part.all("thead")[0].texts("th")


def stretches_of(svg):
    """The stretches of a bar, each by where it begins and how long it is, and of how many units it is."""
    units = re.fullmatch(r"0 0 (\d+) 1", svg.attributes["viewbox"])[1]
    found = []
    for it in svg.all("path"):
        begin, length, back = re.fullmatch(r"M(\d+) 0h(\d+)v1h-(\d+)z", it.attributes["d"]).groups()
        assert length == back, it.attributes
        found.append((int(begin), int(length)))
    return found, int(units)


def bar_of(svg):
    """Where the only stretch of a bar begins, how long it is, and of how many; none where nothing is drawn."""
    found, units = stretches_of(svg)
    assert len(found) <= 1
    return (*found[0], units) if found else None


def columns_of(svg):
    """The heights of the columns of a drawing, each at its place."""
    width = int(re.fullmatch(r"0 0 (\d+) 102", svg.attributes["viewbox"])[1])
    heights = [0] * (width // 10)
    for it in svg.all("path"):
        left, height, back = re.fullmatch(r"M(\d+) 102v-(\d+)h8v(\d+)z", it.attributes["d"]).groups()
        assert height == back and int(left) % 10 == 1, it.attributes
        heights[int(left) // 10] = int(height)
    return heights


def grid_of(part):
    """The subjects of a grid, by columns, and its rows: of each object, what stands in its cells."""
    return titles_of(part)[1:], {it[0]: it[1:] for it in rows_of(part)[0]}


def hands_of(part):
    """The objects and subjects that are drawn; the pairs of an object and a subject that sees it, and of a subject and an object that it alters,
    by their places; and those of the latter that go down."""
    texts = {kind: [it.text() for it in part.all("text") if it.attributes["class"] == kind] for kind in ("from", "label", "to")}
    assert texts["from"] == texts["to"], texts
    place = lambda y: (int(y) - 20) // 26
    pairs = {"seen": set(), "altered": set(), "down": set()}
    for it in part.all("path"):
        x, y, u, v = re.fullmatch(r"M(\d+) (\d+)L(\d+) (\d+)", it.attributes["d"]).groups()
        kind = {("200", "280"): "seen", ("480", "560"): "altered"}[x, u]
        pairs[kind].add((place(y), place(v)))
        if has_class(it, "down"):
            assert kind == "altered"
            pairs["down"].add((place(y), place(v)))
    return texts["from"], texts["label"], pairs


def beside(part):
    """How many objects and subjects a grid doesn't have, by the line that tells it."""
    found = [it.text() for it in part.all("p") if has_class(it, "more")]
    return tuple(map(int, re.match(r"(\d+) more objects and (\d+) more subjects, ", found[0]).groups())) if found else (0, 0)


# what a page says, as lines of the commands


def lattice_lines(page):
    """The labels, each with those that have it, and the pairs of which the second covers the first."""
    part = section(page, "Lattice")
    nodes, pairs = {}, set()
    for row in [it for body in part.all("tbody") for it in body.all("tr")]:
        covered, holders = row.all("td")
        nodes[row.one("th").text()] = holders.texts("li")
        pairs |= {(it, row.one("th").text()) for it in covered.texts("li")}
    return nodes, pairs


def drawn(text):
    """The same of the text of `mls lattice`."""
    nodes, pairs = {}, set()
    for label, told in re.findall(r'^"(.*)" \[label="(.*)"\];$', text, re.M):
        nodes[label] = told.split("\\n")[1:]
    pairs = set(re.findall(r'^"(.*)" -> "(.*)";$', text, re.M))
    return nodes, pairs
