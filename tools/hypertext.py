"""HTML of texts: Markdown, code with links to where its names are defined, templates, and the contents of a page."""
import html
import re

from sources import NAME, cells_of


def text(it):
    return html.escape(str(it), quote=False)


# --- Markdown

def inline(line):
    """Code, bold, italics and links of Markdown in a line; a link is its words."""
    parts = re.split(r"(`[^`]*`)", re.sub(r"\[([^\]]+)\]\([^)]*\)", r"\1", text(line)))
    marked = lambda it: re.sub(r"(?<![\w*])\*(\w[^*]*)\*(?!\w)", r"<i>\1</i>", re.sub(r"\*\*([^*]+)\*\*", r"<b>\1</b>", it))
    return "".join(f"<code>{it[1:-1]}</code>" if it.startswith("`") and it != "`" else marked(it) for it in parts)


def markdown(page, three="three"):
    """Paragraphs, lists and tables of Markdown; the class of a table with three columns can be given."""
    shown = []
    for part in re.split(r"\n\n+", page):
        if part.startswith("|"):
            head, _, *rows = part.split("\n")
            cells = lambda line, tag: "".join(f"<{tag}>{inline(cell)}</{tag}>" for cell in cells_of(line))
            body = "\n".join(f"<tr>{cells(row, 'td')}</tr>" for row in rows)
            kind = {3: three, 4: "four"}.get(len(cells_of(head)), "")
            shown.append(f'<table class="{kind}"><thead><tr>{cells(head, "th")}</tr></thead><tbody>\n{body}</tbody></table>')
        elif part.startswith("- "):
            shown.append("<ul>" + "\n".join(f"<li>{inline(it.strip())}</li>" for it in re.split(r"(?m)^- ", part)[1:]) + "</ul>")
        else:
            shown.append(f"<p>{inline(part)}</p>")
    return "\n".join(shown)


def comment(said):
    """A comment of the sources; a list of fields in it, whose lines are indented, has a line for each."""
    fields = ((line, re.match(r" {2,}(\w+) +(.*)", line)) for line in said.split("\n"))
    return " ".join(f'<span class="field"><code>{text(it[1])}</code> {inline(it[2])}</span>' if it else inline(line) for line, it in fields)


# --- links

def anchor(*path):
    return ".".join(path).replace("/", ".")


def call_anchor(call):
    return anchor(call["place"].partition(":")[0], call["path"].replace("::", "."))


def a_link(place, word):
    return f'<a href="#{place}"><code>{word}</code></a>' if place else f"<code>{word}</code>"


# what a contract says of a value at a time; never a field of a definition
OF_RUST = {"old", "new", "now", "entry", "items", "final"}


def bound_in(code):
    """The names that a definition or a contract binds itself."""
    bound = {name for group in re.findall(r"[({]((?:[\w']+ )+):|λ ([\w' ]+)\.|\blet (\w+) =|(\w+) ←|^  (?:pub )?(\w+) :", code, re.M) for name in " ".join(group).split()}
    for left in re.findall(r"(?m)^[a-zA-Z_][\w']* ([^=:\n]*?) =(?: |$)|^  \| (.*?) ↦", code):
        bound |= {name for name in NAME.findall(" ".join(left)) if name[0].islower()}
    return bound - set(re.findall(r"(?m)^  (\w+) :", code) if re.match(r"(pub )?data ", code) else ())


class Links:
    """Where each name that is shown on a page is defined in it, and which names are defined elsewhere."""

    def __init__(self, modules, laws, calls, types, bodies=()):
        self.bodies = dict(bodies)
        self.types = {path: anchor("type", it["crate"], it["name"]) for path, it in types.items()}
        self.laws = {it["name"]: anchor("law", it["name"]) for it in laws}
        self.paths, self.crates = {it["path"] for it in modules}, {it["crate"] for it in calls}
        self.places, self.elsewhere, self.fields, self.calls = {}, {}, {}, {}
        for it in calls:
            for name in {(it["crate"], it["name"]), (it["crate"], it["path"]), (it["place"], "")}:
                self.calls.setdefault(name, set()).add(call_anchor(it))
            kind = it["path"].rpartition("::")[0]
            if kind:
                self.calls.setdefault((it["crate"], kind), set()).add(anchor("calls", it["crate"]))
        for it in modules:
            for block in it["blocks"]:
                for name in block["names"] + block["constructors"]:
                    self.places.setdefault((it["path"], name), anchor(it["path"], (block["names"] or [name])[0]))
                for name in block["fields"]:
                    self.fields.setdefault(name, set()).add(anchor(it["path"], (block["names"] or [name])[0]))

    def names_of(self, uses, path=None):
        """What the names of a file lead to."""
        found = {}
        for used, names in uses.items():
            for it in names:
                name, _, alias = ("", "", it.removeprefix("as ")) if it.startswith("as ") else it.partition(" as ")
                here = alias or name
                if not name and used in self.paths:
                    found.update({f"{here}.{inner}": place for (other, inner), place in self.places.items() if other == used})
                elif (used, name) in self.places or used in self.types:
                    found[here] = self.places.get((used, name)) or self.types[used]
                elif used.startswith(("wc_", "narbeddo")):
                    self.elsewhere.setdefault(used, set()).add(name or f"all, as {here}")
                    found[here] = anchor("elsewhere", used)
        return found | {name: place for (other, name), place in self.places.items() if other == path}

    def code(self, code, names):
        """The code, each name a link but those that the code binds itself, and fields that more than one record has."""
        bound = bound_in(code)

        def shown(it):
            name, before = it[0], re.search(r"([A-Za-z_][\w']*)?\.$", code[max(0, it.start() - 40) : it.start()])
            fields = self.fields.get(name, ()) if before and name not in OF_RUST else ()
            place = names.get(f"{before[1]}.{name}") if before else None if code[: it.start()].endswith("fn ") else names.get(name)
            place = place or (next(iter(fields)) if len(fields) == 1 else None)
            return f'<a href="#{place}">{name}</a>' if place and (before or name not in bound) else text(name)

        return re.sub(rf"{NAME.pattern}|[&<>]", shown, code)

    def call(self, crate, name):
        """Where the one call of this name is; None if there is none, or more than one."""
        found = self.calls.get((crate, name), ())
        return next(iter(found)) if len(found) == 1 else None

    def reference(self, it):
        """Where a reference PATH or PATH:NAME is; None if it is not on the page."""
        path, _, name = it.partition(":")
        if it in self.bodies:
            return self.bodies[it]
        if name:
            return self.places.get((path, name)) or self.call(it, "") or (self.laws.get(name) if path.startswith("wc_laws_") else None)
        return anchor(path, "module") if path in self.paths else None

    def word(self, word):
        """What a word between backquotes leads to: a reference, an export, a law, or a name of one definition alone."""
        if "/" in word:
            return self.reference(word)
        named = {place for (_, name), place in self.places.items() if name == word}
        is_exact = len(named) == 1 and re.search(r"_|^[A-Z]\w*[a-z]\w*[A-Z]", word)
        return self.call("narbeddo", word) or self.laws.get(word) or (next(iter(named)) if is_exact else None)

    def words(self, shown):
        """HTML in which words of code lead to what they name; those before `of` to a call of that crate, or a definition of that file."""
        def of_group(it):
            where = it[2]
            place = lambda word: self.places.get((where, word)) if "/" in where else self.call(where, word) or self.laws.get(word)
            whole = self.reference(where) if "/" in where else anchor("calls", where) if where in self.crates else None
            return re.sub(r"<code>([\w:']+)</code>", lambda one: a_link(place(one[1]), one[1]), it[1]) + f" of {a_link(whole, where)}"

        shown = re.sub(r"((?:<code>[\w:']+</code>(?:, | and )?)+) of <code>((?:wc_\w+|narbeddo)(?:/specs/[\w/]+)?)</code>", of_group, shown)
        return re.sub(r"(?<!\">)<code>([\w/:']+)</code>", lambda it: a_link(self.word(it[1]), it[1]), shown)

    def index(self):
        """Each name that is defined on the page, and where: pairs of the place and what is there."""
        named = {}
        for (path, name), place in self.places.items():
            named.setdefault(name, {})[place] = path.rpartition("/")[2]
        for (crate, name), places in self.calls.items():
            for place in places:
                if "/" not in crate and ":" not in name and not place.startswith("calls."):
                    named.setdefault(name, {})[place] = f"call, {crate}"
        for place in set(self.types.values()):
            named.setdefault(place.rpartition(".")[2], {})[place] = f"type, {place.split('.')[1]}"
        for name, place in self.laws.items():
            named.setdefault(name, {})[place] = "law"
        return {name: sorted(places.items(), key=lambda it: it[::-1]) for name, places in sorted(named.items(), key=lambda it: (it[0].lower(), it[0]))}


# --- templates

class Template:
    """A page with parts of it to be filled from a dict. In the file are

      {{NAME}}                 the value of a name as text; {{NAME|FILTER}}: as the filter makes it to HTML. A name PART.NAME is one of a dict
      {{#NAME}}..{{/#NAME}}    what is between for each item of a list: a dict's names are known there, another item is called `it`, and
                               `first` says whether it is the first
      {{?NAME}}..{{/?NAME}}    what is between if the value is neither empty nor false; {{^NAME}}..{{/^NAME}}: if it is
      {{>ID}}                  the element <template id="ID"> of the file, filled with what is known"""

    TAG = re.compile(r"\{\{([#?^])([^{}|]+)\}\}(.*?)\{\{/\1\2\}\}|\{\{(>?)([^{}|]+)(?:\|(\w+))?\}\}", re.S)
    ELEMENT = re.compile(r'(?s)<template id="(\w+)">\n(.*?)\n</template>\n*')

    def __init__(self, source, filters):
        self.elements, self.page, self.filters = dict(self.ELEMENT.findall(source)), self.ELEMENT.sub("", source), {"raw": str, None: text, **filters}

    def value(self, known, name):
        """The value of a name. Raises KeyError if it is not known."""
        part, _, inner = name.partition(".")
        return known[name] if name in known else self.value(known[part], inner)

    def filled(self, template, known):
        def shown(it):
            kind, name, inside, is_element, word, filtered = it.groups()
            if is_element:
                return self.filled(self.elements[word], known)
            found = self.value(known, name or word)
            if not kind:
                return self.filters[filtered](found)
            if kind != "#":
                return self.filled(inside, known) if bool(found) == (kind == "?") else ""
            items = found if isinstance(found, list) else [found] if found else []
            return "".join(self.filled(inside, {**known, "first": at == 0, **(one if isinstance(one, dict) else {"it": one})}) for at, one in enumerate(items))

        return self.TAG.sub(shown, template)


# --- sections and contents

# of each section: its head, with its name, its group if it begins one, and its title; what follows
SECTION = re.compile(r'(?s)(<section class="[^"]*" id="([^"]+)"(?: data-group="([^"]+)")?><h2>(.*?)</h2>)(.*?</section>)')


def with_places(sections):
    """The sections, each heading of the third level with a place to which the contents lead."""
    def placed(it):
        first, *others = it[5].split("<h3>")
        return it[1] + first + "".join(f'<h3 id="{it[2]}.part{count}">{other}' for count, other in enumerate(others, 1))

    return SECTION.sub(placed, sections)


def contents_of(sections):
    """The contents: the sections by their groups, each with its headings, and with the files of definitions below them."""
    found = []
    for start, (_, key, group, title, body) in enumerate(SECTION.findall(sections), 1):
        if group:
            found.append({"group": group, "start": start, "listed": []})
        headings = re.findall(r'<(h[34]) id="([^"]+)">(.*?)</h[34]>', body)
        below = [{"level": level, "place": place, "heading": it.removeprefix("crates/").removesuffix(".antt")} for level, place, it in headings]
        found[-1]["listed"].append({"key": key, "title": title, "below": below})
    return found
