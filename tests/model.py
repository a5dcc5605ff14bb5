"""A plain model of replays on one site: products with their games, and an index of all games.

It is written from the definitions (docs/FORMATS.md), and has no templates, no expressions and no renderer of its own: the two
pages are spelled out. A history is a list of tables, a shelf is a list of entries, a session is a Python generator that yields
each question and each fragment."""
import json

SCHEMA = {"models": [
    {"name": "product", "plural": "products", "attributes": [{"name": "name", "kind": "text"}],
     "has_many": [{"name": "games", "model": "game", "inverse": "product", "dependent": "destroy"}]},
    {"name": "game", "plural": "games", "attributes": [{"name": "name", "kind": "text"}],
     "belongs_to": [{"name": "product", "model": "product", "touch": True}]}]}
ROUTES = [{"path": "/products/:id", "template": "products/show", "record": "product"},
          {"path": "/games", "template": "games/index", "list": "game"}]
VIEWS = {
    "products/show.html.erb": "<% cache product do %><h1><%= product.name %></h1>"
                              "<%= render partial: \"games/game\", collection: product.games, as: :game %><% end %>",
    "games/_game.html.erb": "<% cache game do %><p><%= game.name %></p><% end %>",
    "games/index.html.erb": "<%= render partial: \"games/row\", collection: games, as: :game, cached: true %>",
    "games/_row.html.erb": "<li><%= game.name %></li>"}
DEFAULTS = {"expires_in": None, "race_condition_ttl": 0, "max_entries": None, "max_size": None,
            "max_age": 14 * 24 * 60 * 60 * 1000000, "expiry_batch_size": 100}
KEY_OVERHEAD = len("views/") + len(":") + 32 + len("/")


def bundle(commits, script, settings=None):
    site = {"schema": SCHEMA, "routes": ROUTES, "views": VIEWS, "commits": commits, "script": script}
    if settings is not None:
        site["settings"] = settings
    return json.dumps(site, indent=1) + "\n"


class Shelf:
    """Entries in the order in which their keys came, each a dictionary."""

    def __init__(self, settings):
        self.settings = dict(DEFAULTS, **settings)
        self.entries = []
        self.writes = 0

    def find(self, key):
        return next((entry for entry in self.entries if entry["key"] == key), None)

    def fetch(self, key, versions, now, race):
        """The answer, and the fragment where it is a hit."""
        entry = self.find(key)
        if entry is None:
            return "absent", None
        expiry = entry["expires_at"]
        if expiry is None or now < expiry:
            return ("hit", entry["value"]) if entry["versions"] == versions else ("mismatch", None)
        if race > 0 and now - expiry <= race:
            entry["expires_at"] = now + race
            return "bumped", None
        self.entries.remove(entry)
        return "dead", None

    def is_over(self):
        most, size = self.settings["max_entries"], self.settings["max_size"]
        total = sum(KEY_OVERHEAD + len(entry["key"]) + len(entry["value"]) for entry in self.entries)
        return (most is not None and len(self.entries) > most) or (size is not None and total > size)

    def expire(self, now):
        batch, age = self.settings["expiry_batch_size"], self.settings["max_age"]
        first = self.entries[:batch]
        count = len(first)
        if not self.is_over():
            young = [n for n, entry in enumerate(first) if age is None or now - entry["written_at"] <= age]
            count = young[0] if young else len(first)
        del self.entries[:count]
        self.writes = 0
        return count

    def write(self, key, versions, value, now):
        if self.writes == self.settings["expiry_batch_size"]:
            self.expire(now)
        lives = self.settings["expires_in"]
        fresh = {"key": key, "versions": versions, "value": value, "written_at": now,
                 "expires_at": None if lives is None else now + lives}
        entry = self.find(key)
        if entry is None:
            self.entries.append(fresh)
        else:
            entry.update(fresh)
        self.writes += 1


class Table:
    """What the records are at one moment: of each its fields and the moment at which it was last touched."""

    def __init__(self, moment=0, products=None, games=None):
        self.moment = moment
        self.products = products or {}
        self.games = games or {}

    def games_of(self, product):
        return [number for number in sorted(self.games) if self.games[number]["product_id"] == product]

    def after(self, changes, now):
        """The table after a commit of creations and updates, and the ids of the records that it creates."""
        table = Table(max(now, self.moment + 1), {n: dict(p) for n, p in self.products.items()},
                      {n: dict(g) for n, g in self.games.items()})
        ids, products, games = [], set(), set()
        for change in changes:
            model = change.get("create") or change["update"]
            rows = table.products if model == "product" else table.games
            number = change.get("id", len(rows) + 1)
            if "create" in change:
                ids.append(number)
                rows[number] = {"name": None, "product_id": None}
            before = rows[number]["product_id"]
            rows[number].update(change["values"])
            (products if model == "product" else games).add(number)
            products |= {before, rows[number]["product_id"]} - {None}
        for rows, touched in ((table.products, products), (table.games, games)):
            for number in touched:
                rows[number]["updated_at"] = table.moment
        return table, ids


def block(template, model, number, record, body):
    """A cached block: one question and, unless it is a hit, its body and a fragment to be kept."""
    key, versions = "%s%s/%d" % (template, model, number), [record["updated_at"]]
    found = yield "read", [(key, versions)]
    if found[0] is not None:
        return found[0]
    value = yield from body()
    yield "write", (key, versions, value)
    return value


def nothing_more(text):
    return text
    yield


def product_page(table, number):
    product = table.products[number]

    def body():
        page = "<h1>%s</h1>" % product["name"]
        for game in table.games_of(number):
            row = table.games[game]
            text = "<p>%s</p>" % row["name"]
            page += yield from block("games/_game", "games", game, row, lambda text=text: nothing_more(text))
        return page
    return (yield from block("products/show", "products", number, product, body))


def games_page(table):
    numbers = sorted(table.games)
    if not numbers:
        return ""
    asked = [("games/_row%s/%d/:collection" % ("games", n), [table.games[n]["updated_at"]]) for n in numbers]
    found = yield "many", asked
    page = ""
    for number, (key, versions), value in zip(numbers, asked, found):
        if value is None:
            value = "<li>%s</li>" % table.games[number]["name"]
            yield "write", (key, versions, value)
        page += value
    return page


class Replay:
    """Orders are called one by one; the report is their lines."""

    def __init__(self, commits, settings=None):
        self.table = Table()
        for commit in commits:
            self.table, _ = self.table.after(commit["changes"], commit["at"])
        self.shelf = Shelf(settings or {})
        self.sessions = {}
        self.lines = []
        self.now = 0

    def commit(self, changes):
        self.table, ids = self.table.after(changes, self.now)
        self.lines.append(" ".join(["commit", str(self.table.moment)] + [str(number) for number in ids]))

    def open(self, session, path):
        number = int(path.split("/")[2]) if path != "/games" else None
        page = games_page(self.table) if number is None else product_page(self.table, number)
        self.sessions[session] = (page, None)
        self.lines.append("open %d at %d" % (session, self.table.moment))

    def turn(self, session):
        """One turn; whether the page came with it."""
        page, answer = self.sessions[session]
        try:
            kind, what = page.send(answer)
        except StopIteration as end:
            del self.sessions[session]
            self.lines.append("turn %d page %d %s" % (session, len(end.value.encode()), end.value))
            return True
        if kind == "write":
            self.shelf.write(*what, self.now)
            self.lines.append("turn %d write" % session)
            self.sessions[session] = (page, None)
            return False
        race = self.shelf.settings["race_condition_ttl"] if kind == "read" else 0
        found = [self.shelf.fetch(key, versions, self.now, race) for key, versions in what]
        self.lines.append("turn %d %s %s" % (session, kind, " ".join(answer for answer, _ in found)))
        self.sessions[session] = (page, [value for _, value in found])
        return False

    def run(self, session):
        while not self.turn(session):
            pass

    def get(self, path):
        self.open(0, path)
        self.run(0)

    def expire(self):
        self.lines.append("expire %d" % self.shelf.expire(self.now))

    def report(self):
        return "".join(line + "\n" for line in self.lines)
