"""A thousand orders that draws choose: sessions side by side, commits between their turns, entries that expire, batches of them."""
import json
import os
import sys

sys.path.insert(0, os.path.dirname(os.path.dirname(os.path.abspath(__file__))))
sys.dont_write_bytecode = True
from model import Replay, bundle

ORDERS, PRODUCTS, GAMES, SESSIONS = 1000, 4, 8, 6
SETTINGS = {"expires_in": 300, "race_condition_ttl": 60, "max_entries": 24, "max_size": 2200, "max_age": 1500,
            "expiry_batch_size": 8}
COMMITS = [{"at": 10, "changes": [{"create": "product", "values": {"name": "p%d" % n}} for n in range(1, PRODUCTS + 1)]},
           {"at": 11, "changes": [{"create": "game", "values": {"name": "g%d" % n, "product_id": 1 + n % PRODUCTS}}
                                  for n in range(1, GAMES + 1)]}]


class Draws:
    """Numbers that look random and are the same in each run."""

    def __init__(self, seed):
        self.state = seed

    def below(self, count):
        self.state = (self.state * 6364136223846793005 + 1442695040888963407) % 2 ** 64
        return (self.state >> 33) % count


class Player:
    """Draws orders, plays them on the model and keeps their lines."""

    def __init__(self):
        self.draws = Draws(2026)
        self.replay = Replay(COMMITS, SETTINGS)
        self.games = GAMES
        self.script = []

    def path(self):
        number = self.draws.below(PRODUCTS + 2)
        return "/products/%d" % number if 1 <= number <= PRODUCTS else "/games"

    def move_clock(self):
        """Mostly on, sometimes back, as a clock may that is set."""
        step = self.draws.below(60)
        self.replay.now = max(0, self.replay.now - 20) if step == 0 else self.replay.now + step
        self.script.append("now %d" % self.replay.now)

    def commit(self):
        kind, game, product = self.draws.below(4), 1 + self.draws.below(self.games), 1 + self.draws.below(PRODUCTS)
        name = "n%d" % len(self.script)
        if kind == 0:
            changes = [{"update": "game", "id": game, "values": {"product_id": product}}]
        elif kind == 1:
            changes = [{"update": "product", "id": product, "values": {"name": name}}]
        elif kind == 2 and self.games < 2 * GAMES:
            self.games += 1
            changes = [{"create": "game", "values": {"name": name, "product_id": product}}]
        else:
            changes = [{"update": "game", "id": game, "values": {"name": name}}]
        self.replay.commit(changes)
        self.script.append("commit " + json.dumps(changes))

    def turns(self):
        number = sorted(self.replay.sessions)[self.draws.below(len(self.replay.sessions))]
        if self.draws.below(12) == 0:
            self.replay.run(number)
            self.script.append("run %d" % number)
        else:
            self.replay.turn(number)
            self.script.append("turn %d" % number)

    def order(self):
        draw = self.draws.below(40)
        free = [number for number in range(1, SESSIONS + 1) if number not in self.replay.sessions]
        if draw < 8:
            self.move_clock()
        elif draw < 10:
            self.commit()
        elif draw == 10:
            self.replay.expire()
            self.script.append("expire")
        elif draw < 13:
            path = self.path()
            self.replay.get(path)
            self.script.append("get " + path)
        elif draw < 18 and free:
            path = self.path()
            self.replay.open(free[0], path)
            self.script.append("open %d %s" % (free[0], path))
        elif self.replay.sessions:
            self.turns()


def main(word):
    player = Player()
    while len(player.script) < ORDERS:
        player.order()
    report = player.replay.report()
    for answer in ("hit", "absent", "mismatch", "bumped", "dead", "expire 8", "expire 0"):
        assert report.count(answer) >= 3, "too few of " + answer
    sys.stdout.write(bundle(COMMITS, player.script, SETTINGS) if word == "bundle" else report)


main(sys.argv[1])
