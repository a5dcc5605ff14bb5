"""Thirty commits, each of another name for one of three games, with a page of the product and one of all games behind it."""
import json
import os
import sys

sys.path.insert(0, os.path.dirname(os.path.dirname(os.path.abspath(__file__))))
sys.dont_write_bytecode = True
from model import Replay, bundle

COMMITS = [{"at": 10, "changes": [{"create": "product", "values": {"name": "A"}}]},
           {"at": 11, "changes": [{"create": "game", "values": {"name": name, "product_id": 1}} for name in "XYZ"]}]


def main(word):
    replay, script = Replay(COMMITS), []
    for k in range(1, 31):
        replay.now = 100 + k
        changes = [{"update": "game", "id": 1 + k % 3, "values": {"name": "n%d" % k}}]
        replay.commit(changes)
        replay.get("/products/1")
        replay.get("/games")
        script += ["now %d" % replay.now, "commit " + json.dumps(changes), "get /products/1", "get /games"]
    sys.stdout.write(bundle(COMMITS, script) if word == "bundle" else replay.report())


main(sys.argv[1])
