"""A commit of 1,000 changes is made, and one of 1,001 is refused as a whole, whatever they are."""
import json
import os
import sys

sys.path.insert(0, os.path.dirname(os.path.dirname(os.path.abspath(__file__))))
sys.dont_write_bytecode = True
from model import bundle

TOUCH = {"touch": "product", "id": 1}
REPORT = """refused 1000 TooManyChanges
refused 1000 TooManyChanges
refused 999 MissingRow
commit 11
"""


def main(word):
    commits = [{"at": 10, "changes": [{"create": "product", "values": {"name": "A"}}]}]
    tried = [[TOUCH] * 1001, [{"touch": "shelf", "id": 1}] * 1001, [TOUCH] * 999 + [{"touch": "product", "id": 2}], [TOUCH] * 1000]
    script = ["commit " + json.dumps(changes, separators=(",", ":")) for changes in tried]
    sys.stdout.write(bundle(commits, script) if word == "bundle" else REPORT)


main(sys.argv[1])
