"""Counts what was compared, and what differed by kind."""
from collections import Counter

from kinds import text_of

# How many differences of no kind are printed of a library and a group, and how much of a text.
SHOWN, WIDTH = 5, 60


def part(text, at):
    """A part of a text that begins shortly before an offset."""
    start = max(0, at - 20) if len(text) > WIDTH else 0
    return ("..." if start else "") + text[start:start + WIDTH] + ("..." if len(text) > start + WIDTH else "")


class Difference:
    def __init__(self, seed, query, came):
        wanted, came = text_of(query.wanted), text_of(came)
        at = next((i for i, (a, b) in enumerate(zip(wanted, came)) if a != b), min(len(wanted), len(came)))
        name = query.text if len(query.text) < WIDTH and query.name != "read" else query.name
        self.text = f"{seed}, {name}: exact {part(wanted, at)}, came {part(came, at)}"


class Table:
    def __init__(self):
        self.compared, self.started, self.kinds = Counter(), Counter(), Counter()
        self.examples, self.unlisted = {}, Counter()

    def start(self, peer, what, count=1):
        """Counts histograms, logs or intervals."""
        self.started[peer, what] += count

    def same(self, peer, group):
        self.compared[peer, group] += 1

    def differ(self, peer, group, seed, query, came, kind):
        """Counts a difference. One of no listed kind is printed."""
        self.compared[peer, group] += 1
        if kind:
            self.kinds[peer, group, kind] += 1
            if (peer, group, kind) not in self.examples:
                self.examples[peer, group, kind] = Difference(seed, query, came)
            return
        self.unlisted[peer, group] += 1
        if self.unlisted[peer, group] <= SHOWN:
            print(f"{peer} differs: {Difference(seed, query, came).text}", flush=True)

    def show_group(self, peer, group):
        listed = sorted((kind, n) for (p, g, kind), n in self.kinds.items() if (p, g) == (peer, group))
        none = self.unlisted[peer, group]
        print(f"{peer:15}{group:13}{self.compared[peer, group]:9}{sum(n for _, n in listed) + none:9}")
        for kind, n in listed:
            print(f"{'':37}{n:9}  {kind}, e.g. {self.examples[peer, group, kind].text}")
        if none:
            print(f"{'':37}{none:9}  of no listed kind")

    def show(self):
        print(f"{'library':15}{'':13}{'compared':>9}{'differ':>9}{'of it':>9}  kind")
        for peer in dict.fromkeys(peer for peer, _ in self.started):
            for (p, what), count in self.started.items():
                if p == peer:
                    print(f"{peer:15}{what:13}{count:9}")
            for group in dict.fromkeys(group for p, group in self.compared if p == peer):
                self.show_group(peer, group)
        listed, none = self.kinds.total(), self.unlisted.total()
        print(f"{self.compared.total()} compared, {listed} differ by a listed kind, {none} by none")
