"""The commands of a setup that make a tree again: parents before what is below them, snapshots before their clones, and the
snapshots of a dataset in the order of their createtxg.

A promotion or a rename may leave a dataset that was made before its parent, or whose origin belongs to a dataset below it.
Such a dataset is made under another name and renamed once its parent is in its place. The pool's own dataset is there from
the start; where it has an origin, the clones that were promoted over it are made from it and promoted again.
"""
import heapq

from pool_listing import Refused


class Head:
    """A file system or a volume of the tree that is wanted."""

    def __init__(self, listed):
        self.listed, self.name = listed, listed.name
        self.is_volume, self.volsize = listed.type == "volume", None
        self.parent = self.origin = None
        self.below, self.snapshots = [], []
        self.made_as, self.is_in_place = None, False
        self.order = (listed.createtxg, listed.place)
        self.born_behind = self.turn = None

    def needs(self):
        return [self.parent] if self.parent else []


class Snapshot:
    """A snapshot of a head. One that isn't listed stands in for a snapshot that is gone, of which there are bookmarks."""

    def __init__(self, head, short, listed, is_listed):
        self.head, self.short, self.listed, self.is_listed = head, short, listed, is_listed
        self.before, self.after = None, None
        self.bookmarks, self.clones = [], []
        self.is_taken = False
        self.order = (listed.createtxg, listed.place)
        self.turn = None

    def needs(self):
        return [self.head] + ([self.before] if self.before else [])

    def name(self):
        """Its full name as long as its head may have another name."""
        return "%s@%s" % (self.head.made_as, self.short)


def find_births(heads):
    """What each head comes behind: the youngest of the origins that it and its origins stand on."""
    for head in heads:
        clones = {}
        while head.born_behind is None and head.origin is not None:
            if head in clones:
                raise Refused("the origins of '%s' go in a circle" % head.name)
            clones[head] = None
            head = head.origin.head
        if head.born_behind is None:
            head.born_behind = (0, 0)
        for clone in reversed(clones):
            clone.born_behind = max(clone.origin.order, clone.origin.head.born_behind)


def since(item):
    """When an item can come at the earliest, beside what it waits for to be in its place."""
    head = item if isinstance(item, Head) else item.head
    return max(item.order, head.born_behind)


def give_turns(items):
    """Each item has the turn of the first of those that wait for it to be in its place."""
    for first in sorted(items, key=since):
        waiting = [first]
        while waiting:
            item = waiting.pop()
            if item.turn is None:
                item.turn = since(first)
                waiting += item.needs()


class Setup:
    """The commands that make the heads of a pool with their snapshots and bookmarks. The first head is the pool's own."""

    def __init__(self, heads):
        self.commands, self.ready = [], []
        self.pushed = self.moved = 0
        self.heads, self.names = heads, {it.name for it in heads}
        for head in heads:
            head.snapshots.sort(key=lambda it: it.order)
            for before, after in zip(head.snapshots, head.snapshots[1:]):
                before.after, after.before = after, before
        find_births(heads)
        give_turns(heads + [it for head in heads for it in head.snapshots])
        self.make_root(heads[0])
        for head in heads:
            self.look_at(head)
        while self.ready:
            self.make(heapq.heappop(self.ready)[-1])

    def call(self, op, name, **fields):
        self.commands.append({"op": op, "name": name, **fields})

    def make_root(self, root):
        """The pool's own dataset, and those whose snapshots it once had: the oldest of these first."""
        root.made_as, root.is_in_place = root.name, True
        origins, head = [], root
        while head.origin is not None:
            origins.append(head.origin)
            head = head.origin.head
        for origin in reversed(origins):
            self.give_away(root, origin)
        self.was_made(root)

    def give_away(self, root, origin):
        """Snapshots up to this one are taken of the root, and the head that has them today becomes their owner."""
        owner = origin.head
        old = owner.snapshots[:owner.snapshots.index(origin) + 1]
        for snapshot in old:
            self.call("snapshot", "%s@%s" % (root.name, snapshot.short))
        self.choose_name(owner)
        self.call("clone", owner.made_as, source="%s@%s" % (root.name, origin.short))
        self.call("promote", owner.made_as)
        for snapshot in old:
            snapshot.is_taken = True
        for snapshot in old:
            self.was_taken(snapshot)
        self.was_made(owner)

    def make(self, item):
        """What came to be ready twice is made once."""
        if isinstance(item, Head):
            if item.made_as is None:
                self.make_head(item)
        elif not item.is_taken:
            self.call("snapshot", item.name())
            item.is_taken = True
            self.was_taken(item)

    def make_head(self, head):
        self.choose_name(head)
        if head.origin is not None:
            self.call("clone", head.made_as, source=head.origin.name())
            if head.is_volume and head.volsize != head.origin.head.volsize:
                self.call("set", head.made_as, prop="volsize", value=str(head.volsize))
        elif head.is_volume:
            self.call("create_volume", head.made_as, volsize=head.volsize)
        else:
            self.call("create", head.made_as)
        self.was_made(head)

    def choose_name(self, head):
        """Its own where its parent is in place, else a short one right below the pool that no dataset has.

        It is short, so that the names of its snapshots fit, but in a pool with thousands of such datasets.
        """
        head.made_as = head.name
        while not head.parent.is_in_place and head.made_as in self.names:
            self.moved += 1
            head.made_as = "%s/%d" % (self.heads[0].name, self.moved)

    def was_made(self, head):
        for snapshot in head.snapshots:
            if not snapshot.is_taken:
                self.add_ready(snapshot)
                break
        if head.parent is None or head.parent.is_in_place:
            self.place(head)

    def was_taken(self, snapshot):
        for short in snapshot.bookmarks:
            self.call("bookmark", "%s#%s" % (snapshot.head.made_as, short), source=snapshot.name())
        if not snapshot.is_listed:
            self.call("destroy", snapshot.name())
        if snapshot.after is not None and not snapshot.after.is_taken:
            self.add_ready(snapshot.after)
        for clone in snapshot.clones:
            self.look_at(clone)

    def look_at(self, head):
        """A head that lacks nothing but its parent is ready."""
        if head.made_as is None and (head.origin is None or head.origin.is_taken):
            self.add_ready(head)

    def add_ready(self, item):
        """Its turn comes; of the same turn, those last that would come before their parent."""
        is_early = isinstance(item, Head) and not item.parent.is_in_place
        self.pushed += 1
        heapq.heappush(self.ready, (item.turn, is_early, item.order, self.pushed, item))

    def place(self, head):
        """The head gets its own name, and then all below it that were made and waited for it."""
        waiting = [head]
        while waiting:
            head = waiting.pop()
            if head.made_as != head.name:
                self.call("rename", head.made_as, to=head.name)
                head.made_as = head.name
            head.is_in_place = True
            for it in head.below:
                if it.made_as is None:
                    self.look_at(it)
                else:
                    waiting.append(it)
