"""Random calls on a hive and on a model of the rules, which have to agree. Between them the journal is cut, and the hive saved and loaded."""

import random
import unittest

from zugmeled import Error, Hive

NAMES = ["a", "A", "b", "C", "longer name"]


class Model:
    """A key by the rules: names fold, keep their first spelling, and values stay in the order in which they came."""

    def __init__(self):
        self.values = {}
        self.subkeys = {}

    def find(self, path):
        key = self
        for name in path:
            key = key.subkeys[name.upper()][1]
        return key

    def create(self, path):
        key = self
        for name in path:
            key = key.subkeys.setdefault(name.upper(), (name, Model()))[1]

    def set(self, path, name, data):
        key = self.find(path)
        spelling = key.values.get(name.upper(), (name,))[0]
        key.values[name.upper()] = (spelling, data)

    def delete_value(self, path, name):
        del self.find(path).values[name.upper()]

    def delete(self, path):
        if self.find(path).subkeys or not path:
            raise KeyError(path)
        self.delete_tree(path)

    def delete_tree(self, path):
        if path:
            self.find(path)
            del self.find(path[:-1]).subkeys[path[-1].upper()]
        else:
            self.values.clear()
            self.subkeys.clear()

    def tree(self):
        subkeys = {name: key.tree() for _folded, (name, key) in sorted(self.subkeys.items())}
        return list(self.values.values()), subkeys


def tree(key):
    values = [key.value_at(index)[::2] for index in range(key.info.values)]
    return values, {child.name: tree(child) for child in key}


def walked(hive):
    """The same by a walk."""
    trees = {}
    for path, _subkeys, values in hive.walk():
        trees[path] = [(name, data or b"") for name, data in values], {}
        if path:
            above, _cut, name = path.rpartition("\\")
            trees[above][1][name] = trees[path]
    return trees[""]


class RandomTest(unittest.TestCase):
    def test_hive_and_model(self):
        for seed in range(20):
            with self.subTest(seed=seed):
                self.play(random.Random(seed))

    def play(self, chance):
        hive, model = Hive.new(), Model()
        for _turn in range(300):
            path = [chance.choice(NAMES) for _name in range(chance.randrange(4))]
            name, data = chance.choice(NAMES + [""]), chance.randbytes(chance.choice([0, 4, 5, 3000]))
            call = chance.choice(["create", "create", "set", "set", "delete_value", "delete", "delete_tree", "cut", "load"])
            if call == "cut":
                hive.cut()
            elif call == "load":
                image = hive.image()
                hive.close()
                hive = Hive.loads(image)
            else:
                given = {"set": (name, data), "delete_value": (name,)}.get(call, ())
                self.assertEqual(self.on_hive(hive, call, path, given), self.on_model(model, call, path, given))
        self.assertEqual(tree(hive.root), model.tree())
        self.assertEqual(walked(hive), model.tree())
        hive.close()

    def on_hive(self, hive, call, path, given):
        """Whether the hive accepts a call."""
        joined = "\\".join(path)
        try:
            if call in ("create", "delete", "delete_tree"):
                getattr(hive.root, call)(joined)
            elif call == "set":
                hive.root.open(joined).set(given[0], 3, given[1])
            else:
                hive.root.open(joined).delete_value(*given)
        except Error:
            return False
        return True

    def on_model(self, model, call, path, given):
        """Whether the model accepts a call."""
        try:
            getattr(model, call)(path, *given)
        except KeyError:
            return False
        return True


if __name__ == "__main__":
    unittest.main()
