"""The plan: which crates, what has another name there, and which texts are replaced before they are read."""
import os
import tomllib

from scan import Unknown


class Plan:
    """What plan.toml says of the sources below a root."""

    def __init__(self, root, name):
        with open(name, "rb") as file:
            read = tomllib.load(file)
        self.root = root
        self.library, self.program = read["library"], read["program"]
        self.crates = self.library + self.program
        self.paths, self.prelude = read["paths"], read["prelude"]
        self.roots = {"std", *(it.split("::")[0] for it in self.paths)}
        self.markers = set(read["proofs"]["markers"])
        self.proof_traits = self.markers | set(read["proofs"]["traits"])
        self.first_argument = read["proofs"]["first_argument"]
        self.edits = {}
        for edit in read.get("edit", []):
            self.edits.setdefault(edit["file"], []).append(edit)

    def has(self, name):
        return os.path.exists(f"{self.root}/{name}")

    def read(self, name):
        with open(f"{self.root}/{name}", encoding="utf-8") as file:
            return file.read()

    def edited(self, name):
        """The text of a file, with the edits of the plan, each of which has to be found."""
        text = self.read(name)
        for edit in self.edits.pop(name, []):
            found, wanted = text.count(edit["old"]), edit.get("count", 1)
            if found != wanted:
                raise Unknown(f"{name}: the text of an edit is there {found} times, not {wanted}:\n{edit['old']}")
            text = text.replace(edit["old"], edit["new"])
        return text

    def table_types(self, imports):
        """The names by which a file knows the types of which only the first argument is left."""
        return {it.known_as() for it in imports if "::".join([*it.path, it.name]) in self.first_argument}
