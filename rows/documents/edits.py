"""The wrong bodies of the repository: those that the test command tries and the further ones, and why one of them can't
be applied to the sources."""


class Edits:
    """Those below the top of a repository: `gate` are the files in the `must-fail` folders of its crates, `further`
    those below `wrong_bodies`."""

    def __init__(self, root):
        self.root = root
        self.gate = sorted(root.glob("crates/*/must-fail/*.edit"))
        self.further = sorted(root.glob("wrong_bodies/*/*.edit"))

    def crate_of(self, edit):
        """The folder of the crate that it changes."""
        name = edit.relative_to(self.root).parts[1]
        return self.root / "crates" / name

    def fault_of(self, edit):
        """Why it can't be applied, or None."""
        texts, path, old = {}, None, None
        for line in edit.read_text().splitlines():
            word, _, rest = line.partition(": ")
            if word == "file":
                path = self.crate_of(edit) / rest.strip()
                if not path.is_file():
                    return f"no file {rest}"
                texts.setdefault(path, path.read_text())
            elif word == "old" and path:
                old = rest
                if texts[path].count(old) != 1:
                    return f"its file has {texts[path].count(old)} times: {old}"
            elif word == "new" and old is not None:
                if rest == old:
                    return f"it changes nothing: {old}"
                texts[path] = texts[path].replace(old, rest)
            elif line.strip():
                return f"a line that is none: {line}"
        return None if texts and old is not None else "it changes nothing"
