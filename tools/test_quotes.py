#!/usr/bin/env python3
"""Tests of what stands in two places: what docs/PROVED.md quotes is in the files that it names, the programs that run again on another
input are the same program, and the functions that C calls have the parameters of include/rokzimp.h, in its order; and that arithmetic
wraps only where docs/PROVED.md says so. Needs no library.
tools/test_python.py runs it too.

    tools/test_quotes.py"""
import glob
import os
import re
import unittest

ROOT = os.path.dirname(os.path.dirname(os.path.abspath(__file__)))


def text(*path):
    with open(os.path.join(ROOT, *path), encoding="utf-8") as file:
        return file.read()


class Quotes(unittest.TestCase):
    def test_blocks(self):
        """Each line of a block is a line of the file named above it, in the same order."""
        proved = text("docs", "PROVED.md")
        blocks = re.findall(r"^`(crates/[^`\n]+)`:\n```\n(.*?)^```$", proved, re.MULTILINE | re.DOTALL)
        self.assertEqual(2 * len(blocks), len(re.findall("^ *```", proved, re.MULTILINE)))
        self.assertGreaterEqual(len(blocks), 3)
        for name, block in blocks:
            lines = iter(text(name).split("\n"))
            for line in filter(None, block.split("\n")):
                self.assertIn(line, lines, name)


class SamePrograms(unittest.TestCase):
    def code(self, crate):
        return re.sub("^//.*\n", "", text("crates", crate, "src", "main.rt"), flags=re.MULTILINE)

    def test_mains(self):
        for program, again in (("planes", ("planes_longest", "planes_long", "planes_short")), ("test_planes", ("test_planes_long", "test_planes_short"))):
            for crate in again:
                self.assertEqual(self.code(program), self.code(crate), crate)
        self.assertNotEqual(self.code("planes"), self.code("test_planes"))


class Wraps(unittest.TestCase):
    def test_one_place(self):
        """No contract sees that a product or a sum wraps where its value is what is promised."""
        paths = glob.glob(os.path.join(ROOT, "crates", "*", "src", "**", "*.rt"), recursive=True)
        self.assertGreater(len(paths), 100)
        wrapping = re.compile(r"\b(?:wrapping_|overflowing_|Wrapping\b)")
        found = [os.path.relpath(path, ROOT) for path in paths for _ in wrapping.findall(text(path))]
        self.assertEqual([os.path.join("crates", "cases", "src", "numbers.rt")], found)


# what C writes for the types of parameters and results, and for names of parameters
TYPES = {"usize": "size_t", "u64": "uint64_t", "u32": "uint32_t", "u8": "uint8_t", "&[u16]": "const uint16_t *", "&mut [u16]": "uint16_t *"}
NAMES = {"a": "first_row", "n": "rows", "r": "steps", "plane_count": "count"}
PLANES = "red", "green", "blue", "mosaic"      # of which a check takes the lengths alone


class SameSignatures(unittest.TestCase):
    """The contracts go by name, and C by position."""

    def declared(self):
        """The header's functions: name, result and parameters."""
        header = re.sub(r"/\*.*?\*/", "", text("include", "rokzimp.h"), flags=re.DOTALL)
        found = re.findall(r"^(\w+) (rokzimp_\w+)\(([^)]*)\);", header, re.MULTILINE)
        return {name: (result, [re.sub(r"\s+", " ", one).strip().replace("* ", "*") for one in given.split(",")]) for result, name, given in found}

    def parameters(self, given):
        """A Rattle function's parameters as C has them: a slice is a pointer and a count."""
        for name, kind in re.findall(r"(\w+): ([^,\n]+)", given):
            if kind.startswith("&"):
                yield TYPES[kind] + name
                kind, name = "usize", name + "_count"
            elif kind == "usize" and name in PLANES:
                name += "_count"
            yield "%s %s" % (TYPES[kind], NAMES.get(name, name))

    def defined(self, crate):
        folder = os.path.join("crates", crate, "src")
        code = "".join(text(folder, name) for name in sorted(os.listdir(os.path.join(ROOT, folder))) if name.endswith(".rt"))
        code = re.sub(r"&'\w+ ", "&", code)
        found = re.findall(r"^pub (?:extern \"C\" )?fn (rokzimp_\w+)(?:<[^>]*>)?\(([^)]*)\) -> (\w+)", code, re.MULTILINE)
        return {name: (TYPES[result], list(self.parameters(given))) for name, given, result in found}

    def test_signatures(self):
        declared, crates = self.declared(), [name for name in ("capi", "capi_c") if self.has_exports(name)]
        self.assertEqual(22, len(declared))
        self.assertTrue(crates)
        for crate in crates:
            self.assertEqual(declared, self.defined(crate), crate)

    def has_exports(self, crate):
        return os.path.isdir(os.path.join(ROOT, "crates", crate)) and bool(self.defined(crate))


if __name__ == "__main__":
    unittest.main()
