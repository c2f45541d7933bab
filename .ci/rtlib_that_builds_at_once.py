"""Stands for the kit's module `rtlib` in `.ci/outside`: it "builds" a library by a file with its sources' content, and
the program by copying $PROGRAM. A source `beside` is proved only while another such one is, and a source `wrong` isn't."""
import os
import shutil
import subprocess
import threading

import edits

SIDE_BY_SIDE = threading.Barrier(2)


def guarded():
    return []


def lock(crates):
    return []


def stop_on_links(folder):
    pass


def text_of(file):
    return open(file, encoding="utf-8").read() if os.path.isfile(file) else ""


class Crate:
    def __init__(self, folder, root, known):
        self.folder, self.name, self.out, names = folder, os.path.basename(folder), None, edits.read_crates()
        known[self.name] = self
        uses = [it for it in names[self.name] if it in names]
        self.deps = [known.get(it) or Crate(f"{root}/crates/{it}", root, known) for it in uses]

    def below(self):
        found = []
        for dep in self.deps:
            found += [it for it in [*dep.below(), dep] if it not in found]
        return found

    def stamp(self):
        return text_of(f"{self.folder}/src/lib.rt") + "".join(it.stamp() for it in self.deps)

    def has_kept(self):
        return False

    def is_built(self):
        return text_of(f"{self.folder}/out/built") == self.stamp()

    def build_rlib(self, flags, anew):
        source = text_of(f"{self.folder}/src/lib.rt")
        if "beside" in source:
            SIDE_BY_SIDE.wait(timeout=20)
        if "wrong" in source or not all(it.is_built() for it in self.deps):
            print(f"error: {self.name}: not proved", file=self.out)
            return 1
        os.makedirs(f"{self.folder}/out", exist_ok=True)
        with open(f"{self.folder}/out/built", "w", encoding="utf-8") as it:
            it.write(self.stamp())
        return 0

    def run(self, flags, arguments):
        if not self.is_built():
            print(f"rt: chose --jobs 2 for {self.name}", file=self.out)
            self.build_rlib(flags, anew=False)
            shutil.copy(os.environ["PROGRAM"], f"{self.folder}/out/{self.name}")
        print("rt: running the program", file=self.out)
        subprocess.run([f"{self.folder}/out/{self.name}"])
