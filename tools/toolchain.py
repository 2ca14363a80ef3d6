"""How to call the prover itself over what was built of this repository's libraries, for the scripts of this repository."""
import os
import subprocess

from tools.crates import TOP, libraries, static_libraries


def rlib(crate, top=TOP):
    return f"{top}/crates/{crate}/out/rlib/{crate}.rlib"


class Toolchain:
    """Where the prover and its libraries lie, which libraries each crate stands on, and in which order."""

    def __init__(self):
        page = subprocess.run(["rt", "doc"], stdout=subprocess.PIPE, text=True, check=True).stdout.split()[0]
        self.kit = os.path.dirname(page)
        self.uses, self.static = libraries(), static_libraries()

    def below(self, crate):
        """Returns this repository's crates that a crate stands on, in any number of steps."""
        found = []
        for name in self.uses.get(crate, []):
            if name in self.uses:
                found += [it for it in [*self.below(name), name] if it not in found]
        return found

    def words(self, crate, verb="check", top=TOP, proved=None, jobs=1):
        """Returns the words that check a crate, by so many processes, over what was built of the libraries below it in the repository at
        `top`, or that build it, from what a check left at `proved` if that is named."""
        root = "main" if os.path.isfile(f"{top}/crates/{crate}/src/main.rt") else "lib"
        words = [f"{self.kit}/bin/rattle", verb, "--crate-name", crate, f"src/{root}.rt", "--links", f"{crate}="]
        words += ["--crate-type", "staticlib"] if crate in self.static else []
        for name in ["std", *self.uses[crate]]:
            words += ["--extern", f"{name}={rlib(name, top) if name in self.uses else f'{self.kit}/rlibs/{name}.rlib'}"]
        for folder in [f"{self.kit}/rlibs", *(os.path.dirname(rlib(name, top)) for name in self.below(crate))]:
            words += ["-L", f"dependency={folder}"]
        words += ["--antt-project", f"{self.kit}/rattle/logic/antt-project.json"]
        return [*words, *(["--crate-checked", proved] if proved else ["--jobs", f"{jobs}", "--logic-built", f"{self.kit}/logic_built"])]
