"""The toolchain's script `rt` as a module, for the scripts of this folder that call the prover themselves."""
import importlib.machinery
import importlib.util
import os
import shutil
import sys


def toolchain():
    """The script `rt` as a module, for what it knows of crates, edits and the prover's words. Each crate looks only once for
    the libraries below it."""
    script = shutil.which("rt")
    if not script:
        sys.exit(f"{sys.argv[0]} needs the command rt, of Rattle's toolchain")
    loader = importlib.machinery.SourceFileLoader("rt", os.path.realpath(script))
    made = importlib.util.module_from_spec(importlib.util.spec_from_loader("rt", loader))
    loader.exec_module(made)

    class Crate(made.rtlib.Crate):
        def below(self):
            if not hasattr(self, "found"):
                self.found = super().below()
            return self.found

    made.rtlib.Crate = Crate
    return made
