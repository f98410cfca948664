"""The tests of the package: over the model of the engine, or with CELLARCLIFF_LIBRARY=1 over libcellarcliff."""
import os
import sys

if not os.environ.get("CELLARCLIFF_LIBRARY"):
    os.environ["CELLARCLIFF_CTYPES"] = "1"  # the model is called by Python
    for name in [it for it in sys.modules if it.partition(".")[0] == "cellarcliff"]:
        del sys.modules[name]  # a search for tests imported it before, with the extension if that is built here
