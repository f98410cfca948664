"""Rx over a proved book of subscriptions.

    cellarcliff.rx      operators with the names and the manners of RxPY 3
    cellarcliff.live    a book by lines, over a pipe or in this process
    cellarcliff.audit   the verdict on a history, and its picture

All of it stands on the standard library and, but for a book over a pipe, on the shared library libcellarcliff.
"""
import sys

# No other file of the package is read by an older Python, so this one has to be readable by any.
if sys.version_info < (3, 8):
    raise ImportError("cellarcliff needs Python 3.8 or later, and this is Python %d.%d" % tuple(sys.version_info[:2]))
