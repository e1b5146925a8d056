"""The auction hall for a class: a page for each seat, over the session calls of the library.

What the auction answers, who may ask what, and what a seat reads, is the library's. This package
carries bytes: it keeps the session's file, knows the seats by their links, and draws pages.
"""
