"""What tests and measurements of several folders share: counted checks, the databases that they
take, metamath.exe, databases made by chance, the blocks of pages, and how classes of tests are run
side by side.

It imports neither `query` nor any test.
"""
