"""Two databases side by side: what the program says of both (`differences`), where the assertions
of OLD stand (`two_texts`), which of the one is which of the other (`pairing`), and why theorems
came to rest on axioms (`changes`, `causes`).

It imports `answers`, `platform`, `texts`, `citations`, `program` and `reports`.
"""
