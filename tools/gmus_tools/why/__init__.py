"""Why a conflict is one: the problem's lines, and the steps of evidence that rest on them."""
