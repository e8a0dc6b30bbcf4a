"""Tries the edits that must fail and that the gate leaves out, those of `checks/edits`: edits.py [NAME..]. Its arguments are names of
crates, or none for all. It copies a crate, those below it and what `rt check` kept of them, puts the edits into its folder
`must-fail`, and has `rt must-fail` try them, on two processors. It ends with status 1 if one was not refused, or not tried to
an end."""

import sys

import twins


def main(names):
    named = twins.begun("edits.sh", names)
    refused, lost = 0, 0
    for crate in names or named:
        edits = twins.edits_beside(crate)
        for name, what in twins.tried(crate, edits, named) if edits else ():
            print(f"{crate}/{name}: {what}", flush=True)
            is_refused = what.startswith("refused")
            refused, lost = refused + is_refused, lost + (not is_refused)
    print(f"{refused} edits refused, {lost} not")
    return 1 if lost else 0


if __name__ == "__main__":
    sys.exit(main(sys.argv[1:]))
