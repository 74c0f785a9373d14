#!/usr/bin/env python3
"""port-names.py: after the port's own script, brings what this repository defines to snake case. Run once, at the top.

Each definition and lemma of specs/ and proofs/ that is spelled in lower camel case gets words joined by `_`; a dash between two
names stays, types and modules keep their capitals. What stands in contracts and in must-fail edits follows. The edits also follow
what the port's script respelled, which it leaves to us, by the table below; it wrote that list itself.
Prints each name that changes, and refuses to go on where two names fall together.
"""
import os, re, sys

NAME = re.compile(r"[^\s()\[\]{}.,;:=λ→×`\"|]+")
HEAD = re.compile(r"^(?:(?:abbrev|unfoldable|pub|data|record|private)\s+)*([^\s:={}()]+)\s*:(?!:)")


def snake(name):
    parts = []
    for part in name.split("-"):
        if re.match(r"[a-z]", part):
            part = re.sub(r"([a-z0-9])([A-Z])", lambda m: m.group(1) + "_" + m.group(2).lower(), part)
        parts.append(part)
    return "-".join(parts)


def files(*kinds):
    for top, folders, names in os.walk("crates"):
        folders[:] = sorted(f for f in folders if f != "out")
        for name in sorted(names):
            path = os.path.join(top, name)
            if name.endswith(kinds):
                yield path


def declared():
    names = {}
    for path in files(".antt"):
        if "/specs/" not in path and "/proofs/" not in path:
            continue
        for line in open(path, encoding="utf-8"):
            if line[:1] in (" ", "-", "\n"):
                continue
            met = HEAD.match(line)
            if met:
                names.setdefault(met.group(1), []).append(path)
    return names


# Names that would fall on another of ours: what they are called instead.
APART = {
    "plainWord": "is_plain_word",
    "storeLength": "stored_length",
    "sameBytes": "equal_bytes",
    "headAt": "heading_at",
    "markedBy": "marked_with",
    "wordFirst": "word_at_first",
    "tagFits": "fits_tag",
    "wordEnd": "end_of_word",
}

# What the port's own script respelled here, since the library has the same words: it leaves the edits as they were.
PORTED = """
add-at add-body add-spec add-total added-none alike-read alike-self all-append all-digits all-drop all-first all-none all-read 
all-room all-same all-take all-up allBelow alone-of and-first and-l and-none and-r and-second and-then apart-by apart-from 
apart-more area-same areaBytes as-long at-first at-names at-next at-once at-rest at-value atStart bare-apart bare-ends bare-spec 
before-on before-same below-all between-none block-refused block-room block-start block-token blockAt blocks-more both-at 
both-below by-byte by-end by-kind by-loop byte-of bytes-next bytes-same bytesAt bytesOf calm-of capped-is case-twin caseOf cellOf 
cells-over check-sound clear-spec close-of closed-at closed-in closed-same closes-kept column-again cond-same copy-more 
count-next count-none count-turn countOf counted-start cut-spec cut-word cutsOf digit-not digits-append digits-between 
digits-from digits-more drop-token each-append each-map earlier-more either-side end-back end-none end-whole ends-more ends-same 
endsAt enter-spec entriesAt entry-here entry-whole entryAt entryOf enum-told exponent-small fails-by field-found field-of 
field-told fieldAt fieldsOf fill-end fill-none filled-none find-spec first-by first-byte first-passes first-piece first-said 
first-step fits-by fits-last fits-line fits-on fits-or fits-read flag-small found-front found-none found-number found-within 
found-word foundAt frame-closed frame-here frame-refused frame-self frameOf free-more fresh-at from-all from-end from-first 
from-on front-of gap-from gap-other gap-within going-on has-room head-at head-of head-step headOf headerAt held-none heldAt 
high-byte in-frame in-left in-order in-parts in-right inArea inBlock inWord inside-of is-one isEmpty isNone isNumber isOver 
isPlain isTaken isValue isZero item-ok itemAt itemOf items-more kept-by kept-here kept-line kept-rule kindOf last-block last-byte 
last-digits last-found last-more last-name last-none last-step last-then last-within lastAt lastOf length-front length-spec 
lengthOf less-done lies-in lies-within lies-word line-first line-kept line-plain line-reads lineFor lineOf lines-next lines-none 
linesOf look-spec loop-ended loop-token marked-by mix-first modeOf mul-power mul-wide name-of nameOf named-ok names-at names-more 
namesAt namesOf near-of never-true new-is new-none nextOf no-block no-bytes no-digit no-end no-loop no-name no-nan no-number 
no-other no-record no-rows no-sign no-stop no-store no-value noPart none-answers none-before none-first none-here none-inside 
none-kept none-left none-more none-never none-of none-spec not-end not-first not-so nothing-left nowhere-spec nth-drop nth-here 
number-counts number-is number-read number-short number-size number-word numberAt numberOf of-end of-number of-spec ofAll on-one 
one-answer one-at-most one-block one-more one-of one-tag onward-then open-told opens-not or-assoc or-cases or-is or-l or-r 
or-right or-same or-split order-alike order-other order-same orderOf other-none out-line over-plain packedAt pairOf part-end 
part-length part-none partly-here parts-at parts-cuts parts-next parts-same parts-self partsIn partsOf pass-same pass-spec 
passed-first passed-none passed-then past-end past-first place-same placeIn placeOf placed-first plain-at plain-over plain-size 
plain-value plain-word raised-below read-back read-between read-done read-fits read-known read-number read-of read-spec readBy 
record-same rest-all rest-of rest-over room-as round-trip row-before rowOf rows-alike rows-end rows-last rows-none rows-ok 
rows-run rows-whole rowsOf run-fits run-none run-ok run-spec runs-none runs-same same-alike same-at same-back same-blocks 
same-bytes same-end same-head same-length same-names same-none same-of same-place same-size same-stop sameName saveAt says-same 
seek-hit seen-at set-before set-more shapeOf short-on shortAt shuts-after sideOf sign-at signed-part size-fits size-none 
size-same size-step sizeOf skip-step slotOf so-far some-bytes span-more span-none span-rest span-to stands-by starts-none stateOf 
stays-plain step-line step-spec stop-is store-by store-bytes store-length store-same storeOf stored-back strict-none sub-at 
sub-part sub-same sub-wide tag-fits tag-read tag-word tagAt take-min take-more take-next take-put takes-same to-last token-back 
value-after value-found value-line value-low value-none value-room value-same valueAt valued-read valuesOf walked-next want-kept 
whole-before whole-out whole-run whole-same whole-word with-first with-it word-end word-first word-fits word-next word-none 
word-number word-piece word-size word-stands wordAt wordFor writing-more written-back wrote-as wrote-none wrote-then
""".split()

WORD = re.compile(r"[A-Za-z_][\w'′₀₁₂-]*")
TEXT = re.compile(r'"(?:[^"\\]|\\.)*"')


def turned(word, edits):
    if word in APART:
        return APART[word]
    if edits and word in PORTED:
        word = word.replace("-", "_")
    if re.match(r"[a-z]", word) and re.search(r"[a-z0-9][A-Z]", word) and "_" not in word:
        # a lemma may be named after one of those that are called otherwise now
        return "-".join(APART.get(part, snake(part)) for part in word.split("-"))
    return word


def rewritten(text, edits, seen):
    out, at = [], 0

    def words(piece):
        def one(met):
            new = turned(met.group(0), edits)
            if new != met.group(0):
                seen.setdefault(met.group(0), new)
            return new

        return WORD.sub(one, piece)

    for met in TEXT.finditer(text):
        if "\n" in met.group(0):
            continue
        out.append(words(text[at : met.start()]))
        out.append(met.group(0))
        at = met.end()
    out.append(words(text[at:]))
    return "".join(out)


def main():
    names = declared()
    for old, new in sorted((n, turned(n, False)) for n in names):
        if old != new and new in names:
            sys.exit(f"{old} would fall on {new}")
    seen = {}
    for path in files(".antt", ".rt", ".edit"):
        text = open(path, encoding="utf-8").read()
        new = rewritten(text, path.endswith(".edit"), seen)
        if new != text:
            open(path, "w", encoding="utf-8").write(new)
    news = {}
    for old, new in sorted(seen.items()):
        news.setdefault(new, []).append(old)
        print(old, new)
    for new, olds in news.items():
        if len(olds) > 1:
            print("together:", olds, new, file=sys.stderr)


if __name__ == "__main__":
    main()
