#!/usr/bin/env python3
"""Respells this repository's own definitions and lemmas as today's Rattle does: words in snake case.

usage: python3 tools/respell.py [FOLDER]     (once, right after the kit's port.py; FOLDER is a checkout, by default this one)

The kit's port.py turns the library's names, and of ours only those that a library shares. This turns the others, by a fixed list: the names
below were read off the definitions, lemmas and bound names of specs/ and proofs/. Names of the sources, of types and modules, and names that
Rattle makes (goals, and the steps of a proof) are not in the list. Run it once: a second run would take the meaning `says_nothing` for the lemma.
"""

import os
import re
import sys

# A hump becomes an underscore.
HUMPED = """
answerText atMost bareRow bytesText callCodeword callCodewordOfWord callEncode callRow callTake carriedInto classNumber codeNumber codeText
codewordRow digitIn encodeCauses encodeRow fieldsLeft givenAs gradeAtMost gradedBit gradedClass gradedLevel gradedPlace gradedPlaces
gradedStrength hexByte hexBytes hexDigit hexPairs hexText hexWord hexWords kindBits kindText lowestUnsound magnitudeAtMost messageKind
messageText messageWords noLater notUnderstood notUnderstoodText numbersText numeralAfter oneField onesAt onesFrom orNot packedByte
packedBytes placesAs powerOf productOf readAt readFrom readingCauses readingFields receivedBits recordWord recordWords refusedText
saysNothing sendCauses signedPlace signedPlaces signedStrength slotAtMost slotCount spareFrom sumFrom summaryText takeCauses threeFields
twoFields upperDigit weakAtMost weakPlace whereSound withoutReturn wordBits wordCode wordPlaces wordText wordsFrom wordsText yesNoText
""".split()

# A dash becomes an underscore.
DASHED = """
a-is accept-take accept-test acts-accepted acts-made additive-bit additive-zero adds-more all-added all-agree all-copied all-last
all-samples apply-additive apply-zero at-space begun-some binary-laws bit-cases bit-lt bit-number bit-product-lt bit-times bits-injective
bits-number bits-zero burst-lawful by-a by-b by-logarithms byte-digit byte-read bytes-done carried-once carried-read carried-words
carriers-equal carries-payload carryless-stepped code-injective codeword-divisible codeword-systematic codeword-vanish computed-codeword
counted-from digit-below digit-odd divide-all divide-more divide-none divisible-codeword divisible-systematic each-once eight-digits
eight-from encode-is encode-line encode-no-code encoding-carries encoding-codeword encoding-only every-at found-by has-next has-old
held-element held-shift held-square held-xor in-after-out in-order-insert insert-behind insert-here insert-later inverse-basis
inverse-within kind-below laid-payload length-bits length-insert length-laid length-orbit length-payload length-ranked length-systematic
length-words logarithm-entry lower-first lowest-found lowest-is lowest-weakest map-insert more-fields no-bytes-left no-space no-stronger
no-words-left none-fits none-whole nothing-past number-alone number-bits odd-codeword odd-digit odd-digit-left odd-vanish odd-zeros one-lt
only-field out-after-in p-is packed-places padded-full padded-insert pairwise-at parity-below payload-carries payload-placed payload-spare
place-more place-powers plus-closed plus-self plus-swap plus-zero plus-zero-r power-add power-closed power-cycles power-differs power-entry
power-first power-mod power-next power-nonzero power-positive power-reaches power-repeats product-additive product-assoc product-closed
product-comm product-one product-stepped product-twice product-x quiet-some r-lt ranked-below ranked-differ ranked-has ranked-in-order
reaches-at read-bit read-carries read-lt read-room reads-back received-long refuse-code refuse-length refuse-message refuse-take
refuse-unsound remainder-double remainder-higher remainder-low remainder-lt remainder-small remainder-xor remainder-zeros restored-additive
restored-zero s-lt says-call says-codeword send-accepted send-refused slot-total slot-transitive some-field spare-below split-fields
split-solid square-plus sum-element sum-higher sum-push sum-shift sum-square sum-xor summary-line sums-one-more sums-zero-more syndrome-more
syndrome-remainder syndrome-square systematic-codeword systematic-divisible then-below three-are tie-same tie-total tie-transitive
times-assoc times-bit times-closed times-comm times-one told-inside told-value turn-same turn-total turn-transitive twice-additive
twice-below twice-nonzero twice-zero two-are value-additive value-digit value-double value-top value-twice value-zero weakest-fewer
weakest-only weakest-ranked word-reads-back words-done xor-digit xor-double xor-half xor-odd xor-swap xor-zero-same zero-codeword
zero-element zero-times
""".split()

# Names that need a word of their own: `getD` is `get_or` today, and the lemma `says_nothing` would have the name of the meaning `saysNothing`.
OTHERS = {
    "getD-laid": "get_or_laid",
    "getD-logarithms": "get_or_logarithms",
    "getD-orbit": "get_or_orbit",
    "get_d_bits": "get_or_bits",
    "get_d_words": "get_or_words",
    "says_nothing": "says_nothing_lem",
}


def respelled(name):
    return re.sub("[A-Z]", lambda m: "_" + m.group(0).lower(), name)


NEW = {n: respelled(n) for n in HUMPED} | {n: n.replace("-", "_") for n in DASHED} | OTHERS

# A whole name: letters, digits, primes, and dashes inside it.
NAME = re.compile(r"(?<![\w'-])[A-Za-z_][\w']*(?:-[\w']+)*")

# In a source a dash is a minus, so only names without one are looked for.
WORD = re.compile(r"(?<![\w'])[A-Za-z_][\w']*")

# What in a source is not to be touched.
STRING = re.compile(r'b?"(?:\\.|[^"\\])*"')


def turned(pattern, text):
    return pattern.sub(lambda m: NEW.get(m.group(0), m.group(0)), text)


def source(text):
    out, end = [], 0
    for s in STRING.finditer(text):
        out += [turned(WORD, text[end : s.start()]), s.group(0)]
        end = s.end()
    return "".join(out) + turned(WORD, text[end:])


def main(folder):
    count = 0
    for at, dirs, files in os.walk(os.path.join(folder, "crates")):
        dirs[:] = [d for d in dirs if d != "out"]
        for f in files:
            if not f.endswith((".antt", ".rt")):
                continue
            path = os.path.join(at, f)
            with open(path, encoding="utf-8", newline="") as it:
                old = it.read()
            new = source(old) if f.endswith(".rt") else turned(NAME, old)
            if new != old:
                with open(path, "w", encoding="utf-8", newline="") as it:
                    it.write(new)
                count += 1
    print(f"respell: {count} files changed")


if __name__ == "__main__":
    main(sys.argv[1] if len(sys.argv) > 1 else ".")
