#!/usr/bin/env python3
"""Brings the repository's definitions and lemmas to snake case, after the kit's port.py: usage: python3 tools/names.py, once, at the top.

It goes by whole words, in crates/ alone, and rewrites specs/, proofs/ and the clauses of src/ (no function of src/ has such a name).
First two lemmas make way, that would have the name of a definition which is used beside them."""
import os
import re

# Files below crates/ in which a lemma makes way, and its names.
LEMMAS = {
    "in_order": ("in_order_lem", ("sheet_span/proofs", "step_row/proofs", "step_curve/proofs", "step/proofs")),
    "place_at": ("place_at_lem", ("ramp/proofs",)),
}

CAMEL = """
aMost aOf afterMoves allHold answerAt answerOn answerWith atSpeed backOf backOn backRefusals backRules bandAt betaMost betaOf
brakeOf brakeRefusals brakeRule brakeRules brakingAhead brakingPast bufferAfter ceilingOf coefficientRefusals coefficientRule
coefficientsOf countRules crossE decelerationAt delayBy divE exactP exampleTrain farthestEnd fineE forceE fourLists freightDelay
fromSpeed gainOf governingOf governingOn governingOver governingPast governingTo gradientOf gradientRefusals gradientRule groupEnd
grownTo headerBytes headerRules inMillimetres inOrder inTime inertiaOf inertiaRefusals inertiaRule inputRules isNone isSummary
lastBelow leastFrom leastOf leastOfGroup leastOver lengthAndTopRefusals lengthRefusals lengthRule lesserOf limitsOf lossOf
mostSignals mostStretches onCurve onRelease outsideOf overE ownRefusals partE passengerDelay permittedOf placeAt placeUp planOf
queryRefusals queryRules queryWith rampRefusals rampRules rampWith readRefusals refusalOf releaseOf rowAfter rowAnswer
rowBrakeRule rowDelay rowRefusals rowRules rowWith sOf serviceOf shareE sheetLength sheetOf sheetRule signalOf signalOffset
signalRules signalTable slopeAt speedAt speedMost speedRefusals squareOf stepOff stepOn stepRefusals stepRules stepWith stopOf
stopsWithin stretchAt stretchOf stretchOffset stretchRules stretchTable stretchUpTo strongEnough strongOf strongRow summaryAfter
summaryAnswer summaryOf summaryRefusals summaryRule summaryRules summedQueryRefusals tP tR tW tailOf timeRefusals timesRule
toSignal trainOf trainRefusals trainRules u16At unitE walkAt warningOf wayRefusals wayRules wayTo weakPast weakRow weightRefusals
weightRule wholeE wordLong writeOf writeRefusals zeroE
""".split()

WORD = r"(?<![\w'])(%s)(?![\w'])"
CAMELS = re.compile(WORD % "|".join(CAMEL))


def snake(name):
    return re.sub(r"([a-z0-9])([A-Z])", lambda m: m[1] + "_" + m[2].lower(), name)


def turned(place, text):
    for old, (new, places) in LEMMAS.items():
        if place.startswith(places):
            text = re.sub(WORD % old, new, text)
    return CAMELS.sub(lambda m: snake(m[1]), text)


def main():
    for folder, folders, files in os.walk("crates"):
        folders[:] = [f for f in folders if f not in ("out", "must-fail")]
        for name in files:
            path = os.path.join(folder, name)
            if name.endswith((".rt", ".antt")):
                with open(path, encoding="utf-8") as f:
                    old = f.read()
                new = turned(os.path.relpath(path, "crates"), old)
                if new != old:
                    with open(path, "w", encoding="utf-8") as f:
                        f.write(new)


if __name__ == "__main__":
    main()
