"""Phrases that plain English has a better word for, each as a pattern, with that word."""
import re

PHRASES = {
    r"\bpass(?:es|ed)? (?:a|the|its|no|this|that|each|one|any) (?:\w+ )?limits?\b|\blimits? (?:is|are|was|that is) passed\b": "exceeds a limit",
    r"\banswers (?:a|the|with|by|exactly|what|an|no|of|none|whether|how|where)\b": "returns, finds",
    r"\bwant of memory\b|\bmemory is refused\b|\brefused? memory\b": "out of memory, the allocation fails",
    r"\btakes (?:a character|nothing|something|no character)\b": "matches, consumes",
    r"\b(?:stands|stand) (?:at|in|where|there|behind|beside)\b": "is at, is in",
    r"\bgoes by\b|\basks for\b": "depends on, needs",
    r"\bcomes to\b": "gives, ends as",
    r"\b(?:is|are) told\b|\btells\b": "is reported, reports",
    r"\blies? behind\b|\bdirectly behind\b|\bbehind (?:it|them|that|this)\b": "after",
    r"\bsuch alone that\b": "only those that",
    r"\bas many as\b|\bso often\b|\bso many\b|\bno more than\b": "at most N, N times",
    r"\bmay be handed in\b": "valid input",
    r"\bof which nothing is proved\b": "not proved",
    r"\bfalls? back\b": "backtracks",
}
COMPILED = [(re.compile(pattern, re.I), better) for pattern, better in PHRASES.items()]


def found_in(text):
    """Each phrase of a text, as it is there first, how often one of its pattern occurs, and the plainer word."""
    for pattern, better in COMPILED:
        found = pattern.findall(text)
        if found:
            yield pattern.search(text)[0], len(found), better
