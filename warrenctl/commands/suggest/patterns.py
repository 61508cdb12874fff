"""Topic patterns as sets of keys: whether one has all keys of another, and the patterns of the keys that two have in common."""

from warrenctl.routing.checker import OTHER, Pattern, words_of

# the common keys of two patterns may need many patterns; so many are tried
MOST_MEETS = 4


def includes(wide, narrow):
    """Whether each key that the pattern `narrow` matches is matched by `wide`."""
    narrow, wide = Pattern(True, narrow), Pattern(True, wide)
    letters = [*dict.fromkeys(narrow.letters() + wide.letters()), OTHER]
    start = narrow.start(), wide.start()
    seen, waiting = {start}, [start]
    while waiting:
        here = waiting.pop()
        if narrow.accepts(here[0]) and not wide.accepts(here[1]):
            return False
        for letter in letters:
            onward = narrow.step(here[0], letter), wide.step(here[1], letter)
            if onward[0] and onward not in seen:
                seen.add(onward)
                waiting.append(onward)
    return True


def _meets(one, other, known):
    """The token lists of the keys that two token lists have in common."""
    if (one, other) not in known:
        known[one, other] = found = set()
        if not one and not other:
            found.add(())
        for first, second in ((one, other), (other, one)):
            if first[:1] == ("#",):
                # it ends here, or goes on over the next token of the other
                found |= _meets(first[1:], second, known)
                if second:
                    found |= {(second[0], *rest) for rest in _meets(first, second[1:], known)}
        if one and other and "#" not in (one[0], other[0]) and (one[0] == other[0] or "*" in (one[0], other[0])):
            word = other[0] if one[0] == "*" else one[0]
            found |= {(word, *rest) for rest in _meets(one[1:], other[1:], known)}
    return known[one, other]


def meets(one, other):
    """Patterns that match the keys that both patterns match, none of them within another, the widest first; some of them if there are many."""
    found = {".".join(it) for it in _meets(tuple(words_of(one)), tuple(words_of(other)), {})}
    widest = []
    for it in sorted(found, key=lambda it: (-it.count("#"), -it.count("*"), len(it), it)):
        if len(widest) < MOST_MEETS and not any(includes(wide, it) for wide in widest):
            widest = [wide for wide in widest if not includes(it, wide)] + [it]
    return widest
